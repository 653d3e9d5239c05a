/* IPASIR: the interface of incremental SAT solvers, as the SAT competitions define it.
 *
 * A literal is a variable, from 1 to INT_MAX, or its negative; 0 ends a clause. A solver is in one
 * of three states: INPUT where it begins and after `ipasir_add` and `ipasir_assume`, SAT and UNSAT
 * after a query.
 */
#ifndef IPASIR_H
#define IPASIR_H

#ifdef __cplusplus
extern "C" {
#endif

/* The name of the solver. */
const char *ipasir_signature(void);

/* A new solver, without clauses, in state INPUT. It is used until it is released. */
void *ipasir_init(void);

/* Frees a solver and all that it holds. */
void ipasir_release(void *solver);

/* Puts a literal behind the clause that is begun, or gives the clause if `lit_or_zero` is 0.
 * Clauses stay for good. */
void ipasir_add(void *solver, int lit_or_zero);

/* Assumes a literal for the next query, and for that alone. */
void ipasir_assume(void *solver, int lit);

/* Asks whether the clauses and the assumptions can be met together: 10 if they can (state SAT), 20
 * if they cannot (state UNSAT), 0 if there is no answer (state INPUT). */
int ipasir_solve(void *solver);

/* In state SAT: `lit` if it is true in the model, -lit if it is false, 0 if either will do. */
int ipasir_val(void *solver, int lit);

/* In state UNSAT: 1 if the assumption `lit` was used to find that the last query cannot be met,
 * else 0. The assumptions that were used cannot be met together with the clauses. */
int ipasir_failed(void *solver, int lit);

/* Has the solver call `terminate` with `data` from time to time in a query, which ends without an
 * answer once that returns another value than 0. NULL: never. */
void ipasir_set_terminate(void *solver, void *data, int (*terminate)(void *data));

/* Has the solver call `learn` with `data` for learnt clauses of up to `max_length` literals, which
 * end with 0. NULL: never. */
void ipasir_set_learn(void *solver, void *data, int max_length,
                      void (*learn)(void *data, int *clause));

#ifdef __cplusplus
}
#endif

#endif
