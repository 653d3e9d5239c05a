/* A bounded model checker of two counters, over any IPASIR solver.
 *
 *     bounded_check [STEPS]
 *
 * A binary counter and a Gray counter, which changes one bit a step, count when their input is 1.
 * They have to show the same number. Both are unrolled step by step: the clauses of a step are
 * added, and that the two differ is assumed. First come the counters as they should be, for 20
 * steps if STEPS is left out; then a Gray counter that does not come round from its last number to
 * its first.
 */
#include "ipasir.h"

#include <stdbool.h>
#include <stdio.h>
#include <stdlib.h>

#define BITS 4

struct counters {
    void *solver;
    int variables;
    bool is_faulty;
    int binary[BITS], gray[BITS];   /* of the last step */
};

static void add(struct counters *c, int one, int other, int third)
{
    if (one)
        ipasir_add(c->solver, one);
    if (other)
        ipasir_add(c->solver, other);
    if (third)
        ipasir_add(c->solver, third);
    ipasir_add(c->solver, 0);
}

static int and_of(struct counters *c, int one, int other)
{
    int gate = ++c->variables;
    add(c, -gate, one, 0);
    add(c, -gate, other, 0);
    add(c, gate, -one, -other);
    return gate;
}

static int or_of(struct counters *c, int one, int other)
{
    return -and_of(c, -one, -other);
}

static int xor_of(struct counters *c, int one, int other)
{
    int gate = ++c->variables;
    add(c, -gate, one, other);
    add(c, -gate, -one, -other);
    add(c, gate, -one, other);
    add(c, gate, one, -other);
    return gate;
}

static void start(struct counters *c)
{
    for (int i = 0; i < BITS; i++) {
        c->binary[i] = ++c->variables;
        c->gray[i] = ++c->variables;
        add(c, -c->binary[i], 0, 0);
        add(c, -c->gray[i], 0, 0);
    }
}

static void count_in_binary(struct counters *c, int input)
{
    int carry = input;
    for (int i = 0; i < BITS; i++) {
        int bit = c->binary[i];
        c->binary[i] = xor_of(c, bit, carry);
        carry = and_of(c, bit, carry);
    }
}

/* If an even number of bits is 1 the last bit changes, else the one before the last 1; if that is
 * the first bit, itself. */
static void count_in_gray(struct counters *c, int input)
{
    int is_odd = c->gray[0], old[BITS];
    for (int i = 1; i < BITS; i++)
        is_odd = xor_of(c, is_odd, c->gray[i]);
    for (int i = 0; i < BITS; i++)
        old[i] = c->gray[i];
    c->gray[0] = xor_of(c, old[0], and_of(c, input, -is_odd));
    int moves = and_of(c, input, is_odd);   /* and all bits below the one that is looked at are 0 */
    for (int i = 1; i < BITS; i++) {
        int changes = and_of(c, moves, old[i - 1]);
        moves = and_of(c, moves, -old[i - 1]);
        if (i == BITS - 1 && !c->is_faulty)
            changes = or_of(c, changes, moves);
        c->gray[i] = xor_of(c, old[i], changes);
    }
}

static int differ(struct counters *c)
{
    int any = xor_of(c, c->gray[BITS - 1], c->binary[BITS - 1]);
    for (int i = 0; i < BITS - 1; i++) {
        int wanted = xor_of(c, c->binary[i], c->binary[i + 1]);
        any = or_of(c, any, xor_of(c, c->gray[i], wanted));
    }
    return any;
}

/* In how many steps they can differ; -1 if not in so many, -2 without an answer. */
static int first_difference(bool is_faulty, int steps)
{
    struct counters c = { .solver = ipasir_init(), .is_faulty = is_faulty };
    int found = -1;
    start(&c);
    for (int step = 0; step <= steps && found == -1; step++) {
        int bad = differ(&c);
        ipasir_assume(c.solver, bad);
        int answer = ipasir_solve(c.solver);
        if (answer == 10)
            found = step;
        else if (answer != 20)
            found = -2;
        add(&c, -bad, 0, 0);
        int input = ++c.variables;
        count_in_binary(&c, input);
        count_in_gray(&c, input);
    }
    ipasir_release(c.solver);
    return found;
}

int main(int argc, char **argv)
{
    int steps = argc > 1 ? atoi(argv[1]) : 20;
    int status = 0;
    for (int is_faulty = 0; is_faulty <= 1; is_faulty++) {
        int found = first_difference(is_faulty, steps);
        printf("%s: %s, ", ipasir_signature(), is_faulty ? "with a fault" : "as they should be");
        if (found >= 0)
            printf("the counters differ after %d steps\n", found);
        else
            printf(found == -1 ? "they agree for %d steps\n" : "no answer\n", steps);
        if (found != (is_faulty && steps >= 1 << BITS ? 1 << BITS : -1))
            status = 1;
    }
    return status;
}
