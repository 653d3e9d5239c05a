/* Draws sessions and tests each answer by all assignments, over any IPASIR solver.
 *
 *     app_tests_answers [SESSIONS [SEED]]
 *
 * Three sessions go on at a time, each over up to 12 variables, which become more. A model has to
 * satisfy all clauses and assumptions; a core has to be among the assumptions, and no assignment
 * may satisfy the clauses and the core.
 */
#include "ipasir.h"

#include <stdbool.h>
#include <stdint.h>
#include <stdio.h>
#include <stdlib.h>
#include <string.h>

#define VARIABLES 12
#define ASSIGNMENTS (1 << VARIABLES)    /* bit v - 1 of one is the value of variable v */
#define AT_A_TIME 3
#define LONGEST 6

struct session {
    void *solver;
    bool satisfies[ASSIGNMENTS];    /* all clauses so far */
    int variables, rounds, greatest;
};

static uint64_t state;
static long satisfiable, unsatisfiable;

/* From 0 to below - 1, by xorshift. */
static int draw(int below)
{
    state ^= state << 13;
    state ^= state >> 7;
    state ^= state << 17;
    return (int)(state % (uint64_t)below);
}

static int draw_literals(struct session *s, int most, int *literals)
{
    int count = draw(most + 1);
    for (int i = 0; i < count; i++) {
        int variable = 1 + draw(s->variables);
        literals[i] = draw(2) ? variable : -variable;
        if (variable > s->greatest)
            s->greatest = variable;
    }
    return count;
}

static bool is_true(int literal, int assignment)
{
    return ((assignment >> (abs(literal) - 1)) & 1) == (literal > 0);
}

static bool all_true(const int *literals, int count, int assignment)
{
    for (int i = 0; i < count; i++)
        if (!is_true(literals[i], assignment))
            return false;
    return true;
}

static bool can_be_met(const struct session *s, const int *literals, int count)
{
    for (int assignment = 0; assignment < ASSIGNMENTS; assignment++)
        if (s->satisfies[assignment] && all_true(literals, count, assignment))
            return true;
    return false;
}

static void refuse(const char *why)
{
    printf("app_tests_answers: WRONG: %s\n", why);
    exit(1);
}

static void begin(struct session *s)
{
    s->solver = ipasir_init();
    for (int assignment = 0; assignment < ASSIGNMENTS; assignment++)
        s->satisfies[assignment] = true;
    s->variables = 1 + draw(VARIABLES);
    s->rounds = 1 + draw(12);
    s->greatest = 0;
}

static void give(struct session *s)
{
    int literals[LONGEST], count = draw_literals(s, draw(3) ? LONGEST : 3, literals);
    if (!count && draw(20))
        return;     /* few sessions end with the empty clause */
    for (int i = 0; i < count; i++)
        ipasir_add(s->solver, literals[i]);
    ipasir_add(s->solver, 0);
    for (int assignment = 0; assignment < ASSIGNMENTS; assignment++) {
        bool has_true = false;
        for (int i = 0; i < count; i++)
            has_true |= is_true(literals[i], assignment);
        s->satisfies[assignment] &= has_true;
    }
}

static void test_model(struct session *s, const int *assumed, int count)
{
    int assignment = 0;
    for (int variable = 1; variable <= s->greatest; variable++) {
        int value = ipasir_val(s->solver, variable);
        if (abs(value) != variable || ipasir_val(s->solver, -variable) != value)
            refuse("a variable has no value, or two");
        if (value > 0)
            assignment |= 1 << (variable - 1);
    }
    if (!s->satisfies[assignment])
        refuse("a model does not satisfy the clauses");
    if (!all_true(assumed, count, assignment))
        refuse("a model has not all assumptions");
}

static void test_core(struct session *s, const int *assumed, int count)
{
    int core[LONGEST], length = 0;
    for (int i = 0; i < count; i++)
        if (ipasir_failed(s->solver, assumed[i]))
            core[length++] = assumed[i];
    for (int variable = 1; variable <= VARIABLES; variable++)
        for (int sign = -1; sign <= 1; sign += 2) {
            bool is_assumed = false;
            for (int i = 0; i < count; i++)
                is_assumed |= assumed[i] == sign * variable;
            if (!is_assumed && ipasir_failed(s->solver, sign * variable))
                refuse("a core has what was not assumed");
        }
    if (can_be_met(s, core, length))
        refuse("a core can be met");
}

static void ask(struct session *s)
{
    int assumed[LONGEST], count = draw_literals(s, draw(2) ? 2 : LONGEST, assumed);
    for (int i = 0; i < count; i++)
        ipasir_assume(s->solver, assumed[i]);
    int answer = ipasir_solve(s->solver);
    if (answer != (can_be_met(s, assumed, count) ? 10 : 20))
        refuse("an answer");
    if (answer == 10)
        test_model(s, assumed, count);
    else
        test_core(s, assumed, count);
    satisfiable += answer == 10;
    unsatisfiable += answer == 20;
}

/* Some clauses and a query; false if that was the last one. */
static bool go_on(struct session *s)
{
    for (int i = draw(s->variables + 1); i > 0; i--)
        give(s);
    ask(s);
    if (s->variables < VARIABLES && !draw(3))
        s->variables++;
    return --s->rounds > 0;
}

int main(int argc, char **argv)
{
    static struct session sessions[AT_A_TIME];
    long left = argc > 1 ? atol(argv[1]) : 100, total = left;
    int open = 0;
    state = argc > 2 ? strtoull(argv[2], NULL, 10) | 1 : 20261129;
    while (left > 0 || open > 0) {
        while (open < AT_A_TIME && left > 0) {
            begin(&sessions[open++]);
            left--;
        }
        int at = draw(open);
        if (!go_on(&sessions[at])) {
            ipasir_release(sessions[at].solver);
            sessions[at] = sessions[--open];
        }
    }
    printf("%s: %ld sessions, %ld satisfiable and %ld unsatisfiable queries, all right\n",
           ipasir_signature(), total, satisfiable, unsatisfiable);
    return 0;
}
