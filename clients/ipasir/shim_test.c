/* What the shim does beyond answers: callbacks, programs that are missing or die, wrong calls. */
#define _POSIX_C_SOURCE 200809L

#include "ipasir.h"

#include <stdbool.h>
#include <stdio.h>
#include <stdlib.h>
#include <string.h>

#define QUERIES 10000
#define LARGE 1500000       /* a variable above the limit that the program has without --large */

static int failures;

static void test(bool holds, const char *what)
{
    if (!holds) {
        printf("shim_test: FAILED: %s\n", what);
        failures++;
    }
}

static void add(void *solver, const int *literals)
{
    do
        ipasir_add(solver, *literals);
    while (*literals++);
}

/* One pigeon more than there are holes; none sits where `free` is true. */
static void add_pigeons(void *solver, int holes, int free)
{
    for (int pigeon = 0; pigeon <= holes; pigeon++) {
        for (int hole = 1; hole <= holes; hole++)
            ipasir_add(solver, pigeon * holes + hole);
        add(solver, (int[]){ free, 0 });
        for (int other = 0; other < pigeon; other++)
            for (int hole = 1; hole <= holes; hole++)
                add(solver, (int[]){ -(pigeon * holes + hole), -(other * holes + hole), 0 });
    }
}

static int counts_down(void *data)
{
    return --*(int *)data <= 0;
}

static void never(void *data, int *clause)
{
    (void)clause;
    *(int *)data += 1;
}

/* The callback ends a query that is too hard; what is asked next is answered. */
static void test_terminate(void)
{
    void *solver = ipasir_init();
    int calls = 3, learnt = 0, free = 11 * 10 + 1;
    ipasir_set_terminate(solver, &calls, counts_down);
    ipasir_set_learn(solver, &learnt, 100, never);
    add_pigeons(solver, 10, free);
    ipasir_assume(solver, -free);
    test(ipasir_solve(solver) == 0, "a query is ended by the callback");
    test(calls == 0, "the callback is called until it says so");
    test(ipasir_val(solver, 1) == 0 && !ipasir_failed(solver, -free), "an end is no answer");
    calls = 1000;
    test(ipasir_solve(solver) == 10, "the assumption went with its query");
    test(ipasir_val(solver, free) == free, "the model");
    test(learnt == 0, "no clause is told");
    ipasir_release(solver);
}

/* Longer than one step of the program, and no callback, or one that never ends it. */
static void test_long_query(void)
{
    void *solver = ipasir_init();
    int calls = 1000000, free = 8 * 7 + 1;
    add_pigeons(solver, 7, free);
    ipasir_assume(solver, -free);
    test(ipasir_solve(solver) == 20, "a query of many steps");
    test(ipasir_failed(solver, -free) == 1, "its core");
    ipasir_set_terminate(solver, &calls, counts_down);
    ipasir_assume(solver, -free);
    test(ipasir_solve(solver) == 20, "the same with a callback");
    ipasir_release(solver);
}

static void test_edges(void)
{
    void *solver = ipasir_init();
    test(ipasir_solve(solver) == 10, "no clause");
    add(solver, (int[]){ 1, -1, 0 });
    add(solver, (int[]){ 2, 2, 0 });
    ipasir_assume(solver, 1000000);
    test(ipasir_solve(solver) == 10, "the greatest variable");
    test(ipasir_val(solver, 1000000) == 1000000, "its value");
    test(ipasir_val(solver, 2) == 2 && ipasir_val(solver, -2) == 2, "both literals of one value");
    ipasir_assume(solver, 3);
    ipasir_assume(solver, -3);
    ipasir_assume(solver, -3);
    test(ipasir_solve(solver) == 20, "a pair");
    test(ipasir_failed(solver, 3) && ipasir_failed(solver, -3), "its core");
    test(!ipasir_failed(solver, 2) && !ipasir_failed(solver, 2000000), "and nothing else");
    ipasir_add(solver, 0);
    test(ipasir_solve(solver) == 20, "the empty clause");
    test(!ipasir_failed(solver, 3), "an empty core");
    ipasir_release(solver);
}

/* A variable as large formulas have it: in a model, in a core, and beside small ones. */
static void test_large(void)
{
    void *solver = ipasir_init();
    add(solver, (int[]){ -1, LARGE, 0 });
    ipasir_assume(solver, 1);
    test(ipasir_solve(solver) == 10, "a large variable");
    test(ipasir_val(solver, LARGE) == LARGE && ipasir_val(solver, 1) == 1, "its value");
    ipasir_assume(solver, 1);
    ipasir_assume(solver, 2);
    ipasir_assume(solver, -LARGE);
    test(ipasir_solve(solver) == 20, "its negation");
    test(ipasir_failed(solver, -LARGE) && !ipasir_failed(solver, 2), "the core of that");
    ipasir_release(solver);
}

static void test_many_queries(void)
{
    void *solver = ipasir_init();
    bool is_right = true;
    add(solver, (int[]){ 1, 2, 0 });
    add(solver, (int[]){ -1, 2, 0 });
    for (int i = 0; i < QUERIES; i++) {
        ipasir_assume(solver, i % 2 ? 1 : -2);
        is_right &= ipasir_solve(solver) == (i % 2 ? 10 : 20);
    }
    test(is_right, "many queries");
    ipasir_release(solver);
}

/* Each of these ends the program, or keeps it from starting: that is no answer, and no crash. */
static void test_no_answer(void)
{
    char *kept = strdup(getenv("SATCLUSTER"));
    static const char *const programs[] = { "echo", "/nonexistent/satcluster", "true", "false" };
    for (size_t i = 0; i < sizeof programs / sizeof *programs; i++) {
        setenv("SATCLUSTER", programs[i], 1);
        void *solver = ipasir_init();
        for (int j = 0; j < 100000; j++)
            add(solver, (int[]){ 1, 2, 3, 0 });
        test(ipasir_solve(solver) == 0 && ipasir_solve(solver) == 0, programs[i]);
        ipasir_release(solver);
    }
    setenv("SATCLUSTER", kept, 1);
    free(kept);
    void *beyond = ipasir_init(), *open = ipasir_init();
    add(beyond, (int[]){ 100000000, 0 });
    test(ipasir_solve(beyond) == 0, "a variable beyond the limit");
    ipasir_release(beyond);
    ipasir_add(open, 1);
    test(ipasir_solve(open) == 0, "a query within a clause");
    ipasir_release(open);
}

/* A query that takes longer than anybody waits, for a test that kills the program. */
static int ask_what_is_hard(void)
{
    void *solver = ipasir_init();
    int free = 12 * 11 + 1;
    add_pigeons(solver, 11, free);
    ipasir_assume(solver, -free);
    printf("%d\n", ipasir_solve(solver));
    ipasir_release(solver);
    return 0;
}

int main(int argc, char **argv)
{
    if (argc > 1 && !strcmp(argv[1], "hard"))
        return ask_what_is_hard();
    test_terminate();
    test_long_query();
    test_edges();
    test_large();
    test_many_queries();
    unsetenv("SATCLUSTER_EVENTS");      /* what follows has sessions that are cut */
    unsetenv("SATCLUSTER_PROOF");
    fprintf(stderr, "shim_test: six messages follow, of six solvers that give no answer\n");
    test_no_answer();
    printf("shim_test: %s\n", failures ? "FAILED" : "all right");
    return failures != 0;
}
