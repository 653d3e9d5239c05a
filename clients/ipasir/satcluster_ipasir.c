/* IPASIR over sessions of the proved program `satcluster`.
 *
 * A solver is a process, `satcluster session --large --limit 1000 - [PROOF]`, at the other end of a
 * socket: clauses and queries go in as lines, and answers come out. Nothing is decided here. If the
 * program cannot be started, dies, or prints what is no answer, the reason goes to standard error,
 * once, and the solver answers 0 to each query from then on.
 *
 * SATCLUSTER of the environment names the program; else it is `satcluster` on PATH.
 * SATCLUSTER_EVENTS and SATCLUSTER_PROOF are fronts of names, and name folders if they end with /:
 * solver N of process P writes what it sends to the former with "P-N.icnf" behind it, and has the
 * program write the proof of all answers to the latter with "P-N.lidrup" behind it.
 * `satcluster check --session --large` checks both.
 *
 * One thread at a time may use a solver; several threads may use several solvers.
 */
#define _GNU_SOURCE

#include "ipasir.h"

#include <errno.h>
#include <fcntl.h>
#include <limits.h>
#include <spawn.h>
#include <stdatomic.h>
#include <stdbool.h>
#include <stdio.h>
#include <stdlib.h>
#include <string.h>
#include <sys/socket.h>
#include <sys/wait.h>
#include <unistd.h>

/* After so many lemmas the program answers `s UNKNOWN`, the callback is looked at, and the program
 * is asked again. It has kept the lemmas. */
#define LIMIT "1000"

#define ROOM 65536      /* of what is sent, and of what is read */
#define LINE 128        /* bytes of a line of an answer, which has 78 at most */
#define PATH_ROOM 4096
#define NUMBER 12       /* bytes of an int, with a space behind it */

extern char **environ;

struct literals {
    int *items;
    size_t count, room;
};

struct solver {
    int link;           /* the socket; -1 without a program */
    pid_t program;
    int events;         /* the file; -1 without one */
    char *out, *in;     /* what waits to be sent, and what was read */
    size_t out_count, in_begin, in_end;
    char line[LINE];    /* the last line that was read, without its LF */
    bool in_clause, is_dead;
    struct literals assumed, given;     /* of the query; and of the answer, with 0 in the end */
    int state;          /* what `ipasir_solve` returned; 0 before */
    signed char *values;    /* by variable: 1 or -1 of a model; 1 for v, 2 for -v of a core */
    size_t variables;   /* `values` has one place more */
    void *data;
    int (*terminate)(void *data);
};

static atomic_uint solvers;

/* ---- a solver that answers no more */

static void fail(struct solver *s, const char *what, const char *more)
{
    if (s->is_dead)
        return;
    s->is_dead = true;
    fprintf(stderr, "satcluster_ipasir: %s%s%s\n", what, *more ? ": " : "", more);
}

static void close_all(struct solver *s)
{
    if (s->link >= 0)
        close(s->link);
    if (s->events >= 0)
        close(s->events);
    s->link = s->events = -1;
}

/* Waits for the program, and tells how it has ended and what it has printed last. */
static void fail_by_death(struct solver *s)
{
    char how[LINE + 80];
    int status = 0;
    const char *last = s->line[0] ? s->line : "nothing";
    if (s->is_dead)
        return;
    close_all(s);
    while (waitpid(s->program, &status, 0) < 0 && errno == EINTR)
        ;
    s->program = 0;
    if (WIFSIGNALED(status))
        snprintf(how, sizeof how, "signal %d; the last line was: %s", WTERMSIG(status), last);
    else
        snprintf(how, sizeof how, "status %d; the last line was: %s", WEXITSTATUS(status), last);
    fail(s, "the program has ended", how);
}

/* ---- the program */

static bool path_of(const char *variable, const char *ending, unsigned number, char *path)
{
    const char *front = getenv(variable);
    int size = 0;
    path[0] = '\0';
    if (front && *front)
        size = snprintf(path, PATH_ROOM, "%s%ld-%u%s", front, (long)getpid(), number, ending);
    return size >= 0 && size < PATH_ROOM;
}

static bool open_events(struct solver *s, const char *path)
{
    if (*path)
        s->events = open(path, O_WRONLY | O_CREAT | O_TRUNC | O_CLOEXEC, 0666);
    return !*path || s->events >= 0;
}

static void start(struct solver *s, const char *proof)
{
    const char *named = getenv("SATCLUSTER");
    const char *program = named && *named ? named : "satcluster";
    char *words[] = { (char *)program, "session", "--large", "--limit", LIMIT, "-",
                      *proof ? (char *)proof : NULL, NULL };
    posix_spawn_file_actions_t actions;
    int ends[2], error;
    if (socketpair(AF_UNIX, SOCK_STREAM | SOCK_CLOEXEC, 0, ends)) {
        fail(s, "no socket", strerror(errno));
        return;
    }
    error = posix_spawn_file_actions_init(&actions);
    if (!error) {
        error = posix_spawn_file_actions_adddup2(&actions, ends[1], STDIN_FILENO);
        if (!error)
            error = posix_spawn_file_actions_adddup2(&actions, ends[1], STDOUT_FILENO);
        if (!error)
            error = posix_spawnp(&s->program, program, &actions, NULL, words, environ);
        posix_spawn_file_actions_destroy(&actions);
    }
    close(ends[1]);
    s->link = ends[0];
    if (error) {
        s->program = 0;
        fail(s, "SATCLUSTER names no program that can be run", strerror(error));
    }
}

/* Sends what waits; first to the file of the events, so that it has all that the program has. A
 * program that is gone is no SIGPIPE here, since it is at the end of a socket. */
static void send_all(struct solver *s)
{
    for (size_t at = 0; s->events >= 0 && at < s->out_count;) {
        ssize_t done = write(s->events, s->out + at, s->out_count - at);
        if (done >= 0)
            at += (size_t)done;
        else if (errno != EINTR)
            fail(s, "the events cannot be written", strerror(errno));
        if (s->is_dead)
            return;
    }
    for (size_t at = 0; !s->is_dead && at < s->out_count;) {
        ssize_t done = send(s->link, s->out + at, s->out_count - at, MSG_NOSIGNAL);
        if (done >= 0)
            at += (size_t)done;
        else if (errno != EINTR)
            break; /* it has printed why: `read_byte` comes to that */
    }
    s->out_count = 0;
}

static void put(struct solver *s, const char *bytes, size_t count)
{
    if (s->out_count + count > ROOM)
        send_all(s);
    if (s->is_dead)
        return;
    memcpy(s->out + s->out_count, bytes, count);
    s->out_count += count;
}

/* A number and a space. By hand, since `snprintf` would take most of the time of a formula. */
static void put_number(struct solver *s, int number)
{
    char digits[NUMBER];
    unsigned left = number < 0 ? -(unsigned)number : (unsigned)number;
    size_t at = NUMBER;
    digits[--at] = ' ';
    do {
        digits[--at] = (char)('0' + left % 10);
        left /= 10;
    } while (left);
    if (number < 0)
        digits[--at] = '-';
    put(s, digits + at, NUMBER - at);
}

static int read_byte(struct solver *s)
{
    while (s->in_begin == s->in_end) {
        ssize_t done = read(s->link, s->in, ROOM);
        if (done < 0 && errno == EINTR)
            continue;
        if (done <= 0)
            return EOF;
        s->in_begin = 0;
        s->in_end = (size_t)done;
    }
    return (unsigned char)s->in[s->in_begin++];
}

static bool read_line(struct solver *s)
{
    char line[LINE];
    for (size_t at = 0; at < LINE; at++) {
        int byte = read_byte(s);
        if (byte == EOF)
            return false;
        line[at] = byte == '\n' ? '\0' : (char)byte;
        if (byte == '\n') {
            memcpy(s->line, line, at + 1);
            return true;
        }
    }
    return false;
}

/* ---- answers */

static bool push(struct literals *list, int literal)
{
    if (list->count == list->room) {
        size_t room = 2 * list->room + 64;
        int *items = realloc(list->items, room * sizeof *items);
        if (!items)
            return false;
        list->items = items;
        list->room = room;
    }
    list->items[list->count++] = literal;
    return true;
}

/* The literals of lines that begin with this letter, up to 0. */
static bool read_literals(struct solver *s, char letter)
{
    s->given.count = 0;
    for (;;) {
        char *at, *end;
        if (!read_line(s) || s->line[0] != letter || s->line[1] != ' ')
            return false;
        for (at = s->line + 1; *at; at = end) {
            long literal = strtol(at, &end, 10);
            if (end == at || literal > INT_MAX || literal < -INT_MAX)
                return false;
            if (!push(&s->given, (int)literal)) {
                fail(s, "no memory", "");
                return false;
            }
            if (!literal)
                return *end == '\0';
        }
    }
}

static size_t variable_of(int literal)
{
    return literal < 0 ? (size_t)-(long)literal : (size_t)literal;
}

/* Has a place for each variable of the answer, and notes what it says. */
static bool note(struct solver *s, bool is_model)
{
    size_t most = s->variables;
    for (size_t at = 0; at < s->given.count; at++)
        if (variable_of(s->given.items[at]) > most)
            most = variable_of(s->given.items[at]);
    if (most > s->variables || !s->values) {
        size_t room = 2 * most + 64;
        signed char *values = realloc(s->values, room + 1);
        if (!values)
            return false;
        s->values = values;
        s->variables = room;
    }
    memset(s->values, 0, s->variables + 1);
    for (size_t at = 0; at < s->given.count; at++) {
        int literal = s->given.items[at];
        signed char *value = &s->values[variable_of(literal)];
        if (is_model)
            *value = literal > 0 ? 1 : -1;
        else
            *value = (signed char)(*value | (literal > 0 ? 1 : 2));
    }
    return true;
}

/* Reads one answer: 10, 20, or 0 for `s UNKNOWN` and where there is none. */
static int read_answer(struct solver *s)
{
    int state = 0;
    bool is_right = read_line(s);
    if (is_right && !strcmp(s->line, "s UNKNOWN"))
        return 0;
    if (is_right && !strcmp(s->line, "s SATISFIABLE"))
        state = 10;
    if (is_right && !strcmp(s->line, "s UNSATISFIABLE"))
        state = 20;
    if (!state || !read_literals(s, state == 10 ? 'v' : 'f')) {
        fail_by_death(s);
        return 0;
    }
    if (!note(s, state == 10)) {
        fail(s, "no memory", "");
        return 0;
    }
    return state;
}

static void ask(struct solver *s)
{
    put(s, "a ", 2);
    for (size_t at = 0; at < s->assumed.count; at++)
        put_number(s, s->assumed.items[at]);
    put(s, "0\n", 2);
    send_all(s);
}

/* ---- the interface */

const char *ipasir_signature(void)
{
    return "satcluster-session";
}

/* NULL if there is no memory for the solver itself. A program that cannot be started is told at
 * once, and `ipasir_solve` answers 0. */
void *ipasir_init(void)
{
    char events[PATH_ROOM], proof[PATH_ROOM];
    unsigned number = atomic_fetch_add(&solvers, 1) + 1;
    struct solver *s = calloc(1, sizeof *s);
    if (!s)
        return NULL;
    s->link = s->events = -1;
    s->out = malloc(ROOM);
    s->in = malloc(ROOM);
    if (!s->out || !s->in)
        fail(s, "no memory", "");
    else if (!path_of("SATCLUSTER_EVENTS", ".icnf", number, events)
             || !path_of("SATCLUSTER_PROOF", ".lidrup", number, proof))
        fail(s, "a name is too long", "SATCLUSTER_EVENTS or SATCLUSTER_PROOF");
    else if (!open_events(s, events))
        fail(s, events, strerror(errno));
    else
        start(s, proof);
    put(s, "p inccnf\n", 9);
    return s;
}

/* The program gets what is left, so that its proof has all events, and is waited for. */
void ipasir_release(void *solver)
{
    struct solver *s = solver;
    if (!s->is_dead)
        send_all(s);
    close_all(s);
    if (s->program)
        while (waitpid(s->program, NULL, 0) < 0 && errno == EINTR)
            ;
    free(s->out);
    free(s->in);
    free(s->assumed.items);
    free(s->given.items);
    free(s->values);
    free(s);
}

void ipasir_add(void *solver, int lit_or_zero)
{
    struct solver *s = solver;
    s->in_clause = lit_or_zero != 0;
    if (lit_or_zero)
        put_number(s, lit_or_zero);
    else
        put(s, "0\n", 2);
}

void ipasir_assume(void *solver, int lit)
{
    struct solver *s = solver;
    if (!push(&s->assumed, lit))
        fail(s, "no memory", "");
}

/* Queries that take longer are asked in steps, between which the callback is looked at. */
int ipasir_solve(void *solver)
{
    struct solver *s = solver;
    s->state = 0;
    if (s->in_clause)
        fail(s, "a query within a clause", "");
    while (!s->is_dead) {
        ask(s);
        if (!s->is_dead)
            s->state = read_answer(s);
        if (s->state || s->is_dead || (s->terminate && s->terminate(s->data)))
            break;
    }
    s->assumed.count = 0;
    return s->state;
}

/* Of the last query, also if clauses came since then. 0 for a variable that no line had by then. */
int ipasir_val(void *solver, int lit)
{
    struct solver *s = solver;
    int value = 0;
    if (s->state == 10 && variable_of(lit) <= s->variables)
        value = s->values[variable_of(lit)];
    return lit > 0 ? value * lit : value * -lit;
}

int ipasir_failed(void *solver, int lit)
{
    struct solver *s = solver;
    if (s->state != 20 || variable_of(lit) > s->variables)
        return 0;
    return (s->values[variable_of(lit)] & (lit > 0 ? 1 : 2)) != 0;
}

void ipasir_set_terminate(void *solver, void *data, int (*terminate)(void *data))
{
    struct solver *s = solver;
    s->data = data;
    s->terminate = terminate;
}

/* Never calls: the program tells no lemmas but in its proof, where all of them stand. */
void ipasir_set_learn(void *solver, void *data, int max_length,
                      void (*learn)(void *data, int *clause))
{
    (void)solver;
    (void)data;
    (void)max_length;
    (void)learn;
}
