// Answers a session over a pipe by CaDiCaL's library, as `satcluster session --limit L -` does but
// without a proof: to time loops over sessions beside it (tools/maxsat_times.py).
//
//     g++ -std=c++17 -O2 -o cadical_pipe tools/clients/cadical_pipe.cc -lcadical
//     satcluster-maxsat --program ./cadical_pipe F.wcnf
#include <cstdarg>
#include <cstdio>
#include <cstdlib>
#include <cstring>
#include <vector>

#include <cadical.hpp>

// By this name a library calls fscanf that was made with a C library of 2.38 or later.
extern "C" __attribute__((weak)) int __isoc23_fscanf(FILE *file, const char *form, ...)
{
    va_list rest;
    va_start(rest, form);
    int count = vfscanf(file, form, rest);
    va_end(rest);
    return count;
}

static void print(char letter, const std::vector<int> &literals)
{
    putchar(letter);
    for (int literal : literals)
        printf(" %d", literal);
    puts(" 0");
}

int main(int count, char **words)
{
    int limit = count > 3 && !strcmp(words[2], "--limit") ? atoi(words[3]) : 1000;
    CaDiCaL::Solver solver;
    solver.set("quiet", 1);
    char *line = nullptr;
    size_t room = 0;
    int greatest = 0;
    if (getline(&line, &room, stdin) < 0)
        return 1;
    while (getline(&line, &room, stdin) > 0) {
        bool asks = line[0] == 'a';
        std::vector<int> literals;
        char *at = line + asks, *end;
        for (long literal; (literal = strtol(at, &end, 10)); at = end) {
            literals.push_back(literal);
            greatest = abs(literal) > greatest ? abs(literal) : greatest;
        }
        if (!asks) {
            for (int literal : literals)
                solver.add(literal);
            solver.add(0);
            continue;
        }
        for (int literal : literals)
            solver.assume(literal);
        solver.limit("conflicts", limit);
        int status = solver.solve();
        std::vector<int> told;
        if (status == 10) {
            puts("s SATISFIABLE");
            for (int variable = 1; variable <= greatest; variable++)
                told.push_back(solver.val(variable) > 0 ? variable : -variable);
            print('v', told);
        } else if (status == 20) {
            puts("s UNSATISFIABLE");
            for (int literal : literals)
                if (solver.failed(literal))
                    told.push_back(literal);
            print('f', told);
        } else {
            puts("s UNKNOWN");
        }
        fflush(stdout);
    }
    return 0;
}
