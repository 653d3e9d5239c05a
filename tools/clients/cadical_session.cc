// Sends the events of a session to CaDiCaL's library, which writes the proof of its answers.
//
//     g++ -std=c++17 -O1 -o cadical_session tools/clients/cadical_session.cc -lcadical
//     ./cadical_session EVENTS PROOF [CONFLICTS]
//
// With CONFLICTS a query that takes more has no answer. Status 3: the library is older than 2.1, and
// proves no session.
#include <cstdarg>
#include <cstdio>
#include <cstdlib>
#include <fstream>
#include <sstream>
#include <string>

#include <cadical.hpp>

// By this name a library calls fscanf that was made with a C library of 2.38 or later.
extern "C" __attribute__((weak)) int __isoc23_fscanf(FILE *file, const char *form, ...)
{
    va_list rest;
    va_start(rest, form);
    int count = vfscanf(file, form, rest);
    va_end(rest);
    return count;
}

int main(int count, char **words)
{
    if (count < 3)
        return 1;
    CaDiCaL::Solver solver;
    solver.set("quiet", 1);
    if (!solver.set("lidrup", 1) || !solver.set("binary", 0))
        return 3;
    if (!solver.trace_proof(words[2]))
        return 1;
    std::ifstream events(words[1]);
    std::string line;
    std::getline(events, line);
    while (std::getline(events, line)) {
        bool asks = line[0] == 'a';
        std::istringstream numbers(line.substr(asks ? 1 : 0));
        for (int literal; numbers >> literal;) {
            if (!asks)
                solver.add(literal);
            else if (literal)
                solver.assume(literal);
        }
        if (!asks)
            continue;
        if (count > 3)
            solver.limit("conflicts", std::atoi(words[3]));
        int status = solver.solve();
        std::printf("%d\n", status);
        std::fflush(stdout);
    }
    solver.close_proof_trace();
    return 0;
}
