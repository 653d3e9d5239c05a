// A plugin by which yosys asks all queries of a solver in one session: sat -select-solver satcluster-session
//
//     cc -O2 -fPIC -c clients/ipasir/satcluster_ipasir.c
//     g++ -std=c++20 -O1 -fPIC -shared -D_YOSYS_ -DYOSYS_ENABLE_PLUGINS -I clients/ipasir
//         -I $(yosys-config --datdir)/include -o satcluster_session.so
//         tools/clients/yosys_session.cc satcluster_ipasir.o
//     yosys -m ./satcluster_session.so -p "..; sat -select-solver satcluster-session -tempinduct -prove ok 1"
//
// clients/ipasir/satcluster_ipasir.c tells which program is run, and where its proofs go.
#include <chrono>

#include "kernel/yosys.h"
#include "kernel/satgen.h"
#include "libs/ezsat/ezsat.h"

#include "ipasir.h"

USING_YOSYS_NAMESPACE

class Session : public ezSAT {
    using Clock = std::chrono::steady_clock;

    void *solver_ = ipasir_init();
    Clock::time_point deadline_;
    bool is_late_ = false;

    static int is_past_deadline(void *session)
    {
        auto *that = static_cast<Session *>(session);
        that->is_late_ = that->solverTimeout > 0 && Clock::now() >= that->deadline_;
        return that->is_late_;
    }

    void give_clauses()
    {
        std::vector<std::vector<int>> clauses;
        consumeCnf(clauses);
        for (auto &clause : clauses) {
            for (int literal : clause)
                ipasir_add(solver_, literal);
            ipasir_add(solver_, 0);
        }
    }

public:
    Session() = default;
    ~Session() override { ipasir_release(solver_); }
    Session(const Session &) = delete;
    Session &operator=(const Session &) = delete;

    void clear() override
    {
        ipasir_release(solver_);
        solver_ = ipasir_init();
        ezSAT::clear();
    }

    bool solver(const std::vector<int> &wanted, std::vector<bool> &values,
                const std::vector<int> &assumptions) override
    {
        preSolverCallback();
        std::vector<int> assumed, shown;
        for (int id : assumptions)
            assumed.push_back(bind(id));
        for (int id : wanted)
            shown.push_back(bind(id));
        give_clauses(); // after `bind`, which adds some
        for (int literal : assumed)
            ipasir_assume(solver_, literal);

        deadline_ = Clock::now() + std::chrono::seconds(solverTimeout);
        is_late_ = false;
        ipasir_set_terminate(solver_, this, is_past_deadline);
        int answer = ipasir_solve(solver_);
        // Most of yosys takes false for unsatisfiable: only a time limit may be told in that way.
        if (answer == 0 && !is_late_)
            log_error("satcluster has given no answer: standard error tells why.\n");
        solverTimeoutStatus = answer == 0;
        if (answer != 10)
            return false;
        values.clear();
        for (int literal : shown)
            values.push_back((ipasir_val(solver_, std::abs(literal)) > 0) == (literal > 0));
        return true;
    }
};

struct SessionSolver : public SatSolver {
    SessionSolver() : SatSolver("satcluster-session") {}

    ezSAT *create() override { return new Session; }
} session_solver;
