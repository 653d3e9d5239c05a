// A plugin by which yosys has `satcluster-solver` decide: sat -select-solver satcluster
//
//     g++ -std=c++20 -O1 -fPIC -shared -D_YOSYS_ -DYOSYS_ENABLE_PLUGINS
//         -I $(yosys-config --datdir)/include -o satcluster.so tools/clients/yosys_solver.cc
//     yosys -m ./satcluster.so -p "..; sat -select-solver satcluster -prove ok 1"
//
// yosys 0.63 and above can run a command as its solver, but a plugin has to name that.
// SATCLUSTER_SOLVER of the environment is that command, if it is not on the path.
#include <cstdlib>

#include "kernel/yosys.h"
#include "kernel/satgen.h"
#include "libs/ezsat/ezcmdline.h"

USING_YOSYS_NAMESPACE

struct SatclusterSolver : public SatSolver {
    SatclusterSolver() : SatSolver("satcluster") {}

    ezSAT *create() override
    {
        const char *command = std::getenv("SATCLUSTER_SOLVER");
        return new ezCmdlineSAT(command ? command : "satcluster-solver");
    }
} satcluster_solver;
