#!/usr/bin/env bash
# Fetches CBMC, MiniSat, yosys, ABC and CaDiCaL's library as Debian packages of the unstable suite, with the C library that they
# want, and makes of them programs that run on this machine.
#
#     tools/clients.sh FOLDER      makes FOLDER/cbmc, FOLDER/minisat, FOLDER/yosys, FOLDER/yosys-abc
#     SATCLUSTER_CLIENTS=FOLDER tools/solver_test.py PATH-OF-satcluster Clients
#
# With g++ it makes FOLDER/satcluster.so and FOLDER/satcluster_session.so, too: yosys takes other
# solvers as plugins; and FOLDER/cadical_session, by which tools/session_test.py has CaDiCaL prove
# sessions.
set -eu
here=$(cd "$(dirname "$0")" && pwd)
mkdir -p "${1:?FOLDER}/lists/partial" "$1/cache/archives/partial"
cd "$1"
to=$PWD
host=$(sed -n 's/^URIs: \(.*debian\)$/\1/p' /etc/apt/sources.list.d/debian.sources | head -1)
keys=/usr/share/keyrings/debian-archive-keyring.gpg
echo "deb [signed-by=$keys] $host sid main" > sid.list
apt="-o Dir::Etc::sourcelist=$to/sid.list -o Dir::Etc::sourceparts=- -o Dir::State::lists=$to/lists
    -o Dir::Cache=$to/cache"
apt-get $apt update > log 2>&1 || { cat log; exit 1; }
for package in cbmc minisat yosys yosys-abc yosys-dev libc6 libstdc++6 libgcc-s1 libffi8 \
    libbz2-1.0 libreadline8t64 libtcl8.6 libtinfo6 tzdata zlib1g libcadical-dev; do
    apt-get $apt download "$package" >> log 2>&1 || { cat log; exit 1; }
done
for package in *.deb; do dpkg-deb -x "$package" all; done
loader=$(readlink -f "$(find all -name ld-linux-x86-64.so.2 | head -1)")
libraries=$to/all/usr/lib/x86_64-linux-gnu:$to/all/usr/lib
for name in cbmc minisat yosys yosys-abc; do
    printf '#!/bin/sh\nexec %s --library-path %s --argv0 %s %s "$@"\n' \
        "$loader" "$libraries" "$to/$name" "$to/all/usr/bin/$name" > "$name"
    chmod +x "$name"
done
if command -v g++ > log; then
    g++ -std=c++20 -O1 -fPIC -shared -D_YOSYS_ -DYOSYS_ENABLE_PLUGINS \
        -I all/usr/share/yosys/include -o satcluster.so "$here/clients/yosys_solver.cc"
    ipasir=$here/../clients/ipasir
    [ -d "$ipasir" ] || ipasir=$here/../../share/doc/satcluster/clients/ipasir # installed
    gcc -O2 -fPIC -c -o ipasir.o "$ipasir/satcluster_ipasir.c"
    g++ -std=c++20 -O1 -fPIC -shared -D_YOSYS_ -DYOSYS_ENABLE_PLUGINS -I "$ipasir" \
        -I all/usr/share/yosys/include -o satcluster_session.so \
        "$here/clients/yosys_session.cc" ipasir.o
    g++ -std=c++17 -O1 -I all/usr/include -o cadical_session "$here/clients/cadical_session.cc" \
        all/usr/lib/x86_64-linux-gnu/libcadical.a
fi
./cbmc --version
./yosys -V
