#!/bin/sh
# Prints what the gate costs, in processor seconds from nothing: tools/gate_cost.sh [--here | CRATE]
# For one crate, or for each where none is named: its proof, its test build, its must-fail edits, and the functions and tests that
# take longest. Run it on a machine that does nothing else.
#
# It runs the gate in a copy of the repository, samples the prover's processes and prints the table; then it checks each crate once more
# by a single process, whose lines tell when each function is done, and prints the slow ones. What an earlier run of the gate kept isn't
# used for what is measured: with a name the crate gets one more comment line in the copy, without a name the gate proves all anew.
#
# With --here the gate runs in this very checkout, so that what passes is kept as by any other run. Then one run is the verdict and the
# measure: a crate that was kept from an earlier run shows no seconds, and no function is timed.
cd "$(dirname "$0")/.." || exit 1
exec python3 tools/gate/gate_cost.py "$@"
