#!/bin/sh
# Kills commands of every kind over directories of the host, at random moments and before calls that are picked at random, until so many were
# killed, and compares what each left with the independent model, as tools/host/soak.sh does.
# Usage: tools/kill_host.sh [KILLS [SEED]]
# CONARY may name another program than the proved one of this copy.
SOAK_COUNTS=killed exec "$(dirname "$0")/host/soak.sh" "${1:-200}" ${2+"$2"}
