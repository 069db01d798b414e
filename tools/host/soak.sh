#!/bin/sh
# Makes so many commands, picked at random, over two directories of the host, with kills, full disks and edits between them, and compares each
# with the independent model of tools/model: its status, what it writes, and each node that stands behind it. A command is killed at a random
# moment, or before a call that is picked at random. Of one that was killed, or found no room, each path of the root must show a node that it
# had before or behind it, the next command must find the state before it or the one after it, and where it is made again it ends as the model
# says. Says how many of each there were, and ends with 1 at the first difference.
# Usage: tools/host/soak.sh [COMMANDS [SEED]]; tools/kill_host.sh [KILLS [SEED]] kills each, until so many were
# The directories lie on a small tmpfs where the user may mount one; else no disk gets full. Kills need strace. CONARY may name another program than the proved
# one of this copy.
set -eu
top=$(CDPATH='' cd "$(dirname "$0")/../.." && pwd)
. "$top/tools/program.sh"
choose_program
program=$(readlink -f "$program")
alone=
[ "$(id -u)" -ne 0 ] || alone='unshare -m'
cd "$top"
PYTHONPATH=$top exec $alone python3 tools/host/soak.py "${SOAK_COUNTS:-commands}" "$program" "${1:-1000}" ${2:+"$2"}
