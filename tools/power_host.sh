#!/bin/sh
# Kills commands of every kind over directories of the host, each before a call that is picked at random, and then plays
# four power failures: what was changed and not synced is by chance as before, as written, or torn. Says whether what stands is then a
# state to which a command led that had ended well, or was killed since.
#
# Each round begins with a room, all synced. One to four commands run on it one after the other; all but some are killed by SIGKILL, half
# of them among the first or the last calls. The calls of each are recorded by strace, and from them it is told of each file and each
# directory what its last fsync has kept. Then the power is cut, four times, each from where the commands have ended: in a new directory
# each name that was changed since the last fsync of its directory is, by chance, as it was kept or as it was read; and each file that was
# changed since its own last fsync is as it was kept, as it was read, or holds three bytes EE.
#
# What then stands, once a command that changes nothing has recovered both disks, must be a state that the round had: that of the last
# command that ended well, or one to which a command that was killed since then led. The files of the private directories are compared
# too. And a further commit and a further job end as the model of tools/model says.
#
# Usage: tools/power_host.sh [ROUNDS [SEED]]
# It needs strace, and is no part of the gate. CONARY may name another program than the proved one of this copy. It ends with status 1 where something is lost, where a command doesn't end as it is to,
# or where no run was cut off.
set -eu
top=$(cd "$(dirname "$0")/.." && pwd)
. "$top/tools/program.sh"
choose_program
PYTHONPATH=$top exec python3 "$top/tools/host/power_host.py" "$program" "${1:-50}" ${2+"$2"}
