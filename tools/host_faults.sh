#!/bin/sh
# Installs into directories of a host that fails: no room while bytes are staged, and for the copies; a mount point inside the root; a directory
# that the user may not write into; a group that the process isn't in; one directory given twice; a root and a repository in use; and
# power failures of an image of ext4. Prints what the command answers, what the next one answers, and whether the tree is
# the one before or the one after. Usage: tools/host_faults.sh [POWER_FAILURES]
# It needs root's privileges for mounts and for another user, and leaves out what doesn't work here. It is no part of the gate. It
# ends with status 1 where the tree is another one, or where a run that is to be refused isn't.
set -eu
top=$(cd "$(dirname "$0")/.." && pwd)
. "$top/tools/program.sh"
choose_program
alone=
[ "$(id -u)" -ne 0 ] || alone='unshare -m'
exec $alone sh "$top/tools/host/host_faults.sh" "$program" "${1:-20}"
