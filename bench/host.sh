#!/bin/sh
# Counts the system calls, and those that wait for the disk, of each file that a job makes, replaces, takes back or verifies, and the calls of
# `q` on LISTED recorded files; and times, medians of five: one cook behind COMMITS others and behind none; and for so many packages
# of 46 files installing them in one job, updating two files of each, verifying all and taking the update back, beside `tar x` with `sync`
# and beside `dpkg --no-force-unsafe-io` of the same files, all in one run on one disk image with ext4. Last the greatest memory
# of an installation of a file of 16 MB.
# Usage: bench/host.sh [LISTED COMMITS [PACKAGES...]]
# It needs strace to count, root's privileges for the image (else it works below TMPDIR) and dpkg, and leaves out what isn't there.
# CONARY may name another program than the proved one of this copy.
set -eu
top=$(cd "$(dirname "$0")/.." && pwd)
. "$top/tools/program.sh"
choose_program
listed=${1:-20000}
commits=${2:-400}
if [ $# -ge 2 ]; then shift 2; else shift $#; fi
[ $# -gt 0 ] || set -- 20 60 200
alone=
[ "$(id -u)" -ne 0 ] || alone='unshare -m'
exec $alone python3 "$top/tools/host/bench_host.py" "$program" "$listed" "$commits" "$@"
