#!/bin/sh
# Times, medians of five, installing so many packages of 46 small files in one go, updating two files of each, verifying all, and going back;
# by conary, and in the same run on the same disk image with ext4 by dpkg, rpm, pacman, ostree and nix, those that are there,
# beside `tar x` with `sync`. Of each step all that was written is on the disk when it ends: a program that doesn't wait for it gets a `sync` behind.
# Usage: bench/peers.sh [PACKAGES [NAME...]]
# It needs root's privileges. CONARY may name another program than the proved one of this copy.
set -eu
top=$(cd "$(dirname "$0")/.." && pwd)
. "$top/tools/program.sh"
choose_program
exec unshare -m python3 "$top/tools/host/bench_peers.py" "$program" "${@:-200}"
