#!/bin/sh
# Takes so many packages of the system's own archive, those in /var/cache/apt/archives, unpacks each into a directory, makes its manifest, cooks
# all by one batch, installs them as a group, verifies, updates them to a second revision, and takes that back. Behind each step the tree is
# compared with what was unpacked, byte for byte and mode for mode. Ends with 1 where something differs, and says so where there is no archive.
# Usage: tools/host/archive.sh [PACKAGES [SEED]]
# It needs dpkg, and root's privileges for modes that lock the owner out. CONARY and MANIFEST may name other programs than the proved ones of this copy.
set -eu
top=$(CDPATH='' cd "$(dirname "$0")/../.." && pwd)
. "$top/tools/program.sh"
archive=/var/cache/apt/archives
if ! command -v dpkg >/dev/null 2>&1 || [ -z "$(find "$archive" -name '*.deb' -print -quit 2>/dev/null)" ]; then
    echo "no packages in $archive, so none is tried"
    exit 0
fi
choose_program
conary=$program
program_crate=conary_manifest
. "$top/tools/program.sh"
CONARY=${MANIFEST:-}
choose_program
PYTHONPATH=$top exec python3 "$top/tools/host/archive.py" "$conary" "${1:-50}" "$archive" "$program" ${2:+"$2"}
