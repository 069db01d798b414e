#!/bin/sh
# Installs into a new folder, as install.sh does, and asks what it put there; and sees that it refuses where the proved program isn't there.
# Ends with 1 where something differs.
#
#   tools/gate/installed.sh [--checked]
set -u
cd "$(dirname "$0")/../.." || exit 1
room=$(mktemp -d) || exit 1
trap 'rm -rf "$room"' EXIT

fail() {
    echo "install.sh: $1"
    exit 1
}

./install.sh "$@" "$room/there" >/dev/null || fail "it installs nothing"
found=$(cd "$room/there" && find . ! -type d | sort | tr '\n' ' ')
wanted='./bin/conary ./bin/conary-manifest ./share/bash-completion/completions/conary ./share/bash-completion/completions/conary-manifest ./share/man/man1/conary-manifest.1 ./share/man/man1/conary.1 '
[ "$found" = "$wanted" ] || fail "there is $found"
[ "$("$room/there/bin/conary" demo 1 2>/dev/null)" = 'verified 54 paths, 0 changed' ] || fail "what it installed answers otherwise"
mkdir "$room/empty"
[ "$("$room/there/bin/conary-manifest" component a:b /h@n:t/1-1-1 "$room/empty" 2>/dev/null | tail -n 1)" = end ] || fail "what it installed answers otherwise"

mkdir "$room/bare"
cp -r install.sh tools docs share "$room/bare"
! "$room/bare/install.sh" "$room/none" >/dev/null 2>&1 || fail "it installs without a program"
[ ! -e "$room/none" ] || fail "it leaves something where it refuses"
echo "installed: $wanted"
