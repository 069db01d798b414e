#!/bin/sh
# Makes an image of three packages in a new folder, and shows what comes after: an update, an edit, a refusal, a rollback, and a second
# image that is brought up by a change set. The packages are directories, as `make install DESTDIR=...` leaves them.
#
#   examples/image/make.sh           prints each command of conary and what it answers, and removes the folder
#   examples/image/make.sh FOLDER    works in this folder, which must not be there yet, and keeps it
set -eu
top=$(CDPATH='' cd "$(dirname "$(readlink -f "$0")")/../.." && pwd)
. "$top/tools/program.sh"
choose_shown
manifest_program=${MANIFEST:-$(program_crate=conary_manifest && unset CONARY && . "$top/tools/program.sh" && choose_shown && echo "$program")}
if [ $# -eq 0 ]; then
    work=$(mktemp -d)
    trap 'rm -rf "$work"' EXIT
else
    mkdir "$1"
    work=$(readlink -f "$1")
fi
label=image.example.com@ex:devel
root=$work/image
repo=$work/repo

# Calls conary on the image and the repository at hand.
conary() {
    "$program" --disk "$root" "$repo" "$@"
}

# Shows a command and what it answers, with its status where that isn't 0.
show() {
    echo "\$ conary $*"
    conary "$@" 2>&1 || echo "(status $?)"
}

# The same of a command with a file of the folder as its input: show_with FILE WORD...
show_with() {
    file=$1
    shift
    echo "\$ conary $* < $file"
    conary "$@" <"$work/$file" 2>&1 || echo "(status $?)"
}

say() {
    printf '\n%s\n' "$*"
}

# Puts standard input into the directory of a package, with a mode: put PACKAGE MODE PATH.
put() {
    mkdir -p "$(dirname "$work/packages/$1$3")"
    cat >"$work/packages/$1$3"
    chmod "$2" "$work/packages/$1$3"
}

# The manifest of a package's directory: manifest NAME REVISION [OPTION...].
manifest() {
    name=$1 revision=$2
    shift 2
    "$manifest_program" --config '/etc/*' "$@" package "$name" "/$label/$revision" "$work/packages/$name"
}

# The manifest of the group of the three packages: group REVISION BASE SERVER SITE, each a revision.
group() {
    printf 'manifest 1\ngroup group-image\nversion /%s/%s\n' "$label" "$1"
    printf 'ref base=/%s/%s\nref server=/%s/%s\nref site=/%s/%s\nend\n' "$label" "$2" "$label" "$3" "$label" "$4"
}

# A line of a batch with standard input as its input.
line() {
    cat >"$work/input"
    printf '%s <%d\n' "$1" "$(wc -c <"$work/input")"
    cat "$work/input"
    echo
}

umask 022
mkdir -p "$root/var/lib" "$repo"
printf 'wheel:x:10:\n' | put base 0644 /etc/group
printf 'nothing yet\n' | put base 0644 /usr/share/doc/base/NEWS
printf '#!/bin/sh\nexec busybox httpd -f -h /srv/www -p "$(cat /etc/server.conf)"\n' | put server 0755 /usr/bin/server
printf '8080\n' | put server 0644 /etc/server.conf
printf '<p>It works.\n' | put site 0644 /srv/www/index.html
ln -s index.html "$work/packages/site/srv/www/home.html"

say 'Three packages and a group are cooked by one batch, and the group is installed.'
{
    manifest base 1.0-1-1 | line cook
    manifest server 1.0-1-1 --requires server:runtime 'trove: base:runtime' | line cook
    manifest site 1.0-1-1 | line cook
    group 1.0-1-1 1.0-1-1 1.0-1-1 1.0-1-1 | line cook
} >"$work/first.batch"
show_with first.batch batch
show update "group-image=$label"
(cd "$root" && find . -mindepth 1 ! -path './var*' | LC_ALL=C sort)

say 'The next revision of the site and of the server, and the group with them.'
printf '<p>It works, and it is new.\n' | put site 0644 /srv/www/index.html
printf '8443\n' | put server 0644 /etc/server.conf
{
    manifest server 1.0-2-1 --requires server:runtime 'trove: base:runtime' | line cook
    manifest site 1.0-2-1 | line cook
    group 1.0-2-1 1.0-1-1 1.0-2-1 1.0-2-1 | line cook
} >"$work/second.batch"
show_with second.batch batch

say 'Somebody has edited the configuration, so the update is refused; with --keep that file stays as it is.'
printf '9000\n' >"$root/etc/server.conf"
show verify
show update "group-image=$label"
show update --keep "group-image=$label"
cat "$root/etc/server.conf" "$root/srv/www/index.html"

say 'The base cannot go, since the server requires it.'
show erase base

say 'The update is taken back, and the edit stays.'
show rblist
show rollback
cat "$root/etc/server.conf" "$root/srv/www/index.html"

say 'A second image, which has no repository, is made by a change set, which comes from the first one.'
echo "\$ conary changeset group-image=$label > image.changeset"
conary changeset "group-image=$label" >"$work/image.changeset" 2>"$work/told" || cat "$work/told"
root=$work/second
repo=$work/none
mkdir -p "$root/var/lib" "$repo"
show_with image.changeset update -
show verify
cat "$root/etc/server.conf"

say 'A second repository takes over what it lacks: it asks, the first one answers, and the streams are files.'
repo=$work/mirror
mkdir "$repo"
echo '$ conary mirror ask > requests'
conary mirror ask >"$work/requests"
repo=$work/repo
echo '$ conary serve < requests > replies'
conary serve <"$work/requests" >"$work/replies"
repo=$work/mirror
show_with replies mirror take
show rq group-image
