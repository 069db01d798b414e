# Lets the host fail under an installation, in the ways that users meet: host_faults.sh PROGRAM POWER_FAILURES (see tools/host_faults.sh).
#
# Each case tells what the command answers, what the next one answers while the fault lasts, and what comes of it once it is mended: the
# tree has to be the one before the installation or the one after. Two runs of one directory are refused, and nothing is changed.
#
# A room is a folder with the folders `root` and `repo`. Each case is a function that runs in a subshell, in the folder $at.
set -u
export LC_ALL=C
program=$1
cuts=$2
user=
work=$(mktemp -d "${TMPDIR:-/tmp}/conary-faults-XXXXXX")
at=$work/case
chmod 755 "$work"

# A signal ends the script by `exit`, so that what is set for the end is done.
exit_on_signals() {
    trap 'exit 129' HUP
    trap 'exit 130' INT
    trap 'exit 143' TERM
}
trap 'rm -rf "$work"' EXIT
exit_on_signals

# manifest NAME FILES: a package of so many files, and of links, directories and modes of all kinds.
manifest() {
    python3 -c 'import packages, sys; sys.stdout.buffer.write(packages.manifest_at(sys.argv[1], 1, int(sys.argv[2])))' "$@"
}

# try_to COMMAND...: ends the case where this doesn't work.
try_to() {
    "$@" >/dev/null 2>&1 && return
    echo "skipped: $1 doesn't work here"
    exit 1
}

# mount_at FOLDER WORDS...: until the case ends, or `umount_at FOLDER`.
mounts=
mount_at() {
    folder=$1
    shift
    mkdir -p "$folder"
    try_to mount "$@" "$folder"
    mounts="$folder $mounts"
    trap 'umount $mounts' EXIT
}

umount_at() {
    umount "$1"
    mounts=${mounts#"$1 "}
    [ -n "$mounts" ] || trap - EXIT
}

new_room() {
    rm -rf "$1"
    mkdir -p "$1/root/var/lib" "$1/root/srv/other" "$1/repo"
    echo "an administrator's own file" >"$1/root/srv/other/mine"
    ln -s other "$1/root/srv/link"
}

# on ROOM WORDS...: runs a command, by another user or under another command where $user says so.
on() {
    on=$1
    shift
    $user "$program" --disk "$on/root" "$on/repo" "$@"
}

install() {
    on "$1" install <"$work/given"
}

# told STATUS OUT ERR: the status, and the first line of the error or, where there is none, of the answer.
told() {
    said=$(cat "$3" "$2" | sed -n '/[^[:space:]]/{s/^[[:space:]]*//;p;q;}')
    echo "$1 (${said:-nothing})"
}

# answer COMMAND...: what a command answers, so told.
answer() {
    "$@" >"$at/out" 2>"$at/err"
    told $? "$at/out" "$at/err"
}

# stored ROOM: kind, mode and target of each path in a room but the journal's own names, and the SHA-1 of each file.
stored() {
    (
        cd "$1" && find . -mindepth 1 -regextype posix-extended \
            -regex '\./(root/var/lib/conarydb|repo/conaryrepo)/(gate|log|w|p)' -prune -o \
            ! -path ./root/var/lib/conarydb ! -path ./repo/conaryrepo -printf '%P %y %m %l\n' -type f -exec sha1sum {} ';'
    ) | sort
}

# agrees WANTED: whether what was found is what is wanted, and beside it only what a job or a commit that never came to be may leave.
agrees() {
    [ -z "$(comm -13 "$at/found" "$1")" ] &&
        ! comm -23 "$at/found" "$1" | grep -Evq '^([0-9a-f]{40}  \./)?(repo/conaryrepo/c[ /]|root/var/lib/conarydb/s\.)'
}

# states_of ROOM: notes what is stored in it, and what the installation leads to where nothing fails.
states_of() {
    stored "$1" >"$at/before"
    cp -a --no-preserve=ownership "$1" "$at/done"
    (user= && install "$at/done") >/dev/null 2>&1
    stored "$at/done" >"$at/after"
    rm -rf "$at/done"
}

# state_of ROOM: which of the two states stands there.
state_of() {
    stored "$1" >"$at/found"
    if agrees "$at/after"; then echo after; elif agrees "$at/before"; then echo before; else echo neither; fi
}

# changed_in ROOM: whether it isn't any more as $at/before has it.
changed_in() {
    if stored "$1" | cmp -s - "$at/before"; then echo nothing; else echo something; fi
}

# say NAME TEXT TEST...: a case, and whether the test says that it went well.
say() {
    line="$1: $2"
    shift 2
    "$@" || { line="$line WRONG" && : >"$work/wrong"; }
    echo "$line"
}

# is_well ANSWER STATE: whether the command succeeded, and one of the two trees stands.
is_well() {
    [ "${1%% *}" -eq 0 ] && [ "$2" != neither ]
}

# try_fault NAME ROOM MENDED COMMAND...: what is told where the command mends the fault.
try_fault() {
    name=$1 room=$2 mended=$3
    shift 3
    first=$(answer install "$room")
    following=$(answer on "$room" rblist)
    user=
    "$@"
    last=$(answer on "$room" rblist)
    state=$(state_of "$room")
    text="$first; the next command $following; $mended, $last, and the tree is the one $state"
    say "$name" "$text" is_well "$last" "$state"
}

# full NAME SIZE: a root on a file system of so many bytes.
full() {
    room=$at/full
    new_room "$room"
    rm -rf "$room/root"
    mount_at "$room/root" -t tmpfs -o "size=$2" tmpfs
    mkdir -p "$room/root/var/lib"
    states_of "$room"
    try_fault "$1" "$room" mended try_to mount -o remount,size=64m "$room/root"
}

mount_point() {
    room=$at/mounts
    new_room "$room"
    mkdir -p "$room/root/usr/share"
    states_of "$room"
    mount_at "$room/root/usr/share" -t tmpfs tmpfs
    try_fault 'a mount point inside the root' "$room" unmounted umount_at "$room/root/usr/share"
}

# by_other_user ROOM FOLDER: a room of another user, with this folder in it; its commands are then run by him.
by_other_user() {
    user='setpriv --reuid=65534 --regid=65534 --clear-groups'
    try_to $user true
    new_room "$1"
    mkdir -p "$1/$2"
    try_to chown -R 65534:65534 "$1"
}

another_user() {
    room=$at/user
    share=$room/root/usr/share
    by_other_user "$room" root/usr/share
    try_to chown 0:0 "$share"
    states_of "$room"
    try_fault 'a directory of another user' "$room" mended try_to chown 65534:65534 "$share"
}

# The work name gets the group of its directory, in which the process isn't, and so loses the bit for it without an error.
outside_the_group() {
    room=$at/group
    base=$room/root/var/lib/conarydb
    by_other_user "$room" root/var/lib/conarydb
    try_to chgrp 0 "$base"
    try_to chmod 2755 "$base"
    states_of "$room"
    try_fault "the bit for a group that the process isn't in" "$room" mended try_to chmod g-s "$base"
}

one_directory() {
    room=$at/one
    new_room "$room"
    stored "$room" >"$at/before"
    said=$(answer "$program" --disk "$room/root" "$room/root" install <"$work/given")
    changed=$(changed_in "$room")
    [ ! -e "$room/root/var/lib/conarydb" ] || changed=something
    is_refused() { case "$said $changed" in [56]\ *' nothing') ;; *) false ;; esac; }
    say 'one directory given twice' "$said, and $changed is changed" is_refused
}

in_use() {
    room=$at/held
    other=$at/other
    new_room "$room"
    new_room "$other"
    states_of "$room"
    manifest second 3 >"$at/second"
    mkfifo "$at/input"
    "$program" --disk "$room/root" "$room/repo" install <"$at/input" >"$at/first.out" 2>"$at/first.err" &
    held=$!
    exec 3>"$at/input"
    # It is to wait for its input.
    for _ in $(seq 3000); do
        case $(cat "/proc/$held/syscall" 2>/dev/null) in '0 0x0 '*) break ;; esac
        kill -0 "$held" 2>/dev/null || break
        sleep 0.01
    done
    stored "$room" >"$at/before"
    second=$(answer on "$room" install <"$at/second")
    rmdir "$other/repo"
    ln -s "$room/repo" "$other/repo"
    third=$(answer on "$other" cook <"$at/second")
    changed=$(changed_in "$room")
    cat "$work/given" >&3
    exec 3>&-
    wait "$held"
    first=$(told $? "$at/first.out" "$at/first.err")
    state=$(state_of "$room")
    text="the root's $second, the repository's $third, $changed is changed; the first run ends in $first, and the tree is the one $state"
    is_refused() { [ "${second%% *} ${third%% *} $changed ${first%% *} $state" = '5 6 nothing 0 after' ]; }
    say 'a root and a repository in use' "$text" is_refused
}

# Copies the image of a file system as it stands, behind an installation and behind killed ones: so a power failure leaves it.
cut_images() {
    truncate -s 64M "$at/image"
    try_to mkfs.ext4 -q -F "$at/image"
    mount_at "$at/disk" -o loop "$at/image"
    room=$at/disk/room before=0 after=0
    new_room "$room"
    try_to sync
    for number in $(seq 0 $((cuts - 1))); do
        states_of "$room"
        begun=$(date +%s%N)
        # The first one comes to its end, and each other one is killed after a random part of its time.
        [ "$number" -eq 0 ] || user="timeout -s KILL $(shuf -n 1 -i "1-$taken")e-6"
        install "$room" >/dev/null 2>&1
        status=$?
        user=
        [ "$number" -ne 0 ] || taken=$((($(date +%s%N) - begun) / 1000))
        try_to cp --sparse=always "$at/image" "$at/cut"
        mount_at "$at/mended" -o loop "$at/cut"
        said=$(answer on "$at/mended/room" rblist)
        state=$(state_of "$at/mended/room")
        umount_at "$at/mended"
        if ! is_well "$said" "$state" || { [ "$status" -eq 0 ] && [ "$state" != after ]; }; then
            say 'a power failure' "behind cut $number the next command answers $said, and the tree is the one $state" false
            return
        fi
        [ "$state" = before ] && before=$((before + 1)) || after=$((after + 1))
        new_room "$room"
        try_to sync
    done
    say 'power failures of an ext4 image, one behind an installation and others inside one' "before $before, after $after" true
}

try_case() {
    mkdir "$at"
    (exit_on_signals && "$@")
    rm -rf "$at"
}

cd "$(dirname "$0")" || exit 1
manifest fault 60 >"$work/given" || exit 1
if [ "$(id -u)" -eq 0 ]; then
    try_case full 'no room while bytes are staged' 160k
    try_case full 'no room for the copies' 400k
    try_case mount_point
    try_case another_user
    try_case outside_the_group
else
    echo "skipped but for directories in use: the rest needs root's privileges"
fi
try_case one_directory
try_case in_use
[ "$(id -u)" -ne 0 ] || try_case cut_images
[ ! -e "$work/wrong" ]
