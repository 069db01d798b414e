#!/bin/sh
# The peak of memory, and the time, of `q` beside a repository of so many recorded files, and of a fourth and a half as many, in commits of 5
# troves with 50 files each, and of `verify` of a root with a fourth as many files of 100 bytes; over directories of the host. It ends with
# status 1 where `q` takes more than 60 MB, or `verify` more than 120 MB.
# Usage: bench/memory.sh [FILES]
# CONARY may name another program than the proved one of this copy.
set -eu
. "$(dirname "$0")/lib.sh"
. "$top/tools/program.sh"
choose_program
exec python3 - "$program" "$work" "$top" "${1:-400000}" "$measuring" <<'END'
import os, subprocess, sys
from pathlib import Path

program, work, top, most, measuring = sys.argv[1], Path(sys.argv[2]), sys.argv[3], int(sys.argv[4]), sys.argv[5]
sys.path.insert(0, top)
from tools.model.repository import commit_bytes, commit_path
from tools.model.streams import ROOT, Id, Trove, regular

late = False


def room(name):
    os.makedirs(work / name / "root/var/lib")
    os.makedirs(work / name / "repo/conaryrepo")
    return work / name


def run(at, words, given=b""):
    """How long a command takes, in milliseconds, and its peak of memory, in bytes."""
    (at / "in").write_bytes(given)
    command = [sys.executable, "-c", measuring, program, "--disk", at / "root", at / "repo", *words.split()]
    with open(at / "in", "rb") as source, open(at / "out", "wb") as out:
        done = subprocess.run(command, stdin=source, stdout=out, stderr=subprocess.PIPE)
    if done.returncode:
        sys.exit(f"{words}: {done.stderr.decode()}")
    return map(int, done.stderr.split())


def tell(what, size, limit, spent, peak):
    global late
    late = late or peak > limit * 1_000_000
    print(f"{what} | {size} recorded files | {spent} ms")
    print(f"peak memory of that, {what} | {size} recorded files | {peak / 1_000_000:.1f} MB | {limit} MB")


def commit(number):
    troves = []
    for at in range(5 * number, 5 * number + 5):
        files = [(b"/usr/share/name/%05d/%02d" % (at, file), regular(0o644, 0, 100, at.to_bytes(16, "big") + file.to_bytes(4, "big"), ROOT)) for file in range(50)]
        troves.append(Trove(Id(b"name%d:runtime" % at, b"/conary.example.com@ex:devel/1.0-1-1", b"ssl"), files, [], [], []))
    return commit_bytes(troves)


def manifest(number):
    files = b"".join(b"file 0644 100 /d%03d/f%03d\n%100d\n" % (number, file, 1000 * number + file) for file in range(1000))
    return b"manifest 1\ncomponent d%d:data\nversion /bench.example.com@ex:devel/1.0-1-1\ndir 0755 /d%03d\n%send\n" % (number, number, files)


done, at = 0, room("q")
for files in (most // 4, most // 2, most):
    while done < files // 250:
        (at / "repo").joinpath(commit_path(done + 1).decode()[1:]).write_bytes(commit(done))
        done += 1
    tell("q beside a repository", files, 60, *run(at, "q"))
done, at = 0, room("verify")
for files in (most // 16, most // 8, most // 4):
    lines = [manifest(number) for number in range(done, files // 1000)]
    done = files // 1000
    run(at, "batch", b"".join(b"install <%d\n%s\n" % (len(line), line) for line in lines))
    tell("verify", files, 120, *run(at, "verify"))
sys.exit(late)
END
