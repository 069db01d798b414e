#!/bin/sh
# How long a repository of so many commits with five troves and 48 files of 1,200 bytes each is mirrored into an empty one over directories of
# the host (`mirror ask`, `serve`, `mirror take`), as often as troves are missing; beside `cp -a` and `sync` of its directory; then once more,
# where nothing is missing; with the peak of memory of each. Both repositories have the same troves then, and the second mirror changes
# nothing. At last a stream of replies that is too long, and a commit of too many troves, are to be refused with their sizes. It ends with
# status 1 where the first mirror takes more than 3 times as long as `cp -a` and `sync`, the second one more than 0.3 s, or `serve` more
# memory than its longest reply and 30 MB.
# Usage: bench/mirror.sh [COMMITS], where TMPDIR may name a folder on a disk that nothing else writes to
# CONARY may name another program than the proved one of this copy.
set -eu
. "$(dirname "$0")/lib.sh"
. "$top/tools/program.sh"
choose_program
exec python3 - "$program" "$work" "${1:-400}" "$measuring" <<'END'
import hashlib, os, subprocess, sys, time
from pathlib import Path

program, work, commits, measuring = sys.argv[1], Path(sys.argv[2]), int(sys.argv[3]), sys.argv[4]
KINDS = ("bin", "lib", "include", "share/doc")
FILES, SIZE, LARGEST = 48, 1200, 16_777_216


def item(tag, value):
    return bytes([tag]) + len(value).to_bytes(4, "big") + value


def asking(*items):
    return b"CNYRQ01\n" + b"".join(items) + item(0x7F, b"")


def package(name, files):
    """The manifest of a package with these files."""
    lines = [b"manifest 1\npackage %s\nversion /mirror.example.com@ex:devel/1.0-1-1\n" % name]
    lines += [b"file 0644 %d %s\n%s\n" % (len(data), path, data) for path, data in sorted(files)]
    return b"".join([*lines, b"end\n"])


def commit(number):
    files = [(b"/usr/%s/p%d/f%02d" % (KINDS[at % 4].encode(), number, at), b"%d %d " % (number, at) * SIZE) for at in range(FILES)]
    return package(b"p%d" % number, [(path, data[:SIZE]) for path, data in files])


def room(name):
    os.makedirs(work / name / "root/var/lib")
    os.makedirs(work / name / "repo")
    return name


def made(name, words, given=b"", status=0):
    """What a command over a room answers, how long it took in milliseconds, and its peak of memory in bytes."""
    (work / "in").write_bytes(given)
    command = [sys.executable, "-c", measuring, program, "--disk", work / name / "root", work / name / "repo", *words.split()]
    with open(work / "in", "rb") as source, open(work / "out", "wb") as out:
        done = subprocess.run(command, stdin=source, stdout=out, stderr=subprocess.PIPE)
    *said, figures = done.stderr.splitlines(True)
    if done.returncode != status:
        sys.exit(f"{words}: {done.stderr.decode()}")
    return b"".join(said) if status else (work / "out").read_bytes(), *map(int, figures.split())


def mirror(to, source):
    """Mirrors one room's repository into the other's, and tells what was taken, the milliseconds, the peaks of memory, and how long the replies are."""
    asks, first, _ = made(to, "mirror ask")
    replies, second, peak = made(source, "serve", asks)
    text, third, taking = made(to, "mirror take", replies)
    return text, (first, second, third), (peak, taking), len(replies)


def refused(source, words, given, wanted):
    text = made(source, words, given, 1)[0].decode()
    if text != f"conary: {wanted}\n":
        sys.exit(f"{words} is refused with {text!r}, and not with {wanted!r}")


far, near = room("far"), room("near")
lines = b"".join(b"cook <%d\n%s\n" % (len(data), data) for data in map(commit, range(commits)))
made(far, "batch", lines)
# Of this file system alone: what others write elsewhere isn't waited for.
sync = ["sync", "-f", work]
subprocess.run(sync, check=True)
begun = time.monotonic()
subprocess.run(["cp", "-a", work / far / "repo", work / "copy"], check=True)
subprocess.run(sync, check=True)
copied, late = round((time.monotonic() - begun) * 1000), False
size = f"{commits} commits, {5 * commits} troves, {commits * FILES * SIZE / 1_000_000:.1f} MB of contents"


def tell(what, figure, unit, most=None, limit=""):
    global late
    late = late or most is not None and figure > most
    print(f"{what} | {size} | {figure} {unit}{limit and ' | ' + limit}")


tell("cp -a and sync of the repository", copied, "ms")
times, peaks, taken, lengths = [0, 0, 0], [0, 0], 0, []
while (one := mirror(near, far))[0] != b"nothing changes\n":
    times, peaks = [a + b for a, b in zip(times, one[1])], list(map(max, peaks, one[2]))
    taken, lengths = taken + one[0].count(b"\n"), [*lengths, one[3]]
for what, spent in zip(("mirror ask", "serve", "mirror take"), times):
    tell(f"{what}, into an empty repository", spent, "ms")
tell("all three", sum(times), "ms", 3 * copied, "3 times cp -a and sync")
tell("the longest stream of replies", max(lengths), "bytes")
tell("peak memory of serve", peaks[0], "bytes", max(lengths) + 30_000_000, "that stream and 30 MB")
tell("peak memory of mirror take", peaks[1], "bytes")
tell("all three once more, where nothing is missing", sum(one[1]), "ms", 300, "300 ms")
if taken != 5 * commits or sorted(made(near, "rq")[0].split()) != sorted(made(far, "rq")[0].split()):
    sys.exit("the mirror has other troves")
large = room("large")
made(large, "cook", package(b"large", [(b"/large", bytes(LARGEST))]))
one = item(0x71, hashlib.sha1(bytes(LARGEST)).digest())
refused(large, "serve", asking(*[one] * 16), f"too large: message {8 + 16 * (25 + LARGEST) + 5}")
many = room("many")
lines = b"".join(b"provides many:x%04d trove: a\n" % at for at in range(4096))
made(many, "cook", b"manifest 1\npackage many\nversion /mirror.example.com@ex:devel/1.0-1-1\n" + lines + b"end\n")
refused(many, "serve", asking(item(0x72, b"")), "too large: change set 4097")
print("a reply that is too long, and a commit of 4,097 troves, are refused with their sizes")
sys.exit(late)
END
