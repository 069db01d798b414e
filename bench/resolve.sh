#!/bin/sh
# What the rounds of an update that completes itself take: a chain of so many providers, each asked for by the one before alone, among so many
# committed troves, over directories of the host. The same troves are then installed by a group that names them all, where no round is
# needed: what the first takes longer is the rounds. Both leave the same troves. Times are the least of three.
# Usage: bench/resolve.sh [ROUNDS [TROVES]]
# CONARY may name another program than the proved one of this copy.
set -eu
. "$(dirname "$0")/lib.sh"
. "$top/tools/program.sh"
choose_program
python3 - "$program" "$work" "${1:-200}" "${2:-2000}" <<'END'
import shutil, subprocess, sys, time
from pathlib import Path

program, work, most, troves = sys.argv[1], Path(sys.argv[2]), int(sys.argv[3]), int(sys.argv[4])
LABEL, TIMES, LIMIT = "conary.example.com@ex:devel", 3, 1000
repo = work / "repo"
repo.mkdir()


def trove(name, lines=(), kind="component"):
    text = "".join(f"{line}\n" for line in (f"manifest 1\n{kind} {name}\nversion /{LABEL}/1.0-1-1", *lines, "end")).encode()
    return b"cook <%d\n%s\n" % (len(text), text)


def run(root, *words, data=b""):
    """The program's output, and the milliseconds that it took."""
    begin = time.monotonic()
    done = subprocess.run([program, "--disk", root, repo, *words], input=data, stdout=subprocess.PIPE, check=True)
    return done.stdout, (time.monotonic() - begin) * 1000


def updated(*words):
    """What the installed list is after this update of an empty root, and the least time that it took."""
    times = []
    for _ in range(TIMES):
        root = work / "root"
        shutil.rmtree(root, ignore_errors=True)
        (root / "var/lib").mkdir(parents=True)
        (root / "etc").mkdir()
        (root / "etc/conaryrc").write_text(f"installLabelPath {LABEL}\n")
        times.append(run(root, "update", *words)[1])
    return run(root, "q")[0].split(), min(times)


needs = [[f"requires c{at:04}:lib trove: c{at + 1:04}:lib"] if at < most else [] for at in range(most + 1)]
batch = [trove(f"c{at:04}:lib", lines) for at, lines in enumerate(needs)] + [trove(f"x{at:04}:lib") for at in range(troves - most - 1)]
(work / "empty/var/lib").mkdir(parents=True)
run(work / "empty", "batch", data=b"".join(batch))
late = False
for rounds in (most // 4, most // 2, most):
    names = [f"c{at:04}:lib" for at in range(most - rounds, most + 1)]
    refs = [f"ref {name}=/{LABEL}/1.0-1-1" for name in names]
    run(work / "empty", "batch", data=trove(f"group-c{rounds}", refs, "group"))
    alone, took = updated("--resolve", names[0])
    named, took_named = updated(f"group-c{rounds}")
    if [it for it in named if not it.startswith(b"group-")] != alone or len(alone) != rounds + 1:
        sys.exit("the two updates differ")
    late = late or took - took_named > LIMIT
    print(f"rounds of an update that completes itself, among {troves} committed troves | {rounds} rounds | {took - took_named:.0f} ms of {took:.0f} ms | {LIMIT} ms for 200")
sys.exit(late)
END
