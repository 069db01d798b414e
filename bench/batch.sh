#!/bin/sh
# How long the cooks and updates of the demo of so many packages take over two directories of the host, in one batch and as calls of their
# own, one process each. The batch is to be at least 3 times faster. Both leave the same files.
# Usage: bench/batch.sh [PACKAGES]
# CONARY may name another program than the proved one of this copy.
set -eu
. "$(dirname "$0")/lib.sh"
. "$top/tools/program.sh"
choose_program
cd "$top"
PYTHONPATH=$top python3 - "$program" "$work" "${1:-200}" <<'END'
import filecmp, subprocess, sys, time
from pathlib import Path
from tools.cases.rows import batch
from tools.model.batches import lines_of

program, work, packages = sys.argv[1], Path(sys.argv[2]), int(sys.argv[3])
lines = [line for line in lines_of(packages) if line[0][0] in (b"cook", b"update")]


def run(name, calls):
    """The calls over two directories of this name, with how long they took."""
    root, repo = work / name / "root", work / name / "repo"
    (root / "var/lib").mkdir(parents=True)
    repo.mkdir()
    begin = time.monotonic()
    out = b"".join(subprocess.run([program, "--disk", root, repo, *words], input=data, stdout=subprocess.PIPE, check=True).stdout for words, data in calls)
    return out, round((time.monotonic() - begin) * 1000)


def same(one, other):
    """Whether two directories hold the same, their names and bytes."""
    both = filecmp.dircmp(one, other)
    if both.left_only or both.right_only or both.funny_files or filecmp.cmpfiles(one, other, both.common_files, shallow=False)[0] != both.common_files:
        return False
    return all(same(Path(one, name), Path(other, name)) for name in both.common_dirs)


together, took = run("batch", [([b"batch"], batch(*((b" ".join(words), data) for words, data in lines)))])
alone, took_alone = run("alone", lines)
what = f"{2 * packages + 2} cooks and 2 updates over directories of the host"
print(f"{what}, in one batch | {packages} packages | {took} ms")
print(f"{what}, one process each | {packages} packages | {took_alone} ms | at least 3 times as long")
sys.exit(together != alone or not same(work / "batch", work / "alone") or took_alone < 3 * took)
END
