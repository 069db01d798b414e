#!/bin/sh
# Makes the manifests of a directory with so many files of 100 bytes, and of one with 20 files of 10 MB, to a file on the same disk, beside
# `tar c` to a file, medians of five, with the peak of memory of conary-manifest.
#
# Usage: bench/manifest.sh [FILES]
# It ends with status 1 where conary-manifest takes more than 2 times as long as tar, or more than 40 MB of memory. CONARY_MANIFEST may name
# another program than the proved one of this copy.
set -eu
top=$(cd "$(dirname "$0")/.." && pwd)
. "$top/tools/program.sh"
choose_manifest_program
exec python3 - "$manifest_program" "${1:-20000}" <<'END'
import os
import resource
import shutil
import statistics
import subprocess
import sys
import tempfile
import time

TIMES = 5
MOST_TIMES = 2.0
MOST_MEMORY = 40_000

program, files = sys.argv[1], int(sys.argv[2])
room = tempfile.mkdtemp(prefix="conary-bench-manifest-")


def taken(words, to):
    """The seconds that a command takes to write a file, and its peak of memory in KB."""
    with open(to, "wb") as out:
        begun = time.monotonic()
        process = subprocess.Popen(words, stdout=out)
        _, status, usage = os.wait4(process.pid, 0)
        spent = time.monotonic() - begun
    if status:
        sys.exit(f"{words[0]}: status {status}")
    return spent, usage.ru_maxrss


def compare(what, tree):
    tar, own = [], []
    for _ in range(TIMES):
        tar.append(taken(["tar", "c", "-C", tree, "."], f"{room}/out.tar")[0])
        own.append(taken([program, "package", "bench", "/bench@bench:bench/1.0-1-1", tree], f"{room}/out.manifest"))
    first, second = statistics.median(tar), statistics.median(spent for spent, _ in own)
    memory = max(peak for _, peak in own)
    print(f"making a manifest, to a file | {what} | {round(second * 1000)} ms | {MOST_TIMES:g} times tar c")
    print(f"tar c of the same, to a file | {what} | {round(first * 1000)} ms")
    print(f"peak memory of making a manifest | {what} | {memory / 1000:.1f} MB | {MOST_MEMORY / 1000:g} MB")
    return second <= MOST_TIMES * first and memory <= MOST_MEMORY


try:
    for at in range(files):
        place = f"{room}/small/usr/share/d{at // 100}"
        os.makedirs(place, exist_ok=True)
        with open(f"{place}/f{at}", "wb") as out:
            out.write(b"%099d\n" % at)
    os.makedirs(f"{room}/large/usr/lib")
    for at in range(20):
        with open(f"{room}/large/usr/lib/f{at}", "wb") as out:
            out.write(os.urandom(10_000_000))
    good = [compare(f"{files} files of 100 bytes", f"{room}/small"), compare("20 files of 10,000,000 bytes", f"{room}/large")]
finally:
    shutil.rmtree(room)
sys.exit(0 if all(good) else 1)
END
