"""Counts calls and waits of jobs over directories of the host, and times them beside `tar` and dpkg (see bench/host.sh)."""
import os
import pathlib
import re
import shutil
import subprocess
import sys
import tempfile

from packages import FILES, RUNS, Conary, Dpkg, Room, disk, floor_of, manifest, median, medians_of

PROGRAM, LISTED, COMMITS, *PACKAGES = sys.argv[1], *map(int, sys.argv[2:])


def calls_of(room, *words, given=b""):
    """All calls of the host that a command makes, and those that wait for the disk."""
    trace = room.folder / "trace"
    room.run(*words, given=given, before=["strace", "-f", "-c", "-o", trace])
    rows = [line.split() for line in trace.read_text().splitlines() if re.match(r" *\d+\.\d+ ", line)]
    counts = {row[-1]: int(row[3]) for row in rows if row[-1] != "total"}
    return sum(counts.values()), sum(counts.get(name, 0) for name in ("fsync", "fdatasync", "sync"))


def count_calls(folder):
    """The difference between jobs of 100 and of 200 files in one directory, a hundredth of it for each file."""
    counts = {}
    for files in (100, 200):
        room = Room(PROGRAM, folder / "calls")
        first, second = (manifest(0, at, {f"/usr/share/doc/p0001/f{file:04}": f"{at} {file}" for file in range(files)}) for at in (1, 2))
        counts[files] = {"new": calls_of(room, "install", given=first), "replaced": calls_of(room, "install", given=second)}
        counts[files] |= {"taken back": calls_of(room, "rollback"), "verified": calls_of(room, "verify")}
    for name in counts[100]:
        calls, waits = ((counts[200][name][at] - counts[100][name][at]) / 100 for at in (0, 1))
        print(f"a file that is {name}: {calls:.1f} calls, {waits:.2f} waits for the disk", flush=True)


def count_of_list(folder):
    room = Room(PROGRAM, folder / "list")
    room.run("install", given=manifest(0, 1, {f"/usr/share/doc/p{at // 1000:04}/f{at:05}": str(at) for at in range(LISTED)}))
    print(f"q on {LISTED} recorded files: {calls_of(room, 'q')[0]} calls, {room.run('q') * 1000:.0f} ms", flush=True)


def time_cooks(folder):
    """One more cook behind none and behind so many."""
    times = []
    for behind in (0, COMMITS):
        room = Room(PROGRAM, folder / "cooks")
        for package in range(behind):
            room.run("cook", given=manifest(package, 1))
        times.append(median([room.run("cook", given=manifest(COMMITS + at, 1)) for at in range(RUNS)]))
    text = f"{times[0]:.0f} ms behind none, {times[1]:.0f} ms behind {COMMITS} commits, {times[1] - times[0]:.0f} ms more"
    print(f"one cook of {FILES} files: {text}", flush=True)


def time_jobs(folder, packages):
    floor, medians = floor_of(folder, packages), medians_of(Conary(packages, PROGRAM), folder)
    parts, beside = ", ".join(f"{name} {took:.0f} ms ({took / floor:.1f})" for name, took in medians.items()), "no dpkg here"
    if shutil.which("dpkg") and not os.geteuid():
        beside = f"dpkg takes {medians_of(Dpkg(packages, PROGRAM), folder)['install'] / medians['install']:.1f} times as long as the install"
    print(f"{packages} packages, {packages * FILES} files, tar x and sync {floor:.0f} ms: {parts}; {beside}", flush=True)
    for made in (folder / "template", folder / "dpkg"):
        shutil.rmtree(made, ignore_errors=True)


def peak(folder, size):
    room, given = Room(PROGRAM, folder / "large"), folder / "given"
    given.write_bytes(manifest(0, 1, {"/usr/share/doc/p0001/large": "x" * size}))
    with open(given, "rb") as file:
        child = subprocess.Popen([*room.command, "install"], stdin=file, stdout=subprocess.DEVNULL)
        used = os.wait4(child.pid, 0)[2].ru_maxrss
    print(f"installing a file of {size} bytes: {used} kB of memory at most", flush=True)


def main():
    with tempfile.TemporaryDirectory(prefix="conary-bench-") as name, disk(pathlib.Path(name)) as at:
        if shutil.which("strace"):
            count_calls(at)
            count_of_list(at)
        else:
            print("no strace here, so no calls are counted")
        time_cooks(at)
        for count in PACKAGES:
            time_jobs(at, count)
        peak(at, 16 * 1000 * 1000)


main()
