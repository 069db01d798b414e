"""What the gate costs in processor seconds, from nothing, for one crate or for all (see gate_cost.sh)."""
import concurrent.futures
import contextlib
import os
import pathlib
import queue
import re
import shutil
import subprocess
import sys
import tempfile
import time

from crates import edits_inside, files_in, named, root_file, text_of

TICK = os.sysconf("SC_CLK_TCK")
# Above these a function, a test or an edit is named; seconds, as below. And the processor minutes that a crate has for 1,000 lines, and
# a small one in all.
FUNCTION, TEST, EDIT = 10, 5, 25
MINUTES, SMALL = 6, 3
# The limits are those of one machine. Where all crates are measured, seconds are told as of that machine, on which the proofs of these
# crates take so many seconds.
REFERENCE = {"cny_version": 97, "cny_dep": 99, "cny_stream": 63}


def copy_to(room):
    """Copies what git tracks, as it stands in the work tree."""
    names = subprocess.run(["git", "ls-files"], stdout=subprocess.PIPE, text=True, check=True).stdout.split("\n")
    for name in filter(os.path.isfile, names):
        os.makedirs(os.path.dirname(f"{room}/{name}") or room, exist_ok=True)
        shutil.copy2(name, f"{room}/{name}")
    return room


def touch(room, crate):
    """Gives the crate one more comment line, so that nothing that was kept of it fits."""
    with open(root_file(crate, room), "a", encoding="utf-8") as file:
        file.write(f"// {time.time()}\n")


def told_of(number):
    """The session and the processor seconds of a process."""
    fields = pathlib.Path(f"/proc/{number}/stat").read_text(encoding="utf-8").rpartition(")")[2].split()
    return int(fields[3]), (int(fields[11]) + int(fields[12])) / TICK


def processes(session):
    """The prover's processes of a session: number, words, folder, processor seconds, peak memory in MB."""
    for number in filter(str.isdigit, os.listdir("/proc")):
        with contextlib.suppress(OSError, ValueError, IndexError):
            of_session, seconds = told_of(number)
            words = pathlib.Path(f"/proc/{number}/cmdline").read_text(encoding="utf-8").split("\0")
            if of_session == session and os.path.basename(words[0]) == "rattle" and "--crate-name" in words:
                peak = re.search(r"VmHWM:\s+(\d+)", pathlib.Path(f"/proc/{number}/status").read_text(encoding="utf-8"))
                yield number, words, os.readlink(f"/proc/{number}/cwd"), seconds, int(peak[1]) // 1024 if peak else 0


def kind_of(words, folder):
    """What a process of the gate is there for."""
    if "rt-edit-" in folder:
        at = words[words.index("--incremental") + 1] if "--incremental" in words else ""
        return "seed" if at.endswith("/seed") else "edit"
    return "tests" if "--test" in words else "proof"


def run_gate(room, words, log):
    """Runs the gate and returns its last lines and, by process, what it was for."""
    found = {}
    with open(log, "w+", encoding="utf-8") as log:
        gate = subprocess.Popen(["rt", "ci", *words], cwd=room, stdout=log, stderr=log, start_new_session=True)
        while gate.poll() is None:
            for number, argv, folder, seconds, peak in processes(gate.pid):
                name = argv[argv.index("--crate-name") + 1]
                key = (number, name, kind_of(argv, folder))
                before = found.get(key, (0, 0))
                found[key] = (max(seconds, before[0]), max(peak, before[1]))
            time.sleep(0.2)
        log.seek(0)
        return log.read().rstrip("\n").split("\n")[-3:], found


def timed_check(room, crate, flags):
    """Processor seconds of each function of one check, by the lines that it prints."""
    taken, last, prover = {}, 0.0, None
    how = {"stdout": subprocess.PIPE, "stderr": subprocess.STDOUT, "text": True, "start_new_session": True}
    check = subprocess.Popen(["rt", "check", "--jobs", "1", *flags], cwd=f"{room}/crates/{crate}", **how)
    for line in check.stdout:
        done = re.match(r"checked (\S+), \d+ of \d+", line)
        if not done:
            continue
        prover = prover or next((number for number, *_ in processes(check.pid)), None)
        with contextlib.suppress(OSError, ValueError):
            now = told_of(prover)[1]
            taken[done[1]] = max(now - last, 0.0) if last else 0.0
            last = now
    check.wait()
    return taken


def timed_functions(room, crate):
    """The seconds of the crate's functions and tests, with the limit of each; room is a copy of the repository for this alone."""
    source, folder = root_file(crate, room), pathlib.Path(room, "crates", crate)
    as_it_was = source.read_text(encoding="utf-8")
    touch(room, crate)
    shutil.rmtree(folder / "out/incremental", ignore_errors=True)
    os.makedirs(folder / "out/incremental")
    code = timed_check(room, crate, [])
    has_tests = any("#[test]" in path.read_text(encoding="utf-8") for path in (folder / "src").glob("**/*.rt"))
    tests = timed_check(room, crate, ["--test"]) if has_tests else {}
    source.write_text(as_it_was, encoding="utf-8")
    taken = [(seconds, FUNCTION, name) for name, seconds in code.items()]
    taken += [(seconds, TEST, name) for name, seconds in tests.items() if name not in code]
    return sorted(taken, reverse=True)


def all_functions(rooms, names):
    """Checks the crates in turn, one in each copy at a time."""
    free = queue.SimpleQueue()
    for room in rooms:
        free.put(room)

    def timed(crate):
        room = free.get()
        taken = timed_functions(room, crate)
        free.put(room)
        return taken

    with concurrent.futures.ThreadPoolExecutor(len(rooms)) as lanes:
        return dict(zip(names, lanes.map(timed, names)))


def lines_of(crate, part):
    return sum(text_of(path).count("\n") for path in files_in(part, crate))


def seconds_of(crate, found):
    """Processor seconds of a crate's proof, test build and edits, with the check that the edits begin with."""
    of_kind = [(kind, seconds) for (_, name, kind), (seconds, _) in found.items() if name == crate]
    return tuple(sum(seconds for kind, seconds in of_kind if kind in kinds) for kinds in (["proof"], ["tests"], ["seed", "edit"]))


def scale_of(found):
    """How many seconds of the machine of the limits one of this machine is, or 1 where the reference crates weren't measured."""
    taken = [seconds_of(crate, found)[0] for crate in REFERENCE]
    return sum(REFERENCE.values()) / sum(taken) if all(taken) else 1


def report(names, found):
    scale, whole, parts = scale_of(found), 0.0, [0.0, 0.0, 0.0]
    over, heads = [], ["proof, s", "tests, s", "edits, s", "all, min", "for 1,000 lines", "peak, MB"]
    print(f"| crate | lines of `src/` | of `specs/` | of `proofs/` | edits | {' | '.join(heads)} |")
    print("|---|---|---|---|---|---|---|---|---|---|---|")
    for crate in names:
        taken = [scale * it for it in seconds_of(crate, found)]
        peak = max([p for (_, name, _), (_, p) in found.items() if name == crate] or [0])
        minutes, lines = sum(taken) / 60, lines_of(crate, "src")
        whole += minutes
        parts = [it + seconds / 60 for it, seconds in zip(parts, taken)]
        sizes = " | ".join(f"{lines_of(crate, part):,}" for part in ("src", "specs", "proofs"))
        seconds = " | ".join(f"{it:.0f}" for it in taken)
        print(f"| `{crate}` | {sizes} | {len(edits_inside(crate))} | {seconds} | {minutes:.1f} | {1000 * minutes / lines:.1f} | {peak:,} |")
        if minutes > max(SMALL, MINUTES * lines / 1000):
            over.append(f"over its minutes: {crate}: {minutes:.1f} for {lines:,} lines")
    told = ", ".join(f"{minutes:.1f} of {name}" for minutes, name in zip(parts, ("proofs", "tests", "edits")))
    print(f"\nall: {whole:.1f} processor minutes, {told}; a second of this machine is told as {scale:.2f}")
    print("".join(it + "\n" for it in over), end="")
    for (_, crate, kind), (seconds, _) in sorted(found.items(), key=lambda it: -it[1][0]):
        if kind == "edit" and scale * seconds > EDIT and crate in names:
            print(f"slow: an edit of {crate}: {scale * seconds:.0f} s")


def main():
    wanted = sys.argv[1:]
    known = list(named())
    if wanted == ["--here"]:
        with tempfile.TemporaryDirectory(prefix="gate-cost-") as at:
            said, found = run_gate(".", [], f"{at}/gate.log")
        report(known, found)
        print("\n".join(said), flush=True)
        sys.exit(0 if " 0 failed" in said[-1] else 1)
    if len(wanted) > 1 or any(it not in known for it in wanted):
        sys.exit("usage: tools/gate_cost.sh [--here | CRATE]")
    with tempfile.TemporaryDirectory(prefix="gate-cost-") as at:
        room = copy_to(f"{at}/gate")
        subprocess.run(["git", "init", "-q"], cwd=room, check=True)
        for crate in wanted:
            touch(room, crate)
        said, found = run_gate(room, wanted or ["--anew"], f"{at}/gate.log")
        report(wanted or known, found)
        print("\n".join(said), flush=True)
        rooms = [copy_to(f"{at}/{number}") for number in range(1 if wanted else len(os.sched_getaffinity(0)))]
        taken, scale = all_functions(rooms, wanted or known), scale_of(found)
        for crate in wanted or known:
            for seconds, limit, name in taken[crate]:
                if scale * seconds > limit:
                    print(f"slow: {name}: {scale * seconds:.0f} s")


main()
