"""Cuts the power behind killed commands over directories of the host, as far as that can be played (see power_host.sh)."""
import os
import pathlib
import random
import re
import shutil
import sys
import tempfile
import time

from packages import manifest_at
from rooms import NAMES, Answer, Picked, copy, counted, new_room, node_at, run, state_of

FILES, ROUNDS_IN_A_ROOM, CUTS, TORN = 12, 20, 4, b"\xee" * 3
CALLS = (
    "open,openat,creat,write,writev,pwrite64,fchmod,chmod,fchmodat,?fchmodat2,mkdir,mkdirat,symlink,symlinkat,link,linkat,unlink,unlinkat,"
    "rmdir,rename,renameat,renameat2,ftruncate,fsync,fdatasync,close"
)


class Node:
    """A file, link or directory as it is read, and as it was kept last: mode, and bytes, target or nodes by their names."""

    def __init__(self, kind, mode, data):
        self.kind, self.mode, self.data, self.kept = kind, mode, data, None

    def keep(self):
        self.kept = (self.mode, dict(self.data) if self.kind == "dir" else self.data)

    def cut(self, path):
        """Makes what a power failure leaves. Answers how many names and files weren't synced."""
        unsynced, mode = 0, self.mode
        if self.kind == "link":
            os.symlink(self.data, path)
        elif self.kind == "file":
            data = self.data
            if self.kept != (mode, data):
                states = [(mode, data), self.kept or (0o600, b""), (0o600, TORN)]
                unsynced, (mode, data) = 1, random.choice(states if self.kept is None or self.kept[1] != data else states[:2])
            pathlib.Path(path).write_bytes(data)
        else:
            os.makedirs(path, exist_ok=True)
            kept = self.kept[1] if self.kept else {}
            for name in sorted(self.data.keys() | kept.keys()):
                old, new = kept.get(name), self.data.get(name)
                chosen = random.choice((old, new))
                unsynced += (old is not new) + (chosen.cut(os.path.join(path, name)) if chosen else 0)
        if self.kind != "link":
            os.chmod(path, mode)
        return unsynced


def read_tree(path, old=None, is_kept=False):
    """What stands at a path: the node that was read there, where it has the same kind, or else another one."""
    kind, *rest = node_at(path)
    node = old if old and old.kind == kind else Node(kind, 0, {})
    if kind == "dir":
        rest.append({name: read_tree(os.path.join(path, name), node.data.get(name), is_kept) for name in os.listdir(path)})
    node.mode, node.data = rest if kind != "link" else (0, *rest)
    if is_kept:
        node.keep()
    return node


def text_of(word):
    return bytes.fromhex(word.strip('"').replace("\\x", ""))


class Disk:
    def __init__(self, folder):
        self.folder, self.top, self.fds = str(folder), read_tree(folder, is_kept=True), {}

    def names(self, path):
        """The names of a path below the folder, or None of another path."""
        if path != self.folder and not path.startswith(self.folder + "/"):
            return None
        return [name for name in path[len(self.folder):].split("/") if name]

    def find(self, names):
        node = self.top
        for name in names:
            node = node.data.get(name) if node is not None and node.kind == "dir" else None
        return node

    def put(self, names, node):
        self.find(names[:-1]).data[names[-1]] = node

    def take(self, names):
        return self.find(names[:-1]).data.pop(names[-1])

    def call(self, name, words, answer):
        """One call that ended well."""
        paths = [self.names(os.fsdecode(text_of(word))) for word in words if word.startswith('"')]
        if name in ("open", "openat"):
            if paths[0] is None:
                return
            flags = words[-2] if "O_CREAT" in words[-2] else words[-1]
            if "O_CREAT" in flags and self.find(paths[0]) is None:
                self.put(paths[0], Node("file", int(words[-1], 8), b""))
            node = self.fds[answer] = self.find(paths[0])
            assert node is not None, paths
            if "O_TRUNC" in flags:
                node.data = b""
        elif name == "close":
            self.fds.pop(int(words[0]), None)
        elif name in ("write", "ftruncate", "fchmod", "fsync"):
            node = self.fds.get(int(words[0]))
            if node is None:
                return
            if name == "write":
                node.data += text_of(words[1])[:answer]
            elif name == "ftruncate":
                node.data = node.data[:int(words[1])]
            elif name == "fchmod":
                node.mode = int(words[1], 8)
            else:
                node.keep()
        elif all(path is None for path in paths):
            return
        elif name in ("chmod", "fchmodat", "fchmodat2"):
            self.find(paths[0]).mode = int([word for word in words if re.fullmatch("0[0-7]*", word)][-1], 8)
        elif name in ("symlink", "symlinkat"):
            self.put(paths[1], Node("link", 0, os.fsdecode(text_of(words[0]))))
        elif name in ("mkdir", "mkdirat"):
            self.put(paths[0], Node("dir", int(words[-1], 8), {}))
        elif name in ("unlink", "unlinkat", "rmdir"):
            self.take(paths[0])
        elif name in ("rename", "renameat", "renameat2"):
            self.put(paths[1], self.take(paths[0]))
        else:
            sys.exit(f"a call that isn't expected here: {name}")

    def record(self, trace):
        """All calls of a process, and what really stands then: the last one of a killed process may have been made without an answer."""
        self.fds = {}
        for line in trace.read_text().splitlines() if trace.exists() else []:
            found = re.match(r"\d+ +(\w+)\((.*)\)\s+= (\d+)", line)
            if found:
                name, words, answer = found.groups()
                self.call(name, words.split(", "), int(answer))
        read_tree(self.folder, self.top)


def run_traced(program, room, words, given, trace, kill_at=None):
    """Runs a command under strace, which may kill it before a call. Answers its status (negative where it was killed) and its error."""
    trace.unlink(missing_ok=True)
    # where a call is to be killed, strace sees each call of the process itself
    how = ["-e", f"inject={kill_at[0]}:signal=SIGKILL:when={kill_at[1]}"] if kill_at else ["-D", "--seccomp-bpf"]
    tracer = ["strace", *how, "-f", "-xx", "-s", "10000000", "-e", f"trace={CALLS}", "-o", trace]
    status, _, err = run(program, room, words, given, before=tracer)
    # The tracer ends behind the program. Of one that was killed before it was traced there is none.
    for _ in range(500 if trace.exists() else 20):
        if trace.exists() and re.search(r"^\d+ +\+\+\+ .*\+\+\+$", trace.read_text()[-200:], re.M):
            break
        time.sleep(0.01)
    return status, err


def calls_in(trace):
    """Each call of a recorded run: its name, and how often it was called by then."""
    names = re.findall(r"^\d+ +(\w+)\(", trace.read_text(), re.M)
    counts = dict.fromkeys(names, 0)
    for name in names:
        counts[name] += 1
        yield name, counts[name]


def fail(room, story, text):
    kept = copy(room, pathlib.Path(tempfile.mkdtemp(prefix="conary-power-failed-")) / "room")
    sys.exit(f"{text}: {story}; the tree is kept in {kept}")


def recovered(program, room, story):
    """What is stored once a command has recovered both disks."""
    status, _, err = run(program, room, ["rblist"])
    if status:
        fail(room, story, f"the next command ends with status {status}: {err}")
    return state_of(room)


def check_after(program, room, possible, number, story):
    """Whether a state that the round had stands behind a power failure, and work goes on from it. Answers which."""
    found = recovered(program, room, story)
    which = next((at for at, state in enumerate(possible) if state.agrees(found)), None)
    if which is None:
        fail(room, story, "what stands behind a power failure is no state that the round had")
    for words in (["cook"], ["install", "--replace"]):
        given = manifest_at(NAMES[0], number, FILES)
        wanted, said = Answer(state_of(room), words, given), run(program, room, words, given)
        differ = list(wanted.differences(said, state_of(room)))
        if differ:
            fail(room, story, f"a further {words[0]}: {differ[:9]}")
    return which


def changing(picked, before):
    """A command that changes something, by the model, with its input and how it ends."""
    while True:
        words, given = picked.command(before)
        wanted = Answer(before, words, given)
        picked.note(words, wanted)
        if wanted.status == 0 and words != ["batch"] and not wanted.state.agrees(before):
            return words, given, wanted


def round_of(program, folder, picked, counts):
    """Commands on a room, some of them killed, and power failures behind them."""
    clean, room, trace, story = folder / "clean", folder / "room", folder / "trace", []
    if random.random() < 0.25:
        picked.edit(clean / "root")
    disk, possible = Disk(copy(clean, room)), [state_of(clean)]
    for _ in range(random.randint(1, 4)):
        before = state_of(clean)
        words, given, wanted = changing(picked, before)
        done = copy(clean, folder / "done")
        status, err = run_traced(program, done, words, given, trace)
        if status:
            fail(done, story, f"{words} ends with status {status}: {err}")
        calls = list(calls_in(trace))
        kill_at = random.choice((None, *(random.choice(part) for part in (calls, calls, calls[:60], calls[-50:]))))
        status, err = run_traced(program, room, words, given, trace, kill_at)
        disk.record(trace)
        story.append((words, kill_at, status))
        counts["killed"] += status < 0
        if status > 0:
            fail(room, story, f"a command ends with status {status}: {err}")
        possible = [wanted.state] if status == 0 else [*possible, wanted.state]
        found = recovered(program, copy(room, folder / "read"), story)
        if wanted.state.agrees(found):
            copy(done, clean)
        elif status == 0 or not before.agrees(found):
            fail(room, story, "what the next command finds is neither the state before nor the state after")
    for _ in range(CUTS):
        cut = folder / "cut"
        shutil.rmtree(cut, ignore_errors=True)
        counts["power failures"] += 1
        counts["with names unsynced"] += disk.top.cut(str(cut)) > 0
        which = check_after(program, cut, possible, 10 + counts["power failures"], story)
        counts["the last state"] += which == len(possible) - 1
    counts["rounds"] += 1


def main():
    program, rounds = sys.argv[1], int(sys.argv[2])
    random.seed(sys.argv[3] if len(sys.argv) > 3 else None)
    counts = {"rounds": 0, "killed": 0, "power failures": 0, "with names unsynced": 0, "the last state": 0}
    with tempfile.TemporaryDirectory(prefix="conary-power-") as name:
        folder, picked = pathlib.Path(name), Picked()
        for number in range(rounds):
            if number % ROUNDS_IN_A_ROOM == 0:
                new_room(folder / "clean")
            round_of(program, folder, picked, counts)
            if number % 25 == 24:
                print(f"after {number + 1} rounds: {counts['killed']} killed", file=sys.stderr, flush=True)
    print(counted(counts))
    if rounds and not counts["killed"]:
        sys.exit("no run was cut off")


main()
