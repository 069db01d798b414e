"""Random commands over directories of the host beside the independent model (see soak.sh)."""
import os
import pathlib
import random
import shutil
import signal
import subprocess
import sys
import tempfile
import time

from rooms import Answer, Picked, copy, counted, new_room, run, state_of, states_in
from tools.model.records import BASE
from tools.model.trees import is_within

SIZE, PAGE, TOLD_EACH, COMMANDS_IN_A_ROOM = 64 << 20, 4096, 100, 60
# The calls before which a command is killed, and at most the how manieth of one.
KILLED_AT, LAST, HAS_STRACE = ("openat", "write", "fsync", "rename", "unlink", "mkdir", "chmod", "fchmod"), 12, bool(shutil.which("strace"))


class Room:
    """The two directories, on a disk of their own where one can be mounted, and how much room is left on it."""

    def __init__(self, folder):
        self.folder, self.filler = folder, folder / "filler"
        mount = ["mount", "-t", "tmpfs", "-o", f"size={SIZE}", "soak", folder]
        self.is_mounted = not os.geteuid() and not subprocess.run(mount, stderr=subprocess.DEVNULL).returncode

    def leave(self, pages):
        there = os.statvfs(self.folder)
        with open(self.filler, "wb") as file:
            os.posix_fallocate(file.fileno(), 0, max(PAGE, (there.f_bavail - pages) * PAGE))

    def close(self):
        if self.is_mounted:
            subprocess.run(["umount", self.folder])


def killing():
    """What kills a command before a call of the host that is picked at random."""
    call = random.choice(KILLED_AT)
    at = f"inject={call}:signal=SIGKILL:when={random.randint(1, LAST)}"
    return ["strace", "-f", "-qq", "-o", "/dev/null", "-e", f"trace={call}", "-e", at]


def is_visible(left, nodes):
    """Whether others may see this: a node of one of the states, or none between a directory and another kind."""
    kinds = {node and node[0] for node in nodes}
    return left in nodes or left is None and "dir" in kinds and len(kinds) > 1


class Soak:
    def __init__(self, program, room, kills):
        self.program, self.room, self.picked, self.took = program, room, Picked(), 0.1
        self.weights = (0, 15, 15 * HAS_STRACE, 0) if kills else (60, 15, 15 * HAS_STRACE, 15 * room.is_mounted)
        self.counts = {"commands": 0, "edits": 0, "killed": 0, "without room": 0, "before": 0, "after": 0}
        self.statuses, self.kinds = {}, {}

    def run(self, words, given=b"", kill_after=None, before=()):
        return run(self.program, self.room.folder, words, given, kill_after, before)

    def check_cut_off(self, states, words, given):
        """What stands where a command was killed, or found no room, and what the next one finds: a state that it had, the first of them before it;
        from there it leads to the last when it is made again."""
        torn = state_of(self.room.folder)
        status, out, err = self.run(["rblist"])
        state = state_of(self.room.folder)
        if not any(one.agrees(state) for one in states):
            yield "no state that the command had:\n" + "\n--\n".join("\n".join(list(one.differences(state, True))[:9]) for one in states)
            return
        yield from Answer(state, ["rblist"]).differences((status, out, err), state)
        for path in set().union(torn.root, *(one.root for one in states)):
            if not is_within(path, BASE) and not is_visible(torn.root.get(path), [one.root.get(path) for one in states]):
                yield f"{path.decode()} shows no node that it had"
        is_before = states[0].agrees(state)
        self.counts["before" if is_before else "after"] += 1
        if is_before and random.random() < 0.5:
            again = Answer(state, words, given)
            yield from again.differences(self.run(words, given), state_of(self.room.folder))

    def step(self):
        """One command, with an edit before it; the differences that were found."""
        folder = self.room.folder
        if random.random() < 0.3:
            self.picked.edit(folder / "root")
            self.counts["edits"] += 1
        before = state_of(folder)
        words, given = self.picked.command(before)
        wanted = Answer(before, words, given)
        way = random.choices(("plain", "at a moment", "at a call", "full"), self.weights)[0]
        if way == "full":
            self.room.leave(random.randint(0, 30))
        begun = time.monotonic()
        found = self.run(words, given, random.uniform(0, self.took) if way == "at a moment" else None, killing() if way == "at a call" else ())
        self.took = time.monotonic() - begun if way == "plain" and wanted.status == 0 else self.took
        self.room.filler.unlink(missing_ok=True)
        for counts, what in ((self.counts, "commands"), (self.kinds, words[0]), (self.statuses, found[0])):
            counts[what] = counts.get(what, 0) + 1
        if found[0] == -signal.SIGKILL or way == "full" and found[0] in (5, 6):
            self.counts["killed" if found[0] < 0 else "without room"] += 1
            differ = list(self.check_cut_off([before, *states_in(before, words, given), wanted.state], words, given))
        else:
            differ = list(wanted.differences(found, state_of(folder)))
            self.picked.note(words, wanted)
        return [f"{way}: {words} with {given[:300]}", *differ] if differ else []

    def say(self, differences):
        print(f"{counted(self.counts)}, differences {differences}; statuses: {counted(dict(sorted(self.statuses.items())))}", flush=True)
        if differences or self.counts["commands"] % TOLD_EACH:
            print(f"commands: {counted(dict(sorted(self.kinds.items())))}", flush=True)


def main():
    counted_by, program, most = sys.argv[1], sys.argv[2], int(sys.argv[3])
    seed = sys.argv[4] if len(sys.argv) > 4 else str(random.randrange(1 << 30))
    random.seed(seed)
    print(f"seed {seed}", flush=True)
    with tempfile.TemporaryDirectory(prefix="conary-soak-") as name:
        room = Room(pathlib.Path(name))
        soak, differ = Soak(program, room, counted_by == "killed"), []
        try:
            while soak.counts[counted_by] < most and not differ:
                if soak.counts["commands"] % COMMANDS_IN_A_ROOM == 0:
                    new_room(room.folder)
                differ = soak.step()
                if soak.counts["commands"] % TOLD_EACH == 0:
                    soak.say(len(differ))
            if differ:
                kept = copy(room.folder, pathlib.Path(tempfile.mkdtemp(prefix="conary-soak-kept-")) / "room")
                print("\n".join(differ) + f"\nwhat stands is kept in {kept}")
        finally:
            room.close()
    soak.say(len(differ))
    return bool(differ)


if __name__ == "__main__":
    sys.exit(main())
