"""Mutants of what the program reads: manifests, change sets, batches, requests, replies, configurations, models, databases, records, logs and commits
with some bytes changed, over which it has to answer as the models do. They are said as lines of command_lines; a program of it answers thousands at once, and what it
answers is compared. Behind an answer that differs the lines up to the next `disks` aren't compared. Usage, at the top, with a program as
crates/command_lines makes it:

    python3 -m tools.lines.mutants PROGRAM [COUNT [SEED]]

Prints how many mutants there were of each kind and how many ended with each status, the time of the slowest lines, and of each difference the
smallest mutant that shows it. Ends with 1 where one differs, or the program ended early."""
import collections
import random
import subprocess
import sys
import time

from tools.cases import mirrors, samples, several
from tools.cases.root_examples import OWNED, one_format, two_jobs
from tools.cases.samples import LABEL, RELATIVE, SET, TABLE, file
from tools.lines.script import Script
from tools.model import repository
from tools.model.by_files import MODEL
from tools.model.program import CONFIG, JOURNAL
from tools.model.records import DATABASE, record_path
from tools.model.trees import DIR

IN_A_CHUNK, IN_A_GROUP, SECONDS, MOST_TOLD = 200, 20, 3_600, 20
BYTES = [0, 1, 2, 0x0A, 0x20, 0x2D, 0x2F, 0x3A, 0x3D, 0x40, 0x5B, 0x7F, 0x80, 0xFF]
NUMBERS = [0, 1, 2, 255, 256, 65_535, 65_536, 16_777_216, 16_777_236, 16_777_237, 2**31 - 1, 2**31, 2**32 - 1]


def changed(dice, data, others):
    """The bytes with a small change."""
    at, size = dice.randrange(len(data) + 1), dice.randrange(1, 9)
    some = data[(start := dice.randrange(len(data) + 1)) : start + dice.randrange(1, 40)]
    lines = data.split(b"\n")
    line, other = dice.randrange(len(lines)), dice.randrange(len(lines))
    return dice.choice((
        lambda: data[:at] + bytes([dice.choice(BYTES)]) + data[at + 1 :],
        lambda: data[:at] + bytes([dice.randrange(256)]) + data[at + 1 :],
        lambda: data[:at] + bytes(byte ^ 1 << dice.randrange(8) for byte in data[at : at + 1]) + data[at + 1 :],
        lambda: data[:at] + data[at + size :],
        lambda: data[:at] + some + data[at:],
        lambda: data[:at] + some + data[at + len(some) :],
        lambda: data[:at],
        lambda: data[:at] + dice.choice(NUMBERS).to_bytes(4, "big") + data[at + 4 :],
        lambda: data[:at] + (int.from_bytes(data[at : at + 4], "big") + dice.choice((-1, 1)) & 2**32 - 1).to_bytes(4, "big") + data[at + 4 :],
        lambda: data[:at] + (taken := dice.choice(others))[min(at, len(taken)) :],
        lambda: b"\n".join(lines[:line] + lines[line + 1 :]),
        lambda: b"\n".join(lines[:line] + [lines[other]] + lines[line:]),
        lambda: b"\n".join(lines[:line] + [dice.choice(dice.choice(others).split(b"\n"))] + lines[line + 1 :]),
    ))()


def mutant(dice, whole):
    data = dice.choice(whole)
    for _ in range(dice.choice((1, 1, 1, 2, 3))):
        data = changed(dice, data, whole)
    return data


# ---- what there is of each kind, and how it is read


# The nodes of a root with two jobs, and of one of format 1, and of a repository with two commits.
ROOT, OLD_ROOT, REPO = sorted(two_jobs().items()), one_format(two_jobs()), samples.BOTH
PLACES = dict(ROOT), dict(OLD_ROOT), dict(REPO)
MANIFESTS = TABLE.named("COMPONENT SECOND PACKAGE SOURCE GROUP LEVELS") + [OWNED]
FOO = b"foo:runtime=" + LABEL
ASKED = mirrors.TABLE.named(" ".join(name + "_ASKED" for name, _ in mirrors.TABLE.fields("requests")))
LOGS = [samples.ONE_LOG, samples.REPLAYED_LOG, samples.log_of([(DATABASE, file(PLACES[0][DATABASE][2]))])]


def stored(places, *paths):
    return [place[path][2] for place in places for path in paths]


def read_by(*calls):
    """A function that hands an input to one of these calls."""
    return lambda script, dice, data: script.fed(data, *dice.choice(calls).split(b" "))


def standing(side, path, *calls):
    """A function that puts a file, and makes one of these calls."""
    return lambda script, dice, data: script.edit(side, [(path, file(data))]).run(*dice.choice(calls).split(b" "))


def behind_flag(side, journal, call):
    """A function that puts a log whose commit flag is set, and makes a call over that alone."""
    def put(script, dice, data):
        base = [(journal.base, DIR), (journal.gate, file(b"O")), (journal.log, file(data))]
        base += [(journal.stage, DIR), (journal.staged_path(0), file(b"x"))]
        script.disks(*((base, ()) if side == "root" else ((), base))).runs(call, call)

    return put


# Whole ones, the disks, and what reads them.
KINDS = {
    "manifest": (MANIFESTS, (), (), read_by(b"install", b"install --replace", b"cook", b"cook --next")),
    "change set": ([SET, RELATIVE, samples.set_bytes([samples.V2], samples.carried(b"abcd"))], (), REPO, read_by(b"update -", b"commit", b"showcs")),
    "batch": ([several.TABLE.names["FIVE"], several.batch(b"q", b"rq", (b"cook", MANIFESTS[2]), b"update bar=" + LABEL)], (), (), read_by(b"batch")),
    "requests": (ASKED, (), REPO, read_by(b"serve")),
    "replies": (mirrors.TABLE.named("FIRST_REPLY SECOND_REPLY EMPTY_REPLY TWO_REPLY"), (), samples.COOKED, read_by(b"mirror take")),
    "configuration": (
        [b"installLabelPath %s\nflavor ~ssl,!krb is: x86(sse)\n" % LABEL, b"# none\n\ninstallLabelPath a@b:c %s\r\n[section]\nflavor\n" % LABEL],
        [(b"/etc", DIR)], REPO, standing("root", CONFIG, b"changeset foo:runtime", b"update foo:runtime", b"update --resolve foo:runtime"),
    ),
    "model": (
        [b"install %s\nupdate foo:runtime=/%s/1.0-1-1\n# base\nerase foo:runtime\n" % (FOO, LABEL), b"install %s[ssl]\r\n" % FOO],
        [(b"/etc", DIR), (b"/etc/conary", DIR)], REPO, standing("root", MODEL, b"sync", b"sync --replace"),
    ),
    "database": (stored(PLACES[:2], DATABASE), ROOT, (), standing("root", DATABASE, b"q", b"rblist", b"verify", b"rollback")),
    "record": (stored(PLACES[:2], record_path(1), record_path(2)), ROOT, (), standing("root", record_path(2), b"rblist", b"rollback", b"rollback r.1")),
    "log of a root": (LOGS, (), (), behind_flag("root", JOURNAL, b"q")),
    "log of a repository": (LOGS, (), (), behind_flag("repo", repository.JOURNAL, b"rq")),
    "commit": (
        stored(PLACES[2:], *(repository.commit_path(number) for number in (1, 2))), (), REPO,
        standing("repo", repository.commit_path(2), b"rq", b"changeset foo:runtime=" + LABEL, b"q"),
    ),
}


class Group:
    """The lines of some mutants of a kind over the same disks, with their answers."""

    def __init__(self, name, mutants):
        self.name, self.script, self.of_line = name, Script(), []
        whole, root, repo, self.read = KINDS[name]
        self.script.disks(*([pair for pair in nodes if pair[0] != b"/"] for nodes in (root, repo)))
        self.note(b"")
        for seed, data in mutants:
            self.read(self.script, random.Random(seed), data)
            self.note(data)

    def note(self, data):
        self.of_line += [data] * (len(self.script.lines) - len(self.of_line))

    def difference(self, answers):
        """The line at which the program answers otherwise."""
        wanted = self.script.answers
        return next((at for at, answer in enumerate(wanted) if at >= len(answers) or answers[at] != answer), None)


def answers_to(program, groups):
    """What the program answers to the lines of groups, each group's, and the seconds that it takes."""
    text, begun = "".join(line + "\n" for group in groups for line in group.script.lines), time.monotonic()
    done = subprocess.run([program], input=text.encode(), stdout=subprocess.PIPE, stderr=subprocess.DEVNULL, timeout=SECONDS)
    found = iter(done.stdout.decode().split("\n")[:-1])
    return [[next(found, "") for _ in group.script.lines] for group in groups], time.monotonic() - begun


def smallest(program, name, seed, data):
    """The mutant with as much left out as may be, so that the answer is still another one."""
    size = max(len(data) // 2, 1)
    while size:
        shorter = [data[:at] + data[at + size :] for at in range(0, len(data), size)]
        groups = [Group(name, [(seed, one)]) for one in shorter]
        tried = zip(shorter, groups, answers_to(program, groups)[0])
        data, size = next(((one, size) for one, group, some in tried if group.difference(some) is not None), (data, size // 2))
    group = Group(name, [(seed, data)])
    [some], _ = answers_to(program, [group])
    at = group.difference(some)
    return data, None if at is None else (group.script.lines[at][:300], some[at][:600], group.script.answers[at][:600])


def chunk(dice, count):
    """Groups of so many mutants in all, each with its mutants."""
    for _ in range(0, count, IN_A_GROUP):
        name = dice.choice(list(KINDS))
        mutants = [(dice.randrange(2**32), mutant(dice, KINDS[name][0])) for _ in range(IN_A_GROUP)]
        yield mutants, Group(name, mutants)


def main():
    program, count, dice = sys.argv[1], int((sys.argv[2:] or [20_000])[0]), random.Random(int((sys.argv[3:] or [1])[0]))
    kinds, statuses, differing, slowest = collections.Counter(), collections.Counter(), [], (0, [])
    tell = lambda counts: ", ".join(f"{name} {some}" for name, some in sorted(counts.items()))
    for done in range(0, count, IN_A_CHUNK):
        made = list(chunk(dice, IN_A_CHUNK))
        answers, seconds = answers_to(program, [group for _, group in made])
        slowest = max(slowest, (seconds, [group for _, group in made]), key=lambda pair: pair[0])
        for (mutants, group), some in zip(made, answers):
            kinds[group.name] += IN_A_GROUP
            statuses.update(answer.split(" ")[0] for line, answer in zip(group.script.lines, some) if line.startswith("run"))
            at = group.difference(some)
            if at is not None:
                differing.append((group.name, *next((one for one in mutants if one[1] == group.of_line[at]), (0, b""))))
        if done % 1_000 == 0 or done + IN_A_CHUNK >= count:
            print(f"{kinds.total()} mutants: {tell(kinds)}; statuses {tell(statuses)}; {len(differing)} groups differ", flush=True)
    took, group = max(((answers_to(program, [group])[1], group) for group in slowest[1]), key=lambda pair: pair[0])
    print(f"slowest: {slowest[0]:.2f} s for {IN_A_CHUNK} mutants; {took:.2f} s for {len(group.of_line)} lines of the kind {group.name}, alone")
    for name, seed, data in differing[:MOST_TOLD]:
        small, told = smallest(program, name, seed, data)
        print(f"{name}, {small!r}:\n  {told}")
    return bool(differing)


if __name__ == "__main__":
    sys.exit(main())
