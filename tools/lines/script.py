"""The lines of command_lines that call the program: what is set up, the calls, and what each has to answer by the model of the program.

Of the lines only those of `cut` and `from` depend on how many calls of its disks a command makes."""
import functools
import re

from tools.lines.words import puts_term, shown, standing, term, tree_term
from tools.model import by_files, repository
from tools.model.program import JOURNAL, Streams
from tools.model.several import Call
from tools.model.records import BASE
from tools.model.texts import FIXED, is_utf8
from tools.model.trees import DIR, Damaged, Refused, Tree, is_tree

JOURNALS = {"root": JOURNAL, "repo": repository.JOURNAL}
FAULTS = {"root": 5, "repo": 6}
WHOLLY_LOST = (2**64 - 1, 0x5555555555555555)
TEXT, LINES = re.compile(rb"(?!0x|=)[ -~]*"), re.compile(rb"(?!0x)([ -~](?<![+*#])|\n(?!0x))*")

# ---- arguments

def argument(data):
    """Bytes as an argument: a short text as it is, lines as terms, others in digits."""
    if len(data) <= 4096 and TEXT.fullmatch(data):
        return data.decode()
    if len(data) <= 4096 and LINES.fullmatch(data):
        return "=" + "+".join(part for part in re.split("(\n)", data.decode()) if part).replace("\n", "0x0a")
    return term(data)


def words_of(words):
    return words.split(b" ") if isinstance(words, bytes) else words


# ---- answers

def written(stream, data):
    """The lines of an output, each as a field; what isn't lines of text as the bytes of a file."""
    if data.endswith(b"\n") and is_utf8(data):
        return "".join(f"\t{stream} {line}" for line in data[:-1].decode().split("\n"))
    return f"\t{stream} {shown(data)}" if data else ""


def outputs(call):
    return written("out", call.out) + written("err", call.err)


def told(call):
    return f"{call.status} taken {call.taken}" + outputs(call)


def kept(name, tree):
    nodes = standing(tree.nodes)
    synced = all(standing(tree.crash(pick).nodes) == nodes for pick in WHOLLY_LOST)
    return f"\t{name} {'synced' if synced else 'unsynced'}{nodes}"


def both(trees):
    return kept("root", trees["root"]) + kept("repo", trees["repo"])


def recovered(side, image):
    """What a recovery makes of what a crash left."""
    try:
        found = "committed" if JOURNALS[side].recover(image) else "at rest"
    except (Refused, Damaged):
        found = "stuck"
    return f"\t{found}" + standing({path: node for path, node in image.nodes.items() if not JOURNALS[side].is_own(path)})


def crashed(trees, side, pick):
    return {name: tree.crash(pick if name == side else 0) for name, tree in trees.items()}


# ---- histories


def is_others(root, path, node):
    """Whether others may put this node, or take away what stands: at no path of the program's own, and where a tree is left."""
    own = path in FIXED or path == BASE or path.startswith(BASE + b"/")
    return not own and is_tree({other: old for other, old in {**root.nodes, path: node}.items() if old is not None})


def event_word(kind, *rest):
    """An event as an argument: what it is made of, with a `|` between two."""
    if kind == "edit":
        return "edit|" + puts_term([rest])
    *stops, words, data = rest
    return "|".join([kind, *map(str, stops), argument(data), *map(argument, words)])


class Script:
    """The lines so far, with their answers, what they have set up, and how many cases there are of each name."""

    def __init__(self):
        self.lines, self.answers, self.cases, self.name = [], [], {}, ""

    def say(self, *fields, answer="ok"):
        self.lines.append("\t".join(map(str, fields)))
        self.answers.append(answer)

    # ---- what is set up

    def disks(self, edits=(), repo_edits=(), root_fails=0, repo_fails=0):
        """A root with `/`, `/var` and `/var/lib`, and a repository with `/` alone, and what the edits put. The calls of these numbers
        fail. A case of the script's name begins."""
        self.cases[self.name] = self.cases.get(self.name, 0) + 1
        self.trees = {"root": Tree(dict.fromkeys((b"/", b"/var", b"/var/lib"), DIR), failing=root_fails), "repo": Tree(failing=repo_fails)}
        self.streams = Streams()
        for side, some in (("root", edits), ("repo", repo_edits)):
            for path, node in some:
                self.trees[side].edit(path, node)
        self.say("disks", root_fails, repo_fails, *(tree_term(tree.nodes) for tree in self.trees.values()))
        return self

    def edit(self, side, edits):
        for path, node in edits:
            self.trees[side].edit(path, node)
        if edits:
            self.say(side, puts_term(edits))
        return self

    def input(self, data, most=2**32 - 1, fails=0):
        self.streams.data, self.streams.most, self.streams.input_fails = data, most, fails
        self.say("input", most, fails, argument(data))
        return self

    def sinks(self, out, err):
        self.streams.out_fails, self.streams.err_fails = out, err
        self.say("sinks", out, err)
        return self

    # ---- calls

    def called(self, words, trees):
        return Call(words, self.streams, trees["root"], trees["repo"])

    def run(self, *words):
        self.made = self.called(words, self.trees)
        self.say("run", *map(argument, words), answer=told(self.made) + both(self.trees))
        return self.made.out

    def line(self, *words):
        """A line by itself, with the input as its own."""
        streams = Streams()
        streams.data, streams.out_fails, streams.err_fails = self.streams.data, self.streams.out_fails, self.streams.err_fails
        self.made = by_files.Call(words, streams, self.trees["root"], self.trees["repo"])
        self.say("line", *map(argument, words), answer=str(self.made.status) + outputs(self.made) + both(self.trees))
        return self

    # ---- histories

    def called_with(self, words, data):
        """A call of a history, which has just this input; both outputs take all."""
        streams = Streams()
        streams.data = data
        return Call(words, streams, self.trees["root"], self.trees["repo"])

    def made_event(self, kind, *rest):
        """An event: `call` with words and an input; `stopped` with the calls of the repository and of the root after which these stop,
        and the number that picks the crash, before them; or `edit` with a path and a node. Gives the statuses of it, none of an edit."""
        if kind == "edit":
            path, node = rest
            if is_others(self.trees["root"], path, node):
                self.trees["root"].edit(path, node)
            return []
        *stops, words, data = rest
        if kind == "call":
            return [self.called_with(words, data).status]
        for side, calls in zip(("repo", "root"), stops):
            self.trees[side].left = calls
        self.called_with(words, data)
        self.trees = {side: tree.crash(stops[2]) for side, tree in self.trees.items()}
        return [255]

    def play(self, *events):
        """A history on the disks that stand: its statuses, and what stands then."""
        statuses = [status for event in events for status in self.made_event(*event)]
        self.say("play", *(event_word(*event) for event in events), answer=" ".join(["statuses", *map(str, statuses)]) + both(self.trees))
        return statuses

    def tally(self, status, lines, last, *words):
        """A call of which the status, the number of lines of its output and the last of them are written by hand."""
        self.say("tally", *map(argument, words), answer=f"{status} lines {lines}\t{last}")
        return self

    def fed(self, data, *words):
        """A call with this input."""
        self.input(data)
        return self.run(*words)

    def each(self, words, *inputs):
        """A call with each of these inputs. The words are a list, or a text with a blank between two."""
        for data in inputs:
            self.fed(data, *words_of(words))
        return self

    def installs(self, *manifests):
        return self.each(b"install", *manifests)

    def runs(self, *calls):
        for words in calls:
            self.run(*words_of(words))
        return self

    def last_call(self, side, words, kind, path):
        """The number of the last call of this kind at a path that these words would make of a disk."""
        trees = self.copies(side)
        self.called(words, trees)
        return max(number for number, call in enumerate(trees[side].made, 1) if call == (kind, path))

    def cut(self, side, calls, pick, *words):
        self.trees[side].left = calls
        answer = told(self.called(words, self.trees)) + recovered(side, self.trees[side].crash(pick))
        self.trees = crashed(self.trees, side, pick)
        self.say("cut", side, calls, pick, *map(argument, words), answer=answer)

    def cut_at(self, side, pick, more, kind, path, *words):
        """A call that is cut off behind its last call of this kind at a path, or so many calls later."""
        self.cut(side, self.last_call(side, words, kind, path) + more, pick, *words)

    def again(self, words, trees):
        return "\tagain " + told(self.called(words, trees)) + both(trees)

    def copies(self, side, failing=0):
        return {name: tree.copy(failing if name == side else 0) for name, tree in self.trees.items()}

    def failed(self, words, side, number, found):
        trees = self.copies(side, number)
        call, image = self.called(words, trees), trees[side].crash(0)
        text = told(call) + "\tleft" + standing(trees[side].nodes) + recovered(side, image)
        found.append(image.nodes)
        return call.status, text + self.again(words, trees)

    def sweep(self, fields, words, side, outcome):
        """The outcomes that differ from those before them, and the numbers from which on they come."""
        texts, numbers, number, status = [], [], 0, FAULTS[side]
        while status == FAULTS[side]:
            status, text = outcome(number)
            if texts[-1:] != [text]:
                texts.append(text)
                numbers.append(number)
            number += 1
        self.say(*fields, *map(argument, words), answer="\t".join(texts))
        self.say("from", answer=" ".join(["from", *map(str, numbers)]))

    def stops(self, side, pick, *words):
        self.all_stops(side, [pick], *words)

    def all_stops(self, side, picks, *words):
        """What these numbers pick behind each number of calls. Gives the nodes of the disk behind each recovery. What several picks share is made once."""
        found = []

        @functools.cache
        def cut_off(calls):
            trees = self.copies(side)
            trees[side].left = calls
            return self.called(words, trees), trees

        @functools.cache
        def again(*nodes):
            return self.again(words, {name: Tree(dict(some)) for name, some in zip(self.trees, nodes)})

        def stopped(calls):
            call, trees = cut_off(calls)
            image = trees[side].crash(pick)
            text = told(call) + recovered(side, image)
            found.append(image.nodes)
            return call.status, text + again(*(frozenset(tree.nodes.items()) for tree in crashed(trees, side, pick).values()))

        for pick in picks:
            self.sweep(["stops", side, pick], words, side, stopped)
        return found

    def faults(self, side, *words):
        """Each call failing once. Gives the nodes of the disk behind each recovery."""
        found = []
        self.sweep(["faults", side], words, side, lambda calls: self.failed(words, side, calls + 1, found))
        return found
