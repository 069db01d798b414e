"""The rows of tables, plain text files beside this one, and what stands in them: bytes, nodes, records, troves, manifests, and steps of a
script (tools/lines/script.py)."""
import itertools
import pathlib
import re
from collections import ChainMap
from urllib.parse import unquote_to_bytes

from tools.lines.words import rows_of, spelled
from tools.model import repository
from tools.model.program import manifest_of
from tools.model.relatives import relative_of
from tools.model.streams import (
    ChangeSet, Id, Owner, Trove, directory, file_of, flags_of_letters, item, link, set_bytes, sha, str_field, trove_bytes,
    trove_of,
)  # fmt: skip
from tools.model.trees import DIR, Tree

LABEL, STABLE = b"conary.example.com@ex:devel", b"conary.example.com@ex:stable"
MODES = {"dir": 0o755, "file": 0o644}


def table(name):
    """The rows of tools/cases/NAME.txt by topic: a line `# TOPIC` begins a topic, each other line that isn't blank is a row."""
    rows, topic = {}, ""
    for line in (pathlib.Path(__file__).parent / f"{name}.txt").read_text(encoding="utf-8").split("\n"):
        if line.startswith("# "):
            topic = line[2:]
        elif line:
            rows.setdefault(topic, []).append(line)
    return rows


# Two contents of 320 bytes with one SHA-1.
ONE, OTHER = map(bytes.fromhex, rows_of(table("manifests"), "two contents of 320 bytes with one SHA-1"))
CONTENTS = {"-": b"", "ONE": ONE, "OTHER": OTHER, "NO_DIRECTORY": b"no directory"}


def content(text):
    """One of these, or bytes of pieces; where one of them isn't plain, `%` and two digits stand for a byte."""
    return CONTENTS[text] if text in CONTENTS else unquote_to_bytes(text) if "%" in text else spelled(text)


def unescaped(text):
    return unquote_to_bytes(text).decode("unicode_escape").encode("latin-1")


def flipped(data, place):
    """The bytes, one of them with another lowest bit."""
    return data[:place] + bytes([data[place] ^ 1]) + data[place + 1 :]


def from_hex(text):
    return bytes.fromhex(text.strip("-"))


def choices(text):
    """The texts of one with choices in braces, a `;` between two: to each choice of the first brace all of those behind it."""
    front, brace, rest = text.partition("{")
    some, _, rest = rest.partition("}")
    return [front + one + more for one in some.split(";") for more in choices(rest)] if brace else [text]


def repeated(text):
    """Between backticks a byte stands so many times."""
    return re.sub(r"`(\d+)\*(%..|.)`", lambda found: int(found[1]) * found[2], text)


def id_of(text):
    """`NAME=VERSION[FLAVOR]`; a version without labels is one on LABEL."""
    name, version, flavor = re.fullmatch(r"(.*?)=([^\[]*)(?:\[(.*)\])?", text).groups("")
    return Id(name.encode(), (b"" if version.startswith("/") else b"/" + LABEL + b"/") + version.encode(), flavor.encode())


def recorded(node, flags=""):
    """The record of what stands."""
    kind, *rest = node
    if kind == "file":
        return file_of(rest[1], rest[0], flags_of_letters(flags))
    return directory(*rest) if kind == "dir" else link(*rest)


def manifest(name, revision, lines=(), first=b"manifest 1", label=b"/" + LABEL):
    """A manifest of this name at this revision, with further lines."""
    kind = b"component" if b":" in name else b"group" if name.startswith(b"group-") else b"package"
    return b"".join(line + b"\n" for line in (first, kind + b" " + name, b"version " + label + b"/" + revision, *lines, b"end"))


def at(name, revision, label=b"/" + LABEL):
    return name + b"=" + label + b"/" + revision


def component(name, revision, files=(), flavor=b""):
    return Trove(Id(name, b"/" + LABEL + b"/" + revision, flavor), list(files), [], [], [])


def group(name, revision, refs):
    return Trove(Id(name, b"/" + LABEL + b"/" + revision, b""), [], sorted(refs), [], [])


def committed(*changes):
    """The nodes of a repository with these commits."""
    tree = Tree()
    for change in changes:
        repository.commit(tree, repository.load(tree), change)
    return sorted((path, node) for path, node in tree.nodes.items() if path != b"/")


def cooked(*manifests):
    return committed(*(ChangeSet(*manifest_of(data)) for data in manifests))


def batch(*lines):
    """A batch of lines: words, or words with an input."""
    pairs = (one if isinstance(one, tuple) else (one, None) for one in lines)
    return b"".join(words + b"\n" if data is None else b"%s <%d\n%s\n" % (words, len(data), data) for words, data in pairs)


class Rows:
    """A table, and what its rows name: the texts, manifests, troves and nodes of these topics, and values of modules, also those that a
    module has for its rows alone. In bytes `%` and two digits are a byte, and an escape is what it is in Python; `{NAME}` is such a value, `{NAME:9}`
    the first 9 bytes of it, `{flip 9 NAME}` all of it with another 9th byte, `{NONE}` none; `{9*a}` a text so many times, `{byte 9}` a byte by its number, `{sha abc}` the SHA-1 of a
    text, `{full V1}` and `{compact V1}` the stream of a trove, `{set V1 V2: abc abcd}` the change set of these parts and contents; `{04:` and `}` stand around the value of an item of this tag, `{str:` and `}` around a text behind its length. `data` reads
    the bytes of files."""

    def __init__(self, name, *modules, data=None):
        self.topics, self.names, self.data = table(name), ChainMap({"NONE": b"", "nothing": []}, *modules), data or self.word
        kinds = ("texts", self.bytes), ("manifests", self.manifest), ("troves", self.trove), ("relative troves", self.relative), ("nodes", self.nodes)
        for topic, made in (*kinds, ("named batches", self.batch)):
            for key, *fields in self.fields(topic):
                self.names[key] = made(*fields)

    def rows(self, kind=None):
        """The rows of the topics of this kind, which stands alone or before a colon, or of all: those for each choice that a topic gives
        for `$X`, and for each of their own. What the topic `words` has stands for more, each word before those in it."""
        found = []
        for topic, some in self.topics.items():
            title, _, each = topic.partition(", each $X of ")
            if topic != "words" and kind in (None, title.partition(": ")[0]):
                found += [text for one in choices(each) for row in some for text in choices(row.replace("$X", one))]
        for word in self.topics.get("words", []):
            found = [text.replace(*word.split(" = ", 1)) for text in found]
        return found

    def fields(self, topic):
        """The fields of each row, with `|` between two."""
        return [re.split(r" ?\| ?", row) for row in rows_of(self.topics, topic)]

    def named(self, text):
        """The values of these names."""
        return [self.names[name] for name in text.split()]

    def bytes(self, text):
        return self.spelled(iter(re.findall(r"\{(?:[0-9a-f]{2}|str):|\{[^{}]*\}|[^{}]+|[{}]", text)))

    def spelled(self, signs):
        """The bytes that these signs spell, up to the sign that ends an item or a text, if they are in one."""
        made = b""
        for sign in signs:
            if sign == "}":
                break
            if sign.startswith("{"):
                tag, is_of = sign[1:-1], self.spelled(signs) if sign.endswith(":") else None
                part = self.value(tag) if is_of is None else str_field(is_of) if tag == "str" else item(int(tag, 16), is_of)
                made = made + part if made else part
            else:
                made += unescaped(sign)
        return made

    def value(self, text):
        """What stands in braces."""
        word, _, rest = text.partition(" ")
        if word == "byte":
            return bytes([int(rest)])
        if word == "sha":
            return sha(unescaped(rest))
        if word in ("full", "compact"):
            return trove_bytes(self.names[rest], word == "full")
        if flips := re.fullmatch(r"flip(?: |%20)(\d+)(?: |%20)(\w+)", text):
            return flipped(self.names[flips[2]], int(flips[1]))
        if word == "set":
            parts, _, contents = rest.partition(":")
            return set_bytes(self.named(parts), sorted((sha(data), data) for data in map(unescaped, contents.split())))
        if repeats := re.fullmatch(r"(\d+)\*(.*)", text):
            return int(repeats[1]) * unescaped(repeats[2])
        name, _, size = text.partition(":")
        return self.names[name][: int(size)] if size else self.names[name]

    def word(self, text):
        """Bytes, `-` for none."""
        return b"" if text == "-" else self.bytes(text)

    def lines(self, texts):
        return list(map(self.bytes, texts))

    def all_bytes(self, topic):
        return self.lines(self.topics[topic])

    def all_words(self, topic):
        return [self.lines(row.split(" ")) for row in self.topics[topic]]

    def by_hand(self, topic):
        """Bytes that are written by hand in hexadecimal digits."""
        return bytes.fromhex(" ".join(self.topics[topic]))

    def manifest(self, name, revision, *lines):
        return manifest(self.bytes(name), self.bytes(revision), self.lines(lines))

    def parsed(self, text):
        """A node, and the words behind it: `nothing`, `dir`, `file DATA`, `link TARGET` or `staged NUMBER SIZE SHA-1`; a mode of four
        digits stands behind the kind where it isn't 0755 of a directory or 0644 of a file."""
        kind, *words = text.split(" ")
        if kind in ("nothing", "link"):
            return (None, words) if kind == "nothing" else ((kind, self.word(words[0])), words[1:])
        mode = int(words.pop(0), 8) if words and re.fullmatch("[0-7]{4}", words[0]) else MODES[kind]
        if kind == "staged":
            return (kind, mode, int(words[0]), int(words[1]), bytes.fromhex(words[2])), words[3:]
        return ((kind, mode), words) if kind == "dir" else ((kind, mode, self.data(words[0])), words[1:])

    def node(self, text):
        return self.parsed(text)[0]

    def record(self, text):
        """What is recorded: a node, and behind it an owner, flags by letters, or another size than that of the data."""
        node, more = self.parsed(text)
        made = node and recorded(node)
        for word in more:
            if word.isdigit():
                made = made._replace(size=int(word))
            elif ":" in word:
                made = made._replace(owner=Owner(*word.encode().split(b":")))
            else:
                made = made._replace(flags=flags_of_letters(word))
        return made

    def file(self, text):
        """A path, and the record before it."""
        record, _, path = text.rpartition(" ")
        return self.word(path), self.record(record)

    def nodes(self, text, made=None):
        """Pairs of a path and the node before it, with `;` between two, or what else is made of its words. A name is that of such pairs, or
        of their text, and `-/a` leaves that path out. Or the nodes of a repository in which manifests of these names were cooked, or troves
        committed, with ` & ` between two commits."""
        if text.startswith("cooked "):
            return cooked(*self.named(text.removeprefix("cooked ")))
        if text.startswith("committed "):
            return committed(*(ChangeSet(self.troves(one), []) for one in text.removeprefix("committed ").split(" & ")))
        made, found = made or self.node, []
        for part in filter(None, map(str.strip, text.split(";"))):
            words, _, path = part.rpartition(" ")
            if words:
                found.append((self.word(path), made(words)))
            elif path.startswith("-"):
                found = [pair for pair in found if pair[0] != self.word(path[1:])]
            else:
                found += self.nodes(self.names[path], made) if isinstance(self.names[path], str) else self.names[path]
        return found

    def tree(self, text):
        """The nodes of a tree, with `/` of mode 0755."""
        return {path: node for path, node in {b"/": DIR, **dict(self.nodes(text))}.items() if node is not None}

    def split_steps(self, topic):
        """The fields of each step, with `|` between two."""
        return (re.split(r" ?\| ?", step) for step in self.steps(rows_of(self.topics, topic)))

    def all_nodes(self, topic):
        return list(map(self.node, self.topics[topic]))

    def trove(self, text):
        """An id, and behind `has` with a comma between two, files, references (`ref ID`), requirements and what is provided."""
        head, _, parts = repeated(text).partition(" has ")
        name, version, flavor = id_of(self.bytes(head).decode())
        files, lists = [], {"ref": [], "requires": [], "provides": []}
        for part in filter(None, parts.split(", ")):
            word, _, rest = part.partition(" ")
            if word in lists:
                lists[word].append(id_of(self.bytes(rest).decode()) if word == "ref" else self.word(rest))
            else:
                files.append(self.file(part))
        return trove_of(name, version, files, *lists.values(), flavor)

    def relative(self, old, new):
        return relative_of(self.names[old], self.names[new])

    def troves(self, text):
        """Troves with ` + ` between two."""
        return [self.trove(one) for one in text.split(" + ") if one]

    def call(self, text):
        """The words of a call, and the input behind `<`, if there is one; `run` is one without words."""
        words, is_fed, data = text.partition(" < ")
        return [] if words == "run" else self.lines(words.split(" ")), self.bytes(data) if is_fed else None

    def batch(self, text):
        """A batch of lines with ` & ` between two."""
        return batch(*((b" ".join(words), data) for words, data in map(self.call, filter(None, text.split(" & ")))))

    def event(self, text):
        """An event of Script.play: an edit, or a call, which `stop` and three numbers stand before where it is stopped."""
        verb, _, rest = text.partition(" ")
        if verb == "edit":
            return verb, *self.nodes(rest)[0]
        *stops, call = rest.split(" ", 3) if verb == "stop" else [text]
        words, data = self.call(call)
        return "stopped" if stops else "call", *map(int, stops), words, data or b""

    def say(self, script, row):
        """A step: `disks` with what is put into the root and into the repository, and the calls of them that fail; an edit of the root; an
        input, of which a call takes so many bytes and of which a call fails; the sinks that fail; a call of the program that is cut off
        behind a call of a disk, or behind each of them, or of which each call of a disk fails; a history; a line by itself, or lines as a batch;
        or a call, after which WRITTEN is what it wrote."""
        verb, _, rest = row.partition(" ")
        match verb:
            case "disks":
                edits, repo_edits, fails, *_ = re.split(r" ?\| ?", rest + "||")
                script.disks(self.nodes(edits), self.nodes(repo_edits), *map(int, fails.split()))
            case "edit":
                script.edit("root", self.nodes(rest))
            case "input":
                most, fails, data = rest.split(" ", 2)
                script.input(self.bytes(data), 2**32 - 1 if most == "all" else int(most), int(fails))
            case "sinks":
                script.sinks(*map(int, rest.split()))
            case "stops":
                side, pick, *words = rest.split(" ")
                script.stops(side, int(pick), *self.lines(words))
            case "cut":
                side, pick, more, kind, path, *words = rest.split(" ")
                script.cut_at(side, int(pick), int(more), kind.replace("_", " "), self.bytes(path), *self.lines(words))
            case "faults":
                side, *words = rest.split(" ")
                script.faults(side, *self.lines(words))
            case "play":
                script.play(*map(self.event, rest.split(" & ")))
            case "line":
                script.line(*self.lines(rest.split()))
            case "lines":
                script.fed(self.batch(rest), b"batch")
            case _:
                words, data = self.call(row)
                if data is not None:
                    script.input(data)
                self.names["WRITTEN"] = script.run(*words)

    def say_all(self, script, topic):
        self.say_rows(script, rows_of(self.topics, topic))

    def say_rows(self, script, rows):
        for step in self.steps(rows):
            self.say(script, step)

    def steps(self, rows):
        """The steps of rows, of which each may have several, with ` // ` between two. Those that stand farther in behind `for $X in A; B`, `for $X of
        TOPIC; TOPIC` or `for $X range 9` come for each of these texts, rows of topics or numbers; of `for $X | $Y` each has so many fields."""
        while rows:
            row, *rows = rows
            if not (found := re.fullmatch(r"( *)for ([$\w |]+?) (in|of|range) (.*)", row)):
                yield from filter(None, row.lstrip(" ").split(" // "))
                continue
            inside = list(itertools.takewhile(lambda one: one.startswith(found[1] + "  "), rows))
            rows, names = rows[len(inside) :], found[2].split(" | ")
            for one in self.each(found[3], found[4]):
                text = "\n".join(inside)
                for name, value in zip(names, re.split(r" ?\| ?", one) if len(names) > 1 else [one], strict=True):
                    text = text.replace(name, value)
                yield from self.steps(text.split("\n"))

    def each(self, how, some):
        """What a row of `for` is about."""
        if how == "range":
            return map(str, range(*map(int, some.split())))
        texts = re.split("; ?", some)
        return texts if how == "in" else [row for topic in texts for row in rows_of(self.topics, topic)]
