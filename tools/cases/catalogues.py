"""Lines of list_lines on a catalogue, on specifications and configuration files, and the answers.

The calls act on one catalogue, which is empty at first: the list of all troves that were added, which each look-up searches from end to end. What
specifications mean, what references reach, shadows and branches are those of tools/model/repository.py."""
import itertools
import re
import sys

from tools.cases.rows import Rows
from tools.lines.words import answered, digits, line, rows_of
from tools.model import repository
from tools.model.streams import regular, trove_bytes, trove_of
from tools.model.texts import flavor_of, flavor_text, id_of_text, id_text, version_of

LABEL = b"conary.example.com@ex:devel"
OTHER = b"conary.example.com@ex:stable"
OLD = b"conary.example.com@ex:old"


def on(label, revision):
    return b"/" + label + b"/" + revision


def named(name, version=on(LABEL, b"1.0-1-1"), flavor=b""):
    return name + b"=" + version + flavor


F255, F256, LINES = b"f" * 255, b"f" * 256, b"\n" * 65528
LONG_LABELS = {f"L{size}": b"h@n:" + b"t" * (size - 4) for size in range(240, 256)}
PATHS = {f"LABELS_{count}": b"installLabelPath " + b" ".join(b"a@b:c%d" % place for place in range(count)) for count in (63, 64, 65)}
TABLE = Rows("catalogues", globals(), LONG_LABELS, PATHS)
# The topics of worked cases, whose answers are written by hand.
WORKED = [topic for topic in TABLE.topics if "_" in topic]

# ---- what each call answers, and how a line has its arguments

def trove(text, contents, refs):
    """A trove with this id and these references, and a file of one byte for each content, whose name is twenty times a byte."""
    files = [(b"/%d" % place, regular(0o644, 0, 1, bytes([number] * 20))) for place, number in enumerate(contents)]
    identity = id_of_text(text)
    return trove_of(identity.name, identity.version, files, map(id_of_text, refs), flavor=identity.flavor)


def numbers_of(trove):
    return [b"%d" % record.name[0] for _, record in trove.files]


def shown(troves):
    """The last one."""
    return [b"ok", id_text(troves[-1].identity), b"%d" % len(troves[-1].files)] if troves else [b"none"]


class Answers:
    """The catalogue, and how many commits were counted."""

    def __init__(self):
        self.new()

    def new(self):
        self.commits, self.catalogue = 0, repository.Catalogue()
        return [b"ok"]

    def add(self, *given):
        one = trove(*given)
        if self.catalogue.find(one.identity):
            return [b"exists " + id_text(one.identity)]
        self.catalogue.add([one])
        return [b"ok"]

    def count_commit(self):
        self.commits += 1
        return [b"%d" % self.commits]

    def copy(self):
        return [b"ok"]

    def troves(self):
        return [b"%d" % self.commits, b"ok", *(id_text(one.identity) for one in self.catalogue.troves)]

    def find(self, text):
        return shown([one for one in self.catalogue.troves if one.identity == id_of_text(text)])

    def place_of(self, text):
        return [b"%d" % place for place, one in enumerate(self.catalogue.troves) if one.identity == id_of_text(text)] or [b"none"]

    def by_name(self, name):
        return [b"ok", *(b"%d" % place for place, one in enumerate(self.catalogue.troves) if one.identity.name == name)]

    def latest(self, name, text, asked):
        wanted = version_of(text, False)

        def fits(identity):
            version = version_of(identity.version, True)
            same_source = asked != b"source" or version.revision[1] == wanted.revision[1]
            return identity.name == name and (version.branch, version.revision[0]) == (wanted.branch, wanted.revision[0]) and same_source

        return shown([one for one in self.catalogue.troves if fits(one.identity)])

    def has_content(self, byte):
        return [b"yes" if any(b"%d" % byte in numbers_of(one) for one in self.catalogue.troves) else b"no"]

    def spec(self, text):
        spec = repository.spec_of(text)
        kind, *place = ("any",) if spec.place is None else spec.place
        return [b"ok", spec.name, kind.encode(), *place] + ([b"none"] if spec.flavor is None else [b"flavor", flavor_text(spec.flavor)])

    def config(self, data):
        config = repository.read_config(data)
        return [b"ok", b" ".join(config.labels), flavor_text(config.flavor)]

    def resolve(self, text, labels, flavor):
        return [id_text(repository.resolve(self.catalogue, repository.spec_of(text), repository.Config(labels, flavor_of(flavor))))]

    def expand(self, *roots):
        return [b"ok", *(id_text(one.identity) for one in repository.expand(self.catalogue, *map(id_of_text, roots)))]

    def moved(self, root, label, way):
        """What the root reaches, each version as a shadow on the label or as a branch onto it, and the references along."""
        ids = self.catalogue.ids()
        if any(ref not in ids for one in self.catalogue.troves for ref in one.refs):
            return [b"refers outside"]
        troves = repository.moved(self.catalogue, id_of_text(root), label, way)
        return [b"ok", *(b"|".join([id_text(one.identity), *numbers_of(one), *map(id_text, one.refs)]) for one in troves)]


def bytes_field(data):
    """Bytes in hexadecimal digits, so many of the first one as a repetition."""
    same = len(data) - len(data.lstrip(data[:1])) if data else 0
    return digits(data) if same < 100 else f"={same}*{digits(data[:1])}+{digits(data[same:])}"


FIELDS = {
    "spec": lambda text: [bytes_field(text) if text.startswith((b"=", b"0x")) else text],
    "add": lambda *given: [bytes_field(trove_bytes(trove(*given)))],
    "config": lambda data: [bytes_field(data)],
    "has_content": lambda byte: [b"=20*%02x" % byte],
    "expand": lambda *roots: [b";".join(roots)],
    "resolve": lambda text, labels, flavor: [text, b";".join(labels), flavor],
}


def line_of(call, *arguments):
    fields = FIELDS.get(call, lambda *given: given)(*arguments)
    return line(call, *fields)


# ---- the calls

def add(text, *refs):
    """A component has one content, every other trove references alone."""
    return "add", text, [97] if b":" in id_of_text(text).name else [], refs


def add_with(text, *contents):
    return "add", text, contents, ()


def id_text_of(text):
    """An id, which is at the first revision on the label where a row doesn't tell its version."""
    name, bracket, flavor = TABLE.bytes(text).partition(b"[")
    return (name if b"=" in name else named(name)) + bracket + flavor


def calls_of(row):
    """The calls of a row. Ids of which there are several have a blank between two, but those that are added and moved."""
    call, _, rest = row.partition(" ")
    fields = re.split(r" ?\| ?", rest)
    further = fields[-1].split() if fields[1:] else []
    match call:
        case "look_ups":
            yield from calls_in("look-ups")
        case "has_content":
            yield call, int(rest)
        case "add":
            yield add(id_text_of(fields[0]), *map(id_text_of, further))
        case "add_with":
            yield add_with(id_text_of(fields[0]), *map(int, further))
        case "expand":
            yield call, *map(id_text_of, rest.split())
        case "resolve":
            spec, labels, flavor = map(TABLE.bytes, fields)
            yield call, spec, labels.split(), flavor
        case "move":
            yield from move(id_text_of(fields[0]), *TABLE.lines(further))
        case "moved":
            text, label, way = rest.split(" ")
            yield call, id_text_of(text), TABLE.bytes(label), way
        case "config" | "spec":
            yield call, TABLE.bytes(rest)
        case _:
            yield call, *TABLE.lines(rest.split())


def calls_in(topic):
    return (call for row in TABLE.steps(rows_of(TABLE.topics, topic)) for call in calls_of(row))


def move(text, *labels):
    """Onto each label, as a shadow and as a branch."""
    return (("moved", text, label, way) for label in labels for way in ("shadow", "branch"))


def index_thousand_names():
    """1,000 troves of 100 names, and each look-up of them, which the model answers by a search of the whole list."""
    yield ("new",)
    ids = []
    for number in range(1000):
        version = on(LABEL if number // 100 % 3 else OTHER, b"1.%d-%d-%d" % (number // 500, number // 200 % 2 + 1, number // 200 + 1))
        ids.append(named(b"n%d:runtime" % (number % 100), version, b"[ssl]" if number // 100 % 2 else b""))
        yield add_with(ids[-1])
    yield from ((call, text) for text in ids for call in ("find", "place_of"))
    for name in (b"n%d:runtime" % number for number in range(101)):
        yield "by_name", name
        for label in (LABEL, OTHER):
            yield from (("latest", name, on(label, upstream + b"-1-1"), b"any") for upstream in (b"1.0", b"1.1"))
            yield from (("latest", name, on(label, b"1.0-" + source + b"-1"), b"source") for source in (b"1", b"2", b"3"))


def answered_rows(topic):
    """The call of each row of a worked case, and the answer."""
    for row in TABLE.topics[topic]:
        step, _, says = row.rpartition(" > ")
        yield next(calls_of(step)), TABLE.bytes(says)


# A newer version wins over a better score; of one version the flavor that fits is chosen. The refusals of specifications without a label, and of those
# that nothing resolves. Packages of three versions, groups that share them, a ring, a reference to nothing, a chain, and one name with two flavors. Moved
# troves are committed and moved again: their ids exist, and go on from branch to branch. A source's shadow has a source count of its own; a branch of it
# keeps it. At the limit of a version's text, and past it: the first that is too long, the label before, the existing id after.
TOPICS = (
    "index", "specifications", "configurations", "resolved", "resolutions", "packages that are expanded", "groups that are expanded",
    "a chain of groups", "expanded", "expansions", "many roots", "groups by chance, and what some of them reach", "a move of what isn't there", "moved",
    "moved at the limit of a version", "components by chance, and groups of them, of which some moved ids exist already", "what refers outside",
)  # fmt: skip


def calls():
    yield from itertools.chain.from_iterable(map(calls_in, TOPICS))
    yield from index_thousand_names()
    for topic in WORKED:
        yield ("new",)
        yield from (call for call, _ in answered_rows(topic))


def answer(answers, call, *arguments):
    found = answered(getattr(answers, call), *arguments)
    return found.encode() if isinstance(found, str) else b"\t".join(found)


def lines():
    """Each call with its arguments, and its answer; those of the worked cases are the ones written by hand."""
    for name in WORKED:
        answers = Answers()
        for call, wanted in answered_rows(name):
            found = answer(answers, *call)
            if found != wanted:
                sys.exit(f"{name}: {found!r} and not {wanted!r}")
    answers = Answers()
    yield from ((line_of(*call), answer(answers, *call).decode()) for call in calls())
