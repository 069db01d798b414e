"""A model of a repository on a disk, made from docs/FORMATS.md alone: its commits and contents read and written, which troves a
specification means, what references reach, shadows and branches of that, and the tests of a commit. Nothing is shared with the program.
"""
from collections import namedtuple

from tools.model import texts
from tools.model.relatives import applied, check_allowed, contents_to_send, relative_of
from tools.model.streams import (
    ChangeSet, NotOfForm, Relative, difference, forbidden_path, id_text, inner_items, item, items, need, read_trove, sha, trove_bytes,
)
from tools.model.trees import Damaged, Journal, Refused, clear, is_of, is_read, make_dir, read_whole

BASE = b"/conaryrepo"
CONTENTS = BASE + b"/c"
JOURNAL = Journal(BASE)
MAGIC = b"CNYKM01\n"


def commit_path(number):
    return BASE + b"/k.%d" % number


def content_path(name):
    return CONTENTS + b"/" + name.hex().encode()


def commit_bytes(troves):
    return MAGIC + items(0x40, map(trove_bytes, troves)) + item(0x4F, b"")


# ---- what is read

def sizes_in(troves, name):
    """The sizes that troves record of a content's name."""
    return {record.size for trove in troves for _, record in trove.files if record.kind == "f" and record.name == name}


def read_troves(tree, number):
    """The troves of a commit's file; none where nothing stands at its name."""
    path = commit_path(number)
    node = tree.look(path)
    if node is None:
        return None
    if not is_of(node, "file"):
        raise Damaged(path)
    if not is_read(tree, path, MAGIC, b"\x40\x4f"):
        raise Damaged(path)
    text = read_whole(tree, path)
    try:
        need(text.startswith(MAGIC))
        found = inner_items(text[len(MAGIC) :])
        need(len(found) > 1 and found[-1] == (0x4F, b"") and all(tag == 0x40 for tag, _ in found[:-1]))
        return [read_trove(value) for _, value in found[:-1]]
    except NotOfForm:
        raise Damaged(path) from None


class Catalogue:
    """The commits of a repository."""

    def __init__(self):
        self.commits, self.troves = [], []

    def add(self, troves):
        self.commits.append(troves)
        self.troves += troves

    def ids(self):
        return {trove.identity for trove in self.troves}

    def find(self, identity):
        return next((trove for trove in self.troves if trove.identity == identity), None)

    def sizes(self, name):
        return sizes_in(self.troves, name)


def load(tree):
    """The catalogue of a disk that is recovered, or the first damaged file."""
    found, ids = Catalogue(), set()
    while (troves := read_troves(tree, len(found.commits) + 1)) is not None:
        for trove in troves:
            if forbidden_path(trove) is not None or trove.identity in ids:
                raise Damaged(commit_path(len(found.commits) + 1))
            ids.add(trove.identity)
        found.add(troves)
    for number, troves in enumerate(found.commits, 1):
        if any(ref not in ids for trove in troves for ref in trove.refs):
            raise Damaged(commit_path(number))
    return found


def content(tree, sizes, name, is_sound=True):
    """The content of a name that is recorded with these sizes."""
    path = content_path(name)
    node = tree.look(path)
    # One of another size isn't read.
    if not is_of(node, "file") or len(node[2]) not in sizes:
        raise Damaged(path)
    data = read_whole(tree, path)
    if sha(data) != name or not is_sound:
        raise Damaged(path)
    return data


def content_of(tree, catalogue, name):
    """The content of a name; none where no committed trove records it."""
    sizes = catalogue.sizes(name)
    return content(tree, sizes, name) if sizes else None


# ---- specifications

Config = namedtuple("Config", "labels flavor")
Spec = namedtuple("Spec", "name place flavor text")


def spec_of(text):
    """The name; nothing, a label or a version; the flavor in brackets, if there are any."""
    front, bracket, flavor = text.partition(b"[")
    texts.need(not bracket or flavor.endswith(b"]"))
    name, equals, place = front.partition(b"=")
    texts.name_kind(name)
    if not equals:
        place = None
    elif place.startswith(b"/"):
        place = ("version", texts.version_of(place, False).text)
    else:
        place = ("label", texts.label_text(texts.label_of(place, None)))
    return Spec(name, place, texts.flavor_of(flavor[:-1]) if bracket else None, text)


def read_config(data):
    """What the lines of a configuration set, up to the first that begins with a bracket."""
    labels, flavor = [], texts.flavor_of(b"")
    if len(data) > 65_536:
        raise Refused(b"too large: config %d" % len(data))
    for number, line in enumerate(data.split(b"\n"), 1):
        line = (line[:-1] if line.endswith(b"\r") else line).strip(b" \t")
        if line.startswith(b"["):
            break
        words = line.replace(b"\t", b" ").split(b" ", 1)
        value = words[1].strip(b" ") if len(words) > 1 else b""
        try:
            if words[0] == b"installLabelPath":
                labels = [texts.label_text(texts.label_of(word, None)) for word in value.split(b" ") if word]
                texts.need(len(labels) <= 64)
            elif words[0] == b"flavor":
                flavor = texts.flavor_of(value)
        except texts.NotOfForm:
            raise Refused(b"bad config line %d" % number) from None
    return Config(labels, flavor)


def version(identity):
    return texts.version_of(identity.version, True)


def chosen(catalogue, spec, config, fits):
    """Of the candidates whose version fits, the last gives the version; of that the best score, then the least flavor."""
    system = config.flavor if spec.flavor is None else spec.flavor
    found = []
    for trove in catalogue.troves:
        score = texts.score(texts.flavor_of(trove.identity.flavor), system)
        if trove.identity.name == spec.name and fits(version(trove.identity)) and score is not None:
            found.append((trove.identity, score))
    same = [(one, score) for one, score in found if one.version == found[-1][0].version]
    return min(same, key=lambda pair: (-pair[1], pair[0].flavor))[0] if same else None


def resolve(catalogue, spec, config):
    """The id that a specification means."""
    if spec.place is None and not config.labels:
        raise Refused(b"no label")
    if spec.place is None:
        tests = [lambda v, label=label: v.label == label for label in config.labels]
    elif spec.place[0] == "label":
        tests = [lambda v: v.label == spec.place[1]]
    else:
        tests = [lambda v: v.text == spec.place[1]]
    for fits in tests:
        found = chosen(catalogue, spec, config, fits)
        if found is not None:
            return found
    raise Refused(b"missing trove " + spec.text)


def expand(catalogue, *roots):
    """The troves that roots reach by references, each once, in the order of ids."""
    reached = set(roots)
    while (more := reached | {ref for trove in catalogue.troves if trove.identity in reached for ref in trove.refs}) != reached:
        reached = more
    found = sorted(trove for trove in catalogue.troves if trove.identity in reached)
    for before, after in zip(found, found[1:]):
        if before.identity.name == after.identity.name:
            raise Refused(b"exists " + id_text(after.identity))
    return found


def renamed(troves, fresh):
    """The troves with the ids that come in place of theirs, and the references to each other along."""
    return [trove._replace(identity=fresh[trove.identity], refs=sorted(fresh.get(ref, ref) for ref in trove.refs)) for trove in troves]


def moved(catalogue, root, label, way):
    """What a root reaches, each version as a shadow on the label or as a branch onto it, and the references along."""
    found = expand(catalogue, root)
    if any(version(trove.identity).label == label for trove in found):
        raise Refused(b"same label " + label)
    move = {"shadow": texts.shadow_of, "branch": texts.branch_of}[way]
    fresh = {trove.identity: trove.identity._replace(version=move(version(trove.identity), label).text) for trove in found}
    for one in fresh.values():
        if len(one.version) > 512:
            raise Refused(b"too large: version %d" % len(one.version))
    for one in fresh.values():
        if catalogue.find(one) is not None:
            raise Refused(b"exists " + id_text(one))
    return renamed(found, fresh)


def between(tree, catalogue, old, new):
    """The change set that leads from the one list of troves to the other."""
    was = {trove.identity.name: trove for trove in old}
    parts, names = [], set()
    for trove in new:
        base = was.get(trove.identity.name)
        if base is not None and base.identity == trove.identity:
            continue
        parts.append(trove if base is None else relative_of(base, trove))
        names |= set(contents_to_send(base, trove))
    # Of two records with different sizes no content can be sent for both.
    sizes = {name: sizes_in(new, name) for name in sorted(names)}
    return ChangeSet(parts, [(name, content(tree, some, name, len(some) == 1)) for name, some in sizes.items()])


def next_revised(catalogue, troves):
    """The troves with the next revision of the first one's name on its branch, and the references to each other along."""
    own = version(troves[0].identity)
    upstream, source, build = own.revision
    latest = None
    for trove in catalogue.troves:
        other = version(trove.identity)
        alike = (other.branch, other.revision[0]) == (own.branch, upstream) and (build is None or other.revision[1] == source)
        if trove.identity.name == troves[0].identity.name and alike:
            latest = other.revision
    answer = texts.next_answer(own.revision, own.depth, latest)
    if answer[0].startswith(b"too large"):
        raise Refused(answer[0])
    text = own.branch + b"/" + b"-".join(part for part in answer[1:] if part != b"none")
    if len(text) > 512:
        raise Refused(b"too large: version %d" % len(text))
    return renamed(troves, {trove.identity: trove.identity._replace(version=text) for trove in troves})


# ---- a commit

def troves_of(catalogue, parts):
    """The troves that the parts make: part by part its base, its id and its paths are tested."""
    made = []
    for part in parts:
        trove = part
        if isinstance(part, Relative):
            base = catalogue.find(part.old)
            trove = None if base is None else applied(base, part)
        if trove is None:
            raise Refused(b"missing base " + id_text(part.old))
        if catalogue.find(trove.identity) is not None or any(one.identity == trove.identity for one in made):
            raise Refused(b"exists " + id_text(trove.identity))
        check_allowed(trove)
        made.append(trove)
    return made


def test_contents(tree, catalogue, troves, contents):
    carried = {(name, len(data)) for name, data in contents}
    for trove in troves:
        for _, record in trove.files:
            if record.kind == "f" and (record.name, record.size) not in carried and record.size not in catalogue.sizes(record.name):
                raise Refused(b"missing content " + record.name.hex().encode())
    for name, data in contents:
        committed = content_of(tree, catalogue, name)
        if committed not in (None, data):
            raise Refused(b"collision %s at %d" % (name.hex().encode(), difference(committed, data)))


def commit(tree, catalogue, change):
    """Commits the troves of a change set, adds them to the catalogue, and answers their ids."""
    troves = troves_of(catalogue, change.parts)
    if not troves:
        return []
    ids = catalogue.ids() | {trove.identity for trove in troves}
    for ref in (ref for trove in troves for ref in trove.refs):
        if ref not in ids:
            raise Refused(b"missing ref " + id_text(ref))
    test_contents(tree, catalogue, troves, change.contents)
    make_dir(tree, BASE)
    make_dir(tree, CONTENTS)
    for name, data in change.contents:
        if not catalogue.sizes(name):
            clear(tree, content_path(name))
            tree.look(content_path(name))
            tree.append(content_path(name), data)
    number = len(catalogue.commits) + 1
    clear(tree, commit_path(number + 1))
    JOURNAL.apply(tree, [(commit_path(number), ("file", 0o644, commit_bytes(troves)))])
    catalogue.add(troves)
    return [trove.identity for trove in troves]
