"""What the calls of the program stream_lines have to answer, by name.

The answers come from tools/model/streams.py, tools/model/relatives.py, tools/model/manifests.py, tools/model/batches.py and tools/model/demo.py,
which are made from docs/FORMATS.md alone, and the texts of refusals from docs/COMMANDS.md; nothing is shared with the program."""
from functools import partial
from operator import itemgetter

from tools.cases.rows import table
from tools.lines.words import yes_or_no
from tools.model import manifests, relatives, streams
from tools.model.batches import lines_of, read_batch
from tools.model.relatives import Refused
from tools.model.streams import (
    TAGS, Fault, NotOfForm, Owner, Relative, Trove, directory, flag_letters, flags_of_letters, id_bytes, id_of_text, id_text, inner_items,
    is_owner, item, items, link, need, number, read_dependency, read_file, read_id, check_path, read_record, read_relative, read_set,
    read_trove, record_bytes, regular, relative_bytes, rises, set_bytes, sha, trove_bytes,
)

# So many elements of a list are shown; more bytes than these are told by their number and their SHA-1: of a stream, of items, of a text.
SHOWN, MOST_OF_STREAM, MOST_OF_ITEMS, MOST_OF_TEXT = 8, 400, 500, 1_000


# ---- answers as texts

def fields(*texts):
    return "\t".join(texts)


def digest(text):
    return f"{len(text)} {sha(text).hex()}"


def short(text, most=MOST_OF_STREAM, spelled=bytes.hex):
    return digest(text) if len(text) > most else spelled(text)


def on_a_line(text):
    return short(text, MOST_OF_TEXT, lambda text: text.decode().replace("\n", "|"))


def written(again, text):
    return "same" if again == text else (b"x" + again).hex()


def shown(elements):
    """The number of the elements, and the first of them."""
    return "; ".join([str(len(elements)), *(one.decode() for one in elements[:SHOWN])])


def record_text(record):
    owner = b" ".join(record.owner).decode()
    if record.kind == "d":
        return f"dir {record.mode:04o} {owner}"
    if record.kind == "f":
        return f"file {record.mode:04o} {owner} {flag_letters(record.flags)} {record.size} {record.name.hex()}"
    return f"link {record.target.decode()}"


def files_text(files):
    return shown([path + b" " + record_text(record).encode() for path, record in files])


def refs_text(refs):
    return shown([id_text(ref) for ref in refs])


def trove_text(trove):
    lists = files_text(trove.files), refs_text(trove.refs), shown(trove.requires), shown(trove.provides)
    return fields(id_text(trove.identity).decode(), *lists)


def relative_text(relative):
    tell = {0x24: files_text, 0x25: refs_text, 0x26: refs_text}
    ids = id_text(relative.old).decode(), id_text(relative.new).decode()
    return fields(*ids, *(tell.get(tag, shown)(relative.lists[tag]) for tag in TAGS))


# ---- calls on items

def written_items(front, *steps):
    """What stands behind the front once items are put, begun and ended. One that is begun holds what comes up to its end;
    where its value failed, nothing of it stands."""
    # The tag of each item that isn't ended yet, and what stands before it.
    open_items, text, notes = [], front, ""
    for step in steps:
        kind, rest = step[:1], step[1:]
        if kind == b"p":
            text += item(rest[0], rest[1:])
        elif kind == b"b":
            text += rest
        elif kind == b"o":
            # Each item around it has a head of five bytes too.
            notes += f"{sum(len(before) + 5 for _, before in open_items) + len(text)} tag {rest[0]}; "
            open_items.append((rest[0], text))
            text = b""
        else:
            tag, before = open_items.pop()
            text = before + (item(tag, text) if kind == b"c" else b"")
            notes += "ok; " if kind == b"c" else "memory; "
    assert open_items == []
    return fields(short(text, MOST_OF_ITEMS), notes)


def next_item(text, at, tags):
    try:
        return "tag {} from {} to {}".format(*streams.next_item(text, int(at), tags))
    except streams.FaultAt as fault:
        return f"fault at {fault.args[0]}"


# ---- calls on records

def with_file_id(record):
    return fields(record_text(record), sha(record_bytes(record)).hex())


def make_record(kind, mode, *rest):
    owner = rest[:2]
    need(kind == b"link" or is_owner(owner))
    if kind == b"file":
        flags, size, name = rest[2:]
        found = regular(int(mode, 8), flags_of_letters(flags.decode()), int(size), bytes.fromhex(name.decode()), Owner(*owner))
    else:
        found = directory(int(mode, 8), Owner(*owner)) if kind == b"dir" else link(mode)
    return fields(with_file_id(found), record_bytes(found).hex(), record_bytes(found, True).hex())


def owner(*words):
    need(is_owner(words))
    return fields(*(word.decode() for word in words), yes_or_no(words == streams.ROOT))


# ---- calls on lists

first = itemgetter(0)
# How the elements of a list are read, by what they rise, and how they are shown and spelled.
LISTS = {
    "files": (read_file, first, files_text, streams.file_value),
    "files_full": (partial(read_file, full=True), first, files_text, partial(streams.file_value, full=True)),
    "refs": (read_id, tuple, refs_text, id_bytes),
    "deps": (read_dependency, bytes, shown, bytes),
    "paths": (check_path, bytes, shown, bytes),
}


def item_at(text, at, tag):
    """The value of an item of a tag at a place, and where it ends."""
    need(len(text) >= at + 5 and text[at] == tag[0])
    end = at + 5 + number(text[at + 1 : at + 5])
    need(len(text) >= end)
    return text[at + 5 : end], end


def take(name, text, at, tag, limit=None):
    """The elements of all items of a tag from a place on, as many as the limit at most, if there is one."""
    read, key, show, spell = LISTS[name]
    at, end, found = int(at), int(at), []
    while end < len(text) and text[end] == tag[0]:
        value, end = item_at(text, end, tag)
        found.append(read(value))
        need(rises([key(one) for one in found[-2:]]))
    need(limit is None or len(found) <= int(limit))
    return fields(str(end), show(found), written(items(tag[0], map(spell, found)), text[at:end]))


def id_item(text, at, tag):
    value, end = item_at(text, int(at), tag)
    found = read_id(value)
    return fields(str(end), id_text(found).decode(), written(item(tag[0], id_bytes(found)), text[int(at) : end]))


def elements(text, tag, read):
    """The elements of items of a tag, in the order given."""
    found = inner_items(text)
    assert all(one == tag for one, _ in found)
    return [read(value) for _, value in found]


def all_elements(tags, lists, *readers):
    return {tag: elements(text, tag, read) for tag, text, read in zip(tags, lists, readers)}


def are(name, tag, text):
    read, key, *_ = LISTS[name]
    return yes_or_no(rises([key(one) for one in elements(text, tag, read)]))


# ---- calls on troves and relative troves

def both_digests(spell, found):
    """Of the compact and the explicit stream behind a byte."""
    return digest(b"x" + spell(found)), digest(b"x" + spell(found, True))


def make_trove(identity, *lists):
    read = all_elements((4, 5, 6, 7), lists, read_file, read_id, read_dependency, read_dependency)
    found = streams.check_trove(Trove(id_of_text(identity), *read.values()))
    return fields(trove_text(found), *both_digests(trove_bytes, found))


def check(text):
    path = streams.forbidden_path(read_trove(text))
    return "ok" if path is None else f"reserved {path.decode()}"


def make_relative(old, new, *lists):
    read = all_elements(TAGS, lists, check_path, read_file, read_id, read_id, *[read_dependency] * 4)
    found = streams.check_relative(Relative(id_of_text(old), id_of_text(new), read))
    return fields(relative_text(found), *both_digests(relative_bytes, found))


# ---- calls on change sets

def change_set(text):
    found = read_set(text)
    return fields("ok", on_a_line(streams.set_text(found)), written(set_bytes(*found), text))


def joined(*given):
    return digest(set_bytes([part for text in given for part in read_set(text).parts], []))


# How streams are read, told and spelled, in the compact encoding or the explicit one.
CODECS = {
    "record": (read_record, with_file_id, record_bytes), "trove": (read_trove, trove_text, trove_bytes),
    "relative": (read_relative, relative_text, relative_bytes),
}


def decoded(name, full, text):
    read, tell, spell = CODECS[name]
    found = read(text, full)
    return fields(tell(found), written(spell(found, full), text))


READERS = {"set": read_set, **{name + end: partial(read, full=bool(end)) for name, (read, *_) in CODECS.items() for end in ("", "_full")}}


def is_read(text, kind):
    """`ok`, `bad`, or the refusal."""
    if kind == b"manifest":
        return manifest(text, 40)
    try:
        READERS[kind.decode()](text)
    except NotOfForm:
        return "bad"
    except Fault as fault:
        return str(fault)
    return "ok"


def runs(given):
    """Runs of equal answers: the lowest and the highest number, and the answer."""
    line, low = "", 0
    for high, text in enumerate(given):
        if high + 1 == len(given) or given[high + 1] != text:
            line += f"{low}..{high}: {text}; "
            low = high + 1
    return line


def beginnings(kind, text):
    return runs([is_read(text[:length], kind) for length in range(len(text) + 1)])


def with_byte(text, place, value):
    return text[:place] + bytes([value]) + text[place + 1 :]


def changes(kind, text, place):
    return runs([is_read(with_byte(text, int(place), value), kind) for value in range(256)])


def changes_to(kind, text, values):
    return runs([is_read(with_byte(text, place, value), kind) for value in values for place in range(len(text))])


# ---- refusals

REFUSALS = dict(row.split(": ", 1) for row in table("streams")["texts of refusals"])


def refusal(kind, *rest):
    texts = [text.decode() for text in rest]
    if kind == b"TooLarge":
        texts[0] = "change set" if texts[0] == "ChangeSet" else texts[0].lower()
    return REFUSALS[kind.decode()].format(*texts)


# ---- what relative troves do, and what comes with a change set. Where an argument is no stream of its kind, or two troves are no
# such pair, the answer is `unreadable`


def applied_text(old, rel):
    new = relatives.applied(old, rel)
    return "missing base " + id_text(rel.old).decode() if new is None else short(trove_bytes(new))


def between(one, other):
    """The first trove, and what leads from it to the second."""
    old, new = read_trove(one), read_trove(other)
    need(old.identity.name == new.identity.name and old.identity != new.identity)
    return old, relatives.relative_of(old, new)


def names_text(old, new):
    names = relatives.contents_to_send(old and read_trove(old), read_trove(new))
    return f"{len(names)} {short(b''.join(names))}"


def whole_of(text):
    parts = read_set(text).parts
    need(all(isinstance(part, Trove) for part in parts))
    return parts


def allowed(text):
    for one in whole_of(text):
        relatives.check_allowed(one)
    return "ok"


def over_installed(text, change):
    installed = whole_of(text)
    need(rises([one.identity.name for one in installed]))
    made = relatives.all_made(read_set(change).parts, installed)
    return " ".join([str(len(made)), *(short(trove_bytes(one)) for one in made)])


# ---- manifests

def manifest(text, longest=4_000):
    return manifests.answer(text, longest).decode()


# ---- batches

def line_text(words, given):
    told = ["; " + str(len(words)), *("|" + short(word, spelled=bytes.decode) for word in words[:SHOWN])]
    return "".join(told) + (" < " + short(given) if given else "")


def batch(text):
    lines = read_batch(text)
    return "".join([str(len(lines)), *(line_text(*line) for line in lines[:SHOWN])])


def demo(packages, place):
    lines = list(lines_of(int(packages)))
    return str(len(lines)) + line_text(*lines[int(place)])


UNREADABLE = {
    "relative_of": lambda one, other: short(relative_bytes(between(one, other)[1])),
    "round": lambda one, other: applied_text(*between(one, other)),
    "apply": lambda one, other: applied_text(read_trove(one), read_relative(other)),
    "to_send": names_text,
    "all_to_send": lambda text: names_text(None, text),
    "applied": over_installed,
    "allowed": allowed,
}
SAID_BY_NAME = (
    next_item, make_record, owner, id_item, make_trove, check, make_relative, joined, beginnings, changes, changes_to, refusal, manifest,
    batch, demo,
)  # fmt: skip
CALLS = {
    **{call.__name__: call for call in SAID_BY_NAME},
    "items": written_items,
    **{name + end: partial(decoded, name, bool(end)) for name in CODECS for end in ("", "_full")},
    "same_record": lambda one, other: yes_or_no(read_record(one, True) == read_record(other, True)),
    **{name: partial(take, name) for name in LISTS},
    **{f"are_{name}": partial(are, name, tag) for name, tag in (("files", 4), ("refs", 5), ("deps", 6), ("paths", 0x23))},
    "sized_file": lambda size, name: yes_or_no(int(size) <= streams.LARGEST_CONTENT and len(bytes.fromhex(name.decode())) == 20),
    "troves_text": lambda *given: on_a_line(b"".join(id_text(read_trove(text).identity) + b"\n" for text in given)),
    "set": change_set,
    **UNREADABLE,
    "dir_component": lambda path: manifests.component_of(path, True).decode(),
    "component": lambda path: manifests.component_of(path, False).decode(),
}


def answer(call, arguments):
    """What a call of this name on these bytes has to answer."""
    try:
        return CALLS[call](*arguments)
    except NotOfForm:
        return "unreadable" if call in UNREADABLE else "bad"
    except Refused as refused:
        # What is no change set is unreadable, too, but where that is asked.
        return "unreadable" if call in UNREADABLE and isinstance(refused, Fault) else str(refused)
