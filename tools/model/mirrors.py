"""A model of how a repository serves another one, made from docs/FORMATS.md and docs/COMMANDS.md alone: streams of requests and of replies,
which troves are missing, what is asked for, and the change set that a reply brings.
"""
from tools.model import repository
from tools.model.streams import (
    LARGEST_SET, MOST_PARTS, Fault, FaultAt, NotOfForm, Refused, Trove, is_name, item, malformed, need, next_item, read_set, set_bytes,
    trove_bytes,
)  # fmt: skip
from tools.model.texts import id_bytes, rises, take_id
from tools.model.trees import Damaged

REQUESTS, REPLIES = b"CNYRQ01\n", b"CNYRP01\n"
NAMED, CONTENT, MISSING, LAST_REQUEST = 0x70, 0x71, 0x72, 0x7F
IDS, BYTES, NO_BYTES, SET, LAST_REPLY = 0x80, 0x81, 0x82, 0x84, 0x8F
MOST_REQUESTS, LONGEST = 65_536, LARGEST_SET
# A change set has room in a stream of replies with its magic, the head of its item, and the end item.
LARGEST_SENT = LONGEST - 18


# ---- what both streams are made of

def behind(magic, text):
    """The place behind the magic."""
    if not text.startswith(magic):
        raise malformed(0 if len(text) >= len(magic) else len(text))
    return len(magic)


def item_at(text, at, readers):
    """The tag and the value of the item at a place, and where the next one begins. Another tag is at fault where it stands, an item that
    isn't all there where the text ends, and a value that isn't of its form where its item begins."""
    try:
        tag, start, end = next_item(text, at, readers)
    except FaultAt as fault:
        raise malformed(fault.args[0]) from None
    try:
        return tag, readers[tag](text[start:end]), end
    except (NotOfForm, Refused):
        raise malformed(at) from None


def check_end(text, at):
    if at != len(text):
        raise malformed(at)


def read_name(value):
    need(is_name(value))
    return value


def read_digest(value):
    need(len(value) == 20)
    return value


def read_ids(value):
    found = []
    while value:
        one, value = take_id(value)
        found.append(one)
    need(rises(found))
    return found


def read_nothing(value):
    need(value == b"")


def read_whole(value):
    """A change set of whole troves alone."""
    change = read_set(value)
    need(all(isinstance(part, Trove) for part in change.parts))
    return change


# ---- requests

READERS = {NAMED: read_name, CONTENT: read_digest, MISSING: read_ids, LAST_REQUEST: read_nothing}


def requests(text):
    """Each request, up to the first fault, which is refused when its turn comes."""
    at = behind(REQUESTS, text)
    for count in range(MOST_REQUESTS + 1):
        tag, value, at = item_at(text, at, READERS if count < MOST_REQUESTS else {LAST_REQUEST: read_nothing})
        if tag == LAST_REQUEST:
            return check_end(text, at)
        yield tag, value


def request_bytes(*asked):
    """The stream of requests: pairs of a tag and a value."""
    return REQUESTS + b"".join(item(*one) for one in asked) + item(LAST_REQUEST, b"")


def ask(catalogue):
    """The request for all that a repository lacks."""
    text = request_bytes((MISSING, b"".join(map(id_bytes, sorted(catalogue.ids())))))
    if len(text) > LONGEST:
        raise Fault(f"too large: message {len(text)}")
    return text


# ---- replies

def set_length(troves):
    """How long the absolute change set of these troves is, with all contents that they name."""
    sizes = {}
    for _, record in (file for trove in troves for file in trove.files):
        if record.kind == "f":
            sizes.setdefault(record.name, record.size)
    return 13 + sum(5 + len(trove_bytes(trove)) for trove in troves) + sum(25 + size for size in sizes.values())


def too_large(troves):
    """The number of troves, or the bytes of their change set, that is above its limit; 0 where neither is."""
    length = set_length(troves)
    return len(troves) if len(troves) > MOST_PARTS else length if length > LARGEST_SENT else 0


def missing(commits, ids):
    """The troves of other ids, of as many first commits as fit."""
    sent = []
    for commit in commits:
        more = sent + [trove for trove in commit if trove.identity not in ids]
        if too_large(more):
            if not sent:
                raise Fault(f"too large: change set {too_large(more)}")
            break
        sent = more
    return sent


def reply(tree, catalogue, tag, value):
    if tag == NAMED:
        ids = [trove.identity for trove in catalogue.troves if trove.identity.name == value]
        return item(IDS, len(ids).to_bytes(4, "big") + b"".join(map(id_bytes, ids)))
    if tag == CONTENT:
        data = repository.content_of(tree, catalogue, value)
        return item(NO_BYTES, value) if data is None else item(BYTES, value + data)
    # How many troves each commit has is read again.
    commits = [repository.read_troves(tree, place) for place in range(1, len(catalogue.commits) + 1)]
    found = repository.between(tree, catalogue, [], missing(commits, set(value)))
    return item(SET, set_bytes(found.parts, found.contents))


def replies(tree, catalogue, text):
    """The stream of replies, or the first refusal: of the requests, in their order, and of what they are answered."""
    out = bytearray(REPLIES)
    for tag, value in requests(text):
        out += reply(tree, catalogue, tag, value)
        if len(out) + 5 > LONGEST:
            raise Fault(f"too large: message {len(out) + 5}")
    return bytes(out + item(LAST_REPLY, b""))


def take(text):
    """The change set of a stream with that one reply."""
    _, change, at = item_at(text, behind(REPLIES, text), {SET: read_whole})
    _, _, at = item_at(text, at, {LAST_REPLY: read_nothing})
    check_end(text, at)
    return change


# ---- requests that come in pieces

def refused_after(tree, catalogue, text):
    """After how many bytes of a stream that is refused, or at which a content is damaged, no further bytes can change that; none where only
    the end of the stream tells."""
    if len(text) < len(REQUESTS) or not text.startswith(REQUESTS):
        return len(REQUESTS) if len(text) >= len(REQUESTS) else None
    at, size = len(REQUESTS), len(REPLIES) + 5
    for count in range(MOST_REQUESTS + 1):
        readers = READERS if count < MOST_REQUESTS else {LAST_REQUEST: read_nothing}
        if text[at : at + 1] and text[at] not in readers:
            return at + 1
        try:
            tag, start, end = next_item(text, at, readers)
        except FaultAt:
            return None
        try:
            value = readers[tag](text[start:end])
            size += len(reply(tree, catalogue, tag, value)) if tag != LAST_REQUEST else 0
        except (NotOfForm, Refused, Damaged):
            return end
        if size > LONGEST:
            return end
        if tag == LAST_REQUEST:
            return end + 1 if end < len(text) else None
        at = end


def in_pieces(tree, size, text):
    """What a session answers that is given a stream in pieces of so many bytes: the replies; or why there are none, after how many bytes
    that came, what two further calls are answered, and how it ends then."""
    catalogue = repository.load(tree)
    try:
        return [replies(tree, catalogue, text).hex()]
    except Refused as refused:
        why = again = end = str(refused)
    except Damaged as damaged:
        why, again, end = f"damaged {damaged.args[0].decode()}", "memory", "memory"
    after = refused_after(tree, catalogue, text)
    return [why] if after is None else [why, str(min(len(text), -(-after // size) * size)), again, again, end]
