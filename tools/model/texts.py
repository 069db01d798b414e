"""The texts of names, paths, versions, flavors, dependencies and ids, by the rules of docs/FORMATS.md alone."""
import re
from collections import namedtuple
from functools import lru_cache


class NotOfForm(Exception):
    """The text isn't of its form."""


class Refused(Exception):
    """A call refuses; the text of the refusal, a str or bytes, which are kept."""

    def __init__(self, text):
        super().__init__(text if isinstance(text, bytes) else text.encode())

    def __str__(self):
        return self.args[0].decode()


cached = lru_cache(maxsize=4096)


def need(holds):
    if not holds:
        raise NotOfForm


def of_form(check):
    """The test whether a check passes a text."""

    @cached
    def passes(text):
        try:
            check(text)
        except NotOfForm:
            return False
        return True

    return passes


def matches(pattern, text):
    return re.fullmatch(pattern, text) is not None


def rises(keys):
    """Each above the one before it."""
    return all(low < high for low, high in zip(keys, keys[1:]))


def is_utf8(text):
    try:
        text.decode("utf-8")
    except UnicodeDecodeError:
        return False
    return True


# ---- words, names, paths, targets, fields of streams

WORD = rb"[A-Za-z0-9][-A-Za-z0-9_.+]*"


def is_word(text):
    """Letters, digits and `_ - . +`, the first a letter or digit."""
    return matches(WORD, text)


@cached
def name_kind(text):
    """Of a word, or of two with a colon between them, of which the first doesn't begin with `group-`."""
    need(len(text) <= 255 and matches(WORD + b"(:" + WORD + b")?", text))
    is_group = text.startswith(b"group-")
    if b":" in text:
        need(not is_group)
        return b"component"
    return b"group" if is_group else b"package"


def is_line(text):
    """Whether it is UTF-8 without control bytes."""
    return is_utf8(text) and not any(byte < 0x20 or byte == 0x7F for byte in text)


@cached
def check_path(text):
    """`/`, or one or more of `/part`; at most 1,024 bytes."""
    are_parts = all(1 <= len(part) <= 255 and part not in (b".", b"..") for part in text[1:].split(b"/"))
    need(text == b"/" or text.startswith(b"/") and len(text) <= 1024 and are_parts and is_line(text))
    return text


def check_target(text):
    need(1 <= len(text) <= 1024 and is_line(text))
    return text


is_name, is_path, is_target = of_form(name_kind), of_form(check_path), of_form(check_target)
PRIVATE, FIXED = b"/var/lib/conarydb", (b"/", b"/var", b"/var/lib")


def is_reserved(path):
    return path == PRIVATE or path.startswith(PRIVATE + b"/")


def is_forbidden(path, is_directory):
    """Whether no trove may record the path: it is in the private directory, or a fixed one and no directory is recorded."""
    return is_reserved(path) or path in FIXED and not is_directory


def str_field(value):
    return len(value).to_bytes(2, "big") + value


def take_str(text):
    """The value of a str at the front, and what stands behind it."""
    end = 2 + int.from_bytes(text[:2], "big")
    need(len(text) >= 2 and len(text) >= end)
    return text[2:end], text[end:]


# ---- labels, revisions, versions

LABEL_PART = rb"[A-Za-z0-9][-A-Za-z0-9._]*"
GREATEST = 2**32 - 1


def label_of(text, last=None):
    """Host, namespace and tag of `host@namespace:tag`; what is left out is that of the label before, if abbreviations are taken."""
    found = re.fullmatch(rb"(?:(?:([^@]*)@)?([^:@]*):)?([^:@]*)", text)
    need(found is not None)
    host, namespace, tag = found.groups()
    need(last is not None or host is not None)
    if host is None:
        host, namespace = last[0], last[1] if namespace is None else namespace
    need(all(matches(LABEL_PART, part) for part in (host, namespace, tag)) and len(host) + len(namespace) + len(tag) + 2 <= 255)
    return host, namespace, tag


is_label = of_form(label_of)


def label_text(label):
    return b"%s@%s:%s" % label


def count_of(text, depth):
    """Up to depth + 1 numbers below 2^32 without leading zeros, a `.` between two, the last not 0."""
    numbers = text.split(b".")
    need(len(numbers) <= depth + 1 and all(matches(rb"0|[1-9][0-9]{0,9}", number) for number in numbers))
    count = [int(number) for number in numbers]
    need(max(count) <= GREATEST and count[-1] != 0)
    return count


def revision_of(text, depth):
    """Upstream, source count and build count, if any, of `upstream-source` or `upstream-source-build`."""
    found = re.fullmatch(rb"([A-Za-z0-9][A-Za-z0-9._+~]*)-([^-]*)(?:-([^-]*))?", text)
    need(found is not None)
    upstream, source, build = found.groups()
    return upstream, count_of(source, depth), None if build is None else count_of(build, depth)


def count_text(count):
    return b"none" if count is None else b".".join(b"%d" % number for number in count)


class Version:
    """Branch text, last label, depth and revision."""

    def __init__(self, branch, label, depth, revision):
        self.branch, self.label, self.depth, self.revision = branch, label, depth, revision
        self.text = branch + b"/" + b"-".join([revision[0]] + [count_text(count) for count in revision[1:] if count is not None])

    def revised(self, revision):
        return Version(self.branch, self.label, self.depth, revision)


@cached
def version_of(text, whole):
    """Between slashes stand labels, revisions, and nothing where a shadow's label comes next; at most 512 bytes."""
    pieces = text.split(b"/")
    need(pieces.pop(0) == b"" and pieces)
    filled, label, depth, version = b"", None, 0, None
    while pieces:
        label = label_of(pieces.pop(0), None if whole else label)
        filled += b"/" + label_text(label)
        while pieces and pieces[0] == b"":
            need(len(pieces) > 1)
            label = label_of(pieces[1], None if whole else label)
            pieces, filled, depth = pieces[2:], filled + b"//" + label_text(label), depth + 1
        need(pieces)
        version = Version(filled, label_text(label), depth, revision_of(pieces.pop(0), depth))
        filled = version.text
    need(len(filled) <= 512)
    return version


def has_build(version):
    """Whether the last revision of a version's text has a build count."""
    return version.split(b"/")[-1].count(b"-") == 2


def shadow_of(version, label):
    return Version(version.branch + b"//" + label, label, version.depth + 1, version.revision)


def branch_of(version, label):
    return Version(version.text + b"/" + label, label, version.depth, version.revision)


def next_answer(wanted, depth, latest):
    """The fields of the next revision behind the latest one, if any, or the refusal."""
    upstream, source, build = wanted
    count = [] if latest is None else latest[1] if build is None else latest[2]
    count = count + [0] * (depth + 1 - len(count))
    if count[-1] == GREATEST:
        return [b"too large: count %d" % GREATEST]
    count[-1] += 1
    source, build = (count, None) if build is None else (source, count)
    return [b"ok", upstream, count_text(source), count_text(build)]


# ---- flavors

SENSES = {b"": b"required", b"~": b"preferred", b"~!": b"not preferred", b"!": b"forbidden"}
FLAG = rb"(?:~!|~|!)?" + WORD
FLAGS = FLAG + rb"(?:, *" + FLAG + rb")*"
SET = WORD + rb"(?:\(" + FLAGS + rb"\))?"
SETS = SET + rb"(?: +" + SET + rb")*"


def put_in_order(items):
    """Pairs in the order of their first parts, which are words and differ."""
    words = [word for word, _ in items]
    need(len(set(words)) == len(words) and all(len(word) <= 255 for word in words))
    return sorted(items)


def flags_of(text):
    return put_in_order([(flag.lstrip(b"~!"), flag[: len(flag) - len(flag.lstrip(b"~!"))]) for flag in re.findall(FLAG, text)])


@cached
def flavor_of(text):
    """Flags, then `is: ` and sets, each in their order; either may be missing, and a relaxed text has more spaces."""
    if text == b"":
        return [], []
    found = re.fullmatch(rb"(?:(" + FLAGS + rb")(?: +|\Z))?(?:is: *(" + SETS + rb"))?", text)
    need(found is not None and not text.endswith(b" "))
    flags = flags_of(found[1] or b"")
    sets = (one.partition(b"(") for one in re.findall(SET, found[2] or b""))
    sets = put_in_order([(word, flags_of(own)) for word, _, own in sets])
    need(len(flags) + sum(1 + len(own) for _, own in sets) <= 64)
    return flags, sets


def flags_text(flags):
    return b",".join(sense + word for word, sense in flags)


def flavor_text(flavor):
    flags, sets = flavor
    spelled = b" ".join(word + (b"(" + flags_text(own) + b")" if own else b"") for word, own in sets)
    return b" ".join(([flags_text(flags)] if flags else []) + ([b"is: " + spelled] if sets else []))


def whole_flavor_of(text):
    need(flavor_text(flavor_of(text)) == text)
    return flavor_of(text)


REFUSED = None
# By the sense of the trove's flag: where the system's is required, preferred, not preferred, forbidden and absent.
COLUMNS = (b"", b"~", b"~!", b"!", None)
WORTH = {b"": (2, 1, REFUSED, REFUSED, REFUSED), b"~": (1, 2, -1, -2, -1), b"~!": (-2, -1, 2, 1, 1), b"!": (REFUSED, REFUSED, 1, 2, 0)}


def worths(flags, others):
    others = dict(others)
    return [WORTH[sense][COLUMNS.index(others.get(word))] for word, sense in flags]


def score(trove, system):
    """What a flavor is worth on a system, none where it is refused."""
    cells, sets = worths(trove[0], system[0]), dict(system[1])
    for word, own in trove[1]:
        cells += [2] + worths(own, sets[word]) if word in sets else [REFUSED]
    return None if REFUSED in cells else sum(cells)


# ---- dependencies

CLASSES = (b"abi", b"file", b"trove", b"soname", b"userinfo", b"groupinfo", b"python", b"perl")
DEP_BYTE = rb"[!-'*+\--~]"


@cached
def dep_of(text):
    """Class, name and flags in their order, of `CLASS: NAME(FLAGS)`; a relaxed text has flags in any order, and commas."""
    found = re.fullmatch(rb"([a-z]+): (" + DEP_BYTE + rb"{1,1024})(?:\(([^()]*)\))?", text)
    need(found is not None and found[1] in CLASSES)
    flags = [] if found[3] is None else re.split(rb"[ ,]", found[3])
    need(len(flags) <= 64 and len(set(flags)) == len(flags) and all(matches(DEP_BYTE + rb"{1,255}", flag) for flag in flags))
    return found[1], found[2], sorted(flags)


def dep_text(dep):
    kind, name, flags = dep
    return kind + b": " + name + (b"(" + b" ".join(flags) + b")" if flags else b"")


def whole_dep_of(text):
    need(dep_text(dep_of(text)) == text)
    return dep_of(text)


def satisfies(provide, require):
    return provide[:2] == require[:2] and set(require[2]) <= set(provide[2])


# ---- ids of troves

Id = namedtuple("Id", "name version flavor")


@cached
def check_id(identity):
    """The id, all whose texts are canonical."""
    need(is_name(identity.name))
    version_of(identity.version, True)
    whole_flavor_of(identity.flavor)
    return identity


@cached
def id_of_text(text):
    found = re.fullmatch(rb"([^=]*)=([^\[]*)(?:\[(.+)\])?", text)
    need(found is not None)
    return check_id(Id(found[1], found[2], found[3] or b""))


def id_text(identity):
    name, version, flavor = identity
    return name + b"=" + version + (b"[" + flavor + b"]" if flavor else b"")


def id_bytes(identity):
    return b"".join(map(str_field, identity))


def take_id(text):
    """The id of three fields at the front, and what stands behind them."""
    name, text = take_str(text)
    version, text = take_str(text)
    flavor, text = take_str(text)
    return check_id(Id(name, version, flavor)), text


def read_id(text):
    identity, behind = take_id(text)
    need(behind == b"")
    return identity
