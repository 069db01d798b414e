"""Manifests, good and broken: calls and their arguments. tools/model/manifests.py says what each answers."""
import re
from urllib.parse import unquote_to_bytes

from tools.cases.rows import ONE, OTHER, Rows, repeated
from tools.lines.words import Terms

V = b"/conary.example.com@ex:devel/1.0-1-1"
TABLE, FRONTS = Rows("manifests"), {b"component": b"foo:runtime", b"package": b"foo", b"group": b"group-all"}


def text(*lines):
    return b"".join(line + b"\n" for line in lines)


def front(*lines, kind=b"component", name=None, version=V, form=b"1"):
    """A manifest that doesn't end."""
    return text(b"manifest " + form, kind + b" " + (FRONTS[kind] if name is None else name), b"version " + version, *lines)


def component(*lines, **head):
    return front(*lines, b"end", **head)


def package(*lines, **head):
    return component(*lines, kind=b"package", **head)


def group(*lines, **head):
    return component(*lines, kind=b"group", **head)


# ---- the rows of manifests.txt

def of_row(row):
    """A manifest by its lines, with ` | ` between two, and behind them ` in ` and its head, where they aren't all lines. `%` and two digits
    stand for a byte."""
    found = re.fullmatch(r"(?:(.*) |)in (open )?(component|package|group)(?: name=(\S*))?(?: form=(\d))?(?: version=(.*))?", repeated(row))
    lines, is_open, *head = found.groups() if found else (repeated(row), None)
    lines = map(unquote_to_bytes, lines.split(" | ") if lines is not None else [])
    head = {word: unquote_to_bytes(value) for word, value in zip(("kind", "name", "form", "version"), head) if value is not None}
    return (front if is_open else component)(*lines, **head) if found else text(*lines)


def made(topic):
    return map(of_row, TABLE.rows(topic))


# Every kind of line, in a package, in a group and in a component.
EVERY, REFS, M = made("every kind of line")


def file(path, content, size=None, flags=b""):
    return b"file 0644 %d %s%s\n%s" % (len(content) if size is None else size, flags, path, content)


def in_order(make, front, topic):
    """Lines that rise, and of each two that follow one another the second before the first, and the first twice."""
    rising = [(front + row).encode() for row in TABLE.rows(topic)]
    yield make(*rising)
    for one, other in zip(rising, rising[1:]):
        yield from (make(other, one), make(one, one))


def line_calls():
    """Each line of each kind, good and broken: topics of the table, and between them what isn't written out there."""
    many_flags = [component(b"flavor " + b",".join(b"f%d" % n for n in range(count))) for count in (64, 65)]
    contents = []
    for content in (b"", b"\n", b"a\nb", b"\n\n\n", bytes(range(256)), b"end\n"):
        contents += [component(file(b"/x", content)), component(file(b"/x", content, len(content) + 1))]
        contents.append(component(file(b"/x", content + b"\n", len(content))))
    refs = in_order(group, "ref ", "references that rise")
    requires, provides = (in_order(package, word + " ", "dependencies that rise") for word in ("requires", "provides"))
    for some in (
        "first lines", "long names", "versions", "long names of components", "flavors", many_flags, "length and place of flavors",
        "references", refs, "what groups don't have", "groups of a file and of nothing", "dependencies", "names in dependencies", requires,
        "order of requires", provides, "order of provides", "modes", "paths", "fields", contents, "flags", "owners",
        "owners in other places", "two paths", "words alone",
    ):
        yield from made(some) if isinstance(some, str) else some


def place_calls():
    """Lines that are too long, and manifests that are cut off or go on."""
    for size in (2047, 2048, 2049, 2050, 5000):
        yield from (b"m" * size + end for end in (b"", b"\n"))
        long = b"requires foo:runtime soname: n(" + b" ".join(b"%04d" % n + b"f" * 200 for n in range(9)) + b" "
        long += b"z" * (size - len(long) - 1) + b")"
        yield from (front() + line for line in (b"x" * size, b"x" * size + b"\nend\n", long + b"\nend\n", long))
        yield front() + b"file 0644 %d /x\n" % size + b"c" * size + b"\nend\n"
    yield from (M + extra for extra in (b"", b"\n", b"x", b"end\n", M))
    yield from (M[:-1], component(b"end"), front(), b"", b"\n", M.replace(b"\n", b"\r\n"), M.replace(b" 3 ", b" 0 ").replace(b"abc", b""))
    yield from made("files that are too large")
    yield M.replace(b"file 0644 3 /etc/foo\nabc\nend\n", b"file 0644 16777217 /etc/foo")
    yield from made("files at the end, and alone")
    for extra in (b"", b"\n", b"x", b"end\n"):
        yield component(version=b"/a@b:c/1-1") + extra
        yield from (package(b"requires foo:source trove: x") + extra, package(file(b"/x", b""), name=b"n" * 248) + extra)


def package_calls():
    yield from made("packages")
    yield from (EVERY, REFS)
    first, second = ONE, OTHER
    one = front(file(b"/a", first))
    yield from (one + text(file(b"/b", other), b"end") for other in (second, first))
    yield one + text(file(b"/b", b"x"), file(b"/c", first), file(b"/d", second + b"1"), b"end")
    yield component(file(b"/a", second + b"tail"), file(b"/b", b"x"), file(b"/c", first + b"tail"), file(b"/d", second), file(b"/e", first))
    yield from (one + text(file(b"/b", second)) + end for end in (b"ends\n", b"end\nx", b"end\n\n"))


def large_calls():
    """Numbers of entries, references and dependency lines at their limits, and many components."""
    for row in TABLE.rows("many lines, with the numbers below a count"):
        kind, _, parts = row.partition(" of ")
        lines = [(*line.encode().split(b"#"), int(count)) for count, line in (part.split(" times ") for part in parts.split(" and "))]
        yield Terms(front(kind=kind.encode()), *((begin, count, end + b"\n") for begin, end, count in lines), b"end\n")


def components():
    topics = "paths of the policy", "ends of the policy", "other paths of the policy"
    return ((call, path) for topic in topics for path in TABLE.rows(topic) for call in ("component", "dir_component"))


def manifests():
    for calls in (line_calls, place_calls, package_calls, large_calls):
        yield from (("manifest", manifest) for manifest in calls())
    yield "manifest", Terms(front(b"file 0644 16777216 /x"), (b"c", 100_000))


def damaged():
    for manifest in (EVERY, REFS, M):
        yield from (("beginnings", "manifest", manifest), ("changes_to", "manifest", manifest, b"\0\n /z:\xff"))


CASES = [("components of paths", components), ("manifests", manifests), ("damaged manifests", damaged)]
