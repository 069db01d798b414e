"""Batches: lines of words, each with an input; and the lines of the demo of so many packages. Made from docs/FORMATS.md alone."""
from tools.model.streams import malformed

# So many lines; a line has fewer bytes than this, its line feed not counted.
MOST_LINES, LINE_ROOM = 65_536, 65_537


def parts(line):
    """What stands between the spaces of a line; a space between `[` and the next `]` is none of them."""
    found, is_inside, last_close = [b""], False, line.rfind(b"]")
    for at, byte in enumerate(line):
        if byte == 32 and not is_inside:
            found.append(b"")
            continue
        found[-1] += bytes([byte])
        is_inside = last_close > at if byte == 91 else is_inside and byte != 93
    return found


def is_size(part):
    """`<` and a decimal number of at most 19 digits, with no 0 before another digit."""
    number = part[1:]
    return part[:1] == b"<" and 1 <= len(number) <= 19 and all(48 <= digit <= 57 for digit in number) and (len(number) == 1 or number[:1] != b"0")


def read_batch(data):
    """The lines of a batch, each its words and its input; or the first fault."""
    lines, at = [], 0
    while at < len(data):
        end = data.find(b"\n", at, at + LINE_ROOM)
        if len(lines) == MOST_LINES or end < 0 and len(data) - at >= LINE_ROOM:
            raise malformed(at)
        if end < 0:
            raise malformed(len(data))
        words = parts(data[at:end])
        if not all(word and all(32 <= byte <= 126 for byte in word) for word in words):
            raise malformed(at)
        at, given = end + 1, b""
        if len(words) >= 2 and is_size(words[-1]):
            size = int(words.pop()[1:])
            if len(data) - at <= size:
                raise malformed(len(data))
            if data[at + size] != 10:
                raise malformed(at)
            given, at = data[at : at + size], at + size + 1
        lines.append((words, given))
    return lines


# ---- the demo

GROUP, BRANCH = b"group-demo", b"demo.example.com@ex:devel"


def version(round_number):
    return b"/%s/1.0-%d-1" % (BRANCH, round_number)


def file_entry(mode, path, data, flags=b""):
    return b"file %s %d %s%s\n%s\n" % (mode, len(data), flags, path, data)


def package(number, round_number):
    """The manifest of a package."""
    name = b"p%d" % number
    own = {
        b"/etc/%s.conf" % name: (b"0644", b"conf %d %d\n" % (number, round_number), b"config "),
        b"/usr/bin/" + name: (b"0755", b"bin %d %d\n" % (number, round_number)),
        b"/usr/include/%s.h" % name: (b"0644", b"head %d\n" % number),
        b"/usr/lib/lib%s.so.1" % name: (b"0755", b"lib %d\n" % number),
    }
    for place in range(42):
        own[b"/usr/share/doc/%s/%02d" % (name, place)] = (b"0644", bytes([97 + (number + place) % 26]) * (64 * (place + 1)))
    entries = {path: file_entry(mode, path, *rest) for path, (mode, *rest) in own.items()}
    for path in b"/etc /usr /usr/bin /usr/include /usr/lib /usr/share /usr/share/doc".split() + [b"/usr/share/doc/" + name]:
        entries[path] = b"dir 0755 %s\n" % path
    head = b"manifest 1\npackage %s\nversion %s\nrequires %s:runtime trove: %s:lib\n" % (name, version(round_number), name, name)
    return head + b"".join(entries[path] for path in sorted(entries)) + b"end\n"


def group(packages, round_number):
    """The manifest of the group of a round."""
    refs = sorted(b"ref p%d=%s\n" % (number, version(round_number)) for number in range(1, packages + 1))
    by_name = sorted(refs, key=lambda ref: ref[len(b"ref ") : ref.index(b"=")])
    return b"manifest 1\ngroup %s\nversion %s\n" % (GROUP, version(round_number)) + b"".join(by_name) + b"end\n"


def lines_of(packages):
    for round_number in (1, 2):
        yield from (([b"cook"], package(number, round_number)) for number in range(1, packages + 1))
        yield from (([b"cook"], group(packages, round_number)), ([b"update", b"%s=%s" % (GROUP, BRANCH)], b""))
    yield from (([b"rollback"], b""), ([b"verify"], b""))
