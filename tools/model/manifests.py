"""What docs/FORMATS.md says of manifests: their lines, the troves and contents that they make, and the first fault of any other bytes.

The texts of names, paths, versions, flavors and dependencies are those of tools/model/texts.py, troves those of tools/model/streams.py."""
from tools.model import texts
from tools.model.streams import (
    FLAGS, LARGEST_CONTENT, ROOT, Owner, Trove, check_trove, directory, flag_letters, is_owner, keep, link, malformed, regular, sha,
)
from tools.model.texts import Id, NotOfForm, Refused, id_of_text, id_text, is_name, is_path, is_target, matches, name_kind, need, version_of

LINE_ROOM = 2049

# The component policy: component, fronts of paths, ends of paths.
POLICY = [
    (b"doc", (b"/usr/share/doc/", b"/usr/share/man/", b"/usr/share/info/"), ()),
    (b"locale", (b"/usr/share/locale/",), ()),
    (b"devel", (b"/usr/include/",), (b".h", b".a", b".pc")),
    (b"lib", (b"/lib/", b"/lib64/", b"/usr/lib/", b"/usr/lib64/"), ()),
]


def component_of(path, is_directory):
    """The first row that holds; the path of a directory is tested with a slash behind it."""
    tested = path + b"/" if is_directory else path
    return next((component for component, fronts, ends in POLICY if tested.startswith(fronts) or tested.endswith(ends)), b"runtime")


def mode_of(text):
    need(matches(rb"[0-7]{4}", text))
    return int(text, 8)


class Reading:
    """What was read so far, and the place of the next item."""

    def __init__(self, data):
        self.data, self.at, self.flavor = data, 0, b""
        self.refs, self.requires, self.provides, self.files, self.contents = [], [], [], [], []

    def line(self):
        """The line that begins here, and the place behind its line feed."""
        end = self.data.find(b"\n", self.at, self.at + LINE_ROOM)
        if end < 0:
            raise malformed(self.at if len(self.data) - self.at >= LINE_ROOM else len(self.data))
        return self.data[self.at : end], end + 1

    def take_line(self, read):
        """What `read` says of the next line, which is at fault at its first byte where it isn't of its form."""
        text, behind = self.line()
        try:
            value = read(text)
        except NotOfForm:
            raise malformed(self.at) from None
        self.at = behind
        return value

    def take_content(self, size):
        if size > LARGEST_CONTENT:
            raise Refused(f"too large: content {size}")
        if len(self.data) < self.at + size + 1:
            raise malformed(len(self.data))
        if self.data[self.at + size] != 10:
            raise malformed(self.at)
        content = self.data[self.at : self.at + size]
        self.at += size + 1
        return content

    def magic(self, text):
        need(text in (b"manifest 1", b"manifest 2"))
        self.names_owners = text.endswith(b"2")

    def kind_and_name(self, text):
        self.kind, space, self.name = text.partition(b" ")
        need(space and self.kind == name_kind(self.name))

    def version_line(self, text):
        """The whole text of a version that may be abbreviated."""
        need(text.startswith(b"version "))
        self.version = version_of(text[8:], False).text

    def dep_line(self, fields, lines):
        name, space, dep = fields.partition(b" ")
        need(space and is_name(name))
        pair = name, texts.dep_text(texts.dep_of(dep))
        is_own = name == self.name if self.kind == b"component" else self.kind == b"package" and name.startswith(self.name + b":")
        need(is_own and (not lines or lines[-1] < pair))
        lines.append(pair)

    def owned(self, fields):
        """The owner, if this format names one, and what stands behind it."""
        if not self.names_owners:
            return ROOT, fields
        words, space, rest = fields.partition(b" ")
        need(space and words.count(b":") == 1 and is_owner(words.split(b":")))
        return Owner(*words.split(b":")), rest

    def next_path(self, path):
        need(is_path(path) and self.kind != b"group" and (not self.files or self.files[-1][0] < path))
        return path

    def dir_line(self, fields):
        mode, space, rest = fields.partition(b" ")
        owner, path = self.owned(rest)
        need(space)
        self.files.append((self.next_path(path), directory(mode_of(mode), owner)))

    def file_line(self, fields):
        mode, _, rest = fields.partition(b" ")
        size, space, rest = rest.partition(b" ")
        need(space and matches(rb"0|[1-9][0-9]{0,18}", size))
        mode, size, flags = mode_of(mode), int(size), 0
        owner, rest = self.owned(rest)
        for bit, word in FLAGS:
            if rest.startswith(word + b" "):
                flags, rest = flags | bit, rest[len(word) + 1 :]
        return self.next_path(rest), regular(mode, flags, size, b"", owner)

    def target_line(self, text):
        need(text.startswith(b"target ") and is_target(text[7:]))
        return text[7:]

    def body_line(self, text):
        """Whether the manifest ends with this line; and a file or link of which more is to come."""
        if text == b"end":
            self.troves = self.made()
            return True, None
        word, space, fields = text.partition(b" ")
        need(space)
        if word == b"flavor":
            need(fields != b"" and not (self.flavor or self.refs or self.requires or self.provides or self.files))
            self.flavor = texts.flavor_text(texts.flavor_of(fields))
        elif word == b"ref":
            identity = id_of_text(fields)
            need(self.kind == b"group" and (not self.refs or self.refs[-1] < identity))
            self.refs.append(identity)
        elif word == b"requires":
            need(not (self.provides or self.files))
            self.dep_line(fields, self.requires)
        elif word == b"provides":
            need(not self.files)
            self.dep_line(fields, self.provides)
        elif word == b"dir":
            self.dir_line(fields)
        elif word == b"file":
            return False, self.file_line(fields)
        else:
            need(word == b"link")
            return False, (self.next_path(fields), None)
        return False, None

    def take_rest(self, path, record):
        """The content of a file, or the target of a link."""
        if record is None:
            self.files.append((path, link(self.take_line(self.target_line))))
            return
        content = self.take_content(record.size)
        self.files.append((path, record._replace(name=sha(content))))
        self.contents.append(content)

    def made(self):
        if self.kind == b"group":
            return [self.trove(self.name, refs=self.refs)]
        if self.kind == b"component":
            return [self.trove(self.name, self.files, [], *([dep for _, dep in lines] for lines in (self.requires, self.provides)))]
        parts = {}
        for path, record in self.files:
            parts.setdefault(self.name + b":" + component_of(path, record.kind == "d"), ([], [], []))[0].append((path, record))
        for place, lines in ((1, self.requires), (2, self.provides)):
            for name, dep in lines:
                parts.setdefault(name, ([], [], []))[place].append(dep)
        package = self.trove(self.name, refs=[Id(name, self.version, self.flavor) for name in sorted(parts)])
        return [package] + [self.trove(name, files, [], requires, provides) for name, (files, requires, provides) in sorted(parts.items())]

    def trove(self, name, files=(), refs=(), requires=(), provides=()):
        return check_trove(Trove(Id(name, self.version, self.flavor), list(files), list(refs), list(requires), list(provides)))

    def read(self):
        """The troves, and each content once with its name."""
        for read in (self.magic, self.kind_and_name, self.version_line):
            self.take_line(read)
        ends = False
        while not ends:
            ends, more = self.take_line(self.body_line)
            if more is not None:
                self.take_rest(*more)
        if self.at != len(self.data):
            raise malformed(self.at)
        kept = {}
        for content in self.contents:
            keep(kept, content)
        return self.troves, sorted(kept.items())


def file_text(path, record):
    owner = b"%s:%s" % record.owner
    if record.kind == "d":
        return b"dir %d %s %s" % (record.mode, owner, path)
    if record.kind == "l":
        return b"link %s to %s" % (path, record.target)
    letters, name = flag_letters(record.flags).encode(), record.name.hex().encode()
    return b"file %d %s %s %d %s %s" % (record.mode, owner, letters, record.size, name, path)


def made_text(troves, contents):
    pieces = [b"ok"]
    for trove in troves:
        pieces += [b"trove " + id_text(trove.identity), *(b"ref " + id_text(ref) for ref in trove.refs)]
        pieces += [b"requires " + dep for dep in trove.requires] + [b"provides " + dep for dep in trove.provides]
        pieces += [file_text(*file) for file in trove.files]
    return b"; ".join(pieces + [b"content %s %d" % (name.hex().encode(), len(content)) for name, content in contents])


def answer(data, longest=4_000):
    """What a manifest makes, as a text or the digest of a longer one, or its refusal."""
    try:
        text = made_text(*Reading(data).read())
    except Refused as refusal:
        return str(refusal).encode()
    return text if len(text) <= longest else b"ok %d %s" % (len(text), sha(text).hex().encode())
