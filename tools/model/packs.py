"""The manifest of a tree, as docs/MANIFESTS.md has it, and what a call is refused for."""
from tools.model import texts
from tools.model.manifests import Reading
from tools.model.streams import LARGEST_CONTENT, is_owner
from tools.model.texts import NotOfForm, Refused, of_form

PIECE, LONGEST_LINE = 65_536, 2_048


def is_of_pattern(pattern, path):
    before, star, after = pattern.partition(b"*")
    return path.startswith(before) and path[len(before) :].endswith(after) if star else path == pattern


class Packing:
    """What is written, call by call of the sink, and the answer: `ok` or a refusal."""

    def __init__(self, sink_fails):
        self.written, self.left, self.answer = b"", sink_fails, "ok"

    def give(self, data):
        self.left -= 1
        if not self.left:
            raise Refused("sink")
        self.written += data

    def head(self, name, version, flavor, requires, provides):
        """The first lines."""
        def need(word, *checks):
            if not all(checks):
                raise Refused(f"bad {word}")

        need("name", of_form(texts.name_kind)(name), not name.startswith(b"group-"))
        need("version", of_form(lambda text: texts.version_of(text, False))(version))
        need("flavor", not flavor or (of_form(texts.flavor_of)(flavor) and texts.flavor_text(texts.flavor_of(flavor)) and len(b"flavor " + flavor) <= LONGEST_LINE))
        lines = [b"manifest 2", (b"component " if b":" in name else b"package ") + name, b"version " + version] + [b"flavor " + flavor] * bool(flavor)
        for word, given in (("requires", requires), ("provides", provides)):
            pairs = set()
            for own, dep in given:
                need(word, texts.is_name(own), of_form(texts.dep_of)(dep), own == name if b":" in name else own.startswith(name + b":"))
                pairs.add((own, texts.dep_text(texts.dep_of(dep))))
            more = [b" ".join((word.encode(), *pair)) for pair in sorted(pairs)]
            need(word, *(len(line) <= LONGEST_LINE for line in more))
            lines += more
        return b"".join(line + b"\n" for line in lines)

    def entry(self, path, node, config):
        """The line of an entry, and all behind it, as calls of the sink."""
        owner = path.rpartition(b"/")[2], b"staff"
        if node[0] != "link" and not is_owner(owner):
            raise Refused(f"no owner {path.decode()}")
        if node[0] == "dir":
            return [b"dir %04o %s:%s %s\n" % (node[1], *owner, path)]
        if node[0] == "link":
            return [b"link %s\n" % path, b"target %s\n" % node[1]]
        flag, data = b"config " * any(is_of_pattern(pattern, path) for pattern in config), node[2]
        pieces = [data[at : at + PIECE] for at in range(0, len(data), PIECE)]
        return [b"file %04o %d %s:%s %s%s\n" % (node[1], len(data), *owner, flag, path), *pieces, b"", b"\n"]

    def all(self, words, config, skip, disk_fails, nodes):
        head, kept = self.head(*words), []
        if 0 < disk_fails <= 1 + sum(1 + (node[0] == "dir") for _, node in nodes):
            raise Refused("disk")
        for path, node in nodes:
            unfit = "reserved " if texts.is_forbidden(path, node[0] == "dir") else "too large " if node[0] == "file" and len(node[2]) > LARGEST_CONTENT else ""
            if unfit and not skip:
                raise Refused(unfit + path.decode() + (f" {len(node[2])}" if "large" in unfit else ""))
            if not unfit:
                kept.append((path, node))
        plain = b"".join(b"dir 0755 root:root %s\n" % path for path, _ in kept)
        try:
            Reading(head + plain + b"end\n").read()
        except (NotOfForm, Refused):
            raise Refused("no troves") from None
        self.give(head)
        for path, node in kept:
            for data in self.entry(path, node, config):
                self.give(data)
        self.give(b"end\n")


def packed(words, config, skip, sink_fails, disk_fails, nodes):
    packing = Packing(sink_fails)
    try:
        packing.all(words, config, skip, disk_fails, sorted(nodes))
    except Refused as refusal:
        packing.answer = str(refusal)
    return packing.written, packing.answer
