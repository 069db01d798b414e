"""A model of a disk, of a content store and of the journal on it, made from docs/MODEL.md, docs/FORMATS.md and docs/CRASH_SAFETY.md alone.

A tree tells what it reads, what the last sync kept and which names changed since; its calls are numbered, and fail where they are listed or once it
is stopped. A journal has its files in a private directory, its base. How many calls of a disk a write or a recovery makes, and in which order, is
told here alone.

A node is `("dir", MODE)`, `("file", MODE, BYTES)` or `("link", TARGET)`, in a write set also `("staged", MODE, NUMBER, SIZE, SHA-1)`, a file whose
bytes stand under a number; None, where nothing stands."""
import itertools

from tools.model.streams import (
    NotOfForm, Refused, difference, inner_items, is_path, is_target, item, need, number, rises, sha, str_field, take_str,
)  # fmt: skip


class Damaged(Exception):
    """The path of a file that isn't in its grammar, or fails a cross-check."""


class Failed(Exception):
    """A call failed, of the tree that is told."""


class NotAllowed(Failed):
    """A call isn't allowed."""


DIR = ("dir", 0o755)
ROOT_ALONE = {b"/": DIR}


def parent_of(path):
    return path[: path.rindex(b"/")] or b"/"


def is_within(path, above):
    return path == above or path.startswith(above.rstrip(b"/") + b"/")


def joined(directory, last):
    return directory.rstrip(b"/") + b"/" + last


def is_of(node, *kinds):
    return node is not None and node[0] in kinds


def is_tree(nodes):
    """Whether each node stands in a directory."""
    return is_of(nodes.get(b"/"), "dir") and all(is_of(nodes.get(parent_of(path)), "dir") for path in nodes)


class Tree:
    """Nodes by their paths. A call that isn't allowed is made by nobody but a Disk, which says so."""

    def __init__(self, nodes=ROOT_ALONE, left=None, failing=0):
        """These nodes, all synced. It stops after so many calls, and its call of this number fails."""
        self.nodes, self.fails, self.calls, self.left, self.made = dict(nodes), {failing}, 0, left, []
        self.settle()

    def settle(self):
        self.synced, self.unsynced = dict(self.nodes), set()

    def copy(self, failing=0):
        """The same nodes, all synced."""
        return Tree(self.nodes, failing=failing)

    def edit(self, path, node):
        """Puts a node without a call; then all counts as synced."""
        self.put(path, node)
        self.settle()

    def put(self, path, node):
        if node is None:
            self.nodes.pop(path, None)
        else:
            self.nodes[path] = node

    def is_dir(self, path):
        return is_of(self.nodes.get(path), "dir")

    def children(self, path):
        return sorted(name for name in self.nodes if name != b"/" and parent_of(name) == path)

    def turn(self, *what):
        """Counts a call. Answers whether it fails, and whether it may have done a part of its work."""
        self.calls += 1
        self.made.append(what)
        stopped = self.left == 0
        if self.left:
            self.left -= 1
        return stopped or self.calls in self.fails, not stopped

    def read(self, what, path):
        if self.turn(what, path)[0]:
            raise Failed(self)

    def look(self, path):
        self.read("look", path)
        return self.nodes.get(path)

    def read_at(self, path, at=0, room=None):
        """The bytes of a file from a place on, at most so many."""
        self.read("read", path)
        return self.nodes[path][2][at:][:room]

    def list(self, path):
        self.read("list", path)
        return self.children(path)

    def change(self, what, path, node, part=None):
        """A call that changes what stands at a path. A failed one leaves its name unsynced, and of an append the first half."""
        fails, may_do_part = self.turn(what, path)
        self.unsynced.add(path)
        if not fails:
            self.put(path, node)
            return
        if part is not None and may_do_part:
            self.put(path, part)
        raise Failed(self)

    def append(self, path, data):
        """Adds bytes to a file, which is made with mode 0600 where nothing stands."""
        _, mode, bytes = self.nodes.get(path, ("file", 0o600, b""))
        self.change("append", path, ("file", mode, bytes + data), ("file", mode, bytes + data[: len(data) // 2]))

    def make(self, path, node):
        self.change("make", path, node)

    def set_mode(self, path, mode):
        self.change("set mode", path, (self.nodes[path][0], mode) + self.nodes[path][2:])

    def remove(self, path):
        self.change("remove", path, None)

    def rename(self, path, to):
        """Puts what stands at a path at another, in place of what stands there."""
        fails, _ = self.turn("rename", to)
        self.unsynced |= {path, to}
        if fails:
            raise Failed(self)
        self.put(to, self.nodes[path])
        self.put(path, None)

    def sync(self):
        self.read("sync", None)
        self.settle()

    def crash(self, pick):
        """The image that a number picks: the k-th unsynced name goes by digit k mod 32 in base 4. 0 is as it reads, 1 as at the last sync, 2
        nothing, 3 a torn file. `/` and a name above a synced one stay directories, and below what is no directory nothing is left."""
        image = self.copy()
        for k, name in enumerate(sorted(self.unsynced)):
            digit = pick >> 2 * (k % 32) & 3
            node = [self.nodes.get(name), self.synced.get(name), None, ("file", 0o600, b"\xee\xee\xee")][digit]
            held = name == b"/" or any(p != name and is_within(p, name) and p not in self.unsynced for p in self.nodes)
            if held and not is_of(node, "dir"):
                node = self.nodes.get(name)
            image.put(name, node if image.is_dir(parent_of(name)) else None)
        image.settle()
        return image


# ---- what is done on a tree

CHUNK = 4096

# How many bytes of a file are hashed, compared or copied by one call.
PIECE = 65536


def read_whole(tree, path, size=CHUNK, most=2**64):
    """The bytes of a file, in chunks; None where they are more."""
    data = tree.look(path)[2]
    for _ in range(0, len(data) if len(data) <= most else 0, size):
        tree.read_at(path)
    return data if len(data) <= most else None


# A file of more bytes that is to be a stream is read only where the heads of its items lead exactly to its end.
LARGE = 1_048_576


def is_read(tree, path, magic, tags):
    """Whether a file is read that is to be a stream of this magic and of items with these tags; of a large one the heads are looked at first."""
    text = tree.nodes[path][2]
    if len(text) <= LARGE:
        return True
    tree.read_at(path)
    at = len(magic)
    if not text.startswith(magic):
        return False
    while at < len(text):
        tree.read_at(path)
        head = text[at : at + 5]
        at += 5 + int.from_bytes(head[1:], "big")
        if len(head) < 5 or head[0] not in tags or at > len(text):
            return False
    return True


def clear(tree, path):
    """Takes away what stands at a path, and all below it."""
    node = tree.look(path)
    if node is None:
        return
    if node[0] == "dir":
        for child in tree.list(path):
            clear(tree, child)
    tree.remove(path)


def make_dir(tree, path):
    """Makes a directory of the program's own where none stands; a file or a link in its place goes."""
    stands = tree.look(path)
    if not is_of(stands, "dir"):
        if stands is not None:
            tree.remove(path)
        tree.make(path, DIR)


# ---- a disk that says what isn't allowed, and a content store on it: a directory whose files are named by their contents' names

class Collision(Exception):
    """Another content of the name, and the first place at which it differs."""


class Disk(Tree):
    """A disk whose calls of these numbers fail. It keeps what it read after each call that may have changed that, and says which calls
    aren't allowed. Below a directory of more than so many bytes no content has a path."""

    LONGEST = 983

    def __init__(self, nodes, fails=()):
        super().__init__(nodes)
        self.fails, self.moments = set(fails), [dict(nodes)]

    def edit(self, path, node):
        """Puts a node without a call, where a tree is left then. Answers whether one is."""
        left = {other: old for other, old in {**self.nodes, path: node}.items() if old is not None}
        if is_tree(left):
            super().edit(path, node)
            self.moments.append(left)
        return is_tree(left)

    def kind(self, path):
        return (self.nodes.get(path) or ("nothing",))[0]

    def allows(self, call, path, *more):
        here, is_in_dir = self.kind(path), self.is_dir(parent_of(path))
        if call in ("append", "make"):
            return is_in_dir and (here == "nothing" or here == "file" and call == "append")
        if call == "remove":
            return path != b"/" and here != "nothing" and not self.children(path)
        if call == "rename":
            return path != more[0] and here in ("file", "link") and self.is_dir(parent_of(more[0])) and self.kind(more[0]) != "dir"
        return here in {"list": ["dir"], "read_at": ["file"], "set_mode": ["dir", "file"]}.get(call, [here])

    def call(self, call, path=b"/", *more):
        """What a call answers. One that fails is counted all the same; over any disk one that isn't allowed is a fault too."""
        changes = call not in ("look", "list", "read_at")
        try:
            if not self.allows(call, path, *more):
                raise Failed(self) if self.turn(call, path)[0] else NotAllowed(self)
            return super().sync() if call == "sync" else getattr(super(), call)(path, *more)
        except NotAllowed:
            changes = False
            raise
        except Failed:
            changes = changes and call != "sync"
            self.unsynced |= {path, *(more if call == "rename" else ())} if changes else set()
            raise
        finally:
            self.moments += [dict(self.nodes)] if changes else []

    def crash(self, pick):
        return Disk(super().crash(pick).nodes)

    # ---- a content store

    def store_put(self, directory, namer, data=None, source=None):
        """Puts a content by its name where no file stands: a file that has it is moved. Else it is compared with what does, in pieces."""
        data = read_whole(self, source, PIECE) if data is None else data
        name = namer(data).hex().encode()
        path = joined(directory, name)
        node = self.look(path)
        if not is_of(node, "file"):
            self.append(path, data) if source is None else self.rename(source, path)
            return name
        for at in range(0, len(data), PIECE):
            for one in filter(None, (path, source)):
                self.read_at(one)
            if node[2][at:][:PIECE] != data[at:][:PIECE]:
                break
        if node[2] != data:
            raise Collision(name, difference(node[2], data))
        return name

    def store_clear(self, directory, name):
        if len(directory) <= self.LONGEST:
            clear(self, joined(directory, name))

    def store_has(self, directory, name):
        return len(directory) <= self.LONGEST and is_of(self.look(joined(directory, name)), "file")

    def store_get(self, directory, name):
        return read_whole(self, joined(directory, name)) if self.store_has(directory, name) else None


def of_disk(name):
    """A call of a disk, which says whether it is allowed."""
    return lambda self, *given: self.call(name, *given)


for name in ("look", "read_at", "list", "append", "make", "set_mode", "remove", "rename", "sync"):
    setattr(Disk, name, of_disk(name))


class Journal:
    """The journal whose files are in this private directory."""

    MAGIC, END, MOST = b"CNYLG01\n", 0x3F, 2**32

    def __init__(self, base):
        self.base = base
        self.log, self.gate, self.work, self.stage = (joined(base, last) for last in (b"log", b"gate", b"w", b"p"))

    def is_own(self, path):
        return any(is_within(path, own) for own in (self.log, self.gate, self.work, self.stage))

    def can_be_named(self, path):
        return path not in (b"/", self.base) and not self.is_own(path)

    def staged_path(self, place):
        return joined(self.stage, b"%d" % place)

    @staticmethod
    def kept(puts):
        """The last names of the staged files that a write set names."""
        return [b"%d" % node[2] for _, node in puts if is_of(node, "staged")]

    # ---- logs

    @staticmethod
    def numbered(puts):
        """Each file of a write set has the least number that is free, in path order. Those of staged files aren't."""
        taken, found = {node[2] for _, node in puts if is_of(node, "staged")}, []
        for path, node in puts:
            if is_of(node, "file"):
                place = next(one for one in itertools.count() if one not in taken)
                taken.add(place)
                node = "staged", node[1], place, len(node[2]), sha(node[2])
            found.append((path, node))
        return found

    @staticmethod
    def item_of(path, want):
        if want is None:
            return item(0x30, path)
        if want[0] == "dir":
            return item(0x31, want[1].to_bytes(2, "big") + path)
        if want[0] == "link":
            return item(0x32, str_field(path) + str_field(want[1]))
        return item(0x34, want[1].to_bytes(2, "big") + str_field(path) + want[2].to_bytes(4, "big") + want[3].to_bytes(4, "big") + want[4])

    def log_of(self, puts):
        """The log of a write set whose files are numbered."""
        return self.MAGIC + b"".join(self.item_of(*put) for put in puts) + item(self.END, len(puts).to_bytes(4, "big"))

    @staticmethod
    def put_in(tag, value):
        """The put that an item tells."""
        if tag == 0x30:
            path, want = value, None
        elif tag == 0x32:
            path, rest = take_str(value)
            target, rest = take_str(rest)
            need(rest == b"" and is_target(target))
            want = ("link", target)
        else:
            need(tag in (0x31, 0x34) and len(value) >= 2)
            mode, path = number(value[:2]), value[2:]
            want = ("dir", mode)
            if tag == 0x34:
                path, rest = take_str(path)
                need(len(rest) == 28)
                want = ("staged", mode, number(rest[:4]), number(rest[4:8]), rest[8:])
            need(mode <= 0o7777)
        need(is_path(path))
        return path, want

    def read_log(self, text):
        """The write set of a log; or NotOfForm."""
        need(text[:8] == self.MAGIC)
        found = inner_items(text[8:])
        need(found and found[-1] == (self.END, (len(found) - 1).to_bytes(4, "big")))
        puts = [self.put_in(*one) for one in found[:-1]]
        need(rises([path for path, _ in puts]) and self.keeps_rules(puts))
        return puts

    def keeps_rules(self, puts):
        """Whether a log may hold puts whose paths rise: those that it may name, staged files with a path, nothing below what is no directory."""
        if any(not self.can_be_named(path) or is_of(want, "file") for path, want in puts):
            return False
        if not all(is_path(self.staged_path(want[2])) for _, want in puts if is_of(want, "staged")):
            return False
        barred = [path for path, want in puts if not is_of(want, "dir")]
        return not any(want is not None and path != above and is_within(path, above) for path, want in puts for above in barred)

    # ---- a write

    def write_staged(self, tree, puts, numbered):
        """Writes the bytes of each file of the write set to a staged file. Of the files that stand there, those stay that it names."""
        make_dir(tree, self.stage)
        kept = {joined(self.stage, name) for name in self.kept(puts)}
        for child in tree.list(self.stage):
            if child not in kept:
                clear(tree, child)
        for (_, node), (_, want) in zip(puts, numbered):
            if is_of(node, "file"):
                tree.append(self.staged_path(want[2]), node[2])

    def put_target(self, tree, path, want):
        """A file is made at the work name, as a copy of its staged bytes, in pieces, of which one without bytes has one, and renamed."""
        if is_of(want, "staged"):
            for at in range(0, max(want[3], 1), PIECE):
                tree.append(self.work, tree.read_at(self.staged_path(want[2]), at, PIECE))
            tree.set_mode(self.work, want[1])
        elif is_of(want, "link"):
            tree.make(self.work, want)
        elif is_of(want, "dir"):
            if tree.look(path) is not None:
                tree.set_mode(path, want[1])
            else:
                tree.make(path, want)
        if is_of(want, "staged", "link"):
            tree.rename(self.work, path)

    def put_targets(self, tree, numbered):
        clear(tree, self.work)
        for path, want in reversed(numbered):
            stands = tree.look(path)
            if stands is not None and not is_of(want, *(["dir"] if stands[0] == "dir" else ["staged", "link"])):
                tree.remove(path)
        for path, want in numbered:
            self.put_target(tree, path, want)
        tree.sync()
        tree.remove(self.gate)
        tree.sync()

    def apply(self, tree, puts):
        """Puts all of a write set, or nothing of it."""
        numbered = self.numbered(puts)
        tree.sync()
        make_dir(tree, self.base)
        self.write_staged(tree, puts, numbered)
        for path, data in ((self.log, self.log_of(numbered)), (self.gate, b"O")):
            clear(tree, path)
            tree.append(path, data)
            tree.sync()
        self.put_targets(tree, numbered)

    # ---- a recovery

    def is_clear_below(self, tree, paths, path):
        names = tree.list(path) if is_of(tree.look(path), "dir") else []
        return all(child in paths and self.is_clear_below(tree, paths, child) for child in names)

    def check_staged(self, tree, place, size, name):
        """The staged file has the size and the digest that the log tells."""
        path = self.staged_path(place)
        stands = tree.look(path)
        if not is_of(stands, "file") or len(stands[2]) != size:
            raise Damaged(path)
        for at in range(0, size, PIECE):
            tree.read_at(path, at, PIECE)
        if sha(stands[2]) != name:
            raise Damaged(path)

    def whole_log(self, tree):
        """The write set behind a commit flag that is set."""
        if not is_of(tree.look(self.log), "file"):
            raise Damaged(self.log)
        try:
            puts = self.read_log(read_whole(tree, self.log))
        except NotOfForm:
            raise Damaged(self.log) from None
        for _, want in puts:
            if is_of(want, "staged"):
                self.check_staged(tree, *want[2:])
        paths = {path for path, _ in puts}
        for path, want in puts:
            above = parent_of(path)
            while above in paths:
                above = parent_of(above)
            if not is_of(tree.look(above), "dir") or not is_of(want, "dir") and not self.is_clear_below(tree, paths, path):
                raise Refused(b"parent " + path)
        return puts

    def recover(self, tree):
        """Brings to its end what a crash left, and answers whether the commit flag was set. Where the base is so long that
        its flag has no path, none is set."""
        for path in (self.base, self.gate, self.log, self.work):
            if is_path(path):
                tree.look(path)
        tree.sync()
        gate = tree.look(self.gate) if is_path(self.gate) else None
        is_set = is_of(gate, "file") and len(gate[2]) == 1 and tree.read_at(self.gate) == b"O"
        if is_set:
            self.put_targets(tree, self.whole_log(tree))
        return is_set
