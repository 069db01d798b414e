"""Directories of the host that the program works on: what stands there, what the model says of a command, and commands and edits that are picked at
random. The scripts over such directories share it; a room is a directory with the directories `root` and `repo`."""
import os
import pathlib
import random
import re
import shutil
import subprocess
import tempfile
import time

from packages import manifest_of, nodes_of
from tools.model import repository
from tools.model.batches import read_batch
from tools.model.program import JOURNAL, Streams
from tools.model.records import BASE
from tools.model.several import Call
from tools.model.trees import Refused, Tree, is_within

NAMES, FILES, LABELS = ("kill-a", "kill-b", "kill-c"), (4, 30), ("soak.example.com@ex:devel", "soak.example.com@ex:stable")
CONFIGS = ("", f"installLabelPath {LABELS[0]}\n", f"# none\ninstallLabelPath {LABELS[1]} {LABELS[0]}\nflavor ~ssl\n", "installLabelPath x\n")


def counted(counts):
    return ", ".join(f"{name} {count}" for name, count in counts.items())


# ---- what stands on the host

def node_at(path):
    """What stands at a path, as the model has it."""
    if os.path.islink(path):
        return "link", os.fsencode(os.readlink(path))
    mode = os.lstat(path).st_mode & 0o7777
    return ("dir", mode) if os.path.isdir(path) else ("file", mode, pathlib.Path(os.fsdecode(path)).read_bytes())


def nodes_below(top):
    """The nodes of a directory, by their paths from it."""
    found, top = {b"/": node_at(top)}, os.fsencode(top)
    for at, folders, files in os.walk(top):
        found |= {path[len(top):]: node_at(path) for path in (os.path.join(at, name) for name in folders + files)}
    return found


def at_rest(nodes, journal):
    """Without the journal's own files, and without its directory where nothing else is in it."""
    left = {path: node for path, node in nodes.items() if not journal.is_own(path)}
    if not any(path != journal.base and is_within(path, journal.base) for path in left):
        left.pop(journal.base, None)
    return left


class State:
    """What a root and a repository hold, but for the journal's own files."""

    def __init__(self, root, repo):
        self.root, self.repo = at_rest(root, JOURNAL), at_rest(repo, repository.JOURNAL)

    def trees(self):
        return Tree(self.root), Tree(self.repo)

    def differences(self, other, may_be_left=False):
        """The paths at which the other state has another node. It may have what a job or a commit that was cut off leaves, and others in the place of
        what nothing refers to."""
        for name in ("root", "repo"):
            wanted, found = getattr(self, name), getattr(other, name)
            for path in sorted(path for path in wanted.keys() | found.keys() if wanted.get(path) != found.get(path)):
                left = is_within(path, BASE) or is_within(path, repository.BASE) if path not in wanted else self.is_unused(path)
                if not (may_be_left and left):
                    yield f"{name}{path.decode()}: {wanted.get(path)} in the model, {found.get(path)} on the host"

    def is_unused(self, path):
        """Whether it is a content that was saved for a job that was taken back, or one that no commit names."""
        saved, content = re.match(re.escape(BASE) + rb"/s\.(\d+)", path), re.match(re.escape(repository.CONTENTS) + rb"/([0-9a-f]{40})$", path)
        if saved:
            return BASE + b"/r." + saved[1] not in self.root
        return content is not None and not repository.load(Tree(self.repo)).sizes(bytes.fromhex(content[1].decode()))

    def agrees(self, found):
        return not any(self.differences(found, True))


def state_of(room):
    return State(nodes_below(room / "root"), nodes_below(room / "repo"))


def new_room(room):
    """Empties both directories."""
    for path in ("root", "repo"):
        shutil.rmtree(room / path, ignore_errors=True)
    for path in ("root/var/lib", "root/etc", "root/srv", "repo"):
        os.makedirs(room / path)


def copy(room, to):
    shutil.rmtree(to, ignore_errors=True)
    return shutil.copytree(room, to, symlinks=True)


def run(program, room, words, given=b"", kill_after=None, before=()):
    """Runs a command, behind these words, and kills it after so many seconds. Answers its status, negative where it was killed, and what it wrote."""
    with tempfile.TemporaryFile() as file:
        file.write(given)
        file.seek(0)
        command = [*before, program, "--disk", room / "root", room / "repo", *words]
        child = subprocess.Popen(command, stdin=file, stdout=subprocess.PIPE, stderr=subprocess.PIPE)
        if kill_after is not None:
            time.sleep(kill_after)
            child.kill()
        out, err = child.communicate()
    return child.returncode, out, err


# ---- the model

class Answer:
    """How the model says that a command ends, and what stands then."""

    def __init__(self, state, words, given=b""):
        streams, (root, repo) = Streams(), state.trees()
        streams.data = given
        call = Call([os.fsencode(word) for word in words], streams, root, repo)
        self.said = call.status, call.out, call.err
        self.status, self.out = call.status, call.out
        self.state = State(root.nodes, repo.nodes)

    def differences(self, found, state):
        """What the program said and left otherwise."""
        if found != self.said:
            yield "".join(f"{who}: {status} {out[:2000]} {err}\n" for who, (status, out, err) in (("the model", self.said), ("the program", found)))
        yield from self.state.differences(state)


def states_in(before, words, given):
    """The states between the lines of a batch."""
    try:
        lines = read_batch(given) if words == ["batch"] else []
    except Refused:
        lines = []
    batch, states = b"", []
    for words, data in lines[:-1]:
        batch += b" ".join([*words, b"<%d" % len(data)]) + b"\n" + data + b"\n"
        states.append(Answer(before, ["batch"], batch).state)
    return states


# ---- what is done

def ids_in(text):
    return [line for line in text.decode().splitlines() if "=" in line]


class Picked:
    """Commands picked at random, with their inputs, over what stands, and edits."""

    def __init__(self):
        self.sets, self.asked, self.replies = [], [], []

    def note(self, words, made):
        """Keeps what a command wrote that another one may be given: change sets, requests and replies, also over rooms that come later."""
        kept = {"localcs": self.sets, "changeset": self.sets, "mirror": self.asked, "serve": self.replies}.get(words[0] if words else "")
        if made.status == 0 and kept is not None and words != ["mirror", "take"]:
            kept[:] = [*kept[-20:], made.out]

    def manifest(self):
        name, revision = random.choice(NAMES), random.randint(1, 4)
        version = f"/{random.choice(LABELS)}/1.0-{revision}-1"
        text = manifest_of(name, version, nodes_of(name, revision, FILES[revision % 2]))
        if random.random() < 0.3:
            lines = text.split(b"\n", 3)
            lines.insert(3, f"requires {name}:runtime trove: {random.choice(NAMES)}:runtime".encode())
            text = b"\n".join(lines)
        return text

    def group(self, committed):
        names = {id.split("=")[0]: id for id in random.sample(committed, min(3, len(committed))) if ":" not in id and "group-" not in id}
        refs = "".join(f"ref {id}\n" for id in sorted(names.values()))
        return f"manifest 1\ngroup group-all\nversion /{LABELS[0]}/1.0-{random.randint(1, 5)}-1\n{refs}end\n".encode()

    def damaged(self, data):
        """The bytes with one changed, cut off, or some of them twice."""
        at = random.randrange(len(data) + 1)
        changed = data[:at] + bytes([random.randrange(256)]) + data[at + 1:]
        return random.choice((changed, data[:at], data[:at] + data[max(0, at - 9):]))

    def given(self, data):
        return self.damaged(data) if random.random() < 0.1 else data

    def change_set(self):
        return self.one_of(self.sets)

    def one_of(self, kept):
        return self.given(random.choice(kept)) if kept else b""

    def spec(self, committed):
        id = random.choice(committed or [NAMES[0]])
        return random.choice((id, id, id.split("=")[0], f"{random.choice(NAMES)}={random.choice(LABELS)}", f"group-all={LABELS[0]}"))

    def options(self, *options):
        return [option for option in options if random.random() < 0.4]

    def batch(self, committed):
        text = b""
        for words, data in (self.single(committed, []) for _ in range(random.randint(1, 4))):
            text += " ".join(words).encode() + (b" <%d\n%s\n" % (len(data), data) if data else b"\n")
        return self.given(text)

    def single(self, committed, installed):
        names = [id.split("=")[0] for id in installed] or list(NAMES)
        return random.choice((
            lambda: (["install", *self.options("--replace", "--keep")], self.given(self.manifest())),
            lambda: (["update", *self.options("--replace", "--keep"), self.spec(committed)], b""),
            lambda: (["update", *self.options("--replace"), *{self.spec(committed), self.spec(committed)}], b""),
            lambda: (["update", *self.options("--replace", "--keep"), "-"], self.change_set()),
            lambda: (["erase", *self.options("--replace"), random.choice(names)], b""),
            lambda: (["rollback"], b""),
            lambda: (["rollback", f"r.{random.randint(0, 40)}"], b""),
            lambda: (["q", *random.sample(names, random.randint(0, 1))], b""),
            lambda: (["rblist"], b""),
            lambda: (["verify", *self.options("--full"), *random.sample(names, random.randint(0, 1))], b""),
            lambda: (["localcs", random.choice(names)], b""),
            lambda: (["cook", *self.options("--next")], self.given(self.manifest())),
            lambda: (["cook", *self.options("--next")], self.given(self.group(committed))),
            lambda: (["commit"], self.change_set()),
            lambda: (["showcs"], self.change_set()),
            lambda: ([random.choice(("shadow", "branch")), random.choice(LABELS), self.spec(committed)], b""),
            lambda: (["rq", *random.sample(NAMES, random.randint(0, 1))], b""),
            lambda: (["changeset", self.spec(committed)], b""),
            lambda: (["changeset", self.spec(committed), self.spec(committed)], b""),
            lambda: (["mirror", "ask"], b""),
            lambda: (["serve"], self.one_of(self.asked)),
            lambda: (["mirror", "take"], self.one_of(self.replies)),
            lambda: (random.choice((["mirror"], ["q", "q", "q"], ["erase"], [""], ["--help"], ["rollback", "r.01"])), b""),
        ))()

    def command(self, state):
        committed, installed = (ids_in(Answer(state, [word]).out) for word in ("rq", "q"))
        return (["batch"], self.batch(committed)) if random.random() < 0.08 else self.single(committed, installed)

    def edit(self, root):
        """Changes something below a root by hand."""
        there = [path for path in sorted((root / "usr").rglob("*")) if path.exists() or path.is_symlink()]
        path = random.choice(there or [root / "srv"])
        what = random.choice(("write", "mode", "remove", "turn", "new", "config", "config"))
        if what == "config":
            (root / "etc").mkdir(exist_ok=True)
            (root / "etc/conaryrc").write_text(random.choice(CONFIGS))
        elif what == "new":
            folder = path if path.is_dir() and not path.is_symlink() else path.parent
            (folder / f"mine{random.randint(0, 9)}").write_text("an administrator's own file\n")
        elif path.is_symlink() or path.is_file():
            if what == "mode" and not path.is_symlink():
                path.chmod(random.choice((0o600, 0o644, 0o755)))
            elif what == "write" and not path.is_symlink():
                path.write_bytes(b"edited by hand %d\n" % random.randint(0, 9))
            else:
                path.unlink()
                if what == "turn":
                    random.choice((lambda: path.mkdir(0o755), lambda: path.symlink_to("elsewhere")))()
        elif what == "remove" and there:
            shutil.rmtree(path)
        elif what == "mode":
            path.chmod(random.choice((0o700, 0o755)))
