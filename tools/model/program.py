"""A model of the program over two trees in memory, which shares nothing with it: the standard streams, the texts and statuses with which
a call ends, and the commands of a repository, made from the rules of docs/COMMANDS.md and docs/FORMATS.md alone. The words, the order of
all tests and the commands of a root are in model/by_files.py.
"""
from tools.model import manifests as manifest_model
from tools.model import repository
from tools.model import texts
from tools.model.trees import Damaged, Failed, Refused, is_of, read_whole
from tools.model.repository import id_text
from tools.model.runs import BASE, JOURNAL
from tools.model.streams import ChangeSet, set_bytes
from tools.model.texts import FIXED

CONFIG, LARGEST_CONFIG = b"/etc/conaryrc", 65_536
LONGEST_WORD, MOST_WORDS, CHUNK = 4096, 1024, 4096
TAKES_INPUT = (b"install", b"cook", b"commit", b"showcs", b"serve")
USAGE = b"usage: conary [--disk ROOT REPO] COMMAND [WORD...]\n"

is_spec = texts.of_form(repository.spec_of)


class Ended(Exception):
    """Another status than 0 and 1, with the line behind `conary: `."""


def manifest_of(data):
    """The troves and contents of a whole manifest."""
    return manifest_model.Reading(data).read()


class Streams:
    """The standard streams: the input, how many bytes of it a call takes at most, and the calls that fail."""

    def __init__(self):
        self.most, self.input_fails, self.data, self.out_fails, self.err_fails = 2**32 - 1, 0, b"", 0, 0


class Call:
    """A whole call of the program: the streams, the repository, and how it ends. What it performs is in model/by_files.py."""

    def __init__(self, words, streams, root, repo):
        self.words, self.streams, self.root, self.repo = list(words), streams, root, repo
        self.taken, self.out, self.err = 0, b"", b""
        try:
            self.status = 0
            self.write(self.perform())
        except Refused as refused:
            self.end(1, b"conary: " + refused.args[0] + b"\n")
        except Failed as failed:
            on_root = failed.args[0] is root
            self.end(5 if on_root else 6, b"conary: root fault\n" if on_root else b"conary: repository fault\n")
        except Damaged as damaged:
            self.end(8, b"conary: damaged " + damaged.args[0] + b"\n")
        except Ended as ended:
            status, line = ended.args
            self.end(status, USAGE if status == 2 else b"conary: " + line + b"\n")

    def end(self, status, line):
        self.status = status
        if self.streams.err_fails != 1:
            self.err = line

    def write(self, text):
        if text and self.streams.out_fails == 1:
            raise Ended(4, b"output fault")
        self.out = text

    def read_input(self):
        streams, calls = self.streams, 0
        while True:
            calls += 1
            if calls == streams.input_fails:
                raise Ended(3, b"input fault")
            count = min(CHUNK, streams.most, len(streams.data) - self.taken)
            self.taken += count
            if count == 0:
                return streams.data

    # ---- the repository

    def committed(self, change):
        """Commits a change set, and tells the troves that were committed."""
        ids = repository.commit(self.repo, self.catalogue, change)
        return b"".join(b"committed " + id_text(one) + b"\n" for one in ids) or b"nothing changes\n"

    def cook(self, data, options):
        troves, contents = manifest_of(data)
        if options:
            troves = repository.next_revised(self.catalogue, troves)
        return self.committed(ChangeSet(troves, contents))

    def list_troves(self, name=None):
        found = [trove.identity for trove in self.catalogue.troves if name in (None, trove.identity.name)]
        if name is not None and not found:
            raise Refused(b"missing trove " + name)
        return b"".join(id_text(one) + b"\n" for one in found)

    def config(self):
        """What the root's configuration file sets; nothing where no file stands there."""
        stands = self.root.look(CONFIG)
        if not is_of(stands, "file"):
            return repository.read_config(b"")
        if len(stands[2]) > LARGEST_CONFIG:
            raise Refused(b"too large: config %d" % len(stands[2]))
        return repository.read_config(read_whole(self.root, CONFIG))

    def expansion(self, text, config):
        return repository.expand(self.catalogue, repository.resolve(self.catalogue, repository.spec_of(text), config))

    def change_set(self, specs):
        config = self.config()
        lists = [self.expansion(text, config) for text in specs]
        found = repository.between(self.repo, self.catalogue, lists[0] if len(lists) > 1 else [], lists[-1])
        return set_bytes(found.parts, found.contents)

    def move(self, way, label, text):
        config = self.config()
        root = repository.resolve(self.catalogue, repository.spec_of(text), config)
        return self.committed(ChangeSet(repository.moved(self.catalogue, root, label, way), []))
