"""A model of a whole call, also of one of several lines: a batch, and the demo. Made from docs/COMMANDS.md alone; one command is that of
model/by_files.py.

The disks are opened once. What is kept of them from line to line, the database and the catalogue, is that of the disks."""
from tools.model import by_files
from tools.model.batches import lines_of, read_batch
from tools.model.by_files import Db, command_of, takes_input
from tools.model.program import Ended
from tools.model.records import DATABASE, EMPTY, read_database

MOST_PACKAGES = 200


def package_count(words):
    """How many packages the demo of these words has."""
    digits = words[1] if len(words) == 2 else b""
    if not digits.isdigit() or digits[:1] == b"0" or len(digits) > 3 or int(digits) > MOST_PACKAGES:
        raise Ended(2, b"")
    return int(digits)


class Call(by_files.Call):
    """A whole call of the program, of one command or of several lines."""

    gives = 0

    def write(self, text):
        """What a line answers, by one call of the output."""
        if text:
            self.gives += 1
            if self.gives == self.streams.out_fails:
                raise Ended(4, b"output fault")
            self.out += text

    def perform(self):
        first = self.words[:1]
        if first == [b"batch"]:
            if len(self.words) > 1:
                raise Ended(2, b"")
            self.open()
            for words, data in read_batch(self.read_input()):
                self.write(self.line(words, data))
            return b""
        if first == [b"demo"]:
            packages, text = package_count(self.words), b""
            self.open()
            for words, data in lines_of(packages):
                text = self.line(words, data)
            return text
        return super().perform()

    def line(self, words, data):
        """What a line answers, over disks that are open."""
        command, options, rest = command_of(words)
        text = self.answer(command, options, rest, data if takes_input(command, rest) else None)
        node = self.root.nodes.get(DATABASE)
        self.db = EMPTY if node is None else Db(*read_database(node[2]))
        return text
