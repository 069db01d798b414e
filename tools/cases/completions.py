"""Lines of list_lines on updates that complete themselves and on system models, and the answers by tools/model/completion.py.

A line `new` begins each case: the catalogue is empty then, and troves are added to it one by one. The rows of completions.txt are a case and its
troves; what is asked of it: a flavor, labels, and troves that are installed, behind `>` those that come, or lines of a model and labels; and the
bytes of a model by themselves."""
import re

from tools.cases.jobs import listed, shown
from tools.cases.rows import LABEL, STABLE, Rows, repeated
from tools.lines.words import answered, digits, line
from tools.model import completion, repository
from tools.model.lists import by_name
from tools.model.streams import id_text, trove_bytes
from tools.model.texts import flavor_of

TABLE, LABELS = Rows("completions"), {"D": LABEL, "S": STABLE}


class Case:
    """A catalogue of these troves, and what is asked of it."""

    def __init__(self, text):
        self.troves, self.catalogue = TABLE.troves(text) if "=" in text else TABLE.named(text), repository.Catalogue()
        self.catalogue.add(self.troves)

    def begin(self):
        yield from (("new", "ok"), *((line("add", digits(trove_bytes(one))), "ok") for one in self.troves))

    def named(self, text):
        """Troves by their places in the case, or by their names."""
        return [self.troves[int(word)] if word.isdigit() else TABLE.names[word] for word in text.split()]

    def completed(self, flavor, labels, troves):
        installed, roots = map(self.named, troves.split(">"))
        installed, roots, labels = by_name(installed), [one.identity for one in roots], [LABELS[name] for name in labels.split()]
        config = repository.Config(labels, flavor_of(flavor.encode()))
        asked = line("completed", listed(installed), b";".join(map(id_text, roots)), b";".join(labels), flavor)
        found = lambda: completion.completed(self.catalogue, installed, roots, config)
        return asked, answered(lambda: line("ok", *(id_text(one.identity) for one in found())))

    def wanted(self, lines, labels):
        data, labels = TABLE.bytes(lines), [LABELS[name] for name in labels.split()]
        config = repository.Config(labels, flavor_of(b""))
        found = answered(lambda: shown(completion.wanted(self.catalogue, completion.read_model(data), config)))
        return line("wanted", digits(data), b";".join(labels), ""), found


def model(data):
    def said():
        texts = (word + b" " + (what if word == b"erase" else what.text) for word, what in completion.read_model(data))
        return line("ok", *texts)

    return line("model", digits(data)), answered(said)


def lines():
    case = None
    for row in TABLE.rows():
        call, _, rest = row.partition(" ")
        if call == "case":
            case = Case(rest)
            yield from case.begin()
        elif call in ("completed", "wanted"):
            yield getattr(case, call)(*re.split(r" ?\| ?", rest))
        elif call == "model":
            yield model(TABLE.bytes(repeated(rest)))
