"""Lines of list_lines on whole lists of troves and on one closure, and the answers.

The call `trove` lets a trove wait: its stream, of an id, what it requires and what it provides. The calls behind take the troves that wait:
`closed` tests them as a list, `of` makes the closure of them, and `change` takes the troves of the named names out of the closure's list and puts
those that wait in. The closure is the list itself here, tested by tools/model/lists.py as a whole. The calls that were made by hand are rows of
closures.txt."""
from tools.cases.rows import table
from tools.lines.words import digits
from tools.model.lists import by_name, first_unmet, name_of
from tools.model.streams import trove_bytes, trove_of

TABLE = table("closures")
TROVES = dict(row.split(" = ") for row in TABLE["troves"])


def trove(name, requires=(), provides=(), revision=1):
    requires, provides = ({text.encode() for text in part} for part in (requires, provides))
    return trove_of(name.encode(), b"/conary.example.com@ex:devel/1.0-%d-1" % revision, (), (), requires, provides)


def answer(troves):
    unmet = first_unmet(troves)
    return "ok" if unmet is None else "unmet " + b" ".join(unmet).decode()


class Lines:
    """Calls with their answers, and the list that the closure is of."""

    def __init__(self):
        self.made, self.list = [], []

    def wait(self, troves):
        self.made += [("trove\t" + digits(trove_bytes(one)), "ok") for one in troves]

    def closed(self, *troves):
        self.wait(troves)
        self.made.append(("closed", answer(troves)))

    def of(self, *troves):
        self.wait(troves)
        self.made.append(("of", "ok"))
        self.list = by_name(troves)

    def change(self, gone=(), *come):
        """The list after it isn't made where it is refused."""
        come, away = by_name(come), {*(name.encode() for name in gone), *map(name_of, come)}
        self.after = by_name([one for one in self.list if name_of(one) not in away] + come)
        self.wait(come)
        self.made.append(("change\t" + ";".join(gone), answer(self.after)))
        if self.made[-1][1] == "ok":
            self.list = self.after

    def closed_list(self):
        self.closed(*self.list)

    def closed_after(self):
        """The list that the last change would make."""
        self.closed(*self.after)


def written(text):
    """A trove of the table, or one that is written out: its name, its revision if that isn't 1, and what it requires and provides."""
    head, *rest = TROVES.get(text, text).split("; ")
    name, *revision = head.split()
    requires, provides = ([one.partition(" ")[2] for one in rest if one.startswith(kind)] for kind in ("requires", "provides"))
    return trove(name, requires, provides, *map(int, revision))


def lines():
    """Each call with its arguments, and its answer, by the rows: a call, the names of the troves that go, and the troves that wait."""
    made = Lines()
    for row in (row for topic, rows in TABLE.items() for row in rows if topic != "troves"):
        said, *troves = row.split(" | ")
        call, *gone = said.split()
        getattr(made, call)(*([gone] if call == "change" else []), *map(written, troves))
    return made.made
