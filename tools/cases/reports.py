"""The calls of the program text_lines on the texts that commands write, and on the lowest libraries, and what they have to answer.

A call has its arguments behind it, and its answer is the text, with a tab for each line feed. The calls are the rows of reports.txt. The texts come
from tools/model/reports.py, and the streams of the troves that are handed in from tools/model/streams.py."""
from tools.cases.rows import Rows, id_of
from tools.model.reports import change_lines, finding_line, id_lines, note_text, or_nothing, trove_text
from tools.model.streams import id_text, trove_bytes

TABLE = Rows("reports")


def streams(troves):
    return [b"0x" + trove_bytes(one).hex().encode() for one in troves]


def changes_in(text):
    """A sign and an id, with a comma between two."""
    return [(one[0], id_of(one[2:])) for one in text.split(", ") if one]


def fields_of(changes):
    return [kind.encode() + id_text(one) for kind, one in changes]


# ---- the calls: of the fields of a row, what stands in the line, and the text

def troves(text):
    return streams(TABLE.troves(text)), id_lines(one.identity for one in TABLE.troves(text))


def named(name, text):
    fields, asked = streams(TABLE.troves(text)), name.encode()
    return [asked, *fields], id_lines(one.identity for one in TABLE.troves(text) if one.identity.name == asked)


def committed(text):
    ids = [id_of(one) for one in text.split(" + ") if one]
    return map(id_text, ids), or_nothing(b"".join(b"committed " + id_lines([one]) for one in ids))


def trove(text):
    return streams([TABLE.trove(text)]), trove_text(TABLE.trove(text))


def changes(text):
    return fields_of(changes_in(text)), or_nothing(change_lines(changes_in(text)))


def undos(*texts):
    """Each text has the number of a job, that of its paths, and its changes."""
    parts = [[*text.split(" ", 2), ""] for text in texts if text]
    notes = [(int(number), int(paths), changes_in(some)) for number, paths, some, *_ in parts]
    fields = [b"%d|%d|%s" % (number, paths, b";".join(fields_of(some))) for number, paths, some in notes]
    return fields, b"".join(note_text(*note) for note in notes)


def rolled_back(text):
    newest, count = map(int, text.split(" "))
    return [b"%d" % newest, b"%d" % count], b"".join(b"rolled back r.%d\n" % number for number in range(newest, newest - count, -1))


def verified(paths, *texts):
    found = [(word, TABLE.word(path)) for word, path in (text.split(" ") for text in texts)]
    lines = b"".join(finding_line(int(word) if word.isdigit() else word, path) for word, path in found)
    fields = [paths.encode(), *(word.encode() + b" " + path for word, path in found)]
    return fields, lines + b"verified %d paths, %d changed\n" % (int(paths), len(found))


CALLS = {call.__name__: call for call in (troves, named, committed, trove, changes, undos, rolled_back, verified)}


def report_lines():
    """The calls, each with its answer."""
    for call, *given in (row.split(" | ") for row in TABLE.rows()):
        fields, text = CALLS[call](*given)
        yield b"\t".join([call.encode(), *fields]), text.replace(b"\n", b"\t")


# ---- the lowest libraries: comparisons of bytes, and sources and sinks that give and take a part, and fail

def compared(first, second):
    """The words of a comparison: `same` or `different` and, of one length, the place of the first difference and how many there are."""
    words = ["same" if first == second else "different"]
    if len(first) == len(second):
        places = [place for place in range(len(first)) if first[place] != second[place]]
        words += [str(places[0]) if places else "none", str(len(places))]
    return words


def lanes(length):
    """The bytes 0, 1 and so on against themselves with one difference, at each place, then with none, and then against a byte more."""
    data = bytes(range(length))
    changed = [data[:at] + bytes([data[at] ^ 0x80]) + data[at + 1 :] for at in range(length)]
    return [word for one in changed for word in compared(data, one)] + compared(data, data) + compared(data + b"\x00", data)


def low_lines():
    """The calls, each with its answer."""
    cases = [(["lanes_of_length", str(length)], lanes(length)) for length in range(131)]
    pairs = ((b"abc", b"abX"), (b"abc", b"XYZ"), (b"abc", b"ab"), (b"", b""))
    cases += [(["lanes", first.decode(), second.decode()], compared(first, second)) for first, second in pairs]
    # Calls on sources and sinks, and the answers to them that were found by hand; `,` stands between two fields, and bytes of an answer are
    # shown as a text in quotes. A call of a source gives the number of bytes and the buffer of four bytes, which begins as `....`.
    for row in Rows("low").rows():
        call, wanted = row.split(" > ")
        # What stands between two quotes is every second piece.
        pieces = [piece.encode().hex() if place % 2 else piece for place, piece in enumerate(wanted.split("'"))]
        cases.append((call.split(","), "".join(pieces).split(",")))
    yield from (("\t".join(call).encode(), "\t".join(answer).encode()) for call, answer in cases)
