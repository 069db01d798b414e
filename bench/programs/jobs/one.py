"""The steps of bench/one.sh: a job of so many components with 50 files each, and one of another version of one of them, with other bytes."""
import hashlib
import sys

sys.path.insert(0, sys.argv[1])

from tools.model.streams import Id, ROOT, Trove, directory, regular, trove_bytes

components = int(sys.argv[2])


def content(component, file, round_):
    return b"file %d of component %d, round %d, and some more bytes that are the same in each file" % (file, component, round_)


for round_, step, some in ((1, "fill", range(components)), (2, "one", [components // 2])):
    troves, contents = [], {}
    for component in some:
        top = b"/srv%05d" % component
        files = [(top, directory(0o755, ROOT))]
        for file in range(50):
            data = content(component, file, round_)
            sha1 = hashlib.sha1(data).digest()
            contents[sha1] = data
            files.append((top + b"/f%02d" % file, regular(0o644, 0, len(data), sha1, ROOT)))
        troves.append(Trove(Id(b"p%05d:c" % component, b"/h@n:t/1.0-%d-1" % round_, b""), files, [], [], []))
    carried = [data for _, data in sorted(contents.items())]
    print(step, ";".join("0x" + trove_bytes(trove, True).hex() for trove in troves), ";".join("0x" + data.hex() for data in carried), sep="\t")
