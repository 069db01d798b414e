"""The steps of bench/jobs.sh: two jobs of so many packages with their troves and contents, a verification and a rollback."""
import hashlib
import sys

sys.path.insert(0, sys.argv[1])

from tools.model.streams import Id, ROOT, Trove, directory, regular, trove_bytes

packages = int(sys.argv[2])


def content(package, file, round_):
    changes = round_ if file % 2 == 0 else 1
    return b"file %d of package %d, round %d, and some more bytes that are the same in each file" % (file, package, changes)


for round_, step in ((1, "install"), (2, "update")):
    troves, contents = [], {}
    for package in range(packages):
        name = b"p%05d" % package
        version = b"/h@n:t/1.0-%d-1" % round_
        components = [Id(name + b":c%d" % part, version, b"") for part in range(4)]
        troves.append(Trove(Id(name, version, b""), [], components, [], []))
        for part, identity in enumerate(components):
            top = b"/srv%05d-%d" % (package, part)
            files = [(top, directory(0o755, ROOT))]
            for file in range(part, 46, 4):
                data = content(package, file, round_)
                sha1 = hashlib.sha1(data).digest()
                contents[sha1] = data
                files.append((top + b"/f%02d" % file, regular(0o644, 0, len(data), sha1, ROOT)))
            troves.append(Trove(identity, files, [], [], []))
    carried = [data for _, data in sorted(contents.items())]
    print(step, ";".join("0x" + trove_bytes(trove, True).hex() for trove in troves), ";".join("0x" + data.hex() for data in carried), sep="\t")
print("verify")
print("back")
