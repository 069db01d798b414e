"""Packages of the system's own archive, made manifests, cooked, installed, updated and taken back (see archive.sh)."""
import os
import pathlib
import random
import shutil
import sys
import tempfile
import time

from packages import made_by
from rooms import nodes_below
from tools.model.texts import FIXED, is_reserved

LABEL, MOST_BYTES, MOST_FILES = "archive.example.com@deb:stable", 16_777_216, 400


def fits(nodes):
    """Whether the files can be in a manifest, and are few enough that many packages can be tried."""
    files = [node for node in nodes.values() if node[0] == "file"]
    return 0 < len(files) <= MOST_FILES and all(len(node[2]) <= MOST_BYTES for node in files)


class Tried:
    """The unpacked packages, what they hold by the paths, and the directories that the program works on."""

    def __init__(self, program, writer, folder):
        self.writer, self.folder, self.laid, self.packages = writer, folder, folder / "laid", []
        self.command = [program, "--disk", folder / "root", folder / "repo"]
        for path in ("root/var/lib", "repo", "laid"):
            os.makedirs(folder / path)

    def unpack(self, debs, count):
        """Unpacks packages up to the count, each with files that no other one has."""
        taken = set()
        for deb in debs:
            name = deb.name.split("_")[0]
            if len(self.packages) == count or name in self.packages:
                continue
            made_by(["dpkg", "-x", deb, self.laid / name])
            nodes = nodes_below(self.laid / name)
            own = {path for path, node in nodes.items() if node[0] != "dir"}
            if fits(nodes) and not own & taken:
                self.packages.append(name)
                taken |= own
            else:
                shutil.rmtree(self.laid / name)
        self.packages.sort()

    def wanted(self):
        """What is to stand: of a directory in several packages that of the first."""
        found = {}
        for name in reversed(self.packages):
            found.update(nodes_below(self.laid / name))
        return {path: node for path, node in found.items() if path != b"/"}

    def cook(self, revision):
        """Cooks all packages and their group by one batch."""
        version, text, begun = f"/{LABEL}/1.0-{revision}-1", b"", time.monotonic()
        for name in self.packages:
            text += self.line(made_by([self.writer, "package", name, version, self.laid / name])[0])
        made = time.monotonic() - begun
        refs = "".join(f"ref {name}={version}\n" for name in self.packages)
        text += self.line(f"manifest 1\ngroup group-archive\nversion {version}\n{refs}end\n".encode())
        cooked = self.conary("batch", given=text)[1]
        print(f"revision {revision}: {len(text)} bytes of manifests in {made:.1f} s, cooked in {cooked:.1f} s", flush=True)

    def line(self, manifest):
        return b"cook <%d\n%s\n" % (len(manifest), manifest)

    def conary(self, *words, **more):
        return made_by([*self.command, *words], **more)

    def change(self):
        """The second revision: of each package one file is longer, one is gone, and one comes."""
        for name in self.packages:
            files = [path for path in sorted((self.laid / name).rglob("*")) if path.is_file() and not path.is_symlink()]
            with open(files[0], "ab") as file:
                file.write(b"one line more\n")
            (files[0].parent / f"{name}.new").write_text(f"new in {name}\n")
            if len(files) > 1:
                files[-1].unlink()

    def compare(self, wanted, what, took):
        stands = nodes_below(self.folder / "root").items()
        found = {path: node for path, node in stands if path in wanted or path not in FIXED and not is_reserved(path)}
        differ = sorted(path for path in wanted.keys() | found.keys() if wanted.get(path) != found.get(path))
        verified = self.conary("verify")[0].decode().splitlines()
        print(f"{what} in {took:.1f} s: {len(wanted)} paths, {len(differ)} differ; {verified[-1]}", flush=True)
        if differ or len(verified) > 1:
            sys.exit("\n".join([*map(os.fsdecode, differ[:9]), *verified[:9]]))


def main():
    program, count, archive, writer = sys.argv[1], int(sys.argv[2]), pathlib.Path(sys.argv[3]), sys.argv[4]
    random.seed(sys.argv[5] if len(sys.argv) > 5 else 0)
    debs = sorted(archive.glob("*.deb"))
    random.shuffle(debs)
    with tempfile.TemporaryDirectory(prefix="conary-archive-") as name:
        tried = Tried(program, writer, pathlib.Path(name))
        tried.unpack(debs, count)
        print(f"{len(tried.packages)} packages: {' '.join(tried.packages)}", flush=True)
        first = tried.wanted()
        tried.cook(1)
        tried.compare(first, "installed", tried.conary("update", f"group-archive={LABEL}")[1])
        tried.change()
        tried.cook(2)
        tried.compare(tried.wanted(), "updated", tried.conary("update", f"group-archive={LABEL}")[1])
        tried.compare(first, "taken back", tried.conary("rollback")[1])


main()
