"""Packages of the scripts over directories of the host; and those of many small files of the benches, for conary and for others, and their times."""
import contextlib
import hashlib
import os
import shutil
import statistics
import subprocess
import sys
import time


def nodes_of(name, revision, files):
    """What a revision of a package holds: between two of them contents, modes, kinds and long links change, and paths come and go."""
    base = f"/usr/share/{name}"
    nodes = {path: ("dir", 0o755) for path in ("/usr", "/usr/bin", "/usr/share", base)}
    for at in range(files):
        nodes[f"{base}/d{at // 20:02}"] = ("dir", 0o750)
        if (at + revision) % 7:
            made = revision if (at + revision) % 3 == 0 else 0
            nodes[f"{base}/d{at // 20:02}/f{at:03}"] = ("file", (0o644, 0o600, 0o4755)[at % 3], f"{name} {at} {made} " * (1 + at % 40))
    nodes[f"{base}/link"] = ("link", "../" * (20 + revision % 9) + name)
    nodes[f"{base}/turns"] = ("dir", 0o700) if revision % 2 else ("file", 0o640, "turns")
    if revision % 2:
        nodes[f"{base}/turns/inner"] = ("file", 0o640, f"inner {name}")
    nodes[f"/usr/bin/{name}"] = ("file", 0o2755, f"runs {revision}")
    return nodes


def manifest_of(name, of_version, nodes):
    """The manifest of a package with these nodes."""
    lines = [f"manifest 1\npackage {name}\nversion {of_version}\n"]
    for path, (kind, *rest) in sorted(nodes.items()):
        if kind == "dir":
            lines.append(f"dir {rest[0]:04o} {path}\n")
        elif kind == "link":
            lines.append(f"link {path}\ntarget {rest[0]}\n")
        else:
            lines.append(f"file {rest[0]:04o} {len(rest[1])} {path}\n{rest[1]}\n")
    return "".join([*lines, "end\n"]).encode()


def manifest_at(name, revision, files):
    return manifest_of(name, f"/host.example.com@ex:devel/1.0-{revision}-1", nodes_of(name, revision, files))


# ---- of the benches

FILES, RUNS, STEPS = 46, 5, ("install", "update", "verify", "back")
VERSION = "/bench.example.com@ex:devel/1.0-%d-1"


def files_of(package, revision):
    """The files of a package, at a depth of five; of the second revision two have other bytes."""
    folders = [f"/usr/share/{name}/p{package:04}" for name in ("doc", "lib", "man", "etc")]
    texts = (f"package {package:08}, file {at:08}, {'x' * (at * 60)} {revision if at < 2 else 1}" for at in range(FILES))
    return {f"{folders[at % 4]}/f{at:02}": text for at, text in enumerate(texts)}


def manifest(package, revision, files=None):
    """A package with these files, or with its own, and the directories above them."""
    files = files or files_of(package, revision)
    above = {path[:at] for path in files for at, letter in enumerate(path) if letter == "/" and at}
    nodes = {path: ("dir", 0o755) for path in above} | {path: ("file", 0o644, text) for path, text in files.items()}
    return manifest_of(f"bench{package:04}", VERSION % revision, nodes)


def group(packages, revision):
    refs = [f"ref bench{package:04}={VERSION % revision}\n" for package in range(packages)]
    return f"manifest 1\ngroup group-bench\nversion {VERSION % revision}\n{''.join(refs)}end\n".encode()


def made_by(words, given=b"", before=()):
    """What a program writes, and how many seconds it took."""
    begun = time.monotonic()
    done = subprocess.run([*before, *words], input=given, stdout=subprocess.PIPE, stderr=subprocess.PIPE)
    if done.returncode:
        sys.exit(f"{words} ends with status {done.returncode}: {done.stdout.decode()[-500:]}{done.stderr.decode()}")
    return done.stdout, time.monotonic() - begun


def run(words, given=b"", before=()):
    return made_by(words, given, before)[1]


def fresh(folder, *inside):
    """Makes empty directories in a folder, all synced."""
    shutil.rmtree(folder, ignore_errors=True)
    for path in inside:
        os.makedirs(folder / path)
    run(["sync", "-f", folder])


class Room:
    """The two directories that the program works on."""

    def __init__(self, program, folder):
        self.folder, self.command = folder, [program, "--disk", folder / "root", folder / "repo"]
        fresh(folder, "root/var/lib", "repo")

    def run(self, *words, given=b"", before=()):
        return run([*self.command, *words], given, before)


def median(times):
    return statistics.median(times) * 1000


def names_of(packages):
    return [f"bench{package:04}" for package in range(packages)]


def lay_out(folder, package, revision):
    """Writes the files of a package into a directory."""
    for path, text in files_of(package, revision).items():
        os.makedirs(folder / os.path.dirname(path[1:]), exist_ok=True)
        (folder / path[1:]).write_text(text)


def sum_of(name, path):
    return hashlib.new(name, path.read_bytes()).hexdigest()


def timed(words, root):
    """How many seconds it takes until all is on the disk."""
    return run(words) + run(["sync", "-f", root])


class Packages:
    """A program whose packages are files, of each package two."""

    def __init__(self, packages, program):
        self.packages, self.program = packages, program

    def make(self, folder):
        self.files = folder / self.name
        for revision in (1, 2):
            fresh(self.files / str(revision), ".")
            for package, name in enumerate(names_of(self.packages)):
                lay_out(folder / "laid", package, revision)
                self.pack(folder / "laid", name, revision)
                shutil.rmtree(folder / "laid")

    def begin(self, folder):
        self.root = folder / "root"
        fresh(self.root, *self.inside)
        self.set_up()

    def set_up(self):
        """What a root of the program has at first."""

    def put(self, revision):
        return timed([*self.command("put"), *sorted((self.files / str(revision)).iterdir())], self.root)

    def step(self, name):
        return run(self.command("verify")) if name == "verify" else self.put(2 if name == "update" else 1)


class Conary(Packages):
    """Updates from a repository that has both revisions, verifies, and takes the newest job back."""

    name, needs = "conary", ()

    def make(self, folder):
        room, self.template = Room(self.program, folder / "jobs"), folder / "template"
        for revision in (1, 2):
            for package in range(self.packages):
                room.run("cook", given=manifest(package, revision))
            room.run("cook", given=group(self.packages, revision))
        shutil.copytree(room.folder / "repo", self.template)

    def begin(self, folder):
        self.room = Room(self.program, folder / "jobs")
        shutil.copytree(self.template, self.room.folder / "repo", dirs_exist_ok=True)
        run(["sync", "-f", folder])

    def step(self, name):
        words = {"install": ("update", "group-bench=" + VERSION % 1), "update": ("update", "group-bench=" + VERSION % 2), "back": ("rollback",)}
        return self.room.run(*words.get(name, ("verify",)))


class Dpkg(Packages):
    """`dpkg -i` with syncs as it makes them; going back is the old packages once more."""

    name, needs, inside = "dpkg", ("dpkg", "dpkg-deb"), ("var/lib/dpkg/info", "var/lib/dpkg/updates")

    def pack(self, laid, name, revision):
        os.mkdir(laid / "DEBIAN")
        control = f"Package: {name}\nVersion: {revision}\nArchitecture: all\nMaintainer: bench\nDescription: bench\n"
        (laid / "DEBIAN/control").write_text(control)
        files = sorted(path for path in laid.glob("usr/**/*") if path.is_file())
        sums = (f"{sum_of('md5', path)}  {path.relative_to(laid)}\n" for path in files)
        (laid / "DEBIAN/md5sums").write_text("".join(sums))
        run(["dpkg-deb", "-Znone", "-b", laid, self.files / str(revision) / f"{name}.deb"])

    def set_up(self):
        (self.root / "var/lib/dpkg/status").touch()

    def command(self, what):
        how = ["dpkg", "--no-force-unsafe-io", "--force-downgrade", "--force-not-root", f"--root={self.root}", "--log=/dev/null"]
        return [*how, *{"put": ["-i"], "verify": ["--verify"]}[what]]


def medians_of(peer, at):
    """The milliseconds of each step, medians of some runs."""
    peer.make(at)
    times = {step: [] for step in STEPS}
    for _ in range(RUNS):
        peer.begin(at)
        for step in STEPS:
            times[step].append(peer.step(step))
    return {step: median(took) for step, took in times.items()}


def floor_of(at, packages):
    """The milliseconds of `tar x` and `sync` of all files of the packages."""
    laid, files, out = at / "laid", at / "files.tar", at / "untarred"
    for package in range(packages):
        lay_out(laid, package, 1)
    run(["tar", "-cf", files, "-C", laid, "usr"])
    times = []
    for _ in range(RUNS):
        fresh(out, ".")
        times.append(run(["sh", "-c", 'tar -xf "$1" -C "$2" && sync -f "$2"', "sh", files, out]))
    for made in (laid, out):
        shutil.rmtree(made)
    files.unlink()
    return median(times)


@contextlib.contextmanager
def disk(folder):
    """A disk image with ext4, or else the folder itself."""
    image, at = folder / "image", folder / "disk"
    at.mkdir()
    with open(image, "wb") as file:
        file.truncate(4 << 30)
    commands = (["mkfs.ext4", "-q", "-F", image], ["mount", "-o", "loop", image, at])
    made = not os.geteuid() and not any(subprocess.run(command).returncode for command in commands)
    print("on a disk image with ext4" if made else "on the file system of TMPDIR, since no image can be mounted here", flush=True)
    try:
        yield at
    finally:
        if made:
            subprocess.run(["umount", at])
