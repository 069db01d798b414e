"""Times jobs of packages of small files, and the same by other programs (see bench/peers.sh)."""
import gzip
import os
import pathlib
import shutil
import sys
import tempfile

from packages import FILES, Conary, Dpkg, Packages, disk, floor_of, fresh, lay_out, medians_of, names_of, run, sum_of, timed

PROGRAM, PACKAGES, ASKED = sys.argv[1], int(sys.argv[2]), sys.argv[3:]


class Rpm(Packages):
    """`rpm -U`; going back is the old packages with --oldpackage."""

    name, needs, inside = "rpm", ("rpm", "rpmbuild"), ("var/lib/rpm",)

    def pack(self, laid, name, revision):
        spec, made = laid.parent / "spec", self.files / str(revision)
        paths = "".join(f"/{path.relative_to(laid)}\n" for path in sorted(laid.glob("usr/**/*")) if path.is_file())
        head = f"Name: {name}\nVersion: {revision}\nRelease: 1\nSummary: bench\nLicense: none\nBuildArch: noarch\nAutoReqProv: no\n"
        spec.write_text(f"{head}%description\nbench\n%install\ncp -r {laid}/usr %{{buildroot}}\n%files\n{paths}")
        how = [f"_topdir {laid.parent}/rpmbuild", f"_rpmdir {made}", "_build_name_fmt %%{NAME}.rpm", "_binary_payload w.ufdio"]
        run(["rpmbuild", "-bb", "--quiet", "--noclean", "--nodeps", *(word for it in how for word in ("--define", it)), spec])

    def command(self, what):
        how = ["rpm", "--root", self.root, "--dbpath", "/var/lib/rpm"]
        return [*how, *{"put": ["-U", "--oldpackage", "--nosignature"], "verify": ["-Va"]}[what]]


class Pacman(Packages):
    """`pacman -U`; going back is the old packages once more."""

    name, needs, inside = "pacman", ("pacman",), ("var/lib/pacman", "var/cache")

    def pack(self, laid, name, revision):
        (laid / ".PKGINFO").write_text(f"pkgname = {name}\npkgver = {revision}-1\npkgdesc = bench\narch = any\nsize = 1\n")
        lines = ["#mtree\n/set uid=0 gid=0\n"]
        for path in sorted(laid.glob("usr/**/*")):
            about = f"./{path.relative_to(laid)} time={int(path.stat().st_mtime)}.0 mode={path.stat().st_mode & 0o7777:o}"
            sum = "" if path.is_dir() else f" size={path.stat().st_size} md5digest={sum_of('md5', path)} sha256digest={sum_of('sha256', path)}"
            lines.append(f"{about} type={'dir' if path.is_dir() else 'file'}{sum}\n")
        (laid / ".MTREE").write_bytes(gzip.compress("".join(lines).encode()))
        made = self.files / str(revision) / f"{name}-{revision}-1-any.pkg.tar"
        run(["tar", "-cf", made, "-C", laid, "--owner=0", "--group=0", ".MTREE", ".PKGINFO", "usr"])

    def set_up(self):
        (self.root / "conf").write_text("[options]\nArchitecture = auto\nSigLevel = Never\nLocalFileSigLevel = Never\n")

    def command(self, what):
        how = ["pacman", "--root", self.root, "--dbpath", self.root / "var/lib/pacman", "--config", self.root / "conf"]
        how += ["--cachedir", self.root / "var/cache", "--logfile", "/dev/null", "--hookdir", self.root / "none", "--gpgdir", self.root / "none"]
        return [*how, *{"put": ["-U", "--noconfirm", "--noprogressbar"], "verify": ["-Qkk"]}[what]]


class Ostree(Packages):
    """Checks the whole tree of a commit out, each time into a new directory, by hard links into its repository. What is verified is that
    repository; going back is the old directory, which still stands."""

    name, needs = "ostree", ("ostree",)

    def make(self, folder):
        self.repo = folder / "ostree"
        run(["ostree", f"--repo={self.repo}", "init", "--mode=bare"])
        for revision in (1, 2):
            for package in range(PACKAGES):
                lay_out(folder / "laid", package, revision)
            run(["ostree", f"--repo={self.repo}", "commit", "-b", f"r{revision}", f"--tree=dir={folder / 'laid'}"])
            shutil.rmtree(folder / "laid")

    def begin(self, folder):
        self.root = folder / "trees"
        fresh(self.root, ".")

    def step(self, name):
        how = ["ostree", f"--repo={self.repo}"]
        if name == "verify":
            return run([*how, "fsck", "-q"])
        if name == "back":
            return 0
        revision = {"install": "r1", "update": "r2"}[name]
        return timed([*how, "checkout", "-H", "--fsync=yes", revision, self.root / revision], self.root)


class Nix(Packages):
    """Adds the directories of packages to a store and makes a profile of symbolic links to them; going back is the profile before."""

    name, needs = "nix", ("nix-store", "nix-env")

    def make(self, folder):
        self.laid = folder / "nix-packages"
        for revision in (1, 2):
            for package, name in enumerate(names_of(PACKAGES)):
                lay_out(self.laid / f"{name}-{revision}", package, revision)

    def begin(self, folder):
        self.root = folder / "nix"
        if self.root.exists():
            run(["chmod", "-R", "u+w", self.root])
        fresh(self.root, "store", "state", "log", "conf", "home")
        (self.root / "conf/nix.conf").write_text("sandbox = false\nbuild-users-group =\n")
        places = {"STORE_DIR": "store", "STATE_DIR": "state", "LOG_DIR": "log", "CONF_DIR": "conf"}
        os.environ.update({f"NIX_{name}": str(self.root / path) for name, path in places.items()} | {"HOME": str(self.root / "home")})

    def step(self, name):
        profile = ["nix-env", "-p", self.root / "profile"]
        if name == "verify":
            return run(["nix-store", "--verify", "--check-contents"])
        if name == "back":
            return timed([*profile, "--rollback"], self.root)
        laid = sorted(self.laid.glob("*-1" if name == "install" else "*-2"))
        add = 'p=$1; shift; exec nix-env -p "$p" -i $(nix-store --add "$@")'
        return timed(["sh", "-c", add, "sh", self.root / "profile", *laid], self.root)


def main():
    known = [peer for peer in (Conary, Dpkg, Rpm, Pacman, Ostree, Nix) if not ASKED or peer.name in ASKED]
    with tempfile.TemporaryDirectory(prefix="conary-bench-") as name, disk(pathlib.Path(name)) as at:
        floor = floor_of(at, PACKAGES)
        print(f"{PACKAGES} packages, {PACKAGES * FILES} files; tar x and sync: {floor:.0f} ms", flush=True)
        for peer in (peer for peer in known if all(map(shutil.which, peer.needs))):
            medians = medians_of(peer(PACKAGES, PROGRAM), at)
            print(f"{peer.name}: {', '.join(f'{step} {took:.0f} ms ({took / floor:.1f})' for step, took in medians.items())}", flush=True)


main()
