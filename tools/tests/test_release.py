"""Makefile and release.py: what is installed, the archives of a release, and both in an empty root; the
completions, as real shells give them; and the words of the script ./ldv that are its own."""
from __future__ import annotations

import gzip
import hashlib
import os
import re
import shutil
import subprocess
import sys
import tarfile
import unittest
from typing import Any, Optional, Sequence

import completions
import release
from checks import check_docs
from ldvtools import __version__
from ldvtools.program import least_libc

from . import support
from .support import EXAMPLES, ROOT, InFolder, command, each_of, read

# In place of the program: it is asked for nothing but its words.
STUB = "#!/bin/sh\necho 'ldv: usage' >&2\nexit 2\n"
VERDICT = ("logic=proved functions={} sum=dac8208d650f15bf native=nat,char,string logic-built=trusted "
           "libraries-built=trusted statements=trusted")
WITHOUT_NETWORK = ["unshare", "-mn"] if os.geteuid() == 0 else ["unshare", "-rmn"]


def log_text(names: Sequence[str]) -> str:
    """A log as `rt ci` writes one of these crates, with the time before each line."""
    lines = []
    for place, name in enumerate(names):
        lines += [f"== {name}", f"fn {name}::one: proved", "statements core: modules loaded=1 checked=0",
                  VERDICT.format(place + 1), f"rt: {name} proved"]
    return "".join(f"{place:8.1f} {line}\n" for place, line in enumerate(lines))


class Checkout(InFolder):
    """A test with a checkout of its own, of the files of this one, and a program and a log for it."""

    def setUp(self) -> None:
        super().setUp()
        if shutil.which("git") is None:
            self.skipTest("git isn't installed")
        self.git_env = {**os.environ, "GIT_AUTHOR_DATE": "2026-11-30T10:00:00+0100",
                        "GIT_COMMITTER_DATE": "2026-11-30T10:00:00+0100", "GIT_CONFIG_GLOBAL": "/dev/null",
                        "GIT_CONFIG_SYSTEM": "/dev/null"}
        self.program = self.put("program", STUB)
        os.chmod(self.program, 0o755)
        self.log = self.put("gate.log", log_text(release.crates_of(ROOT)))

    def git(self, folder: str, *words: str) -> bytes:
        return subprocess.run(["git", "-C", folder, *words], env=self.git_env, check=True,
                              capture_output=True).stdout

    def checkout(self, name: str = "checkout") -> str:
        """A repository with one commit of what a release is made of."""
        top = os.path.join(self.folder, name)
        os.makedirs(top)
        for each in ("Makefile", "ldv", "crates.txt", "HANDLES", *release.TEXTS):
            if os.path.exists(os.path.join(ROOT, each)):
                os.makedirs(os.path.dirname(os.path.join(top, each)), exist_ok=True)
                shutil.copy(os.path.join(ROOT, each), os.path.join(top, each))
        for each in ("docs", "examples", "tools"):
            shutil.copytree(os.path.join(ROOT, each), os.path.join(top, each), dirs_exist_ok=True,
                            ignore=shutil.ignore_patterns("__pycache__", ".mypy_cache", "tests", "out"))
        self.git(top, "init", "-q")
        self.git(top, "add", "-A")
        self.git(top, "-c", "user.name=A", "-c", "user.email=a@b.example", "commit", "-q", "-m", "All")
        return top

    def make(self, top: str, *words: str, env: Optional[dict[str, str]] = None) -> tuple[int, str, str]:
        done = subprocess.run(["make", "-C", top, *words, f"PYTHON={sys.executable}"],
                              stdin=subprocess.DEVNULL, capture_output=True,
                              check=False, env={**os.environ, **(env or {})})
        return done.returncode, done.stdout.decode(), done.stderr.decode()

    def dist(self, top: str, env: Optional[dict[str, str]] = None) -> dict[str, bytes]:
        status, out, err = self.make(top, "dist", f"LDV_PROGRAM={self.program}", f"LOG={self.log}", env=env)
        self.assertEqual(status, 0, out + err)
        folder = os.path.join(top, "dist")
        return {name: read(os.path.join(folder, name)) for name in sorted(os.listdir(folder))}


@unittest.skipUnless(shutil.which("make"), "make isn't installed")
class Archives(Checkout):
    def test_same_bytes(self) -> None:
        """The same commit gives the same bytes in two folders, by another user's mask, clock, zone and
        language."""
        first = self.checkout()
        second = os.path.join(self.folder, "another folder")
        made = self.dist(first)
        mask = os.umask(0o077)
        try:
            self.git(self.folder, "clone", "-q", first, second)
            for at, _, names in os.walk(second):
                for name in names:
                    os.utime(os.path.join(at, name), (1_000_000_000, 1_000_000_000))
            again = self.dist(second, {"TZ": "Asia/Tokyo", "LC_ALL": "C.UTF-8", "SOURCE_DATE_EPOCH": "5",
                                       "PYTHONHASHSEED": "7"})
        finally:
            os.umask(mask)
        self.assertEqual(list(made), list(again))
        digests = {name: hashlib.sha256(data).hexdigest() for name, data in made.items()}
        for name, data in again.items():
            self.assertEqual(hashlib.sha256(data).hexdigest(), digests[name], name)
        self.assertIn(f"ldv-{__version__}-linux-x86_64.tar.gz", made)
        self.assertEqual(f"ldv_{__version__}_amd64.deb" in made, shutil.which("dpkg-deb") is not None)
        lines = made["SHA256SUMS"].decode().splitlines()
        sums = {name: digest for digest, name in (line.split("  ") for line in lines)}
        self.assertEqual({**sums, "SHA256SUMS": digests["SHA256SUMS"]}, digests)

    def test_contents(self) -> None:
        """The archive has the program, the tools, the manual page, completions, documents, examples and
        BUILD, owned by root, at the time of the commit."""
        top = self.checkout()
        self.dist(top)
        path = os.path.join(top, f"dist/{release.NAME}.tar.gz")
        with tarfile.open(path) as archive:
            entries = {entry.name: entry for entry in archive}
            written, program = (file.read() for file in map(archive.extractfile, (
                f"{release.NAME}/share/doc/ldv/BUILD", f"{release.NAME}/bin/ldv")) if file is not None)
        build = written.decode()
        self.assertEqual(list(entries), sorted(entries))
        self.assertEqual(program, read(self.program))
        for entry in entries.values():
            self.assertEqual((entry.uid, entry.gid, entry.uname, entry.gname, entry.mtime),
                             (0, 0, "root", "root", 1_796_029_200), entry.name)
        modes = {name[len(release.NAME) + 1:]: entry.mode for name, entry in entries.items()
                 if entry.isfile()}
        self.assertLessEqual({"share/man/man1/ldv.1", "share/bash-completion/completions/ldv",
                              "share/zsh/site-functions/_ldv", "share/fish/vendor_completions.d/ldv.fish",
                              "share/ldv/ldvtools/page.js", "share/ldv/ldvtools/py.typed",
                              "share/ldv/ldvtools/notebook/worlds.py", "share/doc/ldv/README.md",
                              "share/doc/ldv/docs/TUTORIAL.md", "share/doc/ldv/examples/weather.json",
                              "share/doc/ldv/examples/notebook/visits.ipynb"}, set(modes))
        tools = sorted(name[len("bin/ldv-"):] for name in modes if name.startswith("bin/ldv-"))
        self.assertEqual(tools, sorted(release.tool_names(ROOT)))
        self.assertGreaterEqual(len(tools), 11)
        for name, mode in modes.items():
            self.assertEqual(mode, 0o755 if name.startswith("bin/") else 0o644, name)
        self.assertFalse([name for name in modes if "tests" in name or "__pycache__" in name])
        commit = self.git(top, "rev-parse", "HEAD").decode().strip()
        for line in (f"ldv {__version__}", f"commit {commit} of 2026-11-30",
                     f"program {hashlib.sha256(read(self.program)).hexdigest()}"):
            self.assertIn(line, build.splitlines())
        self.assertRegex(build, r"(?m)^kit rattle-kit-\S+ logic [0-9a-f]{16}$")
        lines = [line.split(None, 1) for line in build.splitlines() if "logic=proved" in line]
        self.assertEqual(lines, [[name, VERDICT.format(place + 1)]
                                 for place, name in enumerate(release.crates_of(ROOT))])
        self.assertIn("make dist", build)

    @unittest.skipUnless(shutil.which("dpkg-deb"), "dpkg-deb isn't installed")
    def test_debian(self) -> None:
        """The package has the same files below /usr, and depends on the C library that the program names."""
        self.put("program", STUB.encode() + b"# \0libgcc_s.so.1\0GLIBC_2.2.5\0GLIBC_2.34\0\n")
        top = self.checkout()
        self.dist(top)
        path = os.path.join(top, "dist", release.DEBIAN)
        fields = command(["dpkg-deb", "--field", path])[1].decode()
        for line in ("Package: ldv", f"Version: {__version__}", "Architecture: amd64",
                     "Depends: libc6 (>= 2.34), libgcc-s1, python3 (>= 3.9)"):
            self.assertIn(line, fields.splitlines())
        listed = command(["dpkg-deb", "--contents", path])[1].decode().splitlines()
        files = {line.split()[5]: line.split()[:2] for line in listed}
        with tarfile.open(os.path.join(top, f"dist/{release.NAME}.tar.gz")) as archive:
            names = {entry.name[len(release.NAME):] for entry in archive if entry.isfile()}
        wanted = {f"./usr{name}".replace("zsh/site-functions", "zsh/vendor-completions") for name in names}
        self.assertEqual({name for name, (mode, _) in files.items() if mode[0] == "-"}, wanted)
        self.assertEqual({owner for _, owner in files.values()}, {"root/root"})
        self.assertEqual(files["./usr/bin/ldv"][0], "-rwxr-xr-x")
        unpacked = os.path.join(self.folder, "unpacked")
        self.assertEqual(command(["dpkg-deb", "--raw-extract", path, unpacked])[0], 0)
        self.assertTrue(read(f"{unpacked}/usr/bin/ldv-world").startswith(b"#!/usr/bin/python3\n"))
        for line in read(f"{unpacked}/DEBIAN/md5sums").decode().splitlines():
            digest, _, name = line.partition("  ")
            self.assertEqual(hashlib.md5(read(f"{unpacked}/{name}")).hexdigest(), digest)

    def test_refused(self) -> None:
        """What isn't of one commit, with one program and all verdicts, is no release."""
        top = self.checkout()
        given = f"LDV_PROGRAM={self.program}"
        status, _, err = self.make(top, "dist", given, f"LOG={self.log}x")
        self.assertIn("gate.logx: No such file", err)
        status, _, err = self.make(top, "dist", given)
        self.assertIn("no log has the verdict of ldv_value, ldv_io, file_tree and others", err)
        others = [name for name in release.crates_of(ROOT) if name != "reach"]
        part = self.put("part.log", log_text(others))
        status, _, err = self.make(top, "dist", given, f"LOG={part}")
        self.assertIn("no log has the verdict of reach:", err)
        kept = self.put("kept.log", "rt: reach is kept: an earlier run on this machine proved the same\n")
        self.assertIn("verdict of reach:", self.make(top, "dist", given, f"LOG={part} {kept}")[2])
        rest = self.put("rest.log", log_text(["reach"]))
        self.assertEqual(self.make(top, "dist", given, f"LOG={part} {rest}")[0], 0)
        with open(os.path.join(top, "README.md"), "a", encoding="utf-8") as file:
            file.write("more\n")
        shutil.rmtree(os.path.join(top, "dist"))
        status, _, err = self.make(top, "dist", given, f"LOG={self.log}")
        self.assertNotEqual(status, 0)
        self.assertIn("files were changed since the commit", err)
        self.assertFalse(os.path.exists(os.path.join(top, "dist")))

    def test_stale(self) -> None:
        """Without a program that is given, that of these sources is taken, and none else."""
        top = self.checkout()
        for name in release.crates_of(ROOT):
            os.makedirs(os.path.join(top, f"crates/{name}/src"))
        self.put("checkout/crates/ldv/src/main.rt", "one\n")
        words = [sys.executable, os.path.join(top, "tools/release.py"), "install", "--destdir", self.folder]
        env = {**os.environ, "XDG_CACHE_HOME": os.path.join(self.folder, "cache")}

        def installed() -> tuple[int, str]:
            done = subprocess.run(words, capture_output=True, env=env, check=False)
            return done.returncode, done.stderr.decode()

        self.assertEqual(installed(), (1, "release.py: the program isn't built of these sources: `make` "
                                          "builds it\n"))
        os.makedirs(os.path.join(top, "crates/ldv/out"), exist_ok=True)
        self.put("checkout/crates/ldv/out/ldv", STUB)
        os.chmod(os.path.join(top, "crates/ldv/out/ldv"), 0o755)
        self.assertIn("isn't built of these sources", installed()[1])
        said = command([os.path.join(top, "ldv"), "--version"])[1].decode()
        self.assertIn("program not built", said)

    def test_clean(self) -> None:
        """`clean` takes the archives and the program away, and no proof."""
        top = self.checkout()
        self.dist(top)
        for name in ("crates/ldv/out/ldv", "crates/ldv/out/rlib/kept", "crates/reach/out/kept"):
            os.makedirs(os.path.dirname(os.path.join(top, name)), exist_ok=True)
            self.put(f"checkout/{name}", "")
        self.assertEqual(self.make(top, "clean")[0], 0)
        self.assertEqual([os.path.exists(os.path.join(top, name)) for name in (
            "dist", "crates/ldv/out/ldv", "crates/ldv/out/rlib/kept", "crates/reach/out/kept")],
            [False, False, True, True])

    def test_targets(self) -> None:
        """`make` builds the program by ./ldv, and `make check` is the gate."""
        top = self.checkout()
        self.put("checkout/ldv", "#!/bin/sh\nwc -c; echo \"$@\" >> words\n")
        self.assertEqual(self.make(top)[0], 0)
        self.assertEqual(read(os.path.join(top, "words")), b"run\n")
        os.makedirs(os.path.join(top, ".ci"))
        gate = self.put("checkout/.ci/run", "#!/bin/sh\nexit 3\n")
        os.chmod(gate, 0o755)
        self.assertNotEqual(self.make(top, "check")[0], 0)
        self.put("checkout/.ci/run", "#!/bin/sh\nexit 0\n")
        self.assertEqual(self.make(top, "check")[0], 0)


@unittest.skipUnless(shutil.which("make"), "make isn't installed")
class Installed(Checkout):
    def test_install(self) -> None:
        """What is installed runs with a path that has Python alone, without the checkout; it goes again."""
        top = self.checkout()
        place = os.path.join(self.folder, "root of it")
        given = [f"DESTDIR={place}", "PREFIX=/opt/l"]
        status, out, err = self.make(top, "install", *given, f"LDV_PROGRAM={self.program}")
        self.assertEqual(status, 0, out + err)
        shutil.move(top, os.path.join(self.folder, "moved"))
        path = os.path.join(self.folder, "path")
        os.makedirs(path)
        os.symlink(sys.executable, os.path.join(path, "python3"))
        for name in release.tool_names(ROOT):
            tool = os.path.join(place, "opt/l/bin", f"ldv-{name}")
            done = subprocess.run([tool, "--help"], capture_output=True,
                                  check=False, env={"PATH": path}, cwd="/")
            self.assertEqual((done.returncode, done.stderr), (0, b""), name)
            self.assertIn(f"usage: ldv-{name} ".encode(), done.stdout)
        library = os.path.join(place, "opt/l/share/ldv")
        told = (f"import sys; sys.path.insert(0, {library!r}); import ldvtools; "
                "print(ldvtools.World.run.__doc__)")
        done = subprocess.run([sys.executable, "-I", "-c", told], stdout=subprocess.PIPE, check=True, cwd="/")
        self.assertTrue(done.stdout.startswith(b"The outcome of its run"))
        shown = command([os.path.join(place, "opt/l/bin/ldv-outcome"), f"{EXAMPLES}/orders.outcome"])
        self.assertIn(b"process 0.0 ended with status 0", shown[1])
        self.put("root of it/opt/l/share/doc/ldv/mine.txt", "kept")
        shutil.move(os.path.join(self.folder, "moved"), top)
        self.assertEqual(self.make(top, "uninstall", *given)[0], 0)
        left = [os.path.join(at, name) for at, _, names in os.walk(place) for name in names]
        self.assertEqual(left, [os.path.join(place, "opt/l/share/doc/ldv/mine.txt")])

    def test_replay(self) -> None:
        """With the real program: an example is recorded, replayed, shown and put into an archive by what is
        installed, with a path that has Python and what replay.sh calls alone."""
        if not os.access(support.PROGRAM, os.X_OK):
            self.skipTest(f"{support.PROGRAM} isn't there; compile it with ./ldv")
        top = self.checkout()
        place = os.path.join(self.folder, "place")
        given = [f"DESTDIR={place}", "PREFIX=/usr", f"LDV_PROGRAM={support.PROGRAM}"]
        self.assertEqual(self.make(top, "install", *given)[0], 0)
        shutil.rmtree(top)
        path = os.path.join(self.folder, "path")
        os.makedirs(path)
        os.symlink(sys.executable, os.path.join(path, "python3"))
        for name in ("sh", "cmp", "sha256sum", "cut", "grep", "chmod"):
            os.symlink(shutil.which(name) or name, os.path.join(path, name))
        commands = (f"cd {self.folder}; set -e; e={place}/usr/share/doc/ldv/examples; b={place}/usr/bin; "
                    "$b/ldv record < $e/weather.json > p; $b/ldv replay < p > o; cmp o $e/weather.outcome; "
                    "$b/ldv-outcome --package p o; $b/ldv-bundle p -o p.zip; "
                    "python3 -m zipfile -e p.zip unpacked; sh unpacked/replay.sh")
        done = subprocess.run(["/bin/sh", "-c", commands], env={"PATH": path}, check=False,
                              capture_output=True)
        self.assertEqual(done.returncode, 0, done.stderr)
        self.assertIn("reply 1: 3 rows", done.stdout.decode())
        self.assertEqual(done.stdout.decode().splitlines()[-1], "the same bytes")


def can_unshare() -> bool:
    """Whether a mount and a network of one's own may be had here."""
    return (shutil.which("unshare") is not None and sys.platform == "linux"
            and command([*WITHOUT_NETWORK, "mount", "-t", "tmpfs", "none", "/mnt"])[0] == 0)


# An empty root with the system's own folders to be read, without /usr/local, and nothing else.
ROOM = """
set -e
mount -t tmpfs none {room}
cd {room}
mkdir usr proc dev tmp given
for name in bin sbin lib lib64; do
    if [ -h /$name ]; then cp -P /$name $name
    elif [ -e /$name ]; then mkdir $name; mount --bind /$name $name; fi
done
mount --bind /usr usr
[ ! -d usr/local ] || mount -t tmpfs none usr/local
mount --bind {given} given
: > dev/null
mount --bind /dev/null dev/null
exec /usr/sbin/chroot . /usr/bin/env -i PATH=/usr/bin:/bin HOME=/tmp /bin/sh -e -c '{commands}'
"""
# The system as it is, on which changes go to memory.
OVERLAY = """
set -e
mount -t tmpfs none {room}
mkdir {room}/upper {room}/work {room}/top
mount -t overlay overlay -o lowerdir=/,upperdir={room}/upper,workdir={room}/work {room}/top
cd {room}/top
mount --bind {given} mnt
mount -t proc proc proc
for name in opt root home work tmp usr/local; do [ ! -d $name ] || mount -t tmpfs none $name; done
: > dev/null 2>/dev/null || true
exec /usr/sbin/chroot . /usr/bin/env -i PATH=/usr/sbin:/usr/bin:/sbin:/bin HOME=/tmp \\
    DEBIAN_FRONTEND=noninteractive /bin/sh -e -c '{commands}'
"""


@unittest.skipUnless(shutil.which("make"), "make isn't installed")
class EmptyRoots(Checkout):
    """With the real program: what is installed, unpacked or sent runs where there is nothing else."""

    def setUp(self) -> None:
        super().setUp()
        if not os.access(support.PROGRAM, os.X_OK):
            self.skipTest(f"{support.PROGRAM} isn't there; compile it with ./ldv")
        if read(support.PROGRAM)[:4] != b"\x7fELF":
            self.skipTest(f"{support.PROGRAM} is a script, which an empty root hasn't")
        if not can_unshare():
            self.skipTest("unshare isn't allowed here: no empty root")
        if not os.path.exists("/usr/bin/python3"):
            self.skipTest("/usr/bin/python3 isn't there")
        self.program = support.PROGRAM
        self.given = os.path.join(self.folder, "given")
        self.room = os.path.join(self.folder, "room")
        os.makedirs(self.given)
        os.makedirs(self.room)

    def inside(self, commands: Sequence[str], room: Any = ROOM) -> str:
        """What commands write in the room, to which the folder `given` is given."""
        text = room.format(room=self.room, given=self.given, commands=commands)
        status, out, err = command([*WITHOUT_NETWORK, "sh", "-c", text])
        self.assertEqual(status, 0, out.decode() + err.decode())
        return out.decode()

    def test_archive(self) -> None:
        """The archive, unpacked: an example is recorded, replayed and shown."""
        self.dist(self.checkout())
        shutil.copy(os.path.join(self.folder, f"checkout/dist/{release.NAME}.tar.gz"), self.given)
        out = self.inside(
            f"cd /tmp; tar -xzf /given/{release.NAME}.tar.gz; cd {release.NAME}; "
            "test ! -e /opt -a ! -e /root -a ! -e /work; if command -v rt; then exit 9; fi; "
            "bin/ldv record < share/doc/ldv/examples/weather.json > p; bin/ldv replay < p > o; "
            "cmp o share/doc/ldv/examples/weather.outcome; bin/ldv-outcome o; "
            "bin/ldv-bundle p -o /tmp/w.zip; "
            "python3 -c \"import zipfile; zipfile.ZipFile(\\\"/tmp/w.zip\\\").extractall(\\\"/tmp/w\\\")\"; "
            "env -i sh /tmp/w/replay.sh")
        self.assertIn("reply 1: 3 rows", out)
        self.assertEqual(out.splitlines()[-1], "the same bytes")

    def test_bundle(self) -> None:
        """An archive of the package of weather.json replays where there is neither Python nor ldv."""
        from ldvtools import bundle

        if shutil.which("unzip") is None:
            self.skipTest("unzip isn't installed")
        status, package, told = support.ldv(["record"], read(f"{EXAMPLES}/weather.json"))
        self.assertEqual(status, 0, told)
        path = os.path.join(self.folder, "weather.zip")
        status, _, err = support.tool(bundle, self.put("weather.package", package), "--ldv", support.PROGRAM,
                                      "-o", path)
        self.assertEqual(status, 0, err)
        self.assertEqual(command(["unzip", "-q", path, "-d", self.given])[0], 0)
        out = self.inside("env -i sh /given/replay.sh")
        self.assertEqual(out.splitlines()[-1], "the same bytes")

    def test_debian(self) -> None:
        """dpkg and apt install the package and remove it, on a system whose changes are forgotten."""
        for name in ("dpkg", "dpkg-deb", "apt-get"):
            if shutil.which(name) is None:
                self.skipTest(f"{name} isn't installed")
        if command(["dpkg", "--status", "python3", "libc6"])[0] != 0:
            self.skipTest("the Debian package python3 isn't installed")
        probe = OVERLAY.format(room=self.room, given=self.given, commands="true")
        if command([*WITHOUT_NETWORK, "sh", "-c", probe])[0] != 0:
            self.skipTest("an overlay can't be mounted here: no system for dpkg")
        self.dist(self.checkout())
        shutil.copy(os.path.join(self.folder, "checkout/dist", release.DEBIAN), self.given)
        use = ("cd /tmp; ldv record < /usr/share/doc/ldv/examples/weather.json > p; ldv replay < p > o; "
               "cmp o /usr/share/doc/ldv/examples/weather.outcome; ldv-outcome o; "
               "ldv-world --help > /dev/null")
        out = self.inside(f"dpkg -i /mnt/{release.DEBIAN}; {use}; dpkg -r ldv; "
                          "test ! -e /usr/bin/ldv -a ! -e /usr/share/ldv -a ! -e /usr/share/doc/ldv", OVERLAY)
        self.assertIn("reply 1: 3 rows", out)
        out = self.inside(f"apt-get install -y --no-install-recommends /mnt/{release.DEBIAN}; {use}; "
                          "apt-get remove -y ldv; test ! -e /usr/bin/ldv -a ! -e /usr/share/ldv", OVERLAY)
        self.assertIn("reply 1: 3 rows", out)


class Completions(InFolder):
    def beginnings(self) -> dict[tuple[str, ...], set[str]]:
        """What may follow each beginning of a command, by hand from docs/COMMANDS.md."""
        table = read(os.path.join(ROOT, check_docs.COMMANDS)).decode().partition("There are no")[0]
        commands = [each.split() for each in re.findall(r"(?m)^\| `([^`|]*)` \| ", table)]
        self.assertGreaterEqual(len(commands), 15)
        budget = [["run"], ["record"], ["record", "--excluded"], ["replay"], ["replay", "--seed", "S"],
                  ["replay", "--run", "K"], ["audit"], ["table", "NAME", "STEP"]]
        for each in budget:
            self.assertIn(each, commands)
        found: dict[tuple[str, ...], set[str]] = {}
        for words in commands + [each + ["--steps", "N"] for each in budget]:
            for end in range(len(words)):
                before = tuple("7" if word.isupper() else word for word in words[:end])
                found.setdefault(before, set())
                if not words[end].isupper():
                    found[before].add(words[end])
            found.setdefault(tuple("7" if word.isupper() else word for word in words), set())
        return found

    def check(self, answers: Any) -> None:
        """What a shell offers after each beginning is what may follow it."""
        beginnings = self.beginnings()
        for before, words in beginnings.items():
            self.assertEqual(sorted(answers(before)), sorted(words), before)

    def asked(self, shell: str, script: str, text: str) -> list[list[str]]:
        """The lines that a shell writes, as a list of words for each question."""
        self.put(f"completions.{shell}", completions.completions(shell, completions.manual()))
        words = [shell, "-f"] if shell == "zsh" else [shell]
        status, out, err = command([*words, self.put("ask", script), text])
        self.assertEqual((status, err), (0, b""), out)
        return [line.split() for line in out.decode().splitlines()]

    @unittest.skipUnless(shutil.which("bash"), "bash isn't installed")
    def test_bash(self) -> None:
        script = f""". {self.folder}/completions.bash
        complete -p ldv > /dev/null || exit 1
        last=
        while read -r line; do
            COMP_WORDS=(ldv $line "$last"); COMP_CWORD=$((${{#COMP_WORDS[@]}} - 1))
            _ldv ldv "" ""; echo "${{COMPREPLY[*]}}"
        done <<< "$1"
        """
        before = list(self.beginnings())
        lines = self.asked("bash", script, "\n".join(map(" ".join, before)))
        found = dict(zip(before, lines))
        self.check(lambda words: found[words])
        more = {"< world.json": "re", "nothing": "", "inspect": "w", "table a b < f": ""}
        script = script.replace("read -r line", "IFS=: read -r line last")
        lines = self.asked("bash", script, "\n".join(f"{words}:{last}" for words, last in more.items()))
        self.assertEqual(lines, [["record", "replay"], [], ["why"], ["--steps"]])

    @unittest.skipUnless(shutil.which("bash"), "bash isn't installed")
    def test_bash_pressed(self) -> None:
        """A real bash with a terminal, in which Tab is pressed: words, and after `<` the names of files."""
        import pty
        import select

        self.put("some.package", "")
        rc = self.put("rc", completions.completions("bash", completions.manual())
                      + "\nPS1='> '\nbind 'set enable-bracketed-paste off' 2>/dev/null\n")
        pid, terminal = pty.fork()
        if pid == 0:
            os.chdir(self.folder)
            os.execvpe("bash", ["bash", "--noprofile", "--rcfile", rc, "-i"],
                       {"PATH": "/usr/bin:/bin", "TERM": "dumb"})
        self.addCleanup(os.waitpid, pid, 0)
        self.addCleanup(os.close, terminal)

        def until(wanted: Any) -> Any:
            seen = b""
            while wanted not in seen:
                ready = select.select([terminal], [], [], 30)[0]
                if not ready:
                    self.fail(f"{wanted!r} isn't in {seen!r}")
                seen += os.read(terminal, 4096)

        until(b"> ")
        for typed, wanted in ((b"ldv rep\t", b"ldv replay "), (b"--se\t", b"--seed "),
                              (b"7 --\t", b"--steps "), (b"9 < so\t", b"some.package")):
            os.write(terminal, typed)
            until(wanted)
        os.write(terminal, b"\x15exit\n")

    @unittest.skipUnless(shutil.which("zsh"), "zsh isn't installed")
    def test_zsh(self) -> None:
        script = f"""compadd() {{ shift; print -r -- "$*" }}
        while read -r line; do
            words=(ldv ${{=line}} ''); CURRENT=$#words
            source {self.folder}/completions.zsh
        done <<< "$1"
        """
        before = list(self.beginnings())
        found = dict(zip(before, self.asked("zsh", script, "\n".join(map(" ".join, before)))))
        self.check(lambda words: found[words])

    @unittest.skipUnless(shutil.which("fish"), "fish isn't installed")
    def test_fish(self) -> None:
        script = f"""source {self.folder}/completions.fish
        echo "$argv[1]" | while read -l line
            echo (complete -C "ldv $line " | string replace -r '\\t.*' '')
        end
        """
        before = list(self.beginnings())
        found = dict(zip(before, self.asked("fish", script, "\n".join(map(" ".join, before)))))
        self.check(lambda words: found[words])

    def test_synopsis(self) -> None:
        """Groups that may be left out, alternatives and arguments, by hand."""
        text = (".Sh SYNOPSIS\n.Nm\n.Cm a\n.Op Fl -x\n.Op Fl -y Ar N\n.Nm\n.Cm b\n.Cm c | d Ar E F\n"
                ".Nm\n.Cm a Fl -z Op Fl -y Ar N\n.Sh NEXT\n.Nm\n.Cm no\n")
        self.assertEqual(completions.states_of(text), {
            (): ["a", "b"], ("a",): ["--x", "--y", "--z"], ("a", "--x"): ["--y"], ("a", "--x", "--y"): ["*"],
            ("a", "--y"): ["*"], ("a", "--z"): ["--y"], ("a", "--z", "--y"): ["*"], ("b",): ["c", "d"],
            ("b", "c"): ["*"], ("b", "c", "*"): ["*"], ("b", "d"): ["*"], ("b", "d", "*"): ["*"]})

    def test_words(self) -> None:
        program = os.path.join(ROOT, "tools/completions.py")
        self.assertIn(b"complete -F _ldv ldv", command([program, "bash"])[1])
        self.assertIn(b"record --excluded: --steps\n", command([program, "--states"])[1])
        ends = [command([program, *words])[0] for words in each_of(["--help"], ["tcsh"], [])]
        self.assertEqual(ends, [0, 2, 2])


class CLibrary(unittest.TestCase):
    def test_readme(self) -> None:
        """README says from which C library on the real program runs; objdump agrees, where it is there."""
        if not os.access(support.PROGRAM, os.X_OK):
            self.skipTest(f"{support.PROGRAM} isn't there; compile it with ./ldv")
        program = read(support.PROGRAM)
        if program[:4] != b"\x7fELF":
            self.skipTest(f"{support.PROGRAM} is a script, which asks for no C library")
        version = least_libc(program)
        self.assertIn(f"glibc {version} or later", read(os.path.join(ROOT, check_docs.README)).decode())
        if shutil.which("objdump") is not None:
            symbols = command(["objdump", "-T", support.PROGRAM])[1].decode()
            asked = [tuple(map(int, each.split("."))) for each in re.findall(r"GLIBC_([0-9.]+)", symbols)]
            self.assertEqual(".".join(map(str, max(asked))), version)


class Log(unittest.TestCase):
    def test_verdicts(self) -> None:
        """The last verdict before a crate is said to be proved, with or without the time; no other line."""
        text = ("== a\nlogic=proved functions=1 sum=x\nlogic=proved functions=2 sum=x\nrt: a proved\n"
                "== b\nrt: b proved\nrt: c is kept: an earlier run on this machine proved the same files\n"
                "  12.5 == d\n  12.5 logic=proved functions=4 sum=y\n  12.5 rt: d proved\n"
                "fn e::f: proved\nlogic=proved functions=5 sum=z\nrt: e: not proved\n")
        self.assertEqual(release.verdicts_in(text), {"a": "logic=proved functions=2 sum=x",
                                                     "d": "logic=proved functions=4 sum=y"})

    def test_crates(self) -> None:
        """The crates of the program are those of the script ./ldv; crates of tests aren't among them."""
        found = release.crates_of(ROOT)
        self.assertLessEqual({"ldv", "ldv_top", "ldv_value", "sql_engine"}, set(found))
        self.assertFalse({"conformance", "library_tests", "run_tests"} & set(found))
        self.assertEqual(found[-1], "ldv")

    def test_tar(self) -> None:
        """No name of a file, no time and no system stands in the compressed archive."""
        data = release.tar_of({"a/b": release.Item(b"x")}, "top", 7)
        self.assertEqual(data[4:8], b"\0\0\0\0")
        self.assertEqual(data[3] & 0x08, 0)
        self.assertIn(b"top/a/b", gzip.decompress(data))
