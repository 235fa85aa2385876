"""bundle.py: the archive, its replay elsewhere, its description, and what is refused. A program that answers
as `ldv` does for one package stands in for it, and with the real one the examples are tried."""
from __future__ import annotations

import hashlib
import json
import os
import shutil
import sqlite3
import stat
import subprocess
import sys
import tempfile
import unittest
import zipfile
from typing import Any, Optional
from unittest import mock
from urllib.parse import unquote

from cases import encoder
from checks import check_page
from ldvtools import __version__, bundle, bundle_parts
from ldvtools import outcome as outcome_command
from ldvtools import package, page, ro_crate, world
from ldvtools.errors import Misused, Refused
from ldvtools.packages import Joined, read_any, read_package
from ldvtools.program import least_libc
from ldvtools.provenance import document_text, provenance_of

from . import support, test_prov, version2
from .support import EXAMPLES, HERE, InFolder, command, each_of, ldv, read, tool
from .test_page import orders

# It takes one package, and answers as was said; of another one it says that it is damaged.
FAKE = """#!/bin/sh
given=$(sha256sum | cut -c 1-64)
case $given in
    {digest}) ;;
    *) echo 'ldv: damaged: digest' >&2; exit 8 ;;
esac
case $1$2 in
    audit--steps) echo {verdict} ;;
    prov) tr -d '\n' <<'END'
{prov}
END
    ;;
    replay--run | replay--steps) cat <<'END'
{outcome}END
    ;;
    *) echo 'ldv: usage' >&2; exit 2 ;;
esac
"""
BASE = "http://crate.invalid/"
SCHEMA = "http://schema.org/"
TYPE = "http://www.w3.org/1999/02/22-rdf-syntax-ns#type"


def with_rdflib() -> Optional[str]:
    """An interpreter that has rdflib 6 or later, or None."""
    asked = "import rdflib; assert int(rdflib.__version__.split('.')[0]) >= 6"
    for program in (sys.executable, "/usr/bin/python3"):
        if os.access(program, os.X_OK) and command([program, "-I", "-c", asked])[0] == 0:
            return program
    return None


class Bundles(InFolder):
    """A test that makes archives, by a program that knows one package."""

    def setUp(self) -> None:
        super().setUp()
        self.package = self.put("orders.package", orders())
        self.outcome = read(f"{EXAMPLES}/orders.outcome")
        self.program = self.fake(orders(), self.outcome)

    def fake(self, data: bytes, outcome: bytes, verdict: str = "sound") -> str:
        found = read_any(data)
        prov = "" if isinstance(found, Joined) else document_text(provenance_of(found))
        path = self.put("fake", FAKE.format(digest=hashlib.sha256(data).hexdigest(), verdict=verdict,
                                            prov=prov, outcome=outcome.decode()))
        os.chmod(path, 0o755)
        return path

    def made(self, *words: str, name: str = "made.zip", package: Optional[str] = None,
             program: Optional[str] = None) -> str:
        path = os.path.join(self.folder, name)
        status, out, err = tool(bundle, package or self.package, "--ldv", program or self.program, "-o", path,
                                *words)
        self.assertEqual(status, 0, err)
        self.assertIn(f"{path}: {os.path.getsize(path):,} bytes", out.decode())
        return path

    def unpacked(self, path: str, name: str = "elsewhere") -> str:
        """The archive in a new folder, without the permissions that it says, as many programs unpack it."""
        folder = os.path.join(self.folder, name)
        with zipfile.ZipFile(path) as archive:
            self.assertIsNone(archive.testzip())
            archive.extractall(folder)
        return folder

    def replayed(self, folder: str, *words: str) -> tuple[int, str, str]:
        """What replay.sh does in a folder that isn't its own, with no variable set."""
        done = subprocess.run(["/usr/bin/env", "-i", "/bin/sh", os.path.join(folder, "replay.sh"), *words],
                              cwd="/", stdin=subprocess.DEVNULL, capture_output=True, check=False)
        return done.returncode, done.stdout.decode(), done.stderr.decode()

    def files_in(self, folder: str) -> list[str]:
        return sorted(os.path.relpath(os.path.join(at, name), folder)
                      for at, _, names in os.walk(folder) for name in names)


class Archives(Bundles):
    def test_replay(self) -> None:
        """The archive replays elsewhere, where nothing is set and nothing else is."""
        folder = self.unpacked(self.made())
        files = 14 if shutil.which("dot") else 13
        self.assertEqual(self.replayed(folder), (
            0, f"all {files} files are as they were made\n"
            "recorded.outcome is replayed\nthe same bytes\n", ""))
        self.assertEqual(read(os.path.join(folder, "recorded.package")), orders())
        self.assertEqual(read(os.path.join(folder, "recorded.outcome")), self.outcome)
        self.assertEqual(read(os.path.join(folder, "ldv")), read(self.program))
        self.assertEqual(read(os.path.join(folder, "files/report.txt")), b"Ada 14\n")
        self.assertEqual(read(os.path.join(folder, "tables/0.0-1.csv")), b"name,2\nAda,14\n")
        self.assertIn(b"> INSERT INTO orders", read(os.path.join(folder, "outcome.txt")))
        page = read(os.path.join(folder, "page.html"))
        self.assertIn(b'"verdict":"sound"', page)
        prov = json.loads(read(os.path.join(folder, "provenance.json")))
        self.assertTrue(any("report.txt" in name for name in prov["entity"]))
        self.assertTrue(read(os.path.join(folder, "provenance.provn")).startswith(b"document\n"))
        self.assertEqual(os.path.exists(os.path.join(folder, "picture.svg")), bool(shutil.which("dot")))

    def test_changed_bytes(self) -> None:
        """Where a byte of a file is another one, replay.sh says of which file, and doesn't replay."""
        folder = self.unpacked(self.made())
        for name in self.files_in(folder):
            path = os.path.join(folder, name)
            data = read(path)
            # A changed script has to be one still: a letter of its first comment.
            for place in ([data.index(b"Checks")] if name == "replay.sh" else
                          [3, 66, 70, len(data) // 2, len(data) - 1] if name == "SHA256SUMS"
                          else [len(data) // 2]):
                changed = bytes([data[place] ^ 1])
                with open(path, "wb") as file:
                    file.write(data[:place] + changed + data[place + 1:])
                status, out, err = self.replayed(folder)
                self.assertEqual((status, out), (1, ""), (name, place, err))
                self.assertIn(name, err, place)
                accused = [line for line in err.split("\n")[:-1] if name not in line]
                self.assertEqual(accused, [], (name, place))
            with open(path, "wb") as file:
                file.write(data)
        self.assertEqual(self.replayed(folder)[0], 0)
        os.remove(os.path.join(folder, "tables/0-1.csv"))
        self.assertIn("tables/0-1.csv isn't there", self.replayed(folder)[2])

    def test_places(self) -> None:
        """It is called from anywhere, in a folder of any name, and by other shells."""
        folder = self.unpacked(self.made(), "a folder's -n")
        for shell in ("sh", "bash", "dash", "zsh", "busybox sh"):
            words = shell.split()
            if shutil.which(words[0]) is None:
                continue
            for script, at in (("replay.sh", folder), ("../replay.sh", os.path.join(folder, "tables")),
                               ("./a folder's -n/replay.sh", self.folder)):
                done = subprocess.run([*words, script], cwd=at, stdout=subprocess.PIPE, check=False)
                self.assertEqual((done.returncode, done.stdout.decode().splitlines()[-1]),
                                 (0, "the same bytes"), (shell, script))
        # Of another folder, named as it is seen from where the script is called.
        done = subprocess.run(["sh", f"{folder}/replay.sh", "./fake"], cwd=self.folder, check=False,
                              stdout=subprocess.PIPE)
        self.assertEqual(done.stdout.decode().splitlines()[-1], "the same bytes")

    def test_other_outcome(self) -> None:
        """A program that writes other bytes, or none, isn't taken for the one that does."""
        folder = self.unpacked(self.made())
        other = self.put("other", "#!/bin/sh\ncat > /dev/null\necho outcome\n")
        os.chmod(other, 0o755)
        status, out, err = self.replayed(folder, other)
        self.assertEqual((status, err), (1, "replay.sh: other bytes than in recorded.outcome\n"))
        self.assertNotIn("the same bytes", out)
        self.put("other", "#!/bin/sh\ncat > /dev/null\necho 'ldv: damaged: form' >&2\nexit 8\n")
        status, out, err = self.replayed(folder, other)
        self.assertEqual((status, err.splitlines()[0]), (1, "ldv: damaged: form"))
        self.assertEqual(self.replayed(folder, self.program)[1].splitlines()[-1], "the same bytes")

    def test_same_bytes(self) -> None:
        """The same package, program, words and date give the same bytes, whatever else there is."""
        words = ["--date", "2026-11-30", "--author", "Bo Ek", "--title", "Ord"]
        first = read(self.made(*words))
        os.utime(self.package, (1, 1))
        mask = os.umask(0o077)
        try:
            self.assertEqual(read(self.made(*words, name="again.zip")), first)
        finally:
            os.umask(mask)
        before = os.environ.get("SOURCE_DATE_EPOCH")
        os.environ["SOURCE_DATE_EPOCH"] = "1796032800"
        self.addCleanup(lambda: os.environ.pop("SOURCE_DATE_EPOCH") if before is None
                        else os.environ.update(SOURCE_DATE_EPOCH=before))
        self.assertEqual(bundle.date_of(None).isoformat(), "2026-11-30")
        self.assertEqual(read(self.made(*words[2:], name="third.zip")), first)
        self.assertNotEqual(read(self.made("--date", "2026-12-01", *words[2:], name="other.zip")), first)

    def test_entries(self) -> None:
        """Every entry is deflated, has the date and the permissions of its kind, and comes in one order."""
        with zipfile.ZipFile(self.made("--date", "2001-02-03")) as archive:
            entries = archive.infolist()
        for entry in entries:
            self.assertEqual((entry.compress_type, entry.date_time[:3]),
                             (zipfile.ZIP_DEFLATED, (2001, 2, 3)), entry.filename)
            mode = stat.S_IMODE(entry.external_attr >> 16)
            self.assertEqual(mode, 0o755 if entry.filename in ("ldv", "replay.sh") else 0o644, entry.filename)
        self.assertEqual([entry.filename for entry in entries][:6], [
            "README.txt", "replay.sh", "SHA256SUMS", "ro-crate-metadata.json", "recorded.package", "ldv"])

    def test_early_date(self) -> None:
        """A date that an entry can't have is that of the description alone."""
        path = self.made("--date", "1965-02-03", "--without-program")
        with zipfile.ZipFile(path) as archive:
            self.assertEqual({entry.date_time for entry in archive.infolist()}, {(1980, 1, 1, 0, 0, 0)})
            self.assertIn(b'"datePublished": "1965-02-03"', archive.read("ro-crate-metadata.json"))

    def test_sums(self) -> None:
        """SHA256SUMS has each other file once, and the sums of hashlib."""
        folder = self.unpacked(self.made())
        lines = read(os.path.join(folder, "SHA256SUMS")).decode().splitlines()
        found = {name: digest for digest, name in (line.split("  ", 1) for line in lines)}
        self.assertEqual(len(found), len(lines))
        self.assertEqual(sorted([*found, "SHA256SUMS"]), self.files_in(folder))
        for name, digest in found.items():
            self.assertEqual(hashlib.sha256(read(os.path.join(folder, name))).hexdigest(), digest, name)

    def test_readme(self) -> None:
        """At most 60 lines of at most 78 columns, also where much is said, with what somebody looks for."""
        many = [word for place in range(40) for word in ("--author", f"Somebody Numbered {place}")]
        long = ["--title", "long " * 200, "--description", "words " * 2000, "--licence", "x " * 900, *many]
        for words in each_of([], long, ["--without-program"]):
            path = self.made(*words, name=f"made{len(words)}.zip")
            with zipfile.ZipFile(path) as archive:
                text = archive.read("README.txt").decode()
            lines = text.splitlines()
            self.assertLessEqual(len(lines), 60)
            self.assertLessEqual(max(map(len, lines)), 78)
            for said in ("sh NAME/replay.sh", "Proved", "Not proved", "isn't secret", "recorded.package"):
                self.assertIn(said, text)

    def test_without_program(self) -> None:
        """An archive without the program takes the one that is named, or the one on the path."""
        folder = self.unpacked(self.made("--without-program"))
        self.assertNotIn("ldv", os.listdir(folder))
        status, _, err = self.replayed(folder)
        self.assertEqual(status, 2)
        self.assertIn("there is no ldv here", err)
        self.assertEqual(self.replayed(folder, self.program)[1].splitlines()[-1], "the same bytes")
        os.symlink(self.program, os.path.join(self.folder, "ldv"))
        done = subprocess.run(["sh", os.path.join(folder, "replay.sh")], stdout=subprocess.PIPE, check=False,
                              env={"PATH": f"{self.folder}:/usr/bin:/bin"})
        self.assertEqual(done.stdout.decode().splitlines()[-1], "the same bytes")

    def test_replies(self) -> None:
        """Of a package of recorded replies it is the same; there is nothing to audit."""
        package = self.put("orders.replies", orders(2))
        folder = self.unpacked(self.made(package=package, program=self.fake(orders(2), self.outcome)))
        self.assertEqual(self.replayed(folder)[1].splitlines()[-1], "the same bytes")
        text = " ".join(read(os.path.join(folder, "README.txt")).decode().split())
        self.assertIn("the recorded replies to 3 statements", text)
        self.assertIn("each statement with its reply", text)
        self.assertNotIn("audit", text)

    def test_joined(self) -> None:
        """Of a joined package it has both runs."""
        first = read_package(orders())
        data = version2.joined(first, first._replace(seed=7))
        folder = self.unpacked(self.made(package=self.put("both", data),
                                         program=self.fake(data, self.outcome)))
        self.assertEqual(self.replayed(folder)[1].splitlines()[1:], [
            "run-1/recorded.outcome is replayed", "run-2/recorded.outcome is replayed", "the same bytes"])
        runs = [[name[6:] for name in self.files_in(folder) if name.startswith(f"run-{run}/")]
                for run in (1, 2)]
        self.assertEqual(*runs)
        self.assertIn("tables/0.0-1.csv", runs[0])
        script = read(os.path.join(folder, "replay.sh")).decode()
        self.assertIn("same run-2/recorded.outcome replay --run 2 --steps 28\n", script)

    def test_sizes(self) -> None:
        """It says what the archive takes beside the package and the world, whose run has the same outcome."""
        path = os.path.join(self.folder, "made.zip")
        world = self.put("world", f"{{}} {'x' * 1443}")
        program = self.put("ldv", "#!/bin/sh\n[ $1 != run ] || { cat > /dev/null; "
                           f"cat {EXAMPLES}/orders.outcome; exit; }}\nexec {self.program} \"$@\"\n")
        os.chmod(program, 0o755)
        status, out, err = tool(bundle, self.package, "--ldv", program, "-o", path, "--world", world)
        self.assertEqual(status, 0, err)
        self.assertEqual(out.decode().splitlines()[1], f"the package has {len(orders()):,} bytes, the "
                         f"program {os.path.getsize(program):,}, the world 1,446")
        os.remove(path)
        self.put("ldv", read(program).replace(b"orders.outcome", b"pay.outcome"))
        status, out, err = tool(bundle, self.package, "--ldv", program, "-o", path, "--world", world)
        self.assertEqual((status, out), (1, b""))
        self.assertIn("its run has another outcome than the package", err)


class Refusals(Bundles):
    def refused(self, message: str, *words: str, status: int = 1, package: Optional[str] = None,
                program: Optional[str] = None, name: str = "new.zip") -> None:
        """Nothing is left where it is refused."""
        before = self.files_in(self.folder)
        path = name if name.startswith("/") else os.path.join(self.folder, name)
        got, out, err = tool(bundle, package or self.package, "--ldv", program or self.program, "-o", path,
                             *words)
        self.assertEqual((got, out), (status, b""), err)
        self.assertIn(message, err)
        self.assertNotIn("Traceback", err)
        self.assertEqual(self.files_in(self.folder), before)

    def test_packages(self) -> None:
        self.refused("its digest is another one", package=self.put("p", orders()[:-1] + b"x"))
        self.refused("it doesn't begin with LDVPACK1", package=self.put("q", b""))
        self.refused("no/such", package=os.path.join(self.folder, "no/such"))
        other = encoder.encode(encoder.package())
        self.refused("ends with 8: ldv: damaged: digest", package=self.put("r", other))

    def test_outputs(self) -> None:
        self.put("there.zip", "kept")
        self.refused("there.zip is there already", name="there.zip")
        self.assertEqual(read(os.path.join(self.folder, "there.zip")), b"kept")
        os.symlink("nowhere", os.path.join(self.folder, "link.zip"))
        self.refused("link.zip is there already", name="link.zip")
        self.refused("there is no folder", name="no/such/new.zip")
        self.refused("there is no folder", name=self.put("file", "") + "/new.zip")
        if os.geteuid():
            closed = os.path.join(self.folder, "closed")
            os.mkdir(closed, 0o555)
            self.refused("nothing can be written in", name="closed/new.zip")
        self.refused("/proc/new.zip: ", name="/proc/new.zip")

    def test_full(self) -> None:
        """Where the disk is full while the archive is written, nothing is left of it."""
        real = zipfile.ZipFile.writestr

        def full(*given: Any, **named: Any) -> None:
            real(*given, **named)
            raise OSError(28, "No space left on device")

        with mock.patch.object(zipfile.ZipFile, "writestr", full):
            self.refused("new.zip: No space left on device")

    def test_programs(self) -> None:
        self.refused("No such file or directory", program=os.path.join(self.folder, "none"))
        plain = self.put("plain", "#!/bin/sh\n")
        self.refused("Permission denied", program=plain)
        os.chmod(plain, 0o755)
        self.refused("isn't what ldv audit writes", program=plain)
        self.refused("ends with 7: ldv: not ended", program=self.failing(7, "ldv: not ended after 28 steps"))

    def failing(self, status: int, said: str) -> str:
        path = self.put("failing", f"#!/bin/sh\ncat > /dev/null\necho '{said}' >&2\nexit {status}\n")
        os.chmod(path, 0o755)
        return path

    def test_words(self) -> None:
        for message, *words in (("is no ORCID iD", "--author", "Ada=0000-0002-1825-0098"),
                                ("give NAME or NAME=ORCID", "--author", "=0000-0002-1825-0097"),
                                ("two of them have one", "--author", "A=0000-0002-1825-0097",
                                 "--author", "B=https://orcid.org/0000-0002-1825-0097"),
                                ("give a day as YYYY-MM-DD", "--date", "30.11.2026"),
                                ("give a day as YYYY-MM-DD", "--date", "2026-11-31")):
            self.refused(message, *words, status=2)
        self.assertEqual(tool(bundle, self.package)[0], 2)


class Words(unittest.TestCase):
    def test_orcid(self) -> None:
        """Check digits by hand: ORCID's own example, and one that ends with X."""
        self.assertEqual(ro_crate.check_digit("000000021825009"), "7")
        self.assertEqual(ro_crate.check_digit("000000021694233"), "X")
        self.assertEqual(ro_crate.author_of("Ada = Ek=0000-0002-1694-233X"),
                         ro_crate.Author("Ada = Ek", "https://orcid.org/0000-0002-1694-233X"))
        self.assertEqual(ro_crate.author_of(" Ada "), ro_crate.Author("Ada", None))
        with self.assertRaises(Misused):
            ro_crate.author_of("  ")

    def test_licences(self) -> None:
        self.assertEqual(ro_crate.licence_of("CC-BY-4.0").address, "https://spdx.org/licenses/CC-BY-4.0")
        self.assertEqual(ro_crate.licence_of("https://example.org/l").address, "https://example.org/l")
        self.assertEqual(ro_crate.licence_of("only to be read"), ro_crate.Licence("only to be read", None))
        self.assertIn("ask whoever made", ro_crate.licence_of(None).name)

    def test_places(self) -> None:
        """Paths of a run stay below their folder, each at another place, whatever they are."""
        paths = ["a", "a/b", "a/b/c", "/etc/passwd", "../../up", "a/..", ".", "..", "x//y", "x/", "a%2Fb",
                 "%", "a\\b", "C:evil", "blank ", "dot.", "é/ü", "%%", "w" * 255, "\\" * 255, "%" * 200]
        places = bundle_parts.places_of(paths)
        self.assertEqual(len(set(places.values())), len(paths))
        self.assertEqual([places[path] for path in paths[:8]], [
            "a%2F", "a%2Fb%2F", "a/b/c", "%/etc/passwd", "%2E%2E/%2E%2E/up", "a/%2E%2E", "%2E", "%2E%2E%2F"])
        folders = {place.rsplit("/", end)[0] for place in places.values()
                   for end in range(1, place.count("/") + 1)}
        self.assertEqual(folders & set(places.values()), set())
        for place in places.values():
            self.assertNotIn(place[:1], ("/", ""))
            for part in place.split("/"):
                self.assertNotIn(part, ("", ".", ".."))
                self.assertLessEqual(len(part.encode()), 255)
                self.assertNotIn("\\", part)

    def test_libc(self) -> None:
        """The version of the C library is the greatest one by its numbers."""
        self.assertEqual(least_libc(b"\0GLIBC_2.2.5\0GLIBC_2.34\0GLIBC_2.4\0x"), "2.34")
        self.assertEqual(least_libc(b"GLIBC_2.2\0\0GLIBC_PRIVATE\0\0GLIBC_2.2.5x\0"), None)

    def test_script(self) -> None:
        """Of the script of a checkout the compiled program is taken, where it is that of these sources; it
        isn't built for an archive."""
        folder = os.path.realpath(tempfile.mkdtemp())
        self.addCleanup(shutil.rmtree, folder)
        os.makedirs(f"{folder}/crates/ldv/src")
        os.makedirs(f"{folder}/crates/ldv/out")
        script, program = f"{folder}/ldv", f"{folder}/crates/ldv/out/ldv"
        said = "#!/bin/sh\n[ $1 = --version ] || exit 9\necho ldv\necho program "
        for content, due, status in ((b"x", hashlib.sha256(b"x").hexdigest(), 0),
                                     (b"y", hashlib.sha256(b"x").hexdigest(), 1), (b"x", "not built", 1)):
            with open(program, "wb") as file:
                file.write(content)
            with open(script, "w", encoding="utf-8") as file:
                file.write(said + due + "\n")
            os.chmod(script, 0o755)
            if status:
                with self.assertRaisesRegex(Refused, "isn't built of these sources"):
                    bundle.compiled(script)
            else:
                self.assertEqual(bundle.compiled(script), program)
        shutil.rmtree(f"{folder}/crates")
        self.assertEqual(bundle.compiled(script), script)

    def test_default(self) -> None:
        """The program is the one above the tools, beside the installed ones, or on the path."""
        folder = os.path.realpath(tempfile.mkdtemp())
        self.addCleanup(shutil.rmtree, folder)
        before = sys.argv[0], os.environ["PATH"]
        self.addCleanup(lambda: (sys.argv.__setitem__(0, before[0]), os.environ.update(PATH=before[1])))
        for name in ("a/ldv", "a/tools/bundle.py", "b/bin/ldv", "b/bin/ldv-bundle", "c/bin/ldv-bundle",
                     "d/ldv"):
            path = os.path.join(folder, name)
            os.makedirs(os.path.dirname(path), exist_ok=True)
            with open(path, "wb"):
                os.chmod(path, 0o755)
        os.environ["PATH"] = f"{folder}/d"
        for called, found in (("a/tools/bundle.py", "a/ldv"), ("b/bin/ldv-bundle", "b/bin/ldv"),
                              ("c/bin/ldv-bundle", "d/ldv")):
            sys.argv[0] = os.path.join(folder, called)
            self.assertEqual(bundle.default_program(), os.path.join(folder, found))
        os.environ["PATH"] = "/nowhere"
        with self.assertRaisesRegex(Refused, "there is no ldv here"):
            bundle.default_program()

    def test_provenance(self) -> None:
        """The document of a package is the one that `ldv prov` has to write, byte by byte."""
        count = 0
        for name, words, given, status, output in test_prov.cases():
            if words == ["prov"] and status == 0:
                self.assertEqual(document_text(provenance_of(read_package(given))).encode(), output, name)
                count += 1
        self.assertGreater(count, 50)


@unittest.skipUnless(with_rdflib(), "python3-rdflib 6 isn't installed")
class Descriptions(Bundles):
    """ro-crate-metadata.json, as an RDF library reads it."""

    def graph(self, folder: str) -> Any:
        done = subprocess.run([with_rdflib() or "", os.path.join(HERE, "crate_graph.py"),
                               os.path.join(HERE, "crate_context.json")], check=True, stdout=subprocess.PIPE,
                              input=read(os.path.join(folder, "ro-crate-metadata.json")))
        found: dict[str, dict[str, list[Any]]] = {}
        for subject, predicate, value in json.loads(done.stdout):
            found.setdefault(subject, {}).setdefault(predicate, []).append(value)
        return found

    def looked_at(self, path: str, name: str = "elsewhere") -> Any:
        """The graph of an archive, whose files it has to name, each with its size and its digest."""
        folder = self.unpacked(path, name)
        graph = self.graph(folder)
        root = graph[BASE]
        named = sorted(unquote(each[len(BASE):]) for each in root[SCHEMA + "hasPart"])
        self.assertEqual(sorted([*named, "ro-crate-metadata.json"]), self.files_in(folder))
        for part in root[SCHEMA + "hasPart"]:
            file, data = graph[part], read(os.path.join(folder, unquote(part[len(BASE):])))
            self.assertIn(SCHEMA + "MediaObject", file[TYPE])
            self.assertEqual(file[SCHEMA + "contentSize"], [str(len(data))], part)
            self.assertEqual(len(file[SCHEMA + "encodingFormat"]), 1)
            if not part.endswith("SHA256SUMS"):
                self.assertEqual(file[SCHEMA + "sha256"], [hashlib.sha256(data).hexdigest()], part)
        about = graph[BASE + "ro-crate-metadata.json"]
        self.assertEqual(about["http://purl.org/dc/terms/conformsTo"], ["https://w3id.org/ro/crate/1.1"])
        self.assertEqual(about[SCHEMA + "about"], [BASE])
        return graph

    def test_description(self) -> None:
        graph = self.looked_at(self.made(
            "--title", "Orders", "--description", "Who bought what?", "--licence", "CC0-1.0", "--date",
            "2026-11-30", "--author", "Ada Ek=0000-0002-1825-0097", "--author", "Bo Ek"))
        root = graph[BASE]
        self.assertEqual([root[SCHEMA + name] for name in ("name", "description", "datePublished")],
                         [["Orders"], ["Who bought what?"], ["2026-11-30"]])
        self.assertEqual(root[SCHEMA + "license"], ["https://spdx.org/licenses/CC0-1.0"])
        self.assertIn("CC0-1.0", graph[root[SCHEMA + "license"][0]][SCHEMA + "name"][0])
        self.assertEqual(sorted(root[SCHEMA + "author"]), [BASE + "#author-2",
                                                           "https://orcid.org/0000-0002-1825-0097"])
        self.assertEqual({graph[each][SCHEMA + "name"][0] for each in root[SCHEMA + "author"]},
                         {"Ada Ek", "Bo Ek"})
        self.assertEqual(graph[BASE + "#author-2"][TYPE], [SCHEMA + "Person"])

    def test_action(self) -> None:
        """The replay is of the package, by the program with its version, and its results are files."""
        graph = self.looked_at(self.made())
        replay = graph[BASE + "#replay"]
        self.assertEqual(replay[TYPE], [SCHEMA + "CreateAction"])
        self.assertEqual(replay[SCHEMA + "object"], [BASE + "recorded.package"])
        self.assertEqual(replay[SCHEMA + "instrument"], [BASE + "ldv"])
        program = graph[BASE + "ldv"]
        self.assertEqual(program[SCHEMA + "version"], [__version__])
        self.assertIn(SCHEMA + "SoftwareApplication", program[TYPE])
        self.assertLessEqual({BASE + "recorded.outcome", BASE + "files/report.txt",
                              BASE + "tables/0-1.csv"}, set(replay[SCHEMA + "result"]))
        self.assertLessEqual(set(replay[SCHEMA + "result"]), set(graph[BASE][SCHEMA + "hasPart"]))

    def test_without_program(self) -> None:
        graph = self.looked_at(self.made("--without-program"))
        program = graph[graph[BASE + "#replay"][SCHEMA + "instrument"][0]]
        self.assertEqual(program[SCHEMA + "version"], [__version__])
        self.assertIn(hashlib.sha256(read(self.program)).hexdigest(), program[SCHEMA + "description"][0])

    def test_joined(self) -> None:
        first = read_package(orders())
        data = version2.joined(first, first._replace(seed=7))
        graph = self.looked_at(self.made(package=self.put("both.joined", data), name="both.zip",
                                         program=self.fake(data, self.outcome)), "both")
        results = [set(graph[f"{BASE}#replay-{run}"][SCHEMA + "result"]) for run in (1, 2)]
        self.assertEqual(len(results[0]), len(results[1]))
        self.assertEqual(results[0] & results[1], set())

    def test_hostile_paths(self) -> None:
        """Files with any names are named as they are, and unpacked below their folder."""
        paths = ["../up", "/abs", "a b", "a", "a/b", "50%", "é", 'q"<>', "back\\slash", "-n", "#1", "?x"]
        outcome = f"outcome 1 {len(paths)}\nprocess 0 0 0 0\n\n"
        for path in sorted(paths, key=str.encode):
            outcome += f"file {len(path.encode())} 2\n{path}\nx\n\n"
        trace = [encoder.started()]
        trace += [encoder.act("wrote", path, step) for step, path in enumerate(sorted(paths), 1)]
        data = encoder.encode(encoder.package(steps=20, trace=[*trace, encoder.ended(20)]))
        script = self.fake(data, outcome.encode())
        path = os.path.join(self.folder, "hostile.zip")
        for module, name, answer in ((outcome_command, "asked_in", {}), (page, "page_json", {"name": "x"})):
            patch = mock.patch.object(module, name, return_value=answer)
            patch.start()
            self.addCleanup(patch.stop)
        status, _, err = tool(bundle, self.put("hostile.package", data), "--ldv", script, "-o", path)
        self.assertEqual(status, 0, err)
        graph = self.looked_at(path, "hostile-folder")
        told = {graph[part][SCHEMA + "description"][0] for part in graph[BASE][SCHEMA + "hasPart"]}
        for each in paths:
            self.assertIn(f"the file {each} that the run wrote", told)
        folder = os.path.join(self.folder, "hostile-folder")
        self.assertEqual(sum(name.startswith("files/") for name in self.files_in(folder)), len(paths))
        self.assertEqual(self.replayed(folder)[1].splitlines()[-1], "the same bytes")


class Examples(Bundles):
    """With the real program."""

    def setUp(self) -> None:
        super().setUp()
        if not os.access(support.PROGRAM, os.X_OK):
            self.skipTest(f"{support.PROGRAM} isn't there; compile it with ./ldv")

    def test_examples(self) -> None:
        """Each example, of both kinds, is replayed from its archive, and its outcome is that of the page."""
        count = 0
        for name in sorted(os.listdir(EXAMPLES)):
            world = os.path.join(EXAMPLES, name)
            if not name.endswith(".json") or not os.path.exists(world[:-5] + ".outcome"):
                continue
            for words in (["record"], ["record", "--excluded"]):
                kind = f"{name}-{len(words)}"
                status, data, err = ldv(words, read(world))
                self.assertEqual(status, 0, err)
                path = self.made("--world", world, package=self.put(kind, data), program=support.PROGRAM,
                                 name=f"{kind}.zip")
                folder = self.unpacked(path, f"{kind}-folder")
                self.assertEqual(read(os.path.join(folder, "recorded.outcome")),
                                 read(world[:-5] + ".outcome"))
                self.assertEqual(self.replayed(folder)[1].splitlines()[-1], "the same bytes", kind)
                count += 1
        self.assertGreaterEqual(count, 16)

    def test_joined(self) -> None:
        """Both runs of a joined package, whose worlds have other seeds."""
        world = json.loads(read(f"{EXAMPLES}/nightly.json"))
        worlds = [json.dumps({**world, "seed": seed}).encode() for seed in (3, 0)]
        pair = b"".join(len(each).to_bytes(4, "big") + each
                        for each in (ldv(["record"], text)[1] for text in worlds))
        status, joined, err = ldv(["join"], pair)
        self.assertEqual(status, 0, err)
        folder = self.unpacked(self.made(package=self.put("both", joined), program=support.PROGRAM))
        for run, text in enumerate(worlds, 1):
            self.assertEqual(read(os.path.join(folder, f"run-{run}/recorded.outcome")), ldv(["run"], text)[1])
        self.assertEqual(self.replayed(folder)[1].splitlines()[-1], "the same bytes")

    def test_columns(self) -> None:
        """Replies as CSV and as a text have decimals with their mark, and heads with their unit; the page and
        the package in it have them too."""
        table = self.put("t.csv", "id;cost;kilo\n1;1.890,75 €;0.5\n2;12,50 €;1.25\n")
        path = os.path.join(self.folder, "w.json")
        words = ["--csv", table, "--delimiter", ";", "--unit", "t.cost=€", "--thousands", "t.cost=.",
                 "--scale", "t.cost=2", "--scale", "t.kilo=2", "--ask", "SELECT id, cost, kilo FROM t",
                 "--ask", "SELECT SUM(cost) AS total, COUNT(*) AS n FROM t", "-o", path]
        self.assertEqual(tool(world, *words)[0], 0)
        status, data, err = ldv(["record"], read(path))
        self.assertEqual(status, 0, err)
        folder = self.unpacked(self.made(package=self.put("p", data), program=support.PROGRAM))
        self.assertEqual(read(os.path.join(folder, "tables/0-1.csv")).decode(),
                         'id,cost (€),kilo\n1,"1890,75",0.50\n2,"12,50",1.25\n')
        self.assertEqual(read(os.path.join(folder, "tables/0-2.csv")).decode(),
                         'total (€),n\n"1903,25",2\n')
        self.assertIn(" 1890,75 | 0.50\n", read(os.path.join(folder, "outcome.txt")).decode())
        self.assertIn('"total (€)"', read(os.path.join(folder, "page.html")).decode())
        base = os.path.join(self.folder, "t.db")
        self.assertEqual(tool(package, "--sqlite", base, os.path.join(folder, "recorded.package"))[0], 0)
        found = sqlite3.connect(base)
        self.addCleanup(found.close)
        self.assertEqual(found.execute('SELECT "cost (€)", kilo FROM t').fetchall(),
                         [(1890.75, 0.5), (12.5, 1.25)])

    def test_command(self) -> None:
        """The command of examples/README.md."""
        page = read(f"{EXAMPLES}/README.md").decode()
        lines = [line.strip() for line in page.splitlines() if "weather.package" in line]
        self.assertEqual([line.split()[0] for line in lines], ["./ldv", "tools/bundle.py"])
        check_page.folder_with(support.PROGRAM, self.folder)
        for line in lines:
            done = subprocess.run(["sh", "-c", line], cwd=self.folder, stdout=subprocess.PIPE, check=True)
        self.assertIn("the world 10,835", done.stdout.decode().splitlines()[-1])
        folder = self.unpacked(os.path.join(self.folder, "weather.zip"))
        self.assertEqual(self.replayed(folder)[1].splitlines()[-1], "the same bytes")

    def test_many_steps(self) -> None:
        """A run of more steps than `replay` has without words is replayed by as many as it had."""
        loop = b'{"start":["m"],"files":{"m":"let n = 0\\nl:\\nlet n = n + 1\\nif n < 600000 goto l\\n"}}'
        status, data, err = ldv(["record", "--steps", "2000000"], loop)
        self.assertEqual(status, 0, err)
        folder = self.unpacked(self.made(package=self.put("loop", data), program=support.PROGRAM))
        self.assertEqual(self.replayed(folder)[1].splitlines()[-1], "the same bytes")
