"""The script ./ldv, and with the program the examples, the tutorial and the pages."""
from __future__ import annotations

import contextlib
import glob
import hashlib
import io
import json
import os
import pty
import re
import resource
import shlex
import shutil
import subprocess
import sys
from typing import Optional

from cases import encoder
from checks import against_sqlite, check_docs, check_page, check_scripts
from ldvtools import outcome, package, world
from ldvtools.language import RESERVED
from ldvtools.outcomes import read_outcome

from . import random_worlds, support
from .support import (
    ASK,
    EXAMPLES,
    LIBRARY,
    ROOT,
    TOOLS,
    TUTORIAL,
    WEATHER,
    InFolder,
    command,
    each_of,
    ldv,
    make_database,
    match_in,
    read,
    tool,
)

# In place of rt: it "builds" a program that says how often it was built, by its words or what it does without
# input.
RT = """#!/bin/sh
echo x >> "$RT_CALLS"
mkdir -p crates/ldv/out
cat > crates/ldv/out/ldv <<'END'
#!/bin/sh
case $1 in
    run) cat > /dev/null; echo 'ldv: not a world: not json' >&2; exit 6 ;;
    migrate) cat ../ldv.version 2>/dev/null; echo built ;;
    *) echo 'ldv: usage' >&2; exit 2 ;;
esac
END
chmod +x crates/ldv/out/ldv
echo 'rt: ldv proved'
echo '1 passed, 0 failed'
"""


class Script(InFolder):
    """The script ./ldv, in a checkout of its own and with another rt."""

    def setUp(self) -> None:
        super().setUp()
        self.root = self.put_folder("checkout")
        for name in ("crates/ldv/src", "crates/other/src"):
            self.put_folder("checkout/" + name)
        self.put_folder("bin")
        self.put_folder("tmp")
        for name, text in (("checkout/crates.txt", "ldv:\nother:\n"), ("checkout/HANDLES", "none\n"),
                           ("bin/rt", RT), ("checkout/crates/ldv/src/main.rt", "one\n"),
                           ("checkout/crates/other/src/lib.rt", "one\n")):
            self.put(name, text)
        os.chmod(os.path.join(self.folder, "bin/rt"), 0o755)
        shutil.copy(os.path.join(ROOT, "ldv"), self.root)
        self.env = {**os.environ, "PATH": os.path.join(self.folder, "bin") + os.pathsep + os.environ["PATH"],
                    "TMPDIR": os.path.join(self.folder, "tmp"),
                    "XDG_CACHE_HOME": os.path.join(self.folder, "cache"),
                    "RT_CALLS": os.path.join(self.folder, "calls")}

    def put_folder(self, name: str) -> str:
        path = os.path.join(self.folder, name)
        os.makedirs(path)
        return path

    def run_script(self, *words: str, root: Optional[str] = None,
                   cwd: Optional[str] = None) -> tuple[int, bytes, str]:
        done = subprocess.run([os.path.join(root or self.root, "ldv"), *words], stdin=subprocess.DEVNULL,
                              capture_output=True, env=self.env, check=False,
                              cwd=cwd or self.folder)
        return done.returncode, done.stdout, done.stderr.decode()

    def builds(self) -> int:
        return len(read(self.env["RT_CALLS"]).split()) if os.path.exists(self.env["RT_CALLS"]) else 0

    def test_words_first(self) -> None:
        """Words that are no command are refused before anything is built, and those of COMMANDS aren't."""
        for words in each_of([], ["help"], ["--help", "run"], ["--version", "x"], ["walk", "world.json"],
                             ["run", "world.json"], ["inspect"], ["inspect", "all"], ["gen"],
                             ["record", "-x", "-y", "-z", "1"]):
            self.assertEqual(self.run_script(*words), (2, b"", "ldv: usage\n"), words)
            self.assertEqual(self.on_terminal(*words).partition("\n")[0], "ldv: usage", words)
        self.assertEqual(self.builds(), 0)
        table = read(os.path.join(ROOT, check_docs.COMMANDS)).decode().partition("There are no")[0]
        commands = [each.split() for each in re.findall(r"(?m)^\| `([^`|]*)` \| ", table)]
        self.assertGreaterEqual(len(commands), 15)
        self.put("bin/rt", "#!/bin/sh\necho x >> \"$RT_CALLS\"\nexit 1\n")
        for words in commands:
            self.assertEqual(self.run_script(*words)[0], 126, words)
            if words[0] in ("run", "record", "replay", "audit", "table"):
                self.assertEqual(self.run_script(*words, "--steps", "9")[0], 126, words)
        self.assertGreaterEqual(self.builds(), len(commands))

    def test_own_words(self) -> None:
        """--version, --help and -h are answered by the script, which builds nothing for them."""
        self.put_folder("checkout/docs")
        for name in ("ldv.1", "COMMANDS.md"):
            shutil.copy(os.path.join(ROOT, "docs", name), os.path.join(self.root, "docs"))
        self.put("bin/rt", "#!/bin/sh\n[ $1 = version ] && echo kit-1 logic 0 || echo x >> \"$RT_CALLS\"\n")
        version = match_in(r"(?m)^Version (.*)\.$", read(os.path.join(ROOT, check_docs.MANUAL)).decode())[1]
        self.assertEqual(self.run_script("--version"), (
            0, f"ldv {version}\ncommit unknown\nkit kit-1 logic 0\nprogram not built\n".encode(), ""))
        text = read(os.path.join(ROOT, check_docs.COMMANDS)).decode()
        for word in ("--help", "-h"):
            status, out, err = self.run_script(word)
            self.assertEqual((status, err), (0, ""))
            lines = [line[2:].split("  ", 1) for line in out.decode().splitlines() if line.startswith("  ")]
            self.assertEqual([words for words, _ in lines], list(check_docs.listed_commands(text)[0]))
            self.assertIn("  a world document -> the outcome of its run\n", out.decode())
        self.assertEqual(self.builds(), 0)

    def test_version_of_commit(self) -> None:
        """--version has the commit, whether files were changed since, and the sum of the program."""
        if shutil.which("git") is None:
            self.skipTest("git isn't installed")
        git = ["git", "-C", self.root, "-c", "user.name=A", "-c", "user.email=a@b.example"]
        for words in (["init", "-q"], ["add", "-A"], ["commit", "-q", "-m", "All"]):
            self.assertEqual(command([*git, *words])[0], 0)
        commit = command([*git, "rev-parse", "HEAD"])[1].decode().strip()
        self.run_script("migrate")
        digest = hashlib.sha256(read(os.path.join(self.root, "crates/ldv/out/ldv"))).hexdigest()
        lines = self.run_script("--version")[1].decode().splitlines()
        self.assertEqual([lines[1], lines[-1]], [f"commit {commit}", f"program {digest}"])
        self.put("checkout/crates/other/src/lib.rt", "two\n")
        lines = self.run_script("--version")[1].decode().splitlines()
        self.assertEqual(lines[1], f"commit {commit}, with changes")
        self.put("checkout/crates/ldv/src/main.rt", "two\n")
        self.assertEqual(self.run_script("--version")[1].decode().splitlines()[-1], "program not built")
        # A checkout that lies in another one has none of its commits.
        inner = shutil.copytree(self.root, os.path.join(self.root, "inner"), ignore=lambda *_: [".git"])
        self.assertIn(b"commit unknown\n", self.run_script("--version", root=inner)[1])

    def test_ended_build(self) -> None:
        """A build that is ended from outside leaves nothing but its logs."""
        self.put("bin/rt", "#!/bin/sh\nkill -TERM $PPID\n")
        status, out, err = self.run_script("run")
        self.assertEqual((status, out), (126, b""), err)
        self.assertEqual(os.listdir(os.path.join(self.root, "crates/ldv/out")), ["logs"])
        self.assertEqual(os.listdir(self.env["TMPDIR"]), [])

    def test_built_once(self) -> None:
        """A source that is changed is built, and one that has the same content again isn't;
        nor is one of no matter."""
        status, out, err = self.run_script("migrate")
        self.assertEqual((status, out, self.builds()), (0, b"built\n", 1), err)
        self.assertIn("ldv: proving the program first: 1 crates", err)
        self.assertEqual(self.run_script("migrate"), (0, b"built\n", ""))
        self.assertEqual(self.run_script("run")[0], 6)
        self.put("checkout/crates/ldv/src/main.rt", "one\n")
        self.put("checkout/crates/other/src/lib.rt", "two\n")
        self.assertEqual((self.run_script("migrate"), self.builds()), ((0, b"built\n", ""), 1))
        self.put("checkout/crates/ldv/src/main.rt", "two\n")
        self.run_script("migrate")
        self.assertEqual(self.builds(), 2)
        self.put("checkout/crates/ldv/src/more.rt", "")
        self.run_script("migrate")
        self.assertEqual(self.builds(), 3)
        os.remove(os.path.join(self.root, "crates/ldv/src/more.rt"))
        self.run_script("migrate")
        self.assertEqual(self.builds(), 4)
        # Another proof makes no other program, and definitions do.
        self.put_folder("checkout/crates/ldv/proofs/step")
        self.put("checkout/crates/ldv/proofs/step/Answers.antt", "")
        self.assertEqual((self.run_script("migrate"), self.builds()), ((0, b"built\n", ""), 4))
        self.put_folder("checkout/crates/ldv/specs")
        self.put("checkout/crates/ldv/specs/Lib.antt", "")
        self.run_script("migrate")
        self.assertEqual(self.builds(), 5)
        self.put("checkout/crates/ldv/proofs/step/Answers.antt", "another")
        self.assertEqual((self.run_script("migrate"), self.builds()), ((0, b"built\n", ""), 5))
        self.assertEqual(os.listdir(self.env["TMPDIR"]), [])

    def test_other_program(self) -> None:
        """A program that something else put in its place isn't taken for the one of these sources."""
        self.run_script("migrate")
        program = self.put("checkout/crates/ldv/out/ldv", "#!/bin/sh\necho other\n")
        for _ in range(2):
            self.assertEqual(self.run_script("migrate"), (0, b"built\n", ""))
        shutil.rmtree(self.env["XDG_CACHE_HOME"])
        os.remove(program)
        self.put("checkout/crates/ldv/out/ldv", "#!/bin/sh\necho other\n")
        os.chmod(program, 0o755)
        self.assertEqual((self.run_script("migrate")[1], self.builds()), (b"built\n", 2))

    def test_changed_meanwhile(self) -> None:
        """A source that is changed during the build is built by the next call."""
        source = os.path.join(self.root, "crates/ldv/src/main.rt")
        self.put("bin/rt", RT + f"[ -e {self.folder}/changed ] || echo two > {source}\ntouch "
                                f"{self.folder}/changed\n"
                 "echo '1 passed, 0 failed'\n")
        for builds in (1, 2, 2):
            self.run_script("migrate")
            self.assertEqual(self.builds(), builds)

    def test_copies(self) -> None:
        """A copy of a built checkout has its program, and so has one that was only cloned,
        by another name or link too."""
        self.run_script("migrate")
        copy = shutil.copytree(self.root, os.path.join(self.folder, "copy"))
        clone = shutil.copytree(self.root, os.path.join(self.folder, "clone"),
                                ignore=shutil.ignore_patterns("out"))
        link = os.path.join(self.folder, "link")
        os.symlink("copy/ldv", link)
        for root in (copy, clone):
            for _ in range(2):
                self.assertEqual((self.run_script("migrate", root=root), self.builds()),
                                 ((0, b"built\n", ""), 1))
        done = subprocess.run(["./link", "migrate"], cwd=self.folder, env=self.env, stdout=subprocess.PIPE,
                              check=False)
        self.assertEqual((done.returncode, done.stdout, self.builds()), (0, b"built\n", 1))
        self.assertEqual(self.run_script("migrate", root="copy", cwd=self.folder), (0, b"built\n", ""))
        self.assertEqual(len(os.listdir(os.path.join(self.env["XDG_CACHE_HOME"], "ldv"))), 1)

    def test_read_only(self) -> None:
        """Where nothing can be written this is said before anything else."""
        out = os.path.join(self.root, "crates/ldv/out")
        self.put("checkout/crates/ldv/out", "in the way")
        status, _, err = self.run_script("migrate")
        self.assertEqual((status, err.count("\n"), self.builds()), (126, 1, 0))
        self.assertIn(f"{out} can't be written", err)

    def test_no_rt(self) -> None:
        os.remove(os.path.join(self.folder, "bin/rt"))
        self.env["PATH"] = os.path.join(self.folder, "bin") + ":/usr/bin:/bin"
        status, _, err = self.run_script("migrate")
        self.assertEqual((status, err), (
            127, "ldv: the program must be proved and compiled first, and there is no rt to do it\n"))

    def on_terminal(self, *words: str, is_input: bool = False) -> str:
        """What is written to a terminal that is standard error, and on demand standard input too."""
        main, other = pty.openpty()
        if is_input:
            os.write(main, b"\x04")  # the end of the input
        subprocess.run([os.path.join(self.root, "ldv"), *words],
                       stdin=other if is_input else subprocess.DEVNULL, stdout=subprocess.DEVNULL,
                       stderr=other, env=self.env, check=False, cwd=self.folder)
        os.close(other)
        shown = b""
        try:
            while data := os.read(main, 4096):
                shown += data
        except OSError:
            pass
        os.close(main)
        return shown.decode().replace("\r\n", "\n")

    def test_terminal(self) -> None:
        """On a terminal wrong words get a second line, and a file's name another one."""
        self.run_script("migrate")
        self.assertEqual(self.on_terminal("walk"), "ldv: usage\nldv: the words are in the manual page: "
                                                   f"man -l {self.root}/docs/ldv.1\n")
        self.put("world.json", "")
        self.assertEqual(self.on_terminal("walk", "world.json"),
                         "ldv: usage\nldv: world.json is a file, and the input comes "
                                                                 "from standard input: ldv .. < world.json\n")
        self.assertEqual(self.run_script("walk"), (2, b"", "ldv: usage\n"))

    def test_terminal_words(self) -> None:
        """The second line has the commands of the manual page, which are those of COMMANDS."""
        self.run_script("migrate")
        os.makedirs(os.path.join(self.root, "docs"))
        shutil.copy(os.path.join(ROOT, check_docs.MANUAL), os.path.join(self.root, "docs"))
        table = read(os.path.join(ROOT, check_docs.COMMANDS)).decode().partition("\n\n")[2]
        rows = table.partition("There are no")[0]
        words = list(dict.fromkeys(re.findall(r"(?m)^\| `([a-z]+)[^`|]*` \| ", rows)))
        self.assertEqual(words[:3], ["run", "record", "replay"])
        for given in each_of(["walk"], []):
            first, second, *rest = self.on_terminal(*given).split("\n")
            self.assertEqual((first, rest), ("ldv: usage", [""]))
            found = match_in(r"\Aldv: the first word is one of (.*); the words are in the manual page: "
                             rf"man -l {re.escape(self.root)}/docs/ldv\.1\Z", second)
            self.assertEqual(sorted(found[1].split(", ")), sorted(words))

    def test_terminal_input(self) -> None:
        """Where the input would come from the terminal, this is said."""
        self.run_script("migrate")
        said = "ldv: the input is read from this terminal; of a file: ldv run < world.json\n"
        shown = self.on_terminal("run", is_input=True)
        self.assertIn(said, shown.replace("\x04", "").replace("^D\x08\x08", ""))
        self.assertNotIn("is read", self.on_terminal("run"))
        self.assertNotIn("is read", self.on_terminal("walk", is_input=True))

    def test_no_program(self) -> None:
        status, out, err = command([sys.executable, TOOLS, "check_program", self.folder + "/none"])
        self.assertEqual((status, out), (1, b""))
        self.assertIn(b"none is no program", err)


def with_digest(body: str) -> bytes:
    """The bytes of some hex digits, followed by their digest."""
    data = bytes.fromhex(body)
    return data + hashlib.sha256(data).digest()


def within_64_mib() -> None:
    """Lets this process have 64 MiB of addresses."""
    resource.setrlimit(resource.RLIMIT_AS, (64 << 20, 64 << 20))


class Program(InFolder):
    """With the real program."""

    def setUp(self) -> None:
        super().setUp()
        if not os.access(support.PROGRAM, os.X_OK):
            self.skipTest(f"{support.PROGRAM} isn't there; compile it with ./ldv")

    def check_run(self, document: bytes, expected: bytes) -> bytes:
        """The outcome of a run, and that of the replay of what was recorded."""
        self.assertEqual(ldv(["run"], document), (0, expected, b""))
        status, package, err = ldv(["record"], document)
        self.assertEqual((status, err), (0, b""))
        self.assertEqual(ldv(["replay"], package), (0, expected, b""))
        status, replies, err = ldv(["record", "--excluded"], document)
        self.assertEqual((status, err), (0, b""))
        self.assertEqual(ldv(["replay"], replies), (0, expected, b""))
        return package

    def test_examples(self) -> None:
        for path in sorted(glob.glob(EXAMPLES + "/*.outcome")):
            self.check_run(read(path[:-len(".outcome")] + ".json"), read(path))
        for path in sorted(glob.glob(EXAMPLES + "/*.error")):
            for word in ("run", "record"):
                document = read(path[:-len(".error")] + ".json")
                self.assertEqual(ldv([word], document), (6, b"", read(path)), path)

    def test_tutorial(self) -> None:
        path = os.path.join(self.folder, "library.db")
        make_database(path, read(TUTORIAL + "/library.sql").decode())
        for words, name in ((WEATHER, "weather"), (["--sqlite", path] + LIBRARY, "library")):
            document = tool(world, "--no-columns", *words)[1]
            package = self.check_run(document, read(f"{TUTORIAL}/{name}.outcome"))
            self.assertLess(len(package), len(document))
        self.assertNotIn(b"Middlemarch", package)
        self.assertEqual(ldv(["replay"], package[:-1]), (8, b"", b"ldv: damaged: digest\n"))

    def test_package(self) -> None:
        """What the orders world packs of its customers, with the statement and the rule of each row."""
        path = self.put("orders.package", ldv(["record"], read(f"{EXAMPLES}/orders.json"))[1])
        self.assertEqual(tool(package, "--csv", self.folder, "--reasons", path)[0], 0)
        self.assertEqual(read(f"{self.folder}/customers.csv"), b"ldv_row,ldv_statement,ldv_rule,id,name\r\n"
                         b"0,2,L,1,Ada\r\n1,2,H,2,Bo\r\n2,2,H,3,Cy\r\n")

    def test_unsound(self) -> None:
        """Where a package was changed, `audit` names the byte, and package.py what stands there."""
        whole = ldv(["record"], read(f"{EXAMPLES}/orders.json"))[1]
        self.assertEqual(ldv(["audit"], whole), (0, b"sound\n", b""))
        # The rule of the one row that the second INSERT needed: K becomes L.
        self.assertEqual(whole[1355], 3)
        for place, value, said in ((1355, 1, "row 0, version 0, rule L"), (1354, 1, "row 0, version 1, rule "
                                                                                    "K")):
            body = whole[:place] + bytes([value]) + whole[place + 1:-32]
            changed = body + hashlib.sha256(body).digest()
            self.assertEqual(ldv(["audit"], changed), (0, f"unsound {place}\n".encode(), b""))
            out = tool(package, "--byte", str(place), given=changed)[1].decode()
            self.assertEqual(out.split("\n")[1:-1], [
                "section trace", "event 5, counted from 0: 14 0 asked 1 tables 1 reads 1 made 0",
                "rows of orders that it needed", said])

    def test_manual_page(self) -> None:
        """The examples of the manual page, in their order."""
        check_page.folder_with(support.PROGRAM, self.folder)
        for name in ("old.package", "first.package", "second.package"):
            self.put(name, encoder.encode(encoder.package()))
        page = read(os.path.join(ROOT, check_docs.MANUAL)).decode()
        lines = re.findall(r"(?m)^\.Dl (.*)$", page)
        for block in re.findall(r"(?s)\n\.Bd .*?\n(.*?)\n\.Ed", page):
            lines += block.split("\n")
        self.assertGreaterEqual(len(lines), 20)
        path = self.folder + os.pathsep + os.environ["PATH"]
        no_dot = not shutil.which("dot")
        for line in lines:
            if line.startswith("unzip ") and not shutil.which("unzip"):
                line = "python3 -m zipfile -e orders.zip orders"
            if no_dot:
                line = line.replace(" --svg report.svg", "")
            done = subprocess.run(["sh", "-c", line], cwd=self.folder, capture_output=True,
                                  env={**os.environ, "PATH": path}, check=False)
            # Of a package that says nothing of its columns, or has refusals, that is said.
            said = [each for each in done.stderr.splitlines()
                    if not re.search(rb": nothing says what the c|\d of \d+ statements was refused$", each)
                    and not (no_dot and b": no picture: dot isn't installed" in each)]
            self.assertEqual((done.returncode, said), (0, []), line)

    def test_packages_page(self) -> None:
        status, out, err = tool(check_page, "--program", support.PROGRAM)
        self.assertEqual((status, err), (0, ""), out.decode())

    def test_scripts_page(self) -> None:
        with contextlib.redirect_stdout(io.StringIO()) as printed:
            status = check_scripts.main(["--program", shlex.join([support.PROGRAM, "run"])])
        self.assertEqual(status, 0, printed.getvalue())

    def test_against_sqlite(self) -> None:
        """A few random statements; a run of many is made by hand."""
        words = ["--program", shlex.join([support.PROGRAM, "run"]), "--databases", "10", "--folder",
                 self.folder]
        with contextlib.redirect_stdout(io.StringIO()) as printed:
            status = against_sqlite.main(words)
        self.assertEqual(status, 0, printed.getvalue())

    def test_findings(self) -> None:
        """On random worlds check.py finds a bad line, and a statement that is refused
        by a code from 1 to 4, exactly where the program does."""
        seen = set()
        for seed in range(1, 9):
            document, flags, codes = random_worlds.Worlds(seed).world(200, 60)
            status, out, err = ldv(["run"], document)
            self.assertEqual((status, err), (0, b""), seed)
            first = read_outcome(out).processes[0]
            self.assertEqual([int(line) for line in first.printed.split()], flags, seed)
            given = [reply.code if reply.code <= 4 else 0 for reply in first.replies]
            self.assertEqual(given, codes, seed)
            seen |= {*codes}
        self.assertEqual(seen, {0, 1, 2, 3, 4})

    def test_rows_by_hand(self) -> None:
        path = self.put("t.csv", 'id,name\n2,"Ada, x"\n1,\n-3,Bo\n')
        document = tool(world, "--no-columns", "--csv", path, "--ask", "SELECT * FROM t WHERE id < 2",
                        "--ask", "SELECT * FROM t WHERE nome = 1")[1]
        self.check_run(document, b"outcome 1 0\nprocess 0 0 0 2\n\nrows 2\nrow 2\nint 1\nnull\n"
                                 b"row 2\nint -3\ntext 2\nBo\nrefused 3\n")
        shown = tool(outcome, "--csv", "--reply", "1", given=ldv(["run"], document)[1])
        self.assertEqual(shown, (0, b"1,2\n1,\n-3,Bo\n", "outcome.py: 1 of 2 statements was refused\n"))

    def test_limits(self) -> None:
        """What world.py lets through at its limits is a world, and reserved words aren't names."""
        table = ",".join(["a" * 63] + [f"c{n}" for n in range(63)])
        row = ",".join(["9223372036854775807", "-9223372036854775808", "é" * 32768] + ["x"] * 61)
        path = self.put("t.csv", f"{table}\n{row}\n")
        files = [word for n in range(3) for word in ("--file", f"{n}={self.put('full', b'a' * 16777216)}")]
        words = ["--csv", path, *ASK, *files, "--arg", "b" * 65536, *["--arg", "c"] * 254]
        status, document, err = tool(world, *words)
        self.assertEqual(status, 0, err)
        self.assertEqual(ldv(["run"], document)[0], 0)
        for word in sorted(RESERVED):
            tables = {"t": {"columns": [[word, "INT"]]}}
            document = json.dumps({"start": ["m"], "files": {"m": ""}, "tables": tables}).encode()
            self.assertEqual(ldv(["run"], document), (6, b"", b"ldv: not a world: name\n"), word)

    def test_memory_of_runs(self) -> None:
        """A few bytes that stand for more events than a package may have are refused within 64 MiB, so before
        an event is made of them. Of as many as may be, only a report on events makes them."""
        files = "00000001 000000046d61696e 01 00000000"
        head = f"4c44565041434b32 01 0001 000000046d61696e 0000000000000000 00989680 {files} 0000 00000000"
        first = "00000002 00000000 00000000 00 000000046d61696e 00000001 00000000"
        # The steps, from byte 27 on, are 00989680 here, and a script of no line has one.
        answers = {"replay": (0, b"outcome 1 0\nprocess 0 0 0 0\n\n", b""),
                   "audit": (0, b"unsound 28\n", b""),
                   "inspect files": (0, b"whole 0 main\n", b""),
                   "table t 0": (10, b"", b"ldv: no such item\n"),
                   "inspect why t 0": (11, b"", b"ldv: out of memory\n")}
        refused = (8, b"", b"ldv: damaged: form\n")
        # What it is joined to with itself: the file once, and each run with the one path that it needs whole.
        shared = f"4c44564a4f494e31 {files} 0000"
        needs = "00000001 000000046d61696e 00000000 0000 00000000"
        for count in (20_000_000, 20_000_001, 2 ** 32 - 1):
            trace = f"{first} 00000001 00000000 08 00000001 66 {count:08x} 00000000"
            data = with_digest(f"{head} {trace}")
            run = f"0001 000000046d61696e 0000000000000000 00989680 {needs} {trace}"
            twice = (len(data).to_bytes(4, "big") + data) * 2
            for words, answer, given in [*((words, answer, data) for words, answer in answers.items()),
                                         ("migrate", (0, data, b""), data),
                                         ("join", (0, with_digest(f"{shared} {run} {run}"), b""), twice)]:
                done = subprocess.run([support.PROGRAM, *words.split()], input=given, capture_output=True,
                                      preexec_fn=within_64_mib, check=False)
                self.assertEqual((done.returncode, done.stdout, done.stderr),
                                 answer if count == 20_000_000 else refused, (count, words))
