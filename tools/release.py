#!/usr/bin/env python3
"""Installs ldv with its tools, or makes the archives of a release. The Makefile calls it.

    tools/release.py install --prefix /usr/local --destdir DIR     puts everything below DIR/usr/local
    tools/release.py uninstall --prefix /usr/local --destdir DIR   takes it away again
    tools/release.py dist --output dist                            makes the archives of this commit
    tools/release.py dist --log FILE ..                            with the verdicts that a build wrote there
    tools/release.py .. --program FILE                             of this program, which isn't looked at

What is installed: the program, its manual page, the tools as `ldv-NAME`, completions for bash, zsh and fish,
documents and examples. The program is the one that `./ldv` built of these very sources, and another one is
refused. The archives also have a file BUILD: the commit, the kit, the sum of the program, and what the prover
said last of each crate. It takes that from the log of `./ldv`, and from logs of `rt ci` that --log names:
where a crate was proved by an earlier build, its verdict stands in the log of that one.

The same commit gives the same bytes, whoever makes them and when: times are those of the commit, owners are
root, names are in order. The Debian package wants dpkg-deb, and is left out with a word where that isn't.

Statuses: 0 done; 1 the program isn't of these sources, a verdict is missing, files were changed since the
commit, or a file can't be read or written; 2 wrong words.
"""
from __future__ import annotations

import argparse
import gzip
import hashlib
import io
import os
import re
import shutil
import subprocess
import sys
import tarfile
import tempfile
from typing import Dict, Iterable, List, NamedTuple, Optional, Sequence

import completions
from ldvtools import __version__
from ldvtools.errors import Refused, command
from ldvtools.program import least_libc

ROOT = os.path.dirname(os.path.dirname(os.path.abspath(__file__)))
NAME = f"ldv-{__version__}-linux-x86_64"
DEBIAN = f"ldv_{__version__}_amd64.deb"
SUMS = "SHA256SUMS"
SHARED = "share/ldv/ldvtools"
DOCUMENTS = "share/doc/ldv"
# Files of the checkout that are documents, beside those of its folders.
TEXTS = ("README.md", "CHANGELOG.md", "SECURITY.md", "CITATION.cff", "tools/README.md")
DEFAULT_LOG = "crates/ldv/out/logs/crates.log"
KIT = re.compile(r"rattle-kit-\S+ logic [0-9a-f]+")

TOOL = '''#!{python}
"""The command {name} of ldv: `ldv-{name} --help` has its words."""
import os
import sys

sys.path.insert(0, os.path.join(os.path.dirname(os.path.realpath(__file__)), "..", "share", "ldv"))
from ldvtools.{name} import main  # noqa: E402

sys.exit(main())
'''
# The interpreter is that of the path, but for a Debian package, which depends on Debian's.
PYTHON, DEBIAN_PYTHON = "/usr/bin/env python3", "/usr/bin/python3"

CONTROL = """Package: ldv
Version: {version}
Architecture: amd64
Maintainer: Vambroti maintainers <maintainers@users.noreply.vambroti.example>
Installed-Size: {size}
Depends: {depends}
Recommends: graphviz
Section: database
Priority: optional
Description: packages of database runs that replay to the same bytes
 ldv packs a script with exactly the rows of a database that its run needed,
 and runs the package anywhere, without the database, to the same outcome,
 byte by byte. Both are theorems about its own code, checked by machine.
 .
 The tools make worlds of CSV files and databases, and show packages.
"""
# Python leaves compiled modules there.
PRERM = """#!/bin/sh
set -e
find /usr/share/ldv -name __pycache__ -prune -exec rm -rf {} +
"""

AGAIN = """
To make the same again, with this kit's `rt` on the path, in a checkout of this commit:

    make dist
    sha256sum dist/*

The proofs are made anew by `rt ci --anew`. Where they were kept from an earlier build, `make dist
LOG=FILE` takes the verdicts from its log.
"""


class Item(NamedTuple):
    """A file that is installed."""

    data: bytes
    mode: int = 0o644


Tree = Dict[str, Item]


def read(path: str) -> bytes:
    with open(path, "rb") as file:
        return file.read()


def output_of(words: Sequence[str], root: str) -> Optional[str]:
    """What a program writes, in one line or more; None where it fails or isn't there."""
    try:
        done = subprocess.run(words, cwd=root, stdin=subprocess.DEVNULL, stdout=subprocess.PIPE,
                              stderr=subprocess.DEVNULL, check=False)
    except OSError:
        return None
    return done.stdout.decode() if done.returncode == 0 else None


# ---- what is installed

def sources(root: str, folder: str) -> List[str]:
    """The files below a folder of the checkout, by their paths: those of git, where it is one."""
    known = output_of(["git", "ls-files", "-z", "--", folder], root)
    if known:
        return sorted(known.split("\0")[:-1])
    found = [os.path.relpath(os.path.join(at, name), root)
             for at, _, names in os.walk(os.path.join(root, folder)) for name in names]
    return sorted(path for path in found if "__pycache__" not in path)


def tool_names(root: str) -> List[str]:
    """The commands of ldvtools."""
    return re.findall(r"(?m)^ldv-(\w+) = ", read(os.path.join(root, "tools/pyproject.toml")).decode())


def program_tree(root: str, program: bytes, python: str) -> Tree:
    tree = {"bin/ldv": Item(program, 0o755),
            "share/man/man1/ldv.1": Item(read(os.path.join(root, "docs/ldv.1")))}
    for name in tool_names(root):
        tree[f"bin/ldv-{name}"] = Item(TOOL.format(name=name, python=python).encode(), 0o755)
    for path in sources(root, "tools/ldvtools"):
        if path.endswith((".py", ".css", ".js", "/py.typed")):
            tree[f"{SHARED}/{path[len('tools/ldvtools/'):]}"] = Item(read(os.path.join(root, path)))
    return tree


def completion_tree(root: str, zsh: str) -> Tree:
    text = read(os.path.join(root, "docs/ldv.1")).decode()
    places = {"bash": "share/bash-completion/completions/ldv", "zsh": f"share/zsh/{zsh}/_ldv",
              "fish": "share/fish/vendor_completions.d/ldv.fish"}
    return {place: Item(completions.completions(shell, text).encode()) for shell, place in places.items()}


def document_tree(root: str) -> Tree:
    """Documents and examples, in the folders of the checkout so that they find each other."""
    paths = [path for path in TEXTS if os.path.exists(os.path.join(root, path))]
    paths += [path for path in sources(root, "docs") if path.endswith(".md") and path.count("/") == 1]
    paths += sources(root, "examples")
    return {f"{DOCUMENTS}/{path}": Item(read(os.path.join(root, path))) for path in paths}


def tree_of(root: str, program: bytes, build: Optional[str] = None, is_debian: bool = False) -> Tree:
    """All files, by their paths below the prefix."""
    tree = program_tree(root, program, DEBIAN_PYTHON if is_debian else PYTHON)
    tree.update(completion_tree(root, "vendor-completions" if is_debian else "site-functions"))
    tree.update(document_tree(root))
    if build is not None:
        tree[f"{DOCUMENTS}/BUILD"] = Item(build.encode())
    return {path: tree[path] for path in sorted(tree)}


def put(folder: str, tree: Tree) -> None:
    """Writes the files below a folder. One that is in use may be replaced."""
    for path, item in tree.items():
        place = os.path.join(folder, path)
        os.makedirs(os.path.dirname(place), exist_ok=True)
        new = f"{place}.{os.getpid()}"
        with open(new, "wb") as file:
            file.write(item.data)
        os.chmod(new, item.mode)
        os.replace(new, place)


def take_away(folder: str, tree: Tree) -> None:
    """Removes the files, what Python left beside them, and their own folders where nothing else is left."""
    for at, folders, _ in os.walk(os.path.join(folder, SHARED)):
        if "__pycache__" in folders:
            folders.remove("__pycache__")
            shutil.rmtree(os.path.join(at, "__pycache__"))
    for path in tree:
        if os.path.lexists(os.path.join(folder, path)):
            os.remove(os.path.join(folder, path))
    for own in ("share/ldv", DOCUMENTS):
        for at, _, _ in os.walk(os.path.join(folder, own), topdown=False):
            if not os.listdir(at):
                os.rmdir(at)


# ---- the program and its proofs

def program_of(root: str, given: Optional[str]) -> bytes:
    """The program that is given, or else the one that was built of these very sources."""
    if given:
        return read(given)
    said = output_of([os.path.join(root, "ldv"), "--version"], root) or ""
    found = re.search(r"(?m)^program ([0-9a-f]{64})$", said)
    path = os.path.join(root, "crates/ldv/out/ldv")
    if found is None or not os.path.exists(path):
        raise Refused("the program isn't built of these sources: `make` builds it")
    data = read(path)
    if hashlib.sha256(data).hexdigest() != found[1]:
        raise Refused(f"{path} isn't the program of these sources: `make` builds it")
    return data


def crates_of(root: str) -> List[str]:
    """The crates that the program is made of, in the order of crates.txt."""
    uses: Dict[str, List[str]] = {}
    for line in read(os.path.join(root, "crates.txt")).decode().splitlines():
        name, colon, rest = line.partition(":")
        if colon and not line.startswith("#"):
            uses[name.strip()] = rest.split()
    due, found = ["ldv"], {"ldv"}
    while due:
        for use in uses.get(due.pop(), []):
            if use in uses and use not in found:
                found.add(use)
                due.append(use)
    return [name for name in uses if name in found]


def verdicts_in(log: str) -> Dict[str, str]:
    """What the prover said last of each crate, in a log of `rt ci`. A line may have the time before it."""
    found: Dict[str, str] = {}
    verdict = ""
    for line in log.splitlines():
        said = re.search(r"(?:^|\s)(logic=proved .*)", line)
        proved = re.search(r"(?:^|\s)rt: (\w+) proved$", line)
        if re.search(r"(?:^|\s)== \w+$", line):
            verdict = ""
        elif said:
            verdict = said[1].strip()
        elif proved and verdict:
            found[proved[1]] = verdict
    return found


def verdict_lines(root: str, logs: Sequence[str]) -> List[str]:
    """A line for each crate of the program; refused where a log has none."""
    crates = crates_of(root)
    found: Dict[str, str] = {}
    for path in logs:
        found.update(verdicts_in(read(path).decode(errors="replace")))
    missing = [name for name in crates if name not in found]
    if missing:
        shown = ", ".join(missing[:3]) + (" and others" if len(missing) > 3 else "")
        raise Refused(f"no log has the verdict of {shown}: where an earlier build proved a crate, LOG=FILE "
                      "of make (--log FILE) names its log, and `rt ci --anew > FILE` writes one with all")
    width = max(map(len, crates))
    return [f"    {name:<{width}}  {found[name]}" for name in crates]


# ---- BUILD

def commit_of(root: str) -> List[str]:
    """The commit, its time in seconds and its date; refused where files aren't as it has them."""
    found = output_of(["git", "log", "-1", "--format=%H %ct %cd", "--date=format:%Y-%m-%d"], root)
    if found is None:
        raise Refused("this is no checkout of git: a release is of a commit")
    if output_of(["git", "status", "--porcelain", "--untracked-files=no"], root):
        raise Refused("files were changed since the commit: a release is of a commit")
    return found.split()


def kit_of(root: str) -> str:
    """The line of `rt version`, or the one that README names where there is no rt."""
    said = (output_of(["rt", "version"], root) or "").strip()
    found = KIT.search(read(os.path.join(root, "README.md")).decode())
    return said or (found[0] if found else "unknown")


def build_text(root: str, program: bytes, commit: Sequence[str], logs: Sequence[str]) -> str:
    """What the archives are made of, and how to make them again."""
    libc = least_libc(program)
    lines = [f"ldv {__version__}", f"commit {commit[0]} of {commit[2]}", f"kit {kit_of(root)}",
             f"program {hashlib.sha256(program).hexdigest()}",
             f"C library: glibc {libc} or later" if libc else "C library: none is named", "",
             "What the prover said last of each crate of the program:", ""]
    return "\n".join(lines + verdict_lines(root, logs)) + "\n" + AGAIN


# ---- archives

def tar_of(tree: Tree, top: str, time: int) -> bytes:
    """A compressed archive of the files below a folder `top`."""
    folders = {"/".join(path.split("/")[:end]) for path in tree for end in range(path.count("/") + 1)}
    raw = io.BytesIO()
    with tarfile.open(fileobj=raw, mode="w", format=tarfile.PAX_FORMAT) as archive:
        for path in sorted({*tree, *folders}):
            entry = tarfile.TarInfo(f"{top}/{path}" if path else top)
            entry.mtime, entry.uname, entry.gname = time, "root", "root"
            if path in tree:
                entry.size, entry.mode = len(tree[path].data), tree[path].mode
                archive.addfile(entry, io.BytesIO(tree[path].data))
            else:
                entry.type, entry.mode = tarfile.DIRTYPE, 0o755
                archive.addfile(entry)
    packed = io.BytesIO()
    with gzip.GzipFile(filename="", fileobj=packed, mode="wb", compresslevel=9, mtime=0) as file:
        file.write(raw.getvalue())
    return packed.getvalue()


def depends_of(program: bytes) -> str:
    """The packages with the libraries that the program was linked for, and Python for the tools."""
    libc = least_libc(program)
    found = [f"libc6 (>= {libc})"] if libc else []
    found += ["libgcc-s1"] if b"\0libgcc_s.so.1\0" in program else []
    return ", ".join([*found, "python3 (>= 3.9)"])


def control_tree(tree: Tree) -> Tree:
    """What dpkg reads of a package."""
    size = sum(-(-len(item.data) // 1024) for item in tree.values())
    depends = depends_of(tree["bin/ldv"].data)
    sums = "".join(f"{hashlib.md5(item.data).hexdigest()}  usr/{path}\n" for path, item in tree.items())
    text = CONTROL.format(version=__version__, size=size, depends=depends)
    return {"DEBIAN/control": Item(text.encode()), "DEBIAN/md5sums": Item(sums.encode()),
            "DEBIAN/prerm": Item(PRERM.encode(), 0o755)}


def debian_package(tree: Tree, time: int) -> bytes:
    """The Debian package, by dpkg-deb."""
    with tempfile.TemporaryDirectory() as folder:
        top = os.path.join(folder, "tree")
        put(top, {**{f"usr/{path}": item for path, item in tree.items()}, **control_tree(tree)})
        for at, _, names in os.walk(top, topdown=False):
            os.chmod(at, 0o755)
            for name in [*names, "."]:
                os.utime(os.path.join(at, name), (time, time))
        done = subprocess.run(["dpkg-deb", "--root-owner-group", "--uniform-compression", "-Zgzip", "-z9",
                               "--build", top, os.path.join(folder, DEBIAN)],
                              capture_output=True, check=False, env={
                                  **os.environ, "SOURCE_DATE_EPOCH": str(time), "LC_ALL": "C", "TZ": "UTC"})
        if done.returncode != 0:
            raise Refused(f"dpkg-deb ends with {done.returncode}: {done.stderr.decode().strip()}")
        return read(os.path.join(folder, DEBIAN))


def write_all(folder: str, files: Dict[str, bytes]) -> None:
    """Writes the archives and their sums, and removes those of another version."""
    os.makedirs(folder, exist_ok=True)
    for name in os.listdir(folder):
        if name not in files and re.match(r"ldv[-_].*\.(?:tar\.gz|deb)$", name):
            os.remove(os.path.join(folder, name))
    sums = "".join(f"{hashlib.sha256(files[name]).hexdigest()}  {name}\n" for name in sorted(files))
    put(folder, {name: Item(data) for name, data in {**files, SUMS: sums.encode()}.items()})
    sys.stdout.write(sums)


# ---- the command

def given_words(words: Optional[Sequence[str]]) -> argparse.Namespace:
    parser = argparse.ArgumentParser(description=__doc__,
                                     formatter_class=argparse.RawDescriptionHelpFormatter)
    parser.add_argument("what", choices=("install", "uninstall", "dist"))
    parser.add_argument("--prefix", default="/usr/local", help="where it is installed (default /usr/local)")
    parser.add_argument("--destdir", default="", help="a folder that stands for the root of the system")
    parser.add_argument("--program", metavar="FILE", help="the program, in place of the one that was built")
    parser.add_argument("--log", metavar="FILE", action="append", default=[],
                        help="with dist: a log of `rt ci`, for the verdicts; may be given several times")
    parser.add_argument("--output", metavar="FOLDER", default="dist", help="with dist: where the archives go")
    parser.add_argument("--root", default=ROOT, help=argparse.SUPPRESS)
    return parser.parse_args(words)


def make_dist(root: str, given: argparse.Namespace) -> None:
    commit = commit_of(root)
    program = program_of(root, given.program)
    own = os.path.join(root, DEFAULT_LOG)
    logs: Iterable[str] = [own] if os.path.exists(own) and not given.program else []
    build = build_text(root, program, commit, [*logs, *given.log])
    files = {f"{NAME}.tar.gz": tar_of(tree_of(root, program, build), NAME, int(commit[1]))}
    if shutil.which("dpkg-deb"):
        files[DEBIAN] = debian_package(tree_of(root, program, build, is_debian=True), int(commit[1]))
    else:
        print("release.py: no Debian package: dpkg-deb isn't installed", file=sys.stderr)
    write_all(given.output, files)


def work(words: Optional[Sequence[str]]) -> int:
    given = given_words(words)
    root = os.path.abspath(given.root)
    folder = given.destdir + "/" + given.prefix.strip("/") if given.destdir else given.prefix
    if given.what == "dist":
        make_dist(root, given)
    elif given.what == "install":
        put(folder, tree_of(root, program_of(root, given.program)))
    else:
        take_away(folder, tree_of(root, b""))
    return 0


def main(words: Optional[Sequence[str]] = None) -> int:
    return command(work, words, "checkout")


if __name__ == "__main__":
    sys.exit(main())
