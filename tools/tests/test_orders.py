"""orders.py, over packages that encoder.py spells, with a program in place of ldv; runs in all orders."""
from __future__ import annotations

import json
import os
import random
import shlex
from typing import Any, Iterator, Optional, Sequence

from cases import encoder
from ldvtools import orders
from ldvtools.outcomes import read_outcome
from ldvtools.rerun import Machine, World, answers_of, differences
from ldvtools.values import changed_reply, rows_reply
from ldvtools.worlds import read_world

from . import support
from .support import EXAMPLES, InFolder, ldv, read, tool
from .test_examples import in_sqlite

EXCLUDED = 2
CHANGING = ["opened write", "opened append", "opened new", "wrote", "removed"]
NAMING = ["spawned", "unspawned", "opened read", *CHANGING[:3], "unopened", "read", *CHANGING[3:], "tested"]
OUTCOME = b"outcome 1 0\nprocess 0 0 0 0\n\n"
OTHER = b"outcome 1 0\nprocess 0 1 0 0\n\n"

# In place of ldv: notes its words, and answers by the seed. The package's own has the name own.
PROGRAM = """#!/bin/sh
cat > /dev/null
echo "$*" >> {calls}
seed=own
[ "$2" = --seed ] && seed=$3
case $seed in
{answers}
*) printf %s {outcome};;
esac
"""

# The kinds of the examples with several processes: the paths that they share. Read off their scripts.
SHARED = {"apart": [], "jobs": [], "orders": [], "handed": ["sum.txt"], "nightly": ["import.log"]}
STEPS = {"apart": 82, "jobs": 66, "orders": 28}


def spelled(*trace: Any, children: int = 2, **parts: Any) -> bytes:
    """A package of a run of two children and of these events."""
    made = [encoder.spawned(1 + place, 0, "s") for place in range(children)]
    given: dict[str, Any] = dict(version=2, mode=EXCLUDED, steps=9,
                                 trace=[encoder.started(), *made, *trace, encoder.ended(9)])
    return encoder.encode(encoder.package(**{**given, **parts}))


def act(name: str, process: int, path: str = "f", step: int = 3) -> Any:
    return encoder.act(name, path, step, process)


class Shared(InFolder):
    """What processes share."""

    def kind(self, *trace: Any, **parts: Any) -> str:
        status, out, err = tool(orders, given=spelled(*trace, **parts))
        self.assertEqual(err, "")
        self.assertEqual(status, 0 if out.startswith(b"private") else 1)
        return out.decode()

    def test_acts(self) -> None:
        """A path that one changes is named by no other, whatever the other does, and in whatever order."""
        for changing in CHANGING:
            for naming in NAMING:
                for one, other in ((1, 2), (2, 1)):
                    events = [act(changing, one), act(naming, other)]
                    for trace in (events, events[::-1]):
                        self.assertIn("file f\n", self.kind(*trace), (changing, naming))
                    self.assertIn("private: ", self.kind(act(changing, one), act(naming, one)))
                    self.assertIn("private: ", self.kind(act(changing, one), act(naming, other, "g")))

    def test_looking(self) -> None:
        """A path that none changes may be named by all."""
        looking = [name for name in NAMING if name not in CHANGING]
        for one in looking:
            for other in looking:
                self.assertEqual(self.kind(act(one, 1), act(other, 2), children=2)[:7], "private")

    def test_absent(self) -> None:
        """A path that isn't there, and is asked for, is named too."""
        for name in ("tested", "unopened", "unspawned"):
            events = [act("removed", 1), encoder.act(name, "f", 4, 2, found=0)]
            self.assertIn("file f\n  process 0.0: removed it\n", self.kind(*events))

    def test_script(self) -> None:
        """A script that one starts and another changes."""
        self.assertIn("file main\n  process 0: started the script\n  process 0.0: wrote it\n",
                      self.kind(act("wrote", 1, "main")))
        self.assertIn("file s\n  process 0: made a child of the script\n  process 0.1: removed it\n",
                      self.kind(act("removed", 2, "s")))

    def test_lines(self) -> None:
        """All paths in the order of their bytes, each act once, and processes in the order of the trace."""
        trace = [act("opened append", 2, "b"), act("wrote", 2, "b"), act("wrote", 2, "b", 4),
                 act("opened append", 1, "b", 5), act("removed", 1, "B", 6), act("tested", 0, "B", 7),
                 act("read", 1, "c", 8)]
        self.assertEqual(self.kind(*trace), """not private
2 paths that one process changes and another one names
file B
  process 0.0: removed it
  process 0: looked for it
file b
  process 0.1: opened it for appending, wrote it
  process 0.0: opened it for appending
""")

    def test_one_process(self) -> None:
        trace = [encoder.started(), act("wrote", 0, "main", 1), encoder.ended()]
        self.assertEqual(tool(orders, given=encoder.encode(encoder.package(mode=EXCLUDED, trace=trace))),
                         (0, b"private: one process, which has one order of steps\n", ""))

    def test_rows(self) -> None:
        """A package with rows isn't run under other seeds; its paths are told all the same."""
        found = self.kind(act("wrote", 1), act("read", 2), mode=1)
        self.assertTrue(found.startswith("not private\nit has rows, and its processes share"), found)
        self.assertIn("file f\n", found)

    def test_processes(self) -> None:
        """The first process and 65,533 others are fewer than 65,535."""
        for times, said in ((65_533, "private: 65534 processes,"), (65_534, "65535 processes were made")):
            runs = [encoder.run(encoder.started()), encoder.run(encoder.spawned(1, 0, "s"), times, 1),
                    encoder.run(encoder.ended(70_000))]
            data = encoder.encode(encoder.package(version=2, mode=EXCLUDED, steps=70_000, runs=runs))
            status, out, err = tool(orders, given=data)
            self.assertEqual((status, err), (1 if times == 65_534 else 0, ""))
            self.assertIn(said, out.decode())

    def test_many(self) -> None:
        """Twenty paths and twenty processes are shown, or all."""
        trace = [act("wrote", process, f"f{path:02}") for path in range(22) for process in (1, 2)]
        self.assertIn(".. and 2 paths more (--all shows all)\n", self.kind(*trace))
        self.assertIn(b"file f21\n", tool(orders, "--all", given=spelled(*trace))[1])
        trace = [act("wrote", process) for process in range(1, 24)]
        self.assertIn("  .. and 3 lines more (--all shows all)\n", self.kind(*trace, children=23))

    def test_no_package(self) -> None:
        for data, said in ((b"", "no package: it doesn't begin"), (spelled()[:-1], "no package: its digest"),
                           (spelled(act("wrote", 1), act("wrote", 7)), "process 7, which nothing made")):
            status, out, err = tool(orders, given=data)
            self.assertEqual((status, out), (2, b""))
            self.assertIn(said, err)
        self.assertEqual(tool(orders, "--seeds", "5", given=spelled())[0], 2)
        for count in ("0", "-1", "x", "", "1.5", "18446744073709551617"):
            self.assertEqual(tool(orders, "--ldv", "x", "--seeds", count, given=spelled())[0], 2, count)
        self.assertEqual(tool(orders, "no/such/package")[0], 2)


class Tried(InFolder):
    """Other seeds, with a program in place of ldv."""

    def tried(self, answers: Any = None, *words: str, steps: int = 9) -> tuple[Any, list[list[str]]]:
        path, quoted = os.path.join(self.folder, "calls"), shlex.quote
        open(path, "w").close()
        lines = [f"{seed}) printf %s {quoted(output)}; printf %s {quoted(error)} >&2; exit {status};;"
                 for seed, (status, output, error) in (answers or {}).items()]
        program = self.put("ldv", PROGRAM.format(calls=quoted(path), outcome=quoted(OUTCOME.decode()),
                                                 answers="\n".join(lines)))
        os.chmod(program, 0o755)
        found = tool(orders, "--ldv", program, *words, given=spelled(steps=steps))
        with open(path) as file:
            return found, [line.split() for line in file]

    def test_agree(self) -> None:
        """It is replayed within its own steps, under its own seed and under each other one."""
        (status, out, err), calls = self.tried(None, "--seeds", "3")
        self.assertEqual((status, err), (0, ""))
        self.assertEqual(out, b"private: 3 processes, and none names a path that another one changes\n"
                              b"3 seeds: the outcome of the recorded run, after no more than its 9 steps\n")
        self.assertEqual(calls, [["replay", "--steps", "9"]] + [
            ["replay", "--seed", seed, "--steps", "9"] for seed in "012"])

    def test_hundred(self) -> None:
        found, calls = self.tried()
        self.assertEqual((found[0], len(calls), calls[-1][2]), (0, 101, "99"))

    def test_elsewhere(self) -> None:
        """Each seed that leads elsewhere is told: a divergence, no end, or another outcome."""
        (status, out, err), _ = self.tried({"1": [9, "", "ldv: diverged: process 0.1 statement 0\n"],
                                            "2": [7, "", "ldv: not ended after 9 steps\n"],
                                            "4": [0, OTHER.decode(), ""]}, "--seeds", "5")
        self.assertEqual((status, err), (1, ""))
        self.assertEqual(out.decode().split("\n")[1:], [
            "seed 1: ldv: diverged: process 0.1 statement 0", "seed 2: ldv: not ended after 9 steps",
            "seed 4: another outcome", "  process 0: status 0, and 1",
            "2 of 5 seeds: the outcome of the recorded run, after no more than its 9 steps", ""])

    def test_own(self) -> None:
        """A package whose own run diverges has no outcome to compare with."""
        diverged = [9, "", "ldv: diverged: process 0 statement 1\n"]
        (status, out, err), _ = self.tried({"own": diverged, "0": diverged}, "--seeds", "2")
        self.assertEqual((status, err), (1, ""))
        self.assertEqual(out.decode().split("\n")[1:], [
            "its own seed: ldv: diverged: process 0 statement 1",
            "seed 0: ldv: diverged: process 0 statement 1", "seed 1: another outcome",
            "0 of 2 seeds: the outcome of the recorded run, after no more than its 9 steps", ""])

    def test_many(self) -> None:
        answers = {str(seed): [9, "", f"ldv: diverged: process 0 statement {seed}\n"] for seed in range(30)}
        (status, out, _), _ = self.tried(answers, "--seeds", "30")
        self.assertEqual((status, len(out.split(b"\n"))), (1, 24))
        self.assertIn(b"\n.. and 10 seeds more (--all shows all)\n0 of 30 seeds", out)
        (_, out, _), _ = self.tried(answers, "--seeds", "30", "--all")
        self.assertIn(b"statement 29", out)

    def test_no_steps(self) -> None:
        """A budget is at least 1, whatever the package says."""
        self.assertEqual(self.tried(None, "--seeds", "1", steps=0)[1][0], ["replay", "--steps", "1"])

    def test_refused(self) -> None:
        """A program that isn't there, or that takes no package."""
        (status, out, err), _ = self.tried({"own": [8, "", "ldv: damaged: form\n"]})
        self.assertEqual((status, out[:8]), (2, b"private:"))
        self.assertIn("replay ends with 8: ldv: damaged: form\n", err)
        (status, _, err), _ = self.tried({"0": [2, "", "ldv: usage\n"]})
        self.assertEqual(status, 2)
        self.assertIn("replay ends with 2: ldv: usage\n", err)
        status, _, err = tool(orders, "--ldv", os.path.join(self.folder, "none"), given=spelled())
        self.assertEqual(status, 2)
        self.assertIn("No such file", err)


# ---- all orders

class Chosen(Machine):
    """A run in which `picks` says who takes each step, by places among those that can; then the first does.

    `choices` has how many could take each step.
    """

    def __init__(self, world: Any, answer: Any, picks: Sequence[int]) -> None:
        super().__init__(world, answer)
        self.picks = picks
        self.choices: list[int] = []

    def turn(self) -> Any:
        self.choices.append(len(self.runnable))
        made = len(self.choices) - 1
        return self.runnable[self.picks[made] % len(self.runnable) if made < len(self.picks) else 0]


def every_order(world: Any, answer: Any) -> Iterator[Any]:
    """Each run of a world, once for each list of who takes a step."""
    picks: Optional[list[int]] = []
    while picks is not None:
        machine = Chosen(world, answer, picks)
        machine.run(10_000)
        yield machine
        taken = picks + [0] * (len(machine.choices) - len(picks))
        while taken and taken[-1] + 1 == machine.choices[len(taken) - 1]:
            taken.pop()
        picks = taken[:-1] + [taken[-1] + 1] if taken else None


def ended(machine: Any) -> Any:
    """What a run comes to, by the names of processes."""
    made = [(process.name, process.status, "".join(process.printed)) for process in machine.processes]
    return sorted(made), sorted((path, bytes(machine.files.get(path, b"gone"))) for path in machine.touched)


def asked_of_tables(tables: Any) -> Any:
    base = in_sqlite(tables)

    def answer(process: str, place: int, text: str, params: Sequence[Any]) -> Any:
        done = base.execute(text, params)
        return changed_reply(done.rowcount) if done.description is None else rows_reply(
            [list(row) for row in done.fetchall()])
    return answer


MAIN = 'spawn a "one" else bad\nspawn b "two" else bad\nwait x a\nwait y b\nprint x y\nbad:\n'
# Two scripts, and whether the run is private. Of each that isn't, two orders have different outcomes.
PAIRS = [
    ('open f w "f" else z\nwrite f 1\nclose f\nremove "f" else z\nz:\nexit 3\n',
     'exists x "g"\nprint x\n', True),
    ('open f r "data" else z\nreadline x f else z\nprint x\nz:\n',
     'open f r "data" else z\nprint "there"\nz:\n', True),
    ('spawn c "leaf" else z\nwait x c\nz:\nprint x\n',
     'open f n "new" else z\nwrite f arg1\nz:\n', True),
    ('open f a "log" else z\nwrite f 1\nz:\n', 'open f a "log" else z\nwrite f 2\nz:\n', False),
    ('open f w "mark" else z\nz:\n', 'exists x "mark"\nprint x\n', False),
    ('remove "data" else z\nexit 1\nz:\n', 'open f r "data" else z\nexit 1\nz:\n', False),
    ('remove "leaf" else z\nz:\n', 'spawn c "leaf" else z\nexit 1\nz:\n', False),
    # The one only opens what the other names, and the other finds it or not, as a file or a script, or is
    # refused.
    ('open f w "data" else z\nz:\n', 'open f r "data" else z\nreadline x f else z\nprint x\nz:\n', False),
    ('open f a "mark" else z\nz:\n', 'open f n "mark" else z\nexit 1\nz:\n', False),
    ('open f n "mark" else z\nexit 1\nz:\n', 'open f n "mark" else z\nexit 1\nz:\n', False),
    ('open f w "mark" else z\nz:\n', 'spawn c "mark" else z\nexit 1\nz:\n', False),
    ('open f w "data" else z\nz:\n', 'spawn c "data" else z\nexit 1\nz:\n', False),
    # The one reads it before it changes it, and the other may read it in between.
    ('open f r "data" else z\nopen g a "data" else z\nwrite g 2\nz:\n',
     'open f r "data" else z\nreadline x f else z\nreadline x f else z\nprint x\nz:\n', False),
]


class Orders(InFolder):
    """The examples and small worlds in other orders of steps, by the runs of rerun.py."""

    def test_examples(self) -> None:
        """Over SQLite, each example has its outcome, and under other seeds those whose statements don't meet
        have it too."""
        for name, always in (("apart", True), ("handed", True), ("jobs", False)):
            data = read(f"{EXAMPLES}/{name}.json")
            document, tables = read_world(data), json.loads(data)["tables"]
            wanted, seen = read_outcome(read(f"{EXAMPLES}/{name}.outcome")), set()
            for seed in range(30):
                machine = Machine(document.world._replace(seed=seed), asked_of_tables(tables))
                machine.run()
                seen.add(str(ended(machine)))
                if seed == document.world.seed:
                    self.assertEqual(list(differences(machine, wanted)), [], name)
            self.assertEqual(len(seen) == 1, always, name)

    def test_replies(self) -> None:
        """Over its recorded replies, a private example has its outcome in any order, after as many steps."""
        for name, steps in STEPS.items():
            world = read_world(read(f"{EXAMPLES}/{name}.json")).world
            outcome = read_outcome(read(f"{EXAMPLES}/{name}.outcome"))
            answer = answers_of({process.name: process.replies for process in outcome.processes})
            chance = random.Random(name)
            for turn in range(60):
                picks = [chance.randrange(turn + 1) for _ in range(steps)]
                machine = Chosen(world, answer, picks)
                machine.run()
                self.assertEqual((list(differences(machine, outcome)), machine.step), ([], steps), name)

    def test_every_order(self) -> None:
        """Small worlds in all orders of their steps: one outcome after one number of steps where they are
        private, and several where two processes share what one of them changes."""
        for one, two, is_private in PAIRS:
            files = {"main": MAIN, "one": one, "two": two, "leaf": "print 7\n", "data": "line\n"}
            world = World(["main"], 0, {path: text.encode() for path, text in files.items()})
            seen, count = set(), 0
            for machine in every_order(world, answers_of({})):
                seen.add((str(ended(machine)), machine.step if is_private else 0))
                count += 1
            self.assertGreater(count, 10)
            self.assertEqual(len(seen) == 1, is_private, (one, two, sorted(seen)))

    def test_program(self) -> None:
        """The packages of the examples, by the program: what they share, and a few seeds."""
        if not os.access(support.PROGRAM, os.X_OK):
            self.skipTest(f"{support.PROGRAM} isn't there; compile it with ./ldv")
        for name, paths in SHARED.items():
            status, data, told = ldv(["record", "--excluded"], read(f"{EXAMPLES}/{name}.json"))
            self.assertEqual((status, told), (0, b""))
            status, out, err = tool(orders, "--ldv", support.PROGRAM, "--seeds", "10", given=data)
            self.assertEqual((status, err), (1 if paths else 0, ""), name)
            found = [line[5:] for line in out.decode().split("\n") if line.startswith("file ")]
            self.assertEqual(found, paths)
            for seed in ("0", "18446744073709551615"):
                status, outcome, _ = ldv(["replay", "--seed", seed], data)
                self.assertEqual((status, outcome), (14, b"") if paths else (
                    0, read(f"{EXAMPLES}/{name}.outcome")), name)

    def test_lying_trace(self) -> None:
        """A package by hand whose trace names no path that its scripts share: it is private by its trace, and
        another order leads elsewhere, which is told."""
        if not os.access(support.PROGRAM, os.X_OK):
            self.skipTest(f"{support.PROGRAM} isn't there; compile it with ./ldv")
        # The first child removes d, and the second one asks SELECT 0 where d is gone, else SELECT 1.
        files = [encoder.file("d", ""), encoder.file("m", 'spawn a "o" else z\nspawn b "t" else z\nz:\n'),
                 encoder.file("o", 'remove "d" else z\nz:\n'),
                 encoder.file("t", 'exists x "d"\nlet q = "SELECT " ++ x\nsql c q\n')]
        trace = [encoder.started("m"), encoder.spawned(1, 0, "o"), encoder.spawned(2, 0, "t"),
                 encoder.ended(9)]
        logs = [encoder.log([0, 1], encoder.entry("SELECT 0"))]
        data = encoder.encode(encoder.package(version=2, mode=EXCLUDED, start=["m"], steps=9, files=files,
                                                logs=logs, trace=trace))
        status, out, err = tool(orders, "--ldv", support.PROGRAM, "--seeds", "9", given=data)
        self.assertEqual((status, err), (1, ""))
        self.assertEqual(out.decode().split("\n")[1:], [
            "seed 6: ldv: diverged: process 0.1 statement 0",
            "seed 8: ldv: diverged: process 0.1 statement 0",
            "7 of 9 seeds: the outcome of the recorded run, after no more than its 9 steps", ""])
