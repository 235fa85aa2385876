"""Runs the scripts of a world again over the replies of its outcome,
as `ldv replay` does with recorded replies.

So it is known which statement, with which parameters, each reply of an outcome belongs to, and at which step
it was asked. docs/SCRIPTS.md has the language.
"""
from __future__ import annotations

import bisect
import json
from typing import Callable, Dict, Iterator, List, Mapping, NamedTuple, Optional, Sequence, Set, Tuple

from .errors import Malformed
from .language import MAX_FILE, MAX_INT, MAX_PATH, MAX_PROCESSES, MAX_TEXT, MIN_INT
from .outcomes import Outcome
from .scripts import NUMBER, BadLine, Instruction, Operand, Script, number_of, read_script
from .values import Reply, Row, Value, plain_count

KIND, RANGE, LENGTH, PATH, UTF8 = 240, 241, 242, 243, 244
MAX_STEPS = 10_000_000
Order = Tuple[int, int, bytes]


class Question(NamedTuple):
    """A statement that a process asked: the step, its number in the run and in its process,
    from 0, and its reply."""

    process: str
    step: int
    statement: int
    place: int
    text: str
    params: Row
    reply: Optional[Reply]


class World(NamedTuple):
    """What scripts need of a world. A file that is only present is empty."""

    start: List[str]
    seed: int
    files: Mapping[str, bytes]


class Misuse(Exception):
    """A misuse ends the process, with this status."""

    def __init__(self, status: int) -> None:
        super().__init__(str(status))
        self.status = status


class OpenFile:
    def __init__(self, path: str, mode: str) -> None:
        self.path, self.mode, self.place = path, mode, 0


class Cursor:
    def __init__(self, reply: Reply) -> None:
        self.reply, self.row = reply, 0


class Process:
    """A process: what its names mean, where it stands, and what became of it."""

    def __init__(self, number: int, name: str, script: Script, arguments: Sequence[Value]) -> None:
        self.number, self.name, self.script, self.place = number, name, script, 0
        self.variables: Dict[str, Value] = {f"arg{place}": value for place, value in enumerate(arguments, 1)}
        self.variables["argc"] = len(arguments)
        self.files: Dict[str, OpenFile] = {}
        self.cursors: Dict[str, Cursor] = {}
        self.children: Dict[str, Process] = {}
        self.made = 0
        self.printed: List[str] = []
        self.printed_bytes = 0
        self.asked = 0
        self.status: Optional[int] = None
        self.misused = False

    def value(self, operand: Operand) -> Value:
        return self.variables.get(operand.name) if operand.name else operand.value

    def shown(self, operands: Sequence[Operand]) -> str:
        return "".join(show(self.value(operand)) for operand in operands)

    def values_of(self, here: Instruction) -> str:
        """An instruction with what its variables have, for a message."""
        values = [json.dumps(self.value(operand), ensure_ascii=False) for operand in here.operands]
        parts = [here.word, *here.names, here.sign, *values]
        return " ".join(part for part in parts if part)

    def next(self) -> Optional[Instruction]:
        instructions = self.script.instructions
        return instructions[self.place] if self.place < len(instructions) else None

    def awaited(self) -> Optional["Process"]:
        """The child that has to end before this process takes its next step."""
        here = self.next()
        child = self.children.get(here.names[1]) if here is not None and here.word == "wait" else None
        return child if child is not None and child.status is None else None


def show(value: Value) -> str:
    return "NULL" if value is None else str(value)


def in_order(value: Value) -> Order:
    """NULL first, then numbers, then texts by their bytes."""
    if value is None:
        return 0, 0, b""
    return (1, value, b"") if isinstance(value, int) else (2, 0, value.encode())


COMPARISONS: Dict[str, Callable[[Order, Order], bool]] = {
    "=": lambda a, b: a == b,
    "<>": lambda a, b: a != b,
    "<": lambda a, b: a < b,
    "<=": lambda a, b: a <= b,
    ">": lambda a, b: a > b,
    ">=": lambda a, b: a >= b,
}


class Machine:
    """A run. `answer` gives the reply to the next statement of a process."""

    def __init__(self, world: World, answer: Callable[[str, int, str, Row], Reply]) -> None:
        self.files: Dict[str, bytearray] = {path: bytearray(content) for path, content in world.files.items()}
        self.touched: Set[str] = set()
        self.answer, self.random, self.step, self.last = answer, world.seed, 0, -1
        self.is_fair = world.seed == 0
        self.questions: List[Question] = []
        self.processes = [Process(0, "0", self.script_at(world.start[0]), world.start[1:])]
        # The numbers of the processes that can take a step, rising, and of those that wait, by the child.
        self.runnable: List[int] = [0]
        self.waiting: Dict[int, int] = {}
        self.scripts: Dict[bytes, Optional[Script]] = {}

    def script_at(self, path: str) -> Script:
        try:
            return read_script(bytes(self.files[path]))
        except (KeyError, BadLine) as fault:
            raise Malformed(f"the start script {path}: {fault}") from None

    # ---- the scheduler

    def turn(self) -> int:
        """The number of the process that takes the next step."""
        if self.is_fair:
            place = bisect.bisect_right(self.runnable, self.last)
            return self.runnable[place if place < len(self.runnable) else 0]
        self.random = (self.random * 6364136223846793005 + 1442695040888963407) % 2**64
        return self.runnable[(self.random >> 33) % len(self.runnable)]

    def run(self, budget: int = MAX_STEPS) -> None:
        while self.runnable:
            if self.step == budget:
                raise Malformed(f"the run isn't ended after {budget} steps")
            self.step += 1
            self.last = self.turn()
            self.move(self.processes[self.last])
            self.settle(self.processes[self.last])

    def settle(self, process: Process) -> None:
        """Sees whether a process that took a step can take another one, and who waited for it."""
        child = process.awaited() if process.status is None else None
        if process.status is None and child is None:
            return
        del self.runnable[bisect.bisect_left(self.runnable, process.number)]
        if child is not None:
            self.waiting[child.number] = process.number
        elif process.number in self.waiting:
            bisect.insort(self.runnable, self.waiting.pop(process.number))

    def move(self, process: Process) -> None:
        here = process.next()
        if here is None:
            process.status = 0
            return
        try:
            jump = getattr(self, f"do_{here.word}")(process, here)
        except Misuse as misuse:
            process.status, process.misused = misuse.status, True
            return
        process.place = process.script.labels[here.label] if jump else process.place + 1

    # ---- values

    def do_let(self, process: Process, here: Instruction) -> None:
        values = [process.value(operand) for operand in here.operands]
        process.variables[here.names[0]] = self.computed(here.sign, values)

    @staticmethod
    def computed(sign: str, values: Row) -> Value:
        first, last = values[0], values[-1]
        if sign == "":
            return first
        if sign == "int":
            if isinstance(first, str) and NUMBER.match(first):
                first = number_of(first)
            if not isinstance(first, int):
                raise Misuse(KIND)
            return first
        if sign == "++":
            if first is None or last is None:
                raise Misuse(KIND)
            return fitting(show(first) + show(last))
        if not isinstance(first, int) or not isinstance(last, int):
            raise Misuse(KIND)
        number = first + last if sign == "+" else first - last if sign == "-" else first * last
        if not MIN_INT <= number <= MAX_INT:
            raise Misuse(RANGE)
        return number

    def do_cut(self, process: Process, here: Instruction) -> None:
        by, text = process.value(here.operands[0]), process.variables.get(here.names[1])
        if not isinstance(by, str) or not by or not isinstance(text, str):
            raise Misuse(KIND)
        before, _, after = text.partition(by)
        process.variables[here.names[0]], process.variables[here.names[1]] = before, after

    def do_goto(self, process: Process, here: Instruction) -> bool:
        return True

    def do_if(self, process: Process, here: Instruction) -> bool:
        left, right = (in_order(process.value(operand)) for operand in here.operands)
        return COMPARISONS[here.sign](left, right)

    def do_print(self, process: Process, here: Instruction) -> None:
        line = process.shown(here.operands) + "\n"
        process.printed_bytes += len(line.encode())
        if process.printed_bytes > MAX_FILE:
            raise Misuse(LENGTH)
        process.printed.append(line)

    def do_exit(self, process: Process, here: Instruction) -> None:
        status = process.value(here.operands[0])
        if not isinstance(status, int) or not 0 <= status <= 255:
            raise Misuse(KIND)
        process.status = status

    # ---- files

    @staticmethod
    def path(process: Process, operand: Operand) -> str:
        path = process.value(operand)
        if not isinstance(path, str) or not 1 <= len(path.encode()) <= MAX_PATH or any(
                ord(char) < 32 or ord(char) == 127 for char in path):
            raise Misuse(PATH)
        return path

    @staticmethod
    def file(process: Process, name: str, modes: str) -> OpenFile:
        file = process.files.get(name)
        if file is None or file.mode not in modes:
            raise Misuse(KIND)
        return file

    def do_open(self, process: Process, here: Instruction) -> bool:
        path = self.path(process, here.operands[0])
        if (path in self.files) == (here.sign == "n") and here.sign in "rn":
            return True
        if here.sign != "r":
            self.touched.add(path)
            if here.sign in "wn" or path not in self.files:
                self.files[path] = bytearray()
        process.files[here.names[0]] = OpenFile(path, here.sign)
        return False

    def do_readline(self, process: Process, here: Instruction) -> bool:
        file = self.file(process, here.names[1], "r")
        content = self.files.get(file.path, bytearray())
        if file.place >= len(content):
            return True
        end = content.find(b"\n", file.place)
        line = bytes(content[file.place:end if end >= 0 else len(content)])
        if len(line) > MAX_TEXT:
            raise Misuse(LENGTH)
        try:
            process.variables[here.names[0]] = line.decode()
        except UnicodeDecodeError:
            raise Misuse(UTF8) from None
        file.place += len(line) + (1 if end >= 0 else 0)
        return False

    def append(self, path: str, data: bytes) -> None:
        content = self.files.get(path, bytearray())
        if len(content) + len(data) > MAX_FILE:
            raise Misuse(LENGTH)
        content += data
        self.files[path] = content

    def do_write(self, process: Process, here: Instruction) -> None:
        file = self.file(process, here.names[0], "wan")
        self.append(file.path, (process.shown(here.operands) + "\n").encode())

    def do_copy(self, process: Process, here: Instruction) -> None:
        source, target = self.file(process, here.names[0], "r"), self.file(process, here.names[1], "wan")
        rest = bytes(self.files.get(source.path, bytearray())[source.place:])
        self.append(target.path, rest)
        source.place += len(rest)

    def do_close(self, process: Process, here: Instruction) -> None:
        if process.files.pop(here.names[0], None) is None:
            raise Misuse(KIND)

    def do_remove(self, process: Process, here: Instruction) -> bool:
        path = self.path(process, here.operands[0])
        if self.files.pop(path, None) is None:
            return True
        self.touched.add(path)
        return False

    def do_exists(self, process: Process, here: Instruction) -> None:
        process.variables[here.names[0]] = int(self.path(process, here.operands[0]) in self.files)

    # ---- processes

    def do_spawn(self, process: Process, here: Instruction) -> bool:
        path = self.path(process, here.operands[0])
        script = self.parsed(bytes(self.files[path])) if path in self.files else None
        if script is None or len(self.processes) >= MAX_PROCESSES:
            return True
        arguments = [process.value(each) for each in here.operands[1:]]
        child = Process(len(self.processes), f"{process.name}.{process.made}", script, arguments)
        process.made += 1
        process.children[here.names[0]] = child
        self.processes.append(child)
        self.runnable.append(child.number)
        return False

    def parsed(self, data: bytes) -> Optional[Script]:
        if data not in self.scripts:
            try:
                self.scripts[data] = read_script(data)
            except BadLine:
                self.scripts[data] = None
        return self.scripts[data]

    def do_wait(self, process: Process, here: Instruction) -> None:
        child = process.children.get(here.names[1])
        if child is None:
            raise Misuse(KIND)
        process.variables[here.names[0]] = child.status

    # ---- the database

    def do_sql(self, process: Process, here: Instruction) -> None:
        text, *params = (process.value(operand) for operand in here.operands)
        if not isinstance(text, str):
            raise Misuse(KIND)
        reply = self.answer(process.name, process.asked, text, list(params))
        self.questions.append(Question(process.name, self.step, len(self.questions), process.asked, text,
                                       list(params), reply))
        process.asked += 1
        process.cursors[here.names[0]] = Cursor(reply)

    @staticmethod
    def cursor(process: Process, name: str) -> Cursor:
        cursor = process.cursors.get(name)
        if cursor is None:
            raise Misuse(KIND)
        return cursor

    def do_fetch(self, process: Process, here: Instruction) -> bool:
        cursor = self.cursor(process, here.names[0])
        if cursor.row >= len(cursor.reply.rows):
            return True
        row = cursor.reply.rows[cursor.row]
        if len(row) != len(here.names) - 1:
            raise Misuse(KIND)
        cursor.row += 1
        process.variables.update(zip(here.names[1:], row))
        return False

    def do_count(self, process: Process, here: Instruction) -> None:
        reply = self.cursor(process, here.names[1]).reply
        number = len(reply.rows) if reply.kind == "rows" else reply.changed
        if number > MAX_INT:
            raise Misuse(RANGE)
        process.variables[here.names[0]] = number

    def do_status(self, process: Process, here: Instruction) -> None:
        process.variables[here.names[0]] = self.cursor(process, here.names[1]).reply.code


def fitting(text: str) -> str:
    if len(text.encode()) > MAX_TEXT:
        raise Misuse(LENGTH)
    return text


def answers_of(replies: Mapping[str, Sequence[Reply]]) -> Callable[[str, int, str, Row], Reply]:
    """The replies of an outcome, by process and number."""
    def answer(process: str, place: int, text: str, params: Row) -> Reply:
        found = replies.get(process, ())
        if place >= len(found):
            raise Malformed(f"process {process} asks more statements than the {len(found)} to which the "
                            "outcome has replies: it isn't of this world")
        return found[place]
    return answer


def rerun(world: World, outcome: Outcome) -> Machine:
    """The run whose outcome this is, ended; Malformed where the scripts of the world don't lead to it."""
    machine = Machine(world, answers_of({process.name: process.replies for process in outcome.processes}))
    machine.run()
    for difference in differences(machine, outcome):
        raise Malformed(f"{difference}: the outcome isn't of this world")
    return machine


def questions_of(world: World, outcome: Outcome) -> List[Question]:
    """The statements of the run whose outcome this is, in the order in which they were asked."""
    return rerun(world, outcome).questions


def differences(machine: Machine, outcome: Outcome) -> Iterator[str]:
    """How a run differs from an outcome."""
    made = {process.name: process for process in machine.processes}
    if set(made) != {process.name for process in outcome.processes}:
        yield (f"the run has {plain_count(len(made), 'process', 'processes')}, "
               f"and the outcome {len(outcome.processes)}")
        return
    for process in outcome.processes:
        own = made[process.name]
        if own.status != process.status:
            yield f"process {process.name} ends with {own.status}, and in the outcome with {process.status}"
        elif "".join(own.printed) != process.printed:
            yield f"process {process.name} prints something else"
        elif own.asked != len(process.replies):
            yield (f"process {process.name} asks {own.asked} statements, "
                   f"and the outcome has {len(process.replies)} replies")
    after = {path: machine.files.get(path) for path in machine.touched}
    if after != dict(outcome.touched):
        yield "the run leaves other files"
