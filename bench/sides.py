"""The sides that are measured, each over states of its own: an image, a database, a folder."""

import contextlib
import functools
import os
import subprocess
import tempfile

import measuring
import workloads

HERE = os.path.dirname(os.path.abspath(__file__))
COMPILER = os.environ.get("CC", "cc")


def is_done(reply):
    """Returns whether the reply says that the line was carried out."""
    return reply.startswith("ok")


def is_refused(reply):
    """Returns whether the reply says that the line's label is bound to nothing, or that nothing had to be refused."""
    return reply.startswith(("ERROR_INVALID_HANDLE", "ok"))


class Side:
    """A program that carries out a list of lines on a state, each time on a new one."""

    def __init__(self, room, program):
        self.room, self.program = room, program
        self.empty = functools.cache(lambda measure: self.measured(measure, []))

    def lines(self, work):
        """Returns the workload in the form in which this side reads it."""
        return workloads.plain(work)

    def command(self, state, lines):
        """Returns the command that carries out the lines of this file on this state."""
        return [self.program, state, lines]

    def check(self, lines, replies, is_right):
        """Stops where a line has no reply, or one that it may not have."""
        with open(replies, encoding="utf-8", errors="replace") as written:
            count = 0
            for count, reply in enumerate(written, 1):
                if not is_right(reply):
                    raise measuring.Failed(f"{self.program} answered {reply.strip()[:80]} to {lines[count - 1][:80]}")
        if count != len(lines):
            raise measuring.Failed(f"{self.program} answered {count} of {len(lines)} lines")

    @contextlib.contextmanager
    def state(self):
        """Gives the path of a state that is not there yet."""
        with tempfile.TemporaryDirectory(dir=self.room) as folder:
            yield f"{folder}/state"

    def measured(self, measure, lines, state=None, is_right=is_done):
        """Returns the measure of a run of the lines, on a new state or on this one, where each reply is right."""
        if state is None:
            with self.state() as state:
                return self.measured(measure, lines, state, is_right)
        with tempfile.TemporaryDirectory(dir=self.room) as folder:
            with open(f"{folder}/lines", "w", encoding="ascii") as file:
                file.writelines(f"{it}\n" for it in lines)
            result = measure(self.command(state, f"{folder}/lines"), f"{folder}/replies")
            self.check(lines, f"{folder}/replies", is_right)
        return result

    def instructions(self, work):
        """Returns the instructions of the workload on a new state, without those of an empty one."""
        return self.measured(measuring.instructions, self.lines(work)) - self.empty(measuring.instructions)

    def device_calls(self, work):
        """Returns the calls of the device of the workload on a new state, without those of an empty one."""
        return self.measured(measuring.device_calls, self.lines(work)) - self.empty(measuring.device_calls)

    def memory(self, work):
        """Returns the most memory of the workload on a new state, in KiB."""
        return self.measured(measuring.peak_of_memory, self.lines(work))


class Wattorju(Side):
    """The program that this repository builds."""

    def lines(self, work):
        return workloads.script(work)

    def command(self, state, lines):
        return [self.program, "run", state, lines]

    def reading(self, work):
        """Returns the instructions of the workload's lines where each is read and refused at once."""
        lines = workloads.refused(work)
        return self.measured(measuring.instructions, lines, is_right=is_refused) - self.empty(measuring.instructions)


class Files(Side):
    """Plain calls on files, in a folder."""

    @contextlib.contextmanager
    def state(self):
        with super().state() as path:
            os.mkdir(path)
            yield path


def compiled(name, room, *libraries):
    """Compiles this C program of this folder, and returns where it is."""
    to = f"{room}/{name}"
    subprocess.run([COMPILER, "-O2", "-o", to, f"{HERE}/{name}.c", *libraries], check=True)
    return to


class Sides:
    """All sides, with the programs in C compiled in this folder."""

    def __init__(self, room, program):
        self.wattorju = Wattorju(room, program)
        self.sqlite = Side(room, compiled("sqlite", room, "-lsqlite3"))
        self.files = Files(room, compiled("files", room))
