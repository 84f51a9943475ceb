"""The tables: what each measures, and how it is printed."""

import dataclasses
import platform
import shutil
import statistics
import subprocess

import forms
import measuring
import workloads
from sides import COMPILER
from workloads import installs, key, sets

RATIO = "Wattorju / SQLite"
WITHOUT = "without reading"


@dataclasses.dataclass
class Table:
    """A table: its name, what it shows, the heads of its columns, and its rows."""

    name: str
    shows: str
    columns: list
    rows: list

    def cells(self):
        """Returns all rows as texts, the heads first."""
        return [self.columns, *[[spelled(it) for it in row] for row in self.rows]]

    def markdown(self):
        """Returns the table as a document has it: numbers to the right, behind a mark by which it is found again."""
        head, *rows = self.cells()
        line = ["---:" if any(isinstance(row[at], (int, float)) for row in self.rows) else "---" for at in range(len(head))]
        return "\n".join([mark(self.name), *[f"| {' | '.join(it)} |" for it in [head, line, *rows]]])

    def text(self):
        """Returns the table for a terminal."""
        cells = self.cells()
        widths = [max(map(len, column)) for column in zip(*cells)]
        line = lambda row: "  ".join([row[0].ljust(widths[0]), *map(str.rjust, row[1:], widths[1:])])
        return "\n".join([f"{self.name}: {self.shows}", *map(line, cells)])


def mark(name):
    """Returns the line in front of the table of this name in a document."""
    return f"<!-- bench: {name} -->"


def spelled(cell):
    """Returns a cell as text: a ratio with two digits behind the point, another number with its thousands apart."""
    if isinstance(cell, float):
        return f"{cell:.2f}"
    return f"{cell:,}" if isinstance(cell, int) else str(cell)


def of_versions(sides, _):
    """What the numbers were made with."""
    first = lambda *command: subprocess.run(command, stdout=subprocess.PIPE, check=True, text=True).stdout.splitlines()[0]
    rows = [
        ["SQLite", first(sides.sqlite.program)],
        ["C compiler", first(COMPILER, "--version")],
        ["C library", " ".join(platform.libc_ver())],
        ["valgrind", first("valgrind", "--version")],
        ["strace", first("strace", "-V")],
        ["processor", platform.machine()],
    ]
    if shutil.which("rt"):
        rows.append(["kit", first("rt", "version").split()[0]])
    return Table("versions", "what the numbers were made with", ["", "version"], rows)


def compared(sides, work, times, before=()):
    """Returns the cells of a workload that is so many times the same, for one time: the program's instructions, those in which
    its lines are read and refused, SQLite's, and both ratios."""
    cost = lambda measure: (measure([*before, *work]) - (measure([*before]) if before else 0)) // times
    ours, lines, theirs = cost(sides.wattorju.instructions), cost(sides.wattorju.reading), cost(sides.sqlite.instructions)
    return [ours, lines, theirs, ours / theirs, (ours - lines) / theirs]


COMPARED = ["Wattorju", "of it reading", "SQLite", RATIO, WITHOUT]


def of_sets(sides, _):
    """Transactions that set 1 to 500 keys that are there, of 64 bytes."""
    rows = []
    for count in (1, 10, 100, 500):
        keys = [key(it) for it in range(count)]
        rows.append([count, *compared(sides, sets(keys, 64, 1) * 10, 10, sets(keys, 64))])
    return Table("sets", "instructions of a transaction", ["keys set", *COMPARED], rows)


def of_transactions(sides, options):
    """Many transactions of one key on one image."""
    rows = []
    for count in (100, 1_000, 10_000, 100_000)[: 4 if options.long else 3]:
        work = [it for at in range(count) for it in sets([key(at % 100)], 16, at)]
        rows.append([count, *compared(sides, work, count)])
    return Table("transactions", "instructions of a transaction, on average", ["transactions", *COMPARED], rows)


def of_reads(sides, _):
    """Reads of a key, and lists of all keys."""
    rows = []
    for count in (10, 100, 1_000):
        keys = [key(it) for it in range(count)]
        before = [it for at in range(0, count, 100) for it in sets(keys[at : at + 100], 64)]
        read = keys[:: count // 10]
        for name, first, work, last in [
            ("a read", [], [("get", it) for it in read], []),
            ("a read in a transaction", [("begin",)], [("read", it) for it in read], [("commit",)]),
            ("a list", [], [("list",)] * 10, []),
        ]:
            ours, theirs = [
                (it.instructions([*before, *first, *work, *last]) - it.instructions([*before, *first, *last])) // 10
                for it in (sides.wattorju, sides.sqlite)
            ]
            rows.append([name, count, ours, theirs, ours / theirs])
    return Table("reads", "instructions of a read and of a list", ["", "keys", "Wattorju", "SQLite", RATIO], rows)


def installed(count, length):
    """Returns transactions that each install so many new files, and how many: at most 10, as many as an image has room for."""
    units = -(-length // 4096)
    times = max(1, min(10, 1_000 // (count * units)))
    return [it for at in range(times) for it in installs([f"file{at}.{number}" for number in range(count)], length)], times


FILES = [(4_096, 1), (4_096, 10), (4_096, 100), (65_536, 1), (65_536, 10), (65_536, 60)]


def of_files(sides, _):
    """Transactions that install 1 to 100 new files."""
    rows = []
    for length, count in FILES:
        work, times = installed(count, length)
        plain = sides.files.instructions(work) // times
        ours, lines, theirs, *ratios = compared(sides, work, times)
        rows.append([f"{count} of {length // 1024} KiB", ours, lines, theirs, plain, *ratios])
    columns = ["files", "Wattorju", "of it reading", "SQLite", "write, fsync, rename", RATIO, WITHOUT]
    return Table("files", "instructions of a transaction", columns, rows)


def of_calls(sides, _):
    """What each side asks of the device for a transaction."""
    keys = [key(it) for it in range(100)]
    works = [("keys, 1", sets(keys[:1], 64), 1), ("keys, 100", sets(keys, 64), 1)]
    for length, count in [FILES[0], FILES[1], FILES[4]]:
        works.append((f"files, {count} of {length // 1024} KiB", *installed(count, length)))
    rows = []
    for name, work, times in works:
        asked = {"Wattorju": sides.wattorju, "SQLite": sides.sqlite}
        if name.startswith("files"):
            asked["plain calls"] = sides.files
        for side, it in asked.items():
            rows.append([name, side, *[round(at / times) for at in summed(it.device_calls(work))]])
    return Table("calls", "calls of the device for a transaction, on average", ["transaction", "side", *SUMMED], rows)


SUMMED = ["reads", "writes", "bytes written", "syncs", "renames"]


def summed(calls):
    """Returns how many reads, writes, bytes, syncs and renames these calls of the device are."""
    names = [["pread64"], ["write", "pwrite64"], ["bytes"], ["fsync", "fdatasync"], ["rename", "renameat"]]
    return [sum(calls[it] for it in group) for group in names]


def of_lines(sides, _):
    """The calls of the device of each form of line."""
    found = forms.by_form(sides.wattorju, measuring.device_calls_by_reply, rounds=1)
    rows = [[form, *summed(calls)[:4]] for form, (calls,) in found.items() if calls]
    return Table("lines", "calls of the device of each form of line that makes any", ["line", *SUMMED[:4]], rows)


# How many units the files have in which is read and written. The last one has all of the image.
CONTENTS = (1, 1_024, forms.MOST_UNITS // 2, forms.MOST_UNITS)


def of_contents(sides, _):
    """What reads and writes of a file cost, by their bytes and by the length of the file."""
    rows = []
    for length in (1, 4_096, 65_536):
        costs = [forms.by_content(sides.wattorju, measuring.instructions_by_reply, units, length) for units in CONTENTS]
        calls = forms.by_content(sides.wattorju, measuring.device_calls_by_reply, CONTENTS[1], length)
        rows += [[form, length, *[each.get(form, "") for each in costs], *summed(calls[form])[:4]] for form in calls]
    columns = ["line", "bytes", *[f"{units:,} unit{'s' * (units > 1)}" for units in CONTENTS], *SUMMED[:4]]
    return Table("contents", "instructions of reads and writes, and their calls of the device", columns, rows)


def of_restarts(sides, _):
    """What a frame of the log costs at a start."""
    file_made = lambda at: [f'p1 CreateFile h1 "\\file{at}" w - CREATE_NEW', "p1 CloseHandle h1"]
    kinds = {
        "a transaction that sets one key": lambda count: workloads.script(sets(["key"], 16)) * count,
        "a plain CreateFile that makes a file": lambda count: [line for at in range(count) for line in file_made(at)],
        "a transaction that writes a file of 4 KiB": lambda count: workloads.script(installs(["file"], 4_096)) * count,
    }
    rows = []
    for name, lines in kinds.items():
        short, long = [of_start(sides.wattorju, lines(count)) for count in (100, 900)]
        rows.append([name, (long - short) // 800])
    rows.append(["a start from an image that was only made", of_start(sides.wattorju, [])])
    return Table("restarts", "instructions of a start for a frame of the log", ["frame", "instructions"], rows)


def of_start(side, lines):
    """Returns the instructions of a start on an image on which these lines were run."""
    with side.state() as state:
        side.measured(measuring.run, lines, state)
        return side.measured(measuring.instructions, [], state)


# The byte of an image that is raised by each compaction.
SELECTOR = 2048
# A transaction that gives a key a value of 960 bytes, which of its lines makes room in the log, which commits, and how long the frame of
# that is.
CHANGE = workloads.script(sets(["big"], 960))
BEGIN, COMMIT = 0, 2
FRAME_BYTES = 990
# How many of them are measured, half of them before the log begins anew.
MEASURED = 200


def of_compactions(sides, _):
    """What it costs that the log begins anew, on small and large images, with few and many things in them."""
    rows = []
    for units, counts in ((16, [10]), (1_024, [10, 1_000])):
        for name, lines in (("keys", key_lines), ("files", file_lines)):
            rows += [[units, f"{count:,} {name}", *compaction(sides.wattorju, units, lines(count))] for count in counts]
    columns = ["units", "in the image", "commits between two", "a commit", "a compaction", "of it for each commit"]
    return Table("compactions", "instructions of a commit of 960 bytes and of a compaction", columns, rows)


def key_lines(count):
    """Returns a script that sets so many keys."""
    keys = [key(it) for it in range(count)]
    return workloads.script([it for at in range(0, count, 100) for it in sets(keys[at : at + 100], 16)])


def file_lines(count):
    """Returns a script that makes so many files without bytes."""
    return [line for at in range(count) for line in (f'p1 CreateFile h1 "\\file{at}" w - CREATE_NEW', "p1 CloseHandle h1")]


def compaction(side, units, before):
    """Returns how many commits there are between two compactions of an image on which these lines were run, and the
    instructions of a commit, of a compaction, and of a compaction for each commit."""
    kept = 1_536 * units + 49_153
    commits = (8_192 * units + 65_536 - kept) // FRAME_BYTES + 1
    with side.state() as image:
        subprocess.run([side.program, "format", image, str(units)], check=True)
        side.measured(measuring.run, [*before, *CHANGE * (commits - MEASURED // 2)], image)
        costs = side.measured(measuring.instructions_by_reply, CHANGE * MEASURED, image)
        with open(image, "rb") as left:
            left.seek(SELECTOR)
            times = left.read(1)[0]
    # The first line has the start in it.
    begun = sorted(costs[len(CHANGE) + BEGIN :: len(CHANGE)])
    whole = sum(it - statistics.median(begun) for it in begun[-times:])
    return commits, int(statistics.median(costs[COMMIT :: len(CHANGE)])), int(whole / times), int(whole / times / commits)


def of_memory(sides, options):
    """The most memory of a run."""
    many = [it for at in range(10_000) for it in sets([key(at % 100)], 16, at)]
    files = lambda count, length: installs([f"file{at}" for at in range(count)], length)
    many_files = [it for at in range(1_000) for it in installs([f"file{at}"], 4_096)]
    works = [
        ("nothing", []),
        ("10,000 transactions of one key", many),
        ("one transaction of 100 files of 4 KiB", files(100, 4_096)),
        ("one transaction of 60 files of 64 KiB", files(60, 65_536)),
        ("1,000 transactions of one file of 4 KiB", many_files),
    ]
    rows = [[name, sides.wattorju.memory(work), sides.sqlite.memory(work)] for name, work in works]
    rows.append(["reads of 1,000 files of 4 KiB", reads_of_files(sides.wattorju, many_files), ""])
    rows += [[name, peak, ""] for name, peak in of_forms(sides.wattorju, options)]
    if options.large:
        for name, script in [("a script of 64 MiB that reads", reads_of_a_key()), ("a script of 64 MiB of transactions", transactions_of_nothing())]:
            rows.append([name, sides.wattorju.measured(measuring.peak_of_memory, script), ""])
    return Table("memory", "the most memory of a run, in KiB", ["workload", "Wattorju", "SQLite"], rows)


def of_forms(side, options):
    """Returns the most memory of other forms than `run`: of a dump of a full image, and of generated runs."""
    peak = lambda form, image, *numbers: measuring.peak_of_memory([side.program, form, image, *numbers], f"{image}.written")
    full = [it for at in range(0, 1_000, 8) for it in sets([key(at + it) for it in range(8)], 960)]
    with side.state() as image:
        found = [["a generated run of 1,000 lines", peak("gen", image, "1", "1000")]]
        if options.large:
            found.append(["a generated run of 100,000 lines", peak("gen", image, "1", "100000")])
        side.measured(measuring.run, side.lines(full), image)
        return [*found, ["a dump of 1,000 keys of 960 bytes", peak("dump", image)]]


def reads_of_files(side, made):
    """Returns the most memory of a run that reads each of a thousand files whole, which another run made."""
    lines = [
        line
        for at in range(1_000)
        for line in (f'p1 CreateFile h1 "\\file{at}" r - OPEN_EXISTING', "p1 ReadFile h1 0 4096", "p1 CloseHandle h1")
    ]
    with side.state() as image:
        side.measured(measuring.run, side.lines(made), image)
        return side.measured(measuring.peak_of_memory, lines, image)


def repeated(lines, begun=()):
    """Returns a script of 64 MiB, the longest there may be: these lines again and again."""
    length = lambda some: sum(len(it) + 1 for it in some)
    return [*begun, *lines * ((64 * 1024 * 1024 - length(begun)) // length(lines))]


def reads_of_a_key():
    """Returns the longest script that reads a key again and again."""
    return repeated(workloads.script([("get", "key")]), workloads.script(sets(["key"], 64)))


def transactions_of_nothing():
    """Returns the longest script of transactions that change nothing: nearly a million in one boot."""
    return repeated(workloads.script([("begin",), ("commit",)]))


def medians(side, *how):
    """Returns the instructions of each form of line, beside what is said: the median of its rounds."""
    found = forms.by_form(side, measuring.instructions_by_reply, *how)
    return {form: int(statistics.median(costs)) for form, costs in found.items()}


def of_growth(sides, _):
    """What each form of line costs, and what it grows with."""
    alone = medians(sides.wattorju)
    beside = {
        (thing, count): medians(sides.wattorju, before, opened, count)
        for thing, (counts, before, opened) in forms.THINGS.items()
        for count in counts
    }
    most = [(thing, counts[-1]) for thing, (counts, _, _) in forms.THINGS.items()]
    whole = [[form, cost, *[beside[it][form] for it in most]] for form, cost in alone.items()]
    columns = ["line", "alone", *[f"{count:,} {thing}" for thing, count in most]]
    grown = [
        [form, f"{', '.join(f'{it:,}' for it in counts)} {thing}", cost, *[beside[thing, count][form] for count in counts]]
        for form, cost in alone.items()
        for thing, (counts, _, _) in forms.THINGS.items()
        if beside[thing, counts[-1]][form] > 1.5 * cost
    ]
    return [
        Table("growth", "instructions of each form of line, alone and beside many other things", columns, whole),
        Table("grown", "those that grow by more than half", ["line", "beside", "none", "few", "more", "most"], grown),
    ]


def of_votes(sides, _):
    """What the calls of enlistments cost, by how many their transaction has."""
    counts = [3, 10, 60]
    found = [forms.by_vote(sides.wattorju, count) for count in counts]
    rows = [[form, *[each[form] for each in found]] for form in found[0]]
    columns = ["line", *[f"{count} enlistments" for count in counts]]
    return Table("votes", "instructions of a vote, by the enlistments of its transaction", columns, rows)


TABLES = {
    "versions": of_versions,
    "sets": of_sets,
    "transactions": of_transactions,
    "reads": of_reads,
    "files": of_files,
    "calls": of_calls,
    "lines": of_lines,
    "contents": of_contents,
    "restarts": of_restarts,
    "compactions": of_compactions,
    "growth": of_growth,
    "votes": of_votes,
    "memory": of_memory,
}
