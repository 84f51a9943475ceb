"""The forms of lines that the program answers: what each costs by itself, and beside many other things.

A probe is a form with lines, the measured one of which begins with a star. Its lines leave what is there as it was, so that
they can be repeated. They find the transaction h100, the volatile resource manager h101, for which nothing waits, the key
"m", and the directory `\\work` with the file `m` and the empty directory `e`."""

import subprocess

import measuring

# How many units of 4,096 bytes an image has at most.
MOST_UNITS = 16_384
VALUE = "6162636465666768696a6b6c6d6e6f70"

BEGIN, END = "p1 CreateTransaction h1 0", "p1 CloseHandle h1"
UNDO = "p1 RollbackTransaction h1"
MAKE, UNMAKE = 'p1 CreateFile h2 "\\work\\n" rw - CREATE_NEW', 'p1 DeleteFile "\\work\\n"'
OPEN, CLOSE = 'p1 CreateFile h2 "\\work\\m" rw - OPEN_EXISTING', "p1 CloseHandle h2"
EMPTIED = ['*p1 CreateFile h2 "\\work\\n" w - TRUNCATE_EXISTING']
OPEN_IN = 'p1 CreateFileTransacted h2 "\\work\\m" rw - OPEN_EXISTING h1'
MAKE_IN = 'p1 CreateFileTransacted h2 "\\work\\n" rw - CREATE_NEW h1'
SET, WRITE = f'p1 KvSet h1 "m" {VALUE}', f"p1 WriteFile h2 0 {VALUE}"
COMMIT = "p1 CommitTransaction h1"
ENLIST, TAKE = "p1 CreateEnlistment h2 h101 h1 plain", "p1 GetNotificationResourceManager h101"
PREPARED, COMMITTED_TOO = "p1 PrepareComplete h2", "p1 CommitComplete h2"
REJECTED, ROLLED_BACK = "p1 RollbackEnlistment h2", "p1 RollbackComplete h2"
# Takes some memory at once, at which the C library does what it still has to do for memory that was given back before.
SETTLE = [BEGIN, MAKE_IN, CLOSE, UNDO, END]

PROBES = {
    "CreateTransaction": ["*" + BEGIN, END],
    "OpenTransaction": ["*p1 OpenTransaction h1 00000002-0001-0001-0000-000000000001", END],
    "GetTransactionInformation": ["*p1 GetTransactionInformation h100"],
    "CommitTransaction of nothing": [BEGIN, "*" + COMMIT, END],
    "CommitTransaction of a key": [BEGIN, SET, "*" + COMMIT, END],
    "CommitTransaction of a file": [BEGIN, OPEN_IN, WRITE, "*" + COMMIT, CLOSE, END],
    "CommitTransaction of both": [BEGIN, SET, OPEN_IN, WRITE, "*" + COMMIT, CLOSE, END],
    "RollbackTransaction of a key": [BEGIN, SET, "*" + UNDO, END],
    "RollbackTransaction of a file": [BEGIN, OPEN_IN, WRITE, "*" + UNDO, CLOSE, END],
    "CloseHandle of a transaction, the last": [BEGIN, "*" + END],
    "CloseHandle of a file": [OPEN, "*" + CLOSE],
    "DuplicateHandle": ["*p1 DuplicateHandle h1 p1 h100", END],
    "exit with one handle": ["p3 DuplicateHandle h1 p1 h100", "*p3 exit"],
    "CreateResourceManager": ["*p1 CreateResourceManager h2 volatile", CLOSE],
    "RecoverResourceManager": ["*p1 RecoverResourceManager h101", TAKE],
    "GetNotificationResourceManager": ["p1 RecoverResourceManager h101", "*" + TAKE],
    "CreateEnlistment": [BEGIN, "*" + ENLIST, UNDO, TAKE, ROLLED_BACK, CLOSE, END],
    "SetEnlistmentRecoveryInformation": [
        BEGIN, ENLIST, f"*p1 SetEnlistmentRecoveryInformation h2 {VALUE}", UNDO, TAKE, ROLLED_BACK, CLOSE, END,
    ],
    "CommitTransaction that asks one to prepare": [
        BEGIN, ENLIST, "*" + COMMIT, TAKE, PREPARED, TAKE, COMMITTED_TOO, CLOSE, END,
    ],
    "PrepareComplete": [BEGIN, ENLIST, COMMIT, TAKE, "*" + PREPARED, TAKE, COMMITTED_TOO, CLOSE, END],
    "PrepareComplete that commits a key": [BEGIN, ENLIST, SET, COMMIT, TAKE, "*" + PREPARED, TAKE, COMMITTED_TOO, CLOSE, END],
    "CommitComplete": [BEGIN, ENLIST, COMMIT, TAKE, PREPARED, TAKE, "*" + COMMITTED_TOO, CLOSE, END],
    "RollbackEnlistment": [BEGIN, ENLIST, COMMIT, TAKE, "*" + REJECTED, TAKE, ROLLED_BACK, CLOSE, END],
    "RollbackComplete": [BEGIN, ENLIST, UNDO, TAKE, "*" + ROLLED_BACK, CLOSE, END],
    "KvSet": [BEGIN, "*" + SET, UNDO, END],
    "KvSet of a new key": [BEGIN, f'*p1 KvSet h1 "n" {VALUE}', UNDO, END],
    "KvUnset": [BEGIN, '*p1 KvUnset h1 "m"', UNDO, END],
    "KvGet of what is committed": ['*p1 KvGet - "m"'],
    "KvGet in a transaction": ['*p1 KvGet h100 "m"'],
    "KvList of what is committed": ["*p1 KvList -", *SETTLE],
    "KvList in a transaction": ["*p1 KvList h100", *SETTLE],
    "CreateFile OPEN_EXISTING": ["*" + OPEN, CLOSE],
    "CreateFile CREATE_NEW": ["*" + MAKE, CLOSE, UNMAKE],
    "CreateFile TRUNCATE_EXISTING": [MAKE, CLOSE, *EMPTIED, CLOSE, UNMAKE],
    "CreateFileTransacted OPEN_EXISTING": [BEGIN, "*" + OPEN_IN, CLOSE, UNDO, END],
    "CreateFileTransacted CREATE_NEW": [BEGIN, "*" + MAKE_IN, CLOSE, UNDO, END],
    "ReadFile": [OPEN, "*p1 ReadFile h2 0 16", CLOSE],
    "ReadFile in a transaction": [BEGIN, OPEN_IN, "*p1 ReadFile h2 0 16", CLOSE, UNDO, END],
    "WriteFile": [OPEN, "*" + WRITE, CLOSE],
    "WriteFile in a transaction": [BEGIN, OPEN_IN, "*" + WRITE, CLOSE, UNDO, END],
    "SetEndOfFile": [MAKE, "*p1 SetEndOfFile h2 16", CLOSE, UNMAKE],
    "SetEndOfFile in a transaction": [BEGIN, OPEN_IN, "*p1 SetEndOfFile h2 8", CLOSE, UNDO, END],
    "GetFileSizeEx": [OPEN, "*p1 GetFileSizeEx h2", CLOSE],
    "FlushFileBuffers": [OPEN, "*p1 FlushFileBuffers h2", CLOSE],
    "DeleteFile": [MAKE, CLOSE, "*" + UNMAKE],
    "DeleteFileTransacted": [BEGIN, '*p1 DeleteFileTransacted "\\work\\m" h1', UNDO, END],
    "CreateDirectory": ['*p1 CreateDirectory "\\work\\n"', 'p1 RemoveDirectory "\\work\\n"'],
    "CreateDirectoryTransacted": [BEGIN, '*p1 CreateDirectoryTransacted "\\work\\n" h1', UNDO, END],
    "RemoveDirectory": ['p1 CreateDirectory "\\work\\n"', '*p1 RemoveDirectory "\\work\\n"'],
    "RemoveDirectoryTransacted": [BEGIN, '*p1 RemoveDirectoryTransacted "\\work\\e" h1', UNDO, END],
    "MoveFile": ['*p1 MoveFile "\\work\\m" "\\work\\n"', 'p1 MoveFile "\\work\\n" "\\work\\m"'],
    "MoveFileTransacted": [BEGIN, '*p1 MoveFileTransacted "\\work\\m" "\\work\\n" h1', UNDO, END],
    "FindFiles of one name": ['*p1 FindFiles "\\work\\m"', *SETTLE],
    "FindFiles of all names": ['*p1 FindFiles "\\work\\*"', *SETTLE],
    "FindFilesTransacted of one name": ['*p1 FindFilesTransacted "\\work\\m" h100', *SETTLE],
    "a bad line": ["*p1 KvGet"],
    "tick": ["*tick 1"],
    "cut": ["*cut 1000000"],
}
# These take the machine down and up, so they come last and once.
LAST_PROBES = {"crash": ["*crash"], "restart": ["*restart 1"]}

# What is committed before, in a run of its own, and what is open before the probes. The others have process 2 and `\other`.
COMMITTED = [
    'p1 CreateDirectory "\\work"',
    'p1 CreateDirectory "\\work\\e"',
    'p1 CreateDirectory "\\other"',
    *[
        line
        for file in ["\\work\\m", "\\other\\m"]
        for line in [f'p1 CreateFile h1 "{file}" w - CREATE_NEW', f"p1 WriteFile h1 0 {VALUE}", END]
    ],
    BEGIN,
    SET,
    COMMIT,
    END,
]
OPENED = [
    "p1 CreateTransaction h100 0",
    "p2 DuplicateHandle h1 p1 h100",
    "p1 CreateResourceManager h101 volatile",
    "p2 CreateResourceManager h999 volatile",
    *SETTLE,
]


def other(number):
    """Returns the name of another thing: every second one comes before "m" in order, and every second one behind it."""
    return f"{'bt'[number % 2]}{number:04}"


def names_in(directory):
    """Returns what makes this many names in the directory, one after another."""
    return lambda count: [
        line
        for at in range(count)
        for line in [f'p1 CreateFile h1 "\\{directory}\\{other(at)}" w - CREATE_NEW', END]
    ]


def keys(count):
    """Returns what commits this many keys."""
    return [BEGIN, *[f'p1 KvSet h1 "{other(at)}" {VALUE}' for at in range(count)], COMMIT, END]


def handles(count):
    """Returns what binds this many handles to one transaction."""
    return [f"p2 DuplicateHandle h{at + 2} p2 h1" for at in range(count)]


def open_files(count):
    """Returns what opens one file this many times."""
    return [f'p2 CreateFile h{at + 2} "\\other\\m" r r OPEN_EXISTING' for at in range(count)]


def live(count):
    """Returns what begins this many transactions, of which each sets a key and makes a directory."""
    return [
        line
        for at in range(count)
        for line in [
            f"p2 CreateTransaction h{at + 2} 0",
            f'p2 KvSet h{at + 2} "{other(at)}" {VALUE}',
            f'p2 CreateDirectoryTransacted "\\other\\{other(at)}" h{at + 2}',
        ]
    ]


def ended(count):
    """Returns what begins this many transactions and ends them."""
    return ["p2 CreateTransaction h2 0", "p2 CloseHandle h2"] * count


def enlisted(count):
    """Returns what enlists a resource manager in one other transaction this many times."""
    return [f"p2 CreateEnlistment h{at + 2} h999 h1 plain" for at in range(count)]


def finished(count):
    """Returns what enlists it in this many transactions, one after another, each of which rolls back."""
    return [
        line
        for _ in range(count)
        for line in [
            "p2 CreateTransaction h2 0",
            "p2 CreateEnlistment h3 h999 h2 plain",
            "p2 RollbackTransaction h2",
            "p2 GetNotificationResourceManager h999",
            "p2 RollbackComplete h3",
            "p2 CloseHandle h3",
            "p2 CloseHandle h2",
        ]
    ]


def waiting(count):
    """Returns what leaves this many notifications of the probes' own resource manager in its queue, and as many of another's."""
    return [f"p{at % 2 + 1} RecoverResourceManager h{[101, 999][at % 2]}" for at in range(2 * count)]


def longer(count):
    """Returns what makes the file `m` this long."""
    return [OPEN, f"p1 SetEndOfFile h2 {count}", CLOSE]


# What may be there beside a call: how many, and what makes it committed, or in the run itself.
NOTHING = lambda _: []
THINGS = {
    "open handles": ([10, 100, 900], NOTHING, handles),
    "live transactions": ([10, 30, 60], NOTHING, live),
    "ended transactions": ([10, 100, 900], NOTHING, ended),
    "live enlistments": ([10, 30, 60], NOTHING, enlisted),
    "finished enlistments": ([10, 100, 900], NOTHING, finished),
    "notifications that wait": ([10, 100, 300], NOTHING, waiting),
    "names in the directory": ([10, 100, 900], names_in("work"), NOTHING),
    "names in another": ([10, 100, 900], names_in("other"), NOTHING),
    "keys": ([10, 100, 900], keys, NOTHING),
    "open files": ([10, 100, 900], NOTHING, open_files),
    "bytes in the file": ([4_096, 65_536, 524_288], longer, NOTHING),
}


def probed(rounds):
    """Returns the lines of all probes, each measured one with its form, and each other one with none."""
    probes = [*PROBES.items()] * rounds + [*LAST_PROBES.items()]
    return [(form if line.startswith("*") else None, line.lstrip("*")) for form, lines in probes for line in lines]


def votes(count):
    """Returns the lines by which this many enlistments of one transaction vote and commit, and those by which as many roll back.
    Each line that is measured has its form; the first is one of many, and the last brings on what follows from all."""
    labels = [f"h{at + 200}" for at in range(count)]
    each = lambda call: [f"p1 {call} {label}" for label in labels]
    enlists = [f"p1 CreateEnlistment {label} h101 h1 plain" for label in labels]
    takes, closes = [TAKE] * count, [*each("CloseHandle"), END]
    unmeasured = lambda lines: [(None, line) for line in lines]
    first_and_last = lambda name, lines: [(f"{name}, the first", lines[0]), *unmeasured(lines[1:-1]), (f"{name}, the last", lines[-1])]
    return [
        *unmeasured([BEGIN]),
        *first_and_last("CreateEnlistment", enlists),
        ("CommitTransaction", COMMIT),
        *unmeasured(takes),
        *first_and_last("PrepareComplete", each("PrepareComplete")),
        *unmeasured(takes),
        *first_and_last("CommitComplete", each("CommitComplete")),
        *unmeasured([*closes, BEGIN, *enlists, COMMIT, *takes]),
        ("RollbackEnlistment", f"p1 RollbackEnlistment {labels[0]}"),
        *unmeasured(takes[1:]),
        *first_and_last("RollbackComplete", each("RollbackComplete")[1:]),
        *unmeasured(closes),
    ]


def by_vote(side, count):
    """Returns for each form of a vote how many instructions it takes where its transaction has this many enlistments."""
    lines = [*OPENED, *[line for _, line in votes(count)]]
    with side.state() as state:
        side.measured(measuring.run, COMMITTED, state)
        measured = side.measured(measuring.instructions_by_reply, lines, state, is_right)
    return {form: value for (form, _), value in zip(votes(count), measured[len(OPENED) :]) if form}


def contents(length, units):
    """Returns the lines that read and write so many bytes at the begin of the file `c`, which has so many units, each with its form,
    where it is measured. What a transaction writes counts twice, so it writes in no file that has more than half of all units."""
    reads, writes = f"p1 ReadFile h2 0 {length}", f"p1 WriteFile h2 0 {'5a' * length}"
    opens = lambda call, last: (None, f'p1 {call} h2 "\\c" rw - OPEN_EXISTING{last}')
    written = [
        ("WriteFile in a transaction, the first", writes), ("WriteFile in a transaction, the second", writes),
        (None, CLOSE), ("CommitTransaction", COMMIT), (None, END),
    ]
    return [
        opens("CreateFile", ""), ("ReadFile", reads), ("WriteFile", writes), (None, f"p1 SetEndOfFile h2 {4_096 * units}"), (None, CLOSE),
        (None, BEGIN), opens("CreateFileTransacted", " h1"), ("ReadFile in a transaction", reads),
        *(written if 2 * units <= MOST_UNITS else []),
    ]


def by_content(side, measure, units, length):
    """Returns for each form of `contents` what the measure says of it, in a file of so many units on an image of the most units."""
    lines = contents(length, units)
    made = ['p1 CreateFile h2 "\\c" w - CREATE_NEW', f"p1 SetEndOfFile h2 {4_096 * units}", CLOSE]
    with side.state() as image:
        subprocess.run([side.program, "format", image, str(MOST_UNITS)], check=True)
        side.measured(measuring.run, made, image)
        measured = side.measured(measure, [line for _, line in lines], image)
    return {form: value for (form, _), value in zip(lines, measured) if form}


def is_right(reply):
    """Returns whether a line of a probe may be answered so."""
    return reply.startswith(("ok", "BAD_LINE", "restarted"))


def by_form(side, measure, before=NOTHING, opened=NOTHING, count=0, rounds=3):
    """Returns for each form what the measure says of its lines, beside this many other things."""
    lines = [*OPENED, *opened(count)]
    probes = probed(rounds)
    with side.state() as state:
        side.measured(measuring.run, [*COMMITTED, *before(count)], state)
        measured = side.measured(measure, [*lines, *[line for _, line in probes]], state, is_right)
    found = {}
    for (form, _), value in zip(probes, measured[len(lines) :]):
        found.setdefault(form, []).append(value)
    found.pop(None)
    return found
