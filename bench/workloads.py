"""Workloads: lists of what is to be done, and how each side is told of them.

An operation is a tuple: ("begin",), ("set", key, value), ("read", key) in the transaction, ("get", key) and ("list",) of what is
committed, ("install", name, bytes) or ("commit",), with texts of printable characters without spaces."""

import string


def text(length, start=0):
    """Returns so many letters, which begin at another place of the alphabet for another start."""
    letters = string.ascii_lowercase
    return (letters * (length // 26 + 2))[start % 26 :][:length]


def key(number):
    """Returns the key of this number."""
    return f"key{number:05}"


def sets(keys, length, start=0):
    """Returns a transaction that gives each of the keys a value of this length."""
    return [("begin",), *[("set", it, text(length, start + at)) for at, it in enumerate(keys)], ("commit",)]


def installs(names, length):
    """Returns a transaction that installs a file of this length under each of the names."""
    return [("begin",), *[("install", it, text(length, at)) for at, it in enumerate(names)], ("commit",)]


def plain(work):
    """Returns the workload as the two programs in C read it: a line for each operation."""
    return [" ".join(it) for it in work]


def script(work):
    """Returns the workload as a script for the program."""
    return [line for it in work for line in SPELLINGS[it[0]](*it[1:])]


def refused(work):
    """Returns the script without the transactions that its lines name: each of its lines is read, and refused at once."""
    return [line for line in script(work) if not line.startswith("p1 CreateTransaction")]


def digits(value):
    """Returns the value's bytes as a script has them."""
    return value.encode().hex() or "-"


SPELLINGS = {
    "begin": lambda: ["p1 CreateTransaction h1 0"],
    "commit": lambda: ["p1 CommitTransaction h1", "p1 CloseHandle h1"],
    "set": lambda key, value: [f'p1 KvSet h1 "{key}" {digits(value)}'],
    "get": lambda key: [f'p1 KvGet - "{key}"'],
    "read": lambda key: [f'p1 KvGet h1 "{key}"'],
    "list": lambda: ["p1 KvList -"],
    "install": lambda name, value: [
        f'p1 CreateFileTransacted h2 "\\{name}" w - CREATE_ALWAYS h1',
        f"p1 WriteFile h2 0 {digits(value)}",
        "p1 CloseHandle h2",
    ],
}
