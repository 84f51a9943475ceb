"""How a run of a program is measured: its instructions, its calls of the device, and the most memory that it has."""

import collections
import os
import re
import subprocess

CALLGRIND = ["valgrind", "--tool=callgrind"]
# The calls that write or make safe what a file holds, or read it at an offset.
DEVICE_CALLS = ["pread64", "pwrite64", "write", "fsync", "fdatasync", "ftruncate", "rename", "renameat"]
CALL = re.compile(r"^(\w+)\((\d+)?.*= (\d+)$")


class Failed(Exception):
    """A run did not do what it was to do, so that its measure would say nothing."""


def run(command, output, prefix=()):
    """Runs the command with no input and its standard output in this file, and returns what it wrote to standard error."""
    whole = [*prefix, *command]
    with open(output, "wb") as replies:
        done = subprocess.run(whole, stdin=subprocess.DEVNULL, stdout=replies, stderr=subprocess.PIPE, check=False)
    said = done.stderr.decode(errors="replace")
    if done.returncode:
        raise Failed(f"{' '.join(whole)} ended with {done.returncode}: {said[-400:]}")
    return said


def instructions(command, output):
    """Returns how many instructions the run executes: its own and those of the libraries, not those of the kernel."""
    said = run(command, output, [*CALLGRIND, "--callgrind-out-file=/dev/null"])
    return int(re.search(r"Collected : (\d+)", said).group(1))


def instructions_by_reply(command, output):
    """Returns how many instructions lie before each reply and behind the one before it, of a program that writes each at once.

    callgrind begins to count anew at each call of `write`. The first of them is no reply: with it the program asks standard
    output whether it is there."""
    counts = f"{output}.counts"
    how = ["--combine-dumps=yes", "--dump-before=write", f"--callgrind-out-file={counts}"]
    run(command, output, [*CALLGRIND, *how])
    with open(counts, encoding="utf-8", errors="replace") as lines:
        found = [int(line.split()[1]) for line in lines if line.startswith("totals:")]
    os.remove(counts)
    with open(output, "rb") as replies:
        written = sum(1 for _ in replies)
    if len(found) != written + 2:
        raise Failed(f"{written} replies were written with {len(found) - 2} writes")
    return found[1:-1]


def device_calls(command, output):
    """Returns all calls of the device: by name how many, and under `bytes` how many bytes they write."""
    return sum(device_calls_between_writes(command, output), collections.Counter())


def device_calls_by_reply(command, output):
    """Returns the calls of the device before each reply and behind the one before it, as `instructions_by_reply` does."""
    return device_calls_between_writes(command, output)[1:-1]


def device_calls_between_writes(command, output):
    """Returns the calls of the device before the first write to standard output, between each two, and behind the last."""
    calls = f"{output}.calls"
    run(command, output, ["strace", "-qq", "-s", "0", "-o", calls, "-e", f"trace={','.join(DEVICE_CALLS)}"])
    found = [collections.Counter()]
    with open(calls, encoding="utf-8", errors="replace") as lines:
        for name, file, result in filter(None, (parts(line) for line in lines)):
            if name == "write" and file == "1":
                found.append(collections.Counter())
            else:
                found[-1][name] += 1
                found[-1]["bytes"] += int(result) * ("write" in name)
    os.remove(calls)
    return found


def parts(line):
    """Returns the name of the call of a line of strace, the file that it is on, and its result, where it has one."""
    found = CALL.match(line)
    return found and found.groups()


def peak_of_memory(command, output):
    """Returns the most memory that the run has at once, in KiB, as the kernel counts it for GNU time, which is small itself."""
    return int(run(command, output, ["/usr/bin/time", "-f", "%M"]).split()[-1])
