"""What happened in a script, as its replies tell it: transactions, what they held, who was told of what, and the power.

A course is what one line after another makes of it. It follows the phases of a transaction as docs/MANUAL.md has them, and
counts the events that are recorded: so `restarted events=E` tells whether a call in which the power went was kept."""

import copy
import re

COMMITTED, ROLLED_BACK, IN_DOUBT, UNDECIDED = "committed", "rolled back", "in doubt", "undecided"

# The phases of a transaction, of which the first five may end by a timeout or a vote against.
ACTIVE, REQUESTED, PREPREPARING, PREPREPARED, PREPARING = "Active", "Requested", "PrePreparing", "PrePrepared", "Preparing"
SINGLE_PHASE, HELD, COMMITTING, ABORTING, ENDED = "SinglePhase", "Held", "Committing", "Aborting", "Ended"
OPEN = (ACTIVE, REQUESTED, PREPREPARING, PREPREPARED, PREPARING)

NO_TIMEOUT = (0, 4294967295)
CONFLICT = "ERROR_TRANSACTIONAL_CONFLICT"
ANSWERS = {"PrePrepareComplete", "PrepareComplete", "ReadOnlyEnlistment", "CommitComplete", "RollbackComplete",
           "RollbackEnlistment", "SinglePhaseReject", "PrePrepareEnlistment", "PrepareEnlistment", "CommitEnlistment"}
# Plain calls that are one event each, where they are answered with ok.
PLAIN_CHANGES = {"DeleteFile", "CreateDirectory", "RemoveDirectory", "MoveFile"}


def key_of(name):
    """Returns what a key is compared by: its bytes."""
    return "key", name


def path_of(name):
    """Returns what a path is compared by: its letters, great or small."""
    return "path", name.lower()


class Hold:
    """What a transaction keeps from others: a key or a path, from one line to another."""

    def __init__(self, name, what, start):
        self.name = name
        self.what = what
        self.start = start
        self.end = None


class Transaction:
    """A transaction, from the line that made it to the line of its outcome, and to that in which nobody has anything to do."""

    def __init__(self, guid, process, label, start, due):
        self.guid, self.process, self.label, self.start, self.due = guid, process, label, start, due
        self.phase = ACTIVE
        self.outcome = None
        self.end = None
        self.over = None
        self.held_from = None
        self.asked = None
        self.files = self.keys = self.two_phase = self.recorded = False
        self.holds = []
        self.enlistments = []
        self.superior = None

    def is_open(self):
        """Tells whether its outcome is not known."""
        return self.outcome is None

    def hold(self, name, what, line):
        """Holds a key or a path from this line on, and returns the hold; of each it has one at a time."""
        for hold in self.holds:
            if hold.what == what and hold.end is None:
                return hold
        self.holds.append(Hold(name, what, line))
        return self.holds[-1]

    def parts(self):
        """Returns the enlistments that take part."""
        return [one for one in self.enlistments if one.takes_part]


class Enlistment:
    """An enlistment: whose it is, what it may be asked for, and the answer that it owes."""

    def __init__(self, guid, transaction, durable, kind):
        self.guid, self.transaction, self.durable, self.kind = guid, transaction, durable, kind
        self.owes = None
        self.takes_part = True
        self.voted = False
        self.finished = False


class OpenFile:
    """A file that is open: its path, and the transaction in which it is, if any."""

    def __init__(self, path, transaction, hold):
        self.path, self.transaction, self.hold = path, transaction, hold
        self.changed = False


class Mark:
    """A call of a process: its line, and what kind of reply it had."""

    def __init__(self, line, process, kind):
        self.line, self.process, self.kind = line, process, kind


class Message:
    """A notification that a process took, or an answer that it gave: which transaction it is of, and its name."""

    def __init__(self, line, process, transaction, name, is_answer):
        self.line, self.process, self.transaction, self.name, self.is_answer = line, process, transaction, name, is_answer


class Course:
    """All of this, and what is so now."""

    def __init__(self):
        self.transactions, self.marks, self.messages, self.conflicts = [], [], [], []
        self.notes = []
        self.downs = []
        self.up = True
        self.clock = 0
        self.labels = {}
        self.managers, self.enlisted = {}, {}
        self.paths = set()
        # How many events the disk may have: at first that of the first start. Nothing is known of an image that was not new.
        self.events = {1}
        # What the course would be had the call in which the power went been kept.
        self.kept = None

    # What is bound

    def bound(self, process, label, kind):
        """Returns what a label of the process names, where it is of the kind."""
        found = self.labels.get((process, label))
        return found if isinstance(found, kind) else None

    def transaction(self, guid):
        """Returns the transaction with this GUID, if the script made it."""
        return next((one for one in self.transactions if one.guid == guid), None)

    def unbind(self, process, label, line):
        """Takes a label away: the last handle of an active transaction rolls it back, that of a file closes it."""
        found = self.labels.pop((process, label), None)
        if found is None or found in self.labels.values():
            return
        if isinstance(found, Transaction) and found.phase == ACTIVE:
            self.roll_back(found, line)
        if isinstance(found, OpenFile) and found.hold and not found.changed and found.hold.end is None:
            found.hold.end = line

    # What is recorded

    def record(self, count):
        """Counts so many events more."""
        self.events = {events + count for events in self.events}

    def perhaps(self):
        """Counts one event more, or none."""
        self.events |= {events + 1 for events in self.events}

    # The phases of a transaction

    def conclude(self, one, outcome, line):
        """Gives a transaction its outcome: it holds nothing any more."""
        one.outcome, one.end = outcome, line
        for hold in one.holds:
            hold.end = hold.end or line

    def finish(self, one, line):
        """Ends a transaction."""
        one.phase, one.over = ENDED, line

    def ask(self, one, phase, asked, owed, then, line):
        """Brings a transaction to a phase, in which those that are asked owe an answer; without any it goes on at once."""
        one.phase = phase
        for enlistment in asked:
            enlistment.owes = owed
        if not asked:
            then(one, line)

    def preprepare(self, one, line):
        asked = [part for part in one.parts() if part.kind in ("preprepare", "both")]
        self.ask(one, PREPREPARING, asked, "PrePrepareComplete", self.preprepared, line)

    def preprepared(self, one, line):
        parts = one.parts()
        if one.superior:
            one.phase = PREPREPARED
        elif len(parts) == 1 and not one.files and not one.keys and parts[0].kind in ("singlephase", "both"):
            self.ask(one, SINGLE_PHASE, parts, "CommitComplete", None, line)
        else:
            self.prepare(one, line)

    def prepare(self, one, line):
        one.two_phase = bool(one.parts())
        self.ask(one, PREPARING, one.parts(), "PrepareComplete", self.prepared, line)

    def prepared(self, one, line):
        built_in = one.files + one.keys
        if one.superior:
            self.record(built_in + 1)
            one.phase, one.held_from, one.recorded = HELD, line, True
        elif one.two_phase:
            self.record(2 * built_in + 1 if built_in or one.recorded else 0)
            self.commit(one, line)
        else:
            self.record({0: 0, 1: 1, 2: 5}[built_in])
            self.commit(one, line)

    def commit(self, one, line):
        self.conclude(one, COMMITTED, line)
        self.ask(one, COMMITTING, one.parts(), "CommitComplete", self.finish, line)

    def roll_back(self, one, line):
        if one.recorded:
            self.record(1)
        self.conclude(one, ROLLED_BACK, line)
        for part in one.enlistments:
            part.owes = None
        self.ask(one, ABORTING, one.parts(), "RollbackComplete", self.finish, line)

    def go_on(self, one, line):
        """Takes a transaction on to its next phase, where nobody owes an answer any more."""
        if any(part.owes for part in one.parts()):
            return
        if one.phase == PREPREPARING:
            self.preprepared(one, line)
        elif one.phase == PREPARING:
            self.prepared(one, line)
        elif one.phase in (COMMITTING, ABORTING):
            self.finish(one, line)

    # The answers of enlistments, and the calls of superiors

    def answer(self, enlistment, form, line):
        one = enlistment.transaction
        if form == "RollbackEnlistment":
            self.roll_back(one, line)
        elif form == "PrePrepareEnlistment":
            self.preprepare(one, line)
        elif form == "PrepareEnlistment":
            self.prepare(one, line)
        elif form == "CommitEnlistment":
            self.record(1 + one.files + one.keys)
            self.commit(one, line)
        elif form == "SinglePhaseReject":
            self.prepare(one, line)
        else:
            self.reply(enlistment, form, line)

    def reply(self, enlistment, form, line):
        """Takes an answer that was owed, or that an enlistment is read-only, and goes on where it was the last one."""
        one, owed = enlistment.transaction, enlistment.owes is not None
        enlistment.owes = None
        if form == "ReadOnlyEnlistment":
            enlistment.takes_part = False
            owed = owed and one.phase != SINGLE_PHASE
            if one.phase == SINGLE_PHASE:
                self.commit(one, line)
        elif form == "PrepareComplete":
            enlistment.voted = True
            if enlistment.durable:
                self.record(1)
                one.recorded = True
        elif form == "CommitComplete" and one.phase == SINGLE_PHASE:
            enlistment.finished, enlistment.takes_part = True, False
            self.commit(one, line)
        elif form in ("CommitComplete", "RollbackComplete"):
            if form == "CommitComplete" and enlistment.durable:
                self.record(1)
            enlistment.finished = True
        if owed:
            self.go_on(one, line)

    # The power

    def lose_power(self, line):
        """Takes from memory what is not recorded."""
        for one in self.transactions:
            if one.is_open() and one.phase != HELD:
                self.conclude(one, ROLLED_BACK, line)
                self.finish(one, line)
            elif one.phase == ABORTING:
                self.finish(one, line)
            for part in one.enlistments:
                part.takes_part = part.takes_part and part.durable
            if one.phase == COMMITTING:
                self.go_on(one, line)
        self.labels, self.clock = {}, 0
        self.managers = {guid: durable for guid, durable in self.managers.items() if durable}

    def go_down(self, line):
        self.up = False
        self.downs.append([line, None])

    def come_up(self, line, found):
        """Starts the machine, which found so many events: they tell whether the call in which the power went was kept."""
        if self.kept is not None and found in self.kept.events and found not in self.events:
            kept = self.kept
            kept.marks, kept.notes, kept.downs = self.marks, self.notes, self.downs
            self.__dict__.update(kept.__dict__)
        elif self.kept is not None and (found in self.kept.events or found not in self.events):
            self.leave_open(self.kept)
        self.kept = None
        self.up = True
        self.lose_power(self.downs[-1][0])
        self.downs[-1][1] = line
        self.events = {found + 1}

    def leave_open(self, kept):
        """Ends as undecided each transaction of which nobody can tell whether it was kept."""
        line = self.downs[-1][0]
        for one, other in zip(self.transactions, kept.transactions):
            if one.is_open() and not other.is_open():
                self.conclude(one, UNDECIDED, line)
                self.finish(one, line)

    def interrupt(self, line, command):
        """Has the power go in this call: what it would have done may be found or not."""
        self.go_down(line)
        kept = copy.deepcopy(self)
        kept.call(line, command, "ok")
        self.kept = kept

    def close(self):
        """Ends the course: what is not decided stays so."""
        if not self.up:
            if self.kept is not None:
                self.leave_open(self.kept)
            self.lose_power(self.downs[-1][0])
        for one in self.transactions:
            if one.is_open():
                one.outcome = IN_DOUBT if one.phase == HELD and self.downs else UNDECIDED

    # Lines

    def machine(self, line, words, reply):
        """Takes a line of the machine: `cut`, `crash`, `restart` or `tick`."""
        text = " ".join(words)
        if words[0] == "crash" and reply == "ok":
            self.go_down(line)
        elif words[0] == "restart" and reply.startswith("restarted "):
            self.come_up(line, int(re.search(r"events=(\d+)", reply)[1]))
        elif words[0] == "restart" and reply == "MACHINE_DOWN":
            self.perhaps()
            if self.kept is not None:
                self.kept.perhaps()
        elif words[0] == "tick" and reply == "ok":
            self.tick(line, int(words[1]))
        elif words[0] == "tick" and reply == "MACHINE_DOWN" and self.up:
            self.go_down(line)
            self.kept = copy.deepcopy(self)
            self.kept.tick(line, int(words[1]))
        self.notes.append((line, text, reply))

    def tick(self, line, time):
        self.clock += time
        for one in self.transactions:
            if one.is_open() and one.phase in OPEN and one.due is not None and one.due <= self.clock:
                self.roll_back(one, line)

    def process_line(self, line, process, words, reply):
        """Takes a line of a process."""
        kind = "ok" if reply.startswith("ok") else "conflict" if reply == CONFLICT else "refused"
        self.marks.append(Mark(line, process, kind))
        if self.up and reply == "MACHINE_DOWN":
            self.interrupt(line, (process, words))
        elif kind == "ok":
            self.call(line, (process, words), reply)
        elif kind == "conflict":
            self.conflicts.append((line, process, self.holder(process, words)))

    def holder(self, process, words):
        """Returns the transaction that holds what a refused call names, if one does."""
        what_of = key_of if words[0].startswith("Kv") else path_of
        asked = [what_of(word) for word in words if word.startswith('"')]
        own = [self.bound(process, word, Transaction) for word in words]
        for one in self.transactions:
            if one not in own and any(hold.end is None and hold.what in asked for hold in one.holds):
                return one
        return None

    def call(self, line, command, reply):
        """Takes a call that was answered with ok."""
        process, words = command
        form, rest = words[0], words[1:]
        if re.match(r"ok [0-9a-f]{8}-", reply) and form.startswith("Create") and not self.downs and reply[3:11] != "00000001":
            self.events = set()
        if form in ANSWERS:
            enlistment = self.bound(process, rest[0], Enlistment)
            if enlistment:
                self.messages.append(Message(line, process, enlistment.transaction, form, True))
                self.answer(enlistment, form, line)
        elif form.endswith("Transacted") or form in PLAIN_CHANGES or form in ("CreateFile", "WriteFile", "SetEndOfFile"):
            self.files(line, process, form, rest)
        elif hasattr(self, "do_" + form):
            getattr(self, "do_" + form)(line, process, rest, reply)

    def do_CreateTransaction(self, line, process, rest, reply):
        timeout = int(rest[1])
        due = None if timeout in NO_TIMEOUT else self.clock + timeout
        one = Transaction(reply[3:], process, rest[0], line, due)
        self.transactions.append(one)
        self.labels[process, rest[0]] = one

    def do_OpenTransaction(self, line, process, rest, reply):
        one = self.transaction(rest[1])
        if one:
            self.labels[process, rest[0]] = one

    def do_CommitTransaction(self, line, process, rest, reply):
        one = self.bound(process, rest[0], Transaction)
        if one is None:
            return
        one.asked = line
        if one.superior:
            one.phase = REQUESTED
        else:
            self.preprepare(one, line)

    def do_RollbackTransaction(self, line, process, rest, reply):
        one = self.bound(process, rest[0], Transaction)
        if one:
            self.roll_back(one, line)

    def do_CloseHandle(self, line, process, rest, reply):
        self.unbind(process, rest[0], line)

    def do_exit(self, line, process, rest, reply):
        for owner, label in sorted(self.labels, key=lambda key: int(key[1][1:])):
            if owner == process:
                self.unbind(owner, label, line)

    def do_DuplicateHandle(self, line, process, rest, reply):
        found = self.labels.get((rest[1], rest[2]))
        if found is not None:
            self.labels[process, rest[0]] = found

    def do_KvSet(self, line, process, rest, reply):
        one = self.bound(process, rest[0], Transaction)
        if one:
            one.keys = True
            one.hold(rest[1], key_of(rest[1]), line)

    do_KvUnset = do_KvSet

    def do_CreateResourceManager(self, line, process, rest, reply):
        guid, durable = reply[3:], rest[1] == "durable"
        self.managers[guid] = durable
        self.labels[process, rest[0]] = ("manager", guid, durable)
        if durable:
            self.record(1)

    def do_OpenResourceManager(self, line, process, rest, reply):
        self.labels[process, rest[0]] = ("manager", rest[1], self.managers.get(rest[1], True))

    def do_CreateEnlistment(self, line, process, rest, reply):
        one, manager = self.bound(process, rest[2], Transaction), self.bound(process, rest[1], tuple)
        if one is None:
            return
        enlistment = Enlistment(reply[3:], one, manager is not None and manager[2], rest[3])
        if rest[3] == "superior":
            one.superior = enlistment
        else:
            one.enlistments.append(enlistment)
        self.enlisted[enlistment.guid] = enlistment
        self.labels[process, rest[0]] = enlistment

    def do_OpenEnlistment(self, line, process, rest, reply):
        if rest[2] in self.enlisted:
            self.labels[process, rest[0]] = self.enlisted[rest[2]]

    def do_RecoverEnlistment(self, line, process, rest, reply):
        enlistment = self.bound(process, rest[0], Enlistment)
        if enlistment and enlistment.transaction.phase in (COMMITTING, ABORTING):
            enlistment.owes = "CommitComplete" if enlistment.transaction.phase == COMMITTING else "RollbackComplete"

    def do_GetNotificationResourceManager(self, line, process, rest, reply):
        words = reply.split(" ")
        enlistment = self.enlisted.get(words[2]) if len(words) == 3 else None
        one = enlistment.transaction if enlistment else None
        self.messages.append(Message(line, process, one, words[1], False))

    # Files

    def files(self, line, process, form, rest):
        """Takes a call that may change files, plainly or in a transaction."""
        if form in ("WriteFile", "SetEndOfFile"):
            file = self.bound(process, rest[0], OpenFile)
            if file and not (form == "WriteFile" and rest[2] == "-"):
                self.changed(file.transaction, [file.path], line)
                file.changed = True
        elif form in ("CreateFile", "CreateFileTransacted"):
            self.open_file(line, process, rest, self.bound(process, rest[5], Transaction) if len(rest) == 6 else None)
        else:
            one = self.bound(process, rest[-1], Transaction) if form.endswith("Transacted") else None
            if one or form in PLAIN_CHANGES:
                self.changed(one, [word for word in rest if word.startswith('"')], line)
            self.paths.update(word.lower() for word in rest if word.startswith('"'))

    def changed(self, one, paths, line):
        """Has a transaction hold what it changed; a plain change is recorded."""
        if one is None:
            self.record(1)
            return
        one.files = True
        for path in paths:
            one.hold(path, path_of(path), line)

    def open_file(self, line, process, rest, one):
        """Opens a file, which the call may make or empty, and which is held while it is open for writing in a transaction."""
        label, path, access, _, disposition = rest[:5]
        changes = disposition in ("CREATE_NEW", "CREATE_ALWAYS", "TRUNCATE_EXISTING")
        changes = changes or (disposition == "OPEN_ALWAYS" and path.lower() not in self.paths)
        hold = one.hold(path, path_of(path), line) if one and ("w" in access or changes) else None
        if changes:
            self.changed(one, [path], line)
        self.paths.add(path.lower())
        file = OpenFile(path, one, hold)
        file.changed = changes or (hold is not None and hold.start != line)
        self.labels[process, label] = file


def words_of(text):
    """Cuts a line into its words; a text between quotation marks is one."""
    return re.findall(r'"[^"]*"|[^ ]+', text)


def of(lines):
    """Returns the course of a script, of which each line has its reply."""
    course = Course()
    for line in lines:
        if line.reply is None or line.reply == "BAD_LINE":
            continue
        words = words_of(line.text)
        if re.fullmatch(r"p\d+", words[0]):
            course.process_line(line.number, words[0], words[1:], line.reply)
        else:
            course.machine(line.number, words, line.reply)
    course.close()
    return course
