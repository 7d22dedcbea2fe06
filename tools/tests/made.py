"""Runs for the tests: files of a plan with several queues and an editor, written from the formats.

A small model of the target answers: namespaces that are on, off or draining, commands that are held, event requests
and two kinds of notice. It is there to make files of every kind of record, and proves nothing of the program.
"""

import os
import random

import capsule_text
from nvmet_formats import (
    ANSWERED, CONTROL, EXECUTE, FABRICS, HELD, NO_EVENT, POLL, SUBMIT, WAITING, Completion, Record, bits_of,
    read_capsules, record_bytes)

NONE = Completion(0, 0, 0, 0, 0)
NAMESPACE_NOTICE = 0x00040002
PLAN = """nvmet-plan 1
disk /dev/ram0 9 2048
disk /dev/ram1 9 2048
config c.json
script s
journal j
"""


class Target:
    """What the calls of a run are answered from."""

    def __init__(self, folder, texts, script, seed):
        self.folder, self.random = folder, random.Random(seed)
        self.place, self.journal = 0, []
        self.on, self.draining, self.held = {1, 2}, {}, []
        self.waiting, self.pending, self.masked = [], False, False
        self.script, self.line = script, 0
        self.blobs = [capsule_text.build(text) for text in texts]
        self.queues = [Queue(number, read_capsules(blob)) for number, blob in enumerate(self.blobs)]

    def next_place(self):
        self.place += 1
        return self.place - 1

    def run(self):
        """Takes turns until every caller has ended."""
        while True:
            turns = [queue.turn for queue in self.queues if not queue.is_done()]
            if self.line < len(self.script) or self.draining:
                turns.append(self.edit)
            if not turns:
                break
            turn = self.random.choice(turns)
            turn(self) if turn != self.edit else self.edit()
        for queue in self.queues:
            if queue.admin:
                while queue.poll(self):
                    pass

    def edit(self):
        """The next call of the editor: the end of a drain, or a line of the script."""
        for nsid, line in list(self.draining.items()):
            if nsid not in self.held:
                del self.draining[nsid]
                self.journal.append("done %d %d" % (self.next_place(), line))
            return
        if self.line == len(self.script):
            return
        self.line += 1
        words = self.script[self.line - 1].split()
        answer = "ok"
        if words[0] == "set" and words[2] == "enable":
            answer = self.enable(int(words[1].rsplit("/", 1)[1]), words[3])
        elif words[0] in ("rmdir", "mkdir"):
            answer = "EBUSY" if words[0] == "rmdir" else "EEXIST"
        self.journal.append("edit %d %d %s" % (self.next_place(), self.line, answer))

    def enable(self, nsid, value):
        if nsid not in (1, 2):
            return "ENOENT"
        if value == "0" and nsid in self.on:
            self.on.remove(nsid)
            self.draining[nsid] = self.line
        elif value == "1" and nsid not in self.on:
            self.on.add(nsid)
        else:
            return "ok"
        if not self.masked:
            self.masked = self.pending = True
        return "ok"

    def write(self):
        """Writes the plan's files into the folder, and answers the plan's name."""
        def put(name, blob):
            with open(os.path.join(self.folder, name), "wb") as file:
                file.write(blob)

        plan = PLAN
        for queue, blob in zip(self.queues, self.blobs):
            plan += "queue 1 q%d r%d\n" % (queue.number, queue.number)
            put("q%d" % queue.number, blob)
            put("r%d" % queue.number, b"".join(record_bytes(record) for record in queue.records))
        put("plan", plan.encode())
        put("s", "".join(line + "\n" for line in self.script).encode())
        put("j", "".join(line + "\n" for line in
                         ["nvmet-journal 1", "places %d" % self.place] + self.journal).encode())
        return "plan"


class Queue:
    """One queue of a run: its capsules, and its records so far."""

    def __init__(self, number, capsules):
        self.number, self.capsules, self.at, self.records = number, capsules, 0, []
        self.admin, self.owed, self.held = number == 0, False, None
        self.qid = number

    def is_done(self):
        return self.at == len(self.capsules) and self.held is None and not self.owed

    def add(self, target, kind, answer, number, completion=NONE, data=b""):
        self.records.append(Record(0, target.next_place(), kind, answer, number, completion, data))

    def complete(self, entry, status=0, result=0):
        return Completion(result, 0, self.qid, bits_of(entry, (16, 16)), status)

    def poll(self, target):
        """A poll, which gives an event where one is pending and a request waits."""
        if not (target.pending and target.waiting):
            self.add(target, POLL, NO_EVENT, self.at)
            return False
        target.pending = False
        entry = target.waiting.pop()
        self.add(target, POLL, ANSWERED, self.at, self.complete(entry, 0, NAMESPACE_NOTICE))
        return True

    def turn(self, target):
        if self.owed:
            self.owed = False
            self.poll(target)
        elif self.held is not None:
            self.execute(target)
        else:
            self.take(target)

    def execute(self, target):
        entry, self.held = self.held, None
        target.held.remove(bits_of(entry, (32, 32)))
        read = bits_of(entry, (0, 8)) == 2
        data = bytes(bits_of(entry, (256, 32))) if read else b""
        self.add(target, EXECUTE, ANSWERED, self.at - 1, self.complete(entry), data)

    def take(self, target):
        entry, number = self.capsules[self.at].entry, self.at
        self.at += 1
        opcode, nsid = bits_of(entry, (0, 8)), bits_of(entry, (32, 32))
        if opcode == FABRICS:
            self.add(target, CONTROL, ANSWERED, number, self.complete(entry))
            return
        self.owed = self.admin
        if self.admin and opcode == 0x0C:
            target.waiting.append(entry)
            self.add(target, SUBMIT, WAITING, number)
        elif self.admin:
            page = bytes(bits_of(entry, (256, 32))) if opcode in (2, 6) else b""
            if opcode == 2 and not bits_of(entry, (335, 1)):
                target.masked = False
            self.add(target, SUBMIT, ANSWERED, number, self.complete(entry), page)
        elif nsid not in target.on:
            self.add(target, SUBMIT, ANSWERED, number, self.complete(entry, 0x0600))
        else:
            self.held = entry
            target.held.append(nsid)
            self.add(target, SUBMIT, HELD, number)


def make_run(folder, commands=8, queues=3, disables=3, seed=1):
    """Writes a run with an admin queue and some I/O queues into a folder, and answers how many places it has."""
    admin = "connect subsys=gen\nproperty-set cc=460001h\n4x event-request\n" + "%dx get-log lid=4\n" % max(
        4, commands // 2)
    texts = [admin]
    for queue in range(1, queues):
        lines = ["connect qid=%d subsys=gen" % queue]
        for k in range(commands):
            nsid = 1 + k // 4 % 2
            lines.append(["read nsid=%d", "read nsid=%d", "write data=pattern:1 nsid=%d", "write-zeroes nsid=%d"][
                k % 4] % nsid)
        texts.append("\n".join(lines))
    script = []
    for k in range(disables):
        script += ["set subsystems/gen/namespaces/2 enable 0", "set subsystems/gen/namespaces/2 enable 1"]
        script += ["rmdir subsystems/gen/namespaces/1"] if k % 3 == 1 else []
    target = Target(folder, texts, script, seed)
    target.run()
    target.write()
    return target.place
