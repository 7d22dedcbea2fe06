"""The file formats of a run, each table once.

Plans, queue files (capsules), response files, journals, scripts, completions, Connect data, Identify pages and log
pages, as docs/FORMATS.md has them. Numbers in binary files are little-endian. The tools beside this module read and
write by these tables alone.
"""

import os
import re
from collections import namedtuple

ENTRY_BYTES = 64
RECORD_BYTES = 32
PAGE_BYTES = 4096
CONNECT_BYTES = 1024
TRANSFER_LIMIT = 131072
CAPSULE_LIMIT = 65536
QUEUE_FILE_LIMIT = 64 << 20
ROOM_LIMIT = 64 << 20
ROOM_OF_FILE = 160
ROOM_OF_CAPSULE = 96
NOTHING, TO_CONTROLLER, TO_HOST, BOTH_WAYS = range(4)


class Bad(Exception):
    """A file or a text that isn't well formed: where, and why."""


# Submission entry: name, first bit, bits. A field of CDW10 begins at bit 320, since CDW10 is at byte 40.

ENTRY_FIELDS = {
    "opcode": (0, 8),
    "flags": (8, 8),
    "cid": (16, 16),
    "nsid": (32, 32),
    "cdw2": (64, 32),
    "cdw3": (96, 32),
    "mptr": (128, 64),
    "sgl-address": (192, 64),
    "length": (256, 32),
    "sgl-rest": (288, 32),
    "cdw10": (320, 32),
    "cdw11": (352, 32),
    "cdw12": (384, 32),
    "cdw13": (416, 32),
    "cdw14": (448, 32),
    "cdw15": (480, 32),
}
FCTYPE = (32, 8)
FABRICS = 0x7F

Field = namedtuple("Field", "name start bits default plus", defaults=(0, 0))
Command = namedtuple("Command", "name opcode fctype fields length")

NSID_OF_IO = Field("nsid", 32, 32, 1)
SLBA = Field("slba", 320, 64)
BLOCKS = Field("blocks", 384, 16, 1, -1)  # counted from 0 in the entry
PROPERTY_FIELDS = [Field("size", 320, 1), Field("offset", 352, 32)]

# How many bytes a command moves: a number, by its blocks, by its field `bytes`, or as many as its data have.
BY_BLOCKS, BY_BYTES, BY_DATA = "blocks", "bytes", "data"

COMMANDS = [
    Command("flush", 0x00, None, [NSID_OF_IO], 0),
    Command("write", 0x01, None, [NSID_OF_IO, SLBA, BLOCKS], BY_BLOCKS),
    Command("read", 0x02, None, [NSID_OF_IO, SLBA, BLOCKS], BY_BLOCKS),
    Command("write-zeroes", 0x08, None, [NSID_OF_IO, SLBA, BLOCKS], 0),
    Command("connect", FABRICS, 0x01, [
        Field("recfmt", 320, 16), Field("qid", 336, 16), Field("sqsize", 352, 16), Field("cattr", 368, 8),
        Field("kato", 384, 32)], CONNECT_BYTES),
    Command("property-set", FABRICS, 0x00, PROPERTY_FIELDS + [Field("value", 384, 64)], 0),
    Command("property-get", FABRICS, 0x04, PROPERTY_FIELDS, 0),
    Command("identify", 0x06, None, [Field("nsid", 32, 32), Field("cns", 320, 8)], PAGE_BYTES),
    Command("get-log", 0x02, None, [
        Field("nsid", 32, 32), Field("lid", 320, 8), Field("rgo", 328, 1), Field("rae", 335, 1),
        Field("offset", 384, 64)], BY_BYTES),
    Command("set-features", 0x09, None, [
        Field("nsid", 32, 32), Field("fid", 320, 8), Field("value", 352, 32)], 0),
    Command("get-features", 0x0A, None, [Field("nsid", 32, 32), Field("fid", 320, 8)], 0),
    Command("event-request", 0x0C, None, [], 0),
    Command("abort", 0x08, None, [Field("sqid", 320, 16), Field("command", 336, 16)], 0),
    Command("keep-alive", 0x18, None, [], 0),
]
COMMAND_BY_NAME = {command.name: command for command in COMMANDS}
ADMIN = {"identify", "get-log", "set-features", "get-features", "event-request", "abort", "keep-alive"}
# Get Log Page: the transfer in dwords, counted from 0, in two halves.
NUMD_LOW, NUMD_HIGH = (336, 16), (352, 16)

# Properties of a controller: offset, and 1 where the property has eight bytes.
PROPERTIES = {"cap": (0x00, 1), "vs": (0x08, 0), "cc": (0x14, 0), "csts": (0x1C, 0)}

# Connect data: name, offset, size.
CONNECT_FIELDS = {"hostid": (0, 16), "cntlid": (16, 2), "subsys": (256, 256), "host": (512, 256)}


def bits_of(entry, field):
    """The number in the bits (start, count) of an entry that is held as one 512-bit number."""
    start, count = field[0], field[1]
    return entry >> start & ((1 << count) - 1)


def with_bits(entry, field, value):
    """The entry with another number in these bits."""
    start, count = field[0], field[1]
    return entry & ~(((1 << count) - 1) << start) | value << start


def direction(entry):
    """Where the data of an entry go: bits 1:0 of the opcode, of FCTYPE for a fabrics command."""
    opcode = bits_of(entry, ENTRY_FIELDS["opcode"])
    return (bits_of(entry, FCTYPE) if opcode == FABRICS else opcode) & 3


def length_of(entry):
    """The SGL length of an entry."""
    return bits_of(entry, ENTRY_FIELDS["length"])


# Queue files

Capsule = namedtuple("Capsule", "offset entry data")


def read_capsules(blob):
    """The capsules of a queue file. Raises Bad at the fault that the program would name first."""
    if len(blob) > QUEUE_FILE_LIMIT:
        raise Bad("the file has more than %d bytes" % QUEUE_FILE_LIMIT)
    capsules, at, room = [], 0, ROOM_OF_FILE
    while at < len(blob):
        if len(capsules) == CAPSULE_LIMIT:
            raise Bad("offset %d: more than %d capsules" % (at, CAPSULE_LIMIT))
        capsule = read_capsule(blob, at)
        room += room_of(capsule.entry)
        if room > ROOM_LIMIT:
            raise Bad("offset %d: the responses may need %d bytes, more than %d" % (at, room, ROOM_LIMIT))
        capsules.append(capsule)
        at += ENTRY_BYTES + len(capsule.data)
    return capsules


def read_capsule(blob, at):
    """The capsule at this offset of a queue file."""
    if len(blob) - at < ENTRY_BYTES:
        raise Bad("offset %d: the entry is cut, %d of %d bytes" % (at, len(blob) - at, ENTRY_BYTES))
    entry = int.from_bytes(blob[at:at + ENTRY_BYTES], "little")
    if direction(entry) != TO_CONTROLLER:
        return Capsule(at, entry, b"")
    length = length_of(entry)
    if length > TRANSFER_LIMIT:
        raise Bad("offset %d: %d bytes of data, more than %d" % (at, length, TRANSFER_LIMIT))
    data = blob[at + ENTRY_BYTES:at + ENTRY_BYTES + length]
    if len(data) < length:
        raise Bad("offset %d: the data are cut, %d of %d bytes" % (at, len(data), length))
    return Capsule(at, entry, data)


def room_of(entry):
    """How many bytes of a response file are kept free for one capsule."""
    length = length_of(entry)
    return ROOM_OF_CAPSULE + (length if direction(entry) == TO_HOST and length <= TRANSFER_LIMIT else 0)


def capsule_bytes(entry, data):
    """A capsule as a queue file has it."""
    return entry.to_bytes(ENTRY_BYTES, "little") + data


def command_of(entry, admin=False):
    """The command with this opcode and FCTYPE, or None. Opcodes 02h and 08h mean other commands on an admin queue."""
    opcode, fctype = bits_of(entry, ENTRY_FIELDS["opcode"]), bits_of(entry, FCTYPE)
    found = [command for command in COMMANDS
             if command.opcode == opcode and command.fctype in (None, fctype if opcode == FABRICS else None)]
    found.sort(key=lambda command: (command.name in ADMIN) != admin)
    return found[0] if found else None


def serves_admin(capsules):
    """Whether a queue file is an admin queue's: of its leading fabrics commands the first Connect has QID 0."""
    for capsule in capsules:
        command = command_of(capsule.entry)
        if bits_of(capsule.entry, ENTRY_FIELDS["opcode"]) != FABRICS:
            return False
        if command and command.name == "connect":
            return bits_of(capsule.entry, (336, 16)) == 0
    return False


# Completions

Completion = namedtuple("Completion", "result sq_head sq_id cid status")

SPECIFIC_STATUS = 1  # the status code type of a command's own errors

# Status code type and status code, as NVMe Base 2.0, NVM Command Set 1.0 and NVMe over Fabrics name them.
STATUS_NAMES = {
    (0, 0x00): "Success",
    (0, 0x01): "Invalid Opcode",
    (0, 0x02): "Invalid Field",
    (0, 0x03): "Command ID Conflict",
    (0, 0x04): "Data Transfer Error",
    (0, 0x06): "Internal Error",
    (0, 0x07): "Command Abort Requested",
    (0, 0x0B): "Invalid Namespace",
    (0, 0x0C): "Command Sequence Error",
    (0, 0x0F): "Data SGL Length Invalid",
    (0, 0x20): "Namespace Write Protected",
    (0, 0x80): "LBA Out of Range",
    (0, 0x81): "Capacity Exceeded",
    (0, 0x82): "Namespace Not Ready",
    (0, 0x83): "Reservation Conflict",
    (1, 0x05): "Event Request Limit Exceeded",
    (1, 0x09): "Invalid Log Page",
    (1, 0x0D): "Feature Not Saveable",
    (1, 0x80): "Connect Incompatible Format",
    (1, 0x81): "Connect Controller Busy",
    (1, 0x82): "Connect Invalid Parameters",
    (1, 0x83): "Connect Restart Discovery",
    (1, 0x84): "Connect Invalid Host",
    (2, 0x85): "Compare Failure",
    (2, 0x86): "Access Denied",
    (3, 0x00): "Internal Path Error",
    (3, 0x01): "ANA Persistent Loss",
    (3, 0x02): "ANA Inaccessible",
    (3, 0x03): "ANA Transition",
}
# On an I/O queue code 80h of the specific type is another error than that of a Connect.
CONFLICTING_ATTRIBUTES = "Conflicting Attributes"

Status = namedtuple("Status", "field phase sc sct crd more dnr name")


def read_status(field, fabrics=True):
    """A status field of 16 bits in its parts: phase 0, SC 8:1, SCT 11:9, CRD 13:12, More 14, DNR 15."""
    sc, sct = field >> 1 & 0xFF, field >> 9 & 7
    name = STATUS_NAMES.get((sct, sc), "unknown status")
    if (sct, sc) == (SPECIFIC_STATUS, 0x80) and not fabrics:
        name = CONFLICTING_ATTRIBUTES
    return Status(field, field & 1, sc, sct, field >> 12 & 3, field >> 14 & 1, field >> 15, name)


def read_completion(blob):
    """A completion of 16 bytes."""
    part = lambda start, end: int.from_bytes(blob[start:end], "little")
    return Completion(part(0, 8), part(8, 10), part(10, 12), part(12, 14), part(14, 16))


def completion_bytes(cqe):
    """A completion as a record has it."""
    return (cqe.result.to_bytes(8, "little") + cqe.sq_head.to_bytes(2, "little") + cqe.sq_id.to_bytes(2, "little")
            + cqe.cid.to_bytes(2, "little") + cqe.status.to_bytes(2, "little"))


# Response files

SUBMIT, EXECUTE, POLL, CONTROL = 1, 2, 3, 4
KINDS = {SUBMIT: "submit", EXECUTE: "execute", POLL: "poll", CONTROL: "control"}
HELD, ANSWERED, WAITING, NO_EVENT = 0, 1, 2, 3
ANSWERS = {
    SUBMIT: {HELD: "held", ANSWERED: "answered", WAITING: "waiting"},
    EXECUTE: {ANSWERED: "answered"},
    POLL: {ANSWERED: "event", NO_EVENT: "no event"},
    CONTROL: {ANSWERED: "answered"},
}

Record = namedtuple("Record", "offset place kind answer number completion data")


def read_responses(blob):
    """The records of a response file. Raises Bad with the offset of the first record that isn't one."""
    records, at = [], 0
    while at < len(blob):
        record = read_record(blob, at)
        records.append(record)
        at += RECORD_BYTES + len(record.data)
    return records


def read_record(blob, at):
    """The record at this offset of a response file."""
    head = blob[at:at + RECORD_BYTES]
    if len(head) < RECORD_BYTES:
        raise Bad("offset %d: the record is cut, %d of %d bytes" % (at, len(head), RECORD_BYTES))
    number = lambda start: int.from_bytes(head[start:start + 4], "little")
    kind, answer = head[4], head[5]
    if answer not in ANSWERS.get(kind, {}):
        raise Bad("offset %d: no record has kind %d with answer %d" % (at, kind, answer))
    if head[6] or head[7]:
        raise Bad("offset %d: bytes 6 and 7 of the record aren't zero" % at)
    if answer != ANSWERED and any(head[16:]):
        raise Bad("offset %d: a completion where none was answered" % at)
    data = blob[at + RECORD_BYTES:at + RECORD_BYTES + number(12)]
    if len(data) < number(12):
        raise Bad("offset %d: the data are cut, %d of %d bytes" % (at, len(data), number(12)))
    return Record(at, number(0), kind, answer, number(8), read_completion(head[16:]), data)


def record_bytes(record):
    """A record as a response file has it."""
    number = lambda value: value.to_bytes(4, "little")
    return (number(record.place) + bytes([record.kind, record.answer, 0, 0]) + number(record.number)
            + number(len(record.data)) + completion_bytes(record.completion) + record.data)


# Events: the result of an event's completion is the type, 256 times the information, 65,536 times the log page.

Event = namedtuple("Event", "kind information log name")
EVENT_NAMES = {0x00040002: "namespace attribute changed", 0x000C0302: "ANA change"}


def read_event(result):
    """The event that a poll's completion tells of."""
    event = result & 0xFFFFFFFF
    return Event(event & 7, event >> 8 & 0xFF, event >> 16 & 0xFF, EVENT_NAMES.get(event, "unknown event"))


# Journals and scripts

ERRNOS = ["EPERM", "ENOENT", "EACCES", "EBUSY", "EEXIST", "EINVAL", "ENOTEMPTY", "ENOSPC"]
NUMBER = "(0|[1-9][0-9]*)"
EditLine = namedtuple("EditLine", "place what line answer")
JOURNAL_EDIT = re.compile("edit %s %s (ok|%s)" % (NUMBER, NUMBER, "|".join(ERRNOS)))
JOURNAL_DONE = re.compile("done %s %s" % (NUMBER, NUMBER))


def text_lines(blob):
    """The lines of a text, of which the last may lack its end."""
    lines = blob.decode("latin-1").split("\n")
    if lines[-1] == "":
        lines.pop()
    return lines


def small(text, limit=1 << 32):
    """A decimal number below a limit, or None."""
    fits = len(text) <= len(str(limit)) and re.fullmatch(NUMBER, text)
    return int(text) if fits and int(text) < limit else None


def read_journal(blob):
    """The number of places of a run, and the calls of the editor. Raises Bad at the first bad line."""
    lines = text_lines(blob)
    head = [re.compile("nvmet-journal 1"), re.compile("places " + NUMBER)]
    for number, form in enumerate(head, 1):
        if len(lines) < number or not form.fullmatch(lines[number - 1]):
            raise Bad("line %d: it isn't '%s'" % (number, "nvmet-journal 1" if number == 1 else "places N"))
    places = small(lines[1].split(" ")[1])
    calls = [journal_line(number, line) for number, line in enumerate(lines[2:], 3)]
    if places is None:
        raise Bad("line 2: the number is 2^32 or more")
    return places, calls


def journal_line(number, line):
    """One call of the editor."""
    words = line.split(" ")
    if not JOURNAL_EDIT.fullmatch(line) and not JOURNAL_DONE.fullmatch(line):
        raise Bad("line %d: neither 'edit PLACE LINE ok|ERRNO' nor 'done PLACE LINE'" % number)
    if small(words[1]) is None or small(words[2]) is None:
        raise Bad("line %d: a number is 2^32 or more" % number)
    return EditLine(int(words[1]), words[0], int(words[2]), words[3] if words[0] == "edit" else None)


DISABLE = re.compile("set subsystems/([^/ ]+)/namespaces/([0-9]+) enable 0")


# Plans

DiskLine = namedtuple("DiskLine", "path shift blocks")
QueueLine = namedtuple("QueueLine", "port capsules responses")
Plan = namedtuple("Plan", "simple disks config script journal queues")
PLAN_WORDS = {"simple": 1, "disk": 4, "config": 2, "script": 2, "journal": 2, "queue": 4}
PLAN_NAME = re.compile("[!-~]{1,255}")
BLOCKS_LIMIT = 1 << 52


def read_plan(blob):
    """A plan, without its limits on disks and queues. Raises Bad at its first bad line, with the reason."""
    lines = text_lines(blob)
    if not lines or lines[0] != "nvmet-plan 1":
        raise Bad("line 1: it isn't 'nvmet-plan 1'")
    found = {word: [] for word in PLAN_WORDS}
    for number, line in enumerate(lines[1:], 2):
        if line and not line.startswith("#"):
            take_plan_line(found, number, line.split(" "))
    one = lambda word: found[word][0][1] if found[word] else None
    plan = Plan(bool(found["simple"]), [DiskLine(*words[1:]) for words in found["disk"]], one("config"),
                one("script"), one("journal"), [QueueLine(*words[1:]) for words in found["queue"]])
    missing = (("disk", "queue") if plan.simple else ("config", "journal"))
    for word in missing:
        if not found[word]:
            raise Bad("line %d: no '%s' line came" % (len(lines) + 1, word))
    return plan


def take_plan_line(found, number, words):
    """Adds one line of a plan to those before it."""
    kind = words[0]
    if kind not in PLAN_WORDS or len(words) != PLAN_WORDS[kind]:
        raise Bad("line %d: no line of a plan has this form" % number)
    if kind not in ("disk", "queue") and found[kind]:
        raise Bad("line %d: a second '%s'" % (number, kind))
    taken = plan_disk(words) if kind == "disk" else plan_queue(words) if kind == "queue" else words
    if not taken or not all(PLAN_NAME.fullmatch(str(word)) for word in words[1:]):
        raise Bad("line %d: a number or a name is none" % number)
    if kind == "disk" and any(words[1] == disk[1] for disk in found["disk"]):
        raise Bad("line %d: an earlier disk has this path" % number)
    names = [name for word in found for line in found[word] for name in file_names(line)]
    names += file_names(words)
    if kind != "disk" and len(set(names)) < len(names):
        raise Bad("line %d: a file name stands earlier" % number)
    found[kind].append(taken)
    if found["simple"] and (found["config"] or found["script"] or found["journal"] or len(found["disk"]) > 1
                            or len(found["queue"]) > 1 or any(line[1] != 1 for line in found["queue"])):
        raise Bad("line %d: a simple plan can't have this" % number)


def file_names(words):
    """The names of files in one line of a plan."""
    return {"config": words[1:], "script": words[1:], "journal": words[1:], "queue": words[2:]}.get(words[0], [])


def plan_disk(words):
    """The words of a disk line with its numbers, or None."""
    blocks = small(words[3], BLOCKS_LIMIT)
    return ["disk", words[1], int(words[2]), blocks] if words[2] in ("9", "12") and blocks else None


def plan_queue(words):
    """The words of a queue line with its port, or None."""
    port = small(words[1], 1 << 16)
    return None if port is None else ["queue", port] + words[2:]


# Identify pages: name, offset, size, and how `nvme` prints it (d decimal, x hexadecimal, s text, u UUID, i IEEE).

CONTROLLER_FIELDS = [
    ("vid", 0, 2, "x"), ("ssvid", 2, 2, "x"), ("sn", 4, 20, "s"), ("mn", 24, 40, "s"), ("fr", 64, 8, "s"),
    ("rab", 72, 1, "d"), ("ieee", 73, 3, "i"), ("cmic", 76, 1, "x"), ("mdts", 77, 1, "d"), ("cntlid", 78, 2, "x"),
    ("ver", 80, 4, "x"), ("rtd3r", 84, 4, "x"), ("rtd3e", 88, 4, "x"), ("oaes", 92, 4, "x"), ("ctratt", 96, 4, "x"),
    ("rrls", 100, 2, "x"), ("cntrltype", 111, 1, "d"), ("fguid", 112, 16, "u"), ("crdt1", 128, 2, "d"),
    ("crdt2", 130, 2, "d"), ("crdt3", 132, 2, "d"), ("nvmsr", 253, 1, "d"), ("vwci", 254, 1, "d"),
    ("mec", 255, 1, "d"), ("oacs", 256, 2, "x"), ("acl", 258, 1, "d"), ("aerl", 259, 1, "d"), ("frmw", 260, 1, "x"),
    ("lpa", 261, 1, "x"), ("elpe", 262, 1, "d"), ("npss", 263, 1, "d"), ("avscc", 264, 1, "x"),
    ("apsta", 265, 1, "x"), ("wctemp", 266, 2, "d"), ("cctemp", 268, 2, "d"), ("mtfa", 270, 2, "d"),
    ("hmpre", 272, 4, "d"), ("hmmin", 276, 4, "d"), ("tnvmcap", 280, 16, "d"), ("unvmcap", 296, 16, "d"),
    ("rpmbs", 312, 4, "x"), ("edstt", 316, 2, "d"), ("dsto", 318, 1, "d"), ("fwug", 319, 1, "d"),
    ("kas", 320, 2, "d"), ("hctma", 322, 2, "x"), ("mntmt", 324, 2, "d"), ("mxtmt", 326, 2, "d"),
    ("sanicap", 328, 4, "x"), ("hmminds", 332, 4, "d"), ("hmmaxd", 336, 2, "d"), ("nsetidmax", 338, 2, "d"),
    ("endgidmax", 340, 2, "d"), ("anatt", 342, 1, "d"), ("anacap", 343, 1, "d"), ("anagrpmax", 344, 4, "d"),
    ("nanagrpid", 348, 4, "d"), ("pels", 352, 4, "d"), ("domainid", 356, 2, "d"), ("megcap", 368, 16, "d"),
    ("sqes", 512, 1, "x"), ("cqes", 513, 1, "x"), ("maxcmd", 514, 2, "d"), ("nn", 516, 4, "d"),
    ("oncs", 520, 2, "x"), ("fuses", 522, 2, "x"), ("fna", 524, 1, "x"), ("vwc", 525, 1, "x"),
    ("awun", 526, 2, "d"), ("awupf", 528, 2, "d"), ("icsvscc", 530, 1, "d"), ("nwpc", 531, 1, "d"),
    ("acwu", 532, 2, "d"), ("ocfs", 534, 2, "x"), ("sgls", 536, 4, "x"), ("mnan", 540, 4, "d"),
    ("maxdna", 544, 16, "d"), ("maxcna", 560, 4, "d"), ("subnqn", 768, 256, "s"), ("ioccsz", 1792, 4, "d"),
    ("iorcsz", 1796, 4, "d"), ("icdoff", 1800, 2, "d"), ("fcatt", 1802, 1, "x"), ("msdbd", 1803, 1, "d"),
    ("ofcs", 1804, 2, "d"),
]

NAMESPACE_FIELDS = [
    ("nsze", 0, 8, "x"), ("ncap", 8, 8, "x"), ("nuse", 16, 8, "x"), ("nsfeat", 24, 1, "x"), ("nlbaf", 25, 1, "d"),
    ("flbas", 26, 1, "x"), ("mc", 27, 1, "x"), ("dpc", 28, 1, "x"), ("dps", 29, 1, "x"), ("nmic", 30, 1, "x"),
    ("rescap", 31, 1, "x"), ("fpi", 32, 1, "x"), ("dlfeat", 33, 1, "d"), ("nawun", 34, 2, "d"),
    ("nawupf", 36, 2, "d"), ("nacwu", 38, 2, "d"), ("nabsn", 40, 2, "d"), ("nabo", 42, 2, "d"),
    ("nabspf", 44, 2, "d"), ("noiob", 46, 2, "d"), ("nvmcap", 48, 16, "d"), ("mssrl", 74, 2, "d"),
    ("mcl", 76, 4, "d"), ("msrc", 80, 1, "d"), ("nulbaf", 82, 1, "d"), ("anagrpid", 92, 4, "d"),
    ("nsattr", 99, 1, "d"), ("nvmsetid", 100, 2, "d"), ("endgid", 102, 2, "d"), ("nguid", 104, 16, "h"),
    ("eui64", 120, 8, "h"),
]
LBA_FORMATS_AT = 128

DESCRIPTOR_KINDS = {1: ("eui64", 8), 2: ("nguid", 16), 3: ("uuid", 16), 4: ("csi", 1)}
ANA_STATES = {1: "optimized", 2: "non-optimized", 3: "inaccessible", 4: "persistent-loss", 15: "change"}
ANA_HEADER_BYTES, ANA_GROUP_BYTES = 16, 32
CHANGED_NAMESPACES_LOG, ANA_LOG = 0x04, 0x0C
ACTIVE_LIST_ENTRIES = 1024

CNS_NAMESPACE, CNS_CONTROLLER, CNS_ACTIVE_LIST, CNS_DESCRIPTORS = range(4)


def uuid_text(blob):
    """Sixteen bytes in the hyphenated form."""
    text = blob.hex()
    return "-".join([text[:8], text[8:12], text[12:16], text[16:20], text[20:]])


def field_value(blob, field):
    """A field of a page: a number, or a text for the kinds of field that are none."""
    name, offset, size, form = field
    part = blob[offset:offset + size]
    if form == "s":
        return part.split(b"\0")[0].decode("latin-1")
    if form == "u":
        return uuid_text(part)
    if form == "i":
        return part[::-1].hex()
    return part.hex() if form == "h" else int.from_bytes(part, "little")


def read_fields(blob, table):
    """The fields of a page by name."""
    return {field[0]: field_value(blob, field) for field in table}


def read_lba_formats(blob):
    """The LBA formats of a namespace's page, as many as it says: metadata size, shift, relative performance."""
    formats = []
    for index in range(blob[25] + 1):
        part = blob[LBA_FORMATS_AT + 4 * index:LBA_FORMATS_AT + 4 * index + 4]
        formats.append({"ms": int.from_bytes(part[:2], "little"), "lbads": part[2], "rp": part[3] & 3,
                        "in_use": index == blob[26] & 0xF})
    return formats


def read_nsid_list(blob):
    """The numbers of a list of namespaces, up to the first zero."""
    numbers = [int.from_bytes(blob[at:at + 4], "little") for at in range(0, len(blob) - 3, 4)]
    return numbers[:numbers.index(0)] if 0 in numbers else numbers


def read_descriptors(blob):
    """The identification descriptors of a namespace, up to the first of length 0: (name, value as a text)."""
    found, at = [], 0
    while at + 4 <= len(blob) and blob[at + 1]:
        kind, size = blob[at], blob[at + 1]
        value = blob[at + 4:at + 4 + size]
        name = DESCRIPTOR_KINDS.get(kind, ("nidt %d" % kind, size))[0]
        text = {"uuid": uuid_text, "csi": lambda part: str(part[0])}.get(name, bytes.hex)(value)
        found.append((name, text))
        at += 4 + size
    return found


AnaGroup = namedtuple("AnaGroup", "grpid nnsids chgcnt state nsids")
AnaPage = namedtuple("AnaPage", "chgcnt ngrps groups whole")


def read_ana_page(blob):
    """The ANA page from its header on, as far as the bytes go: each group with its namespaces."""
    number = lambda at, size: int.from_bytes(blob[at:at + size], "little")
    groups, at, count = [], ANA_HEADER_BYTES, number(8, 2)
    while len(groups) < count and at + ANA_GROUP_BYTES <= len(blob):
        held = number(at + 4, 4)
        end = min(at + ANA_GROUP_BYTES + 4 * held, len(blob) // 4 * 4)
        nsids = [number(place, 4) for place in range(at + ANA_GROUP_BYTES, end, 4)]
        groups.append(AnaGroup(number(at, 4), held, number(at + 8, 8), blob[at + 16] & 0xF, nsids))
        at += ANA_GROUP_BYTES + 4 * held
    return AnaPage(number(0, 8), count, groups, len(groups) == count and at <= len(blob))


# Files

READ = set()  # device and inode of each file that was read


def read_file(name):
    """The bytes of a file. Raises Bad with the system's reason."""
    try:
        with open(name, "rb") as file:
            about = os.fstat(file.fileno())
            READ.add((about.st_dev, about.st_ino))
            return file.read()
    except OSError as error:
        raise Bad("cannot read: %s" % (error.strerror or error))


def write_beside(name, blob):
    """Writes a file whole or not at all: to a new file beside it, which then takes its name. A file that was read by
    the same command is left alone."""
    name = os.path.realpath(name)
    beside = "%s.%d.new" % (name, os.getpid())
    try:
        about = os.stat(name) if os.path.exists(name) else None
        if about and (about.st_dev, about.st_ino) in READ:
            raise Bad("%s was read, and isn't written over" % name)
        if about and not os.path.isfile(name):
            with open(name, "wb") as device:
                device.write(blob)
            return
        with open(beside, "xb") as file:
            file.write(blob)
        os.replace(beside, name)
    except OSError as error:
        if os.path.exists(beside):
            os.remove(beside)
        raise Bad("%s: cannot write: %s" % (name, error.strerror or error))
