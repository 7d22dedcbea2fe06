"""A run as its files tell it: every call with its place, its command, its answer and the page that it carries."""

import os
from collections import namedtuple

from capsule_text import line_of as command_line, say_entry
from nvmet_formats import (
    ACTIVE_LIST_ENTRIES, ANA_HEADER_BYTES, ANA_LOG, ANA_STATES, ANSWERED, ANSWERS, CHANGED_NAMESPACES_LOG,
    CNS_ACTIVE_LIST, CNS_CONTROLLER, CNS_DESCRIPTORS, CNS_NAMESPACE, CONTROLLER_FIELDS, ENTRY_FIELDS, KINDS,
    NAMESPACE_FIELDS, POLL, SUBMIT, WAITING, Bad, bits_of, command_of, read_ana_page, read_capsules,
    read_descriptors, read_event, read_fields, read_file, read_journal, read_lba_formats, read_nsid_list, read_plan,
    read_responses, read_status, serves_admin, text_lines, with_bits)

EDITOR = "editor"
PAGE_WIDTH = 10
ALL_NAMESPACES = 0xFFFFFFFF

# A call of a run. `caller` is the editor or a queue, `queue` its number from 1, `record` that of a queue and `edit` the
# journal's line of the editor. `command` is the command's name, `cid` its command identifier, `text` the command with
# its fields or the script's line, `page` what the data are: (kind, offset, NSID), or None. `request` is the event
# request that a poll's event answered: its place and its capsule's number, or None.
Call = namedtuple("Call", "place caller queue record edit command cid text page request")
Run = namedtuple("Run", "plan places calls queues")


def inside(name, read):
    """What `read` makes of a file. The message of a fault gets the file's name."""
    try:
        return read(read_file(name))
    except Bad as bad:
        raise Bad("%s: %s" % (name, bad))


def read_any(name, queue=None):
    """A run from a plan, a response file or a journal, whichever the file is."""
    blob = inside(name, lambda blob: blob)
    if blob.startswith(b"nvmet-plan "):
        return read_run(name)
    if blob.startswith(b"nvmet-journal "):
        places, edits = inside(name, read_journal)
        return Run(None, places, [edit_call(edit, []) for edit in edits], [])
    capsules = inside(queue, read_capsules) if queue else []
    calls = queue_calls("queue", 1, capsules, inside(name, read_responses), serves_admin(capsules))
    return Run(None, len(calls), calls, ["queue"])


def read_run(name):
    """The run of a plan, its calls in the order of places. Names in a plan are relative to the working directory."""
    plan = inside(name, read_plan)
    calls, queues, places = [], [], 0
    if plan.journal:
        script = [printable(line) for line in inside(plan.script, text_lines)] if plan.script else []
        places, edits = inside(plan.journal, read_journal)
        calls += [edit_call(edit, script) for edit in edits]
    block_size = 1 << plan.disks[0].shift if plan.disks else 512
    short = [os.path.basename(line.capsules) for line in plan.queues]
    for number, line in enumerate(plan.queues, 1):
        caller = short[number - 1] if short.count(short[number - 1]) == 1 else line.capsules
        queues.append(caller)
        capsules = inside(line.capsules, read_capsules)
        records = inside(line.responses, read_responses)
        admin = not plan.simple and serves_admin(capsules)
        calls += queue_calls(caller, number, capsules, records, admin, block_size)
    calls.sort(key=lambda call: call.place)
    return Run(plan, max(places, len(calls)), calls, queues)


def fault_of_places(run):
    """What is wrong with the places of a run, or None: its calls have the places from 0 on, each once."""
    for number, call in enumerate(run.calls):
        if call.place != number:
            return "place %d is %s" % (min(number, call.place), "missing" if call.place > number else "there twice")
    return "place %d is missing" % len(run.calls) if len(run.calls) < run.places else None


def printable(text):
    """A text with a question mark for each byte that a terminal or an SVG may take amiss."""
    return "".join(letter if " " <= letter <= "~" else "?" for letter in text)


def edit_call(edit, script):
    """A call of the editor, with the script's line where there is one."""
    text = script[edit.line - 1] if 0 < edit.line <= len(script) else None
    return Call(edit.place, EDITOR, 0, None, edit, edit.what, None, text, None, None)


def queue_calls(caller, number, capsules, records, admin, block_size=512):
    """The calls of one queue."""
    known, waiting, calls = {}, {}, []
    for record in records:
        capsule = capsules[record.number] if record.kind != POLL and record.number < len(capsules) else None
        command, text = say_briefly(capsule, block_size, admin, known) if capsule else (None, None)
        page = page_of(capsule.entry, admin) if capsule and record.data and record.kind == SUBMIT else None
        cid = bits_of(capsule.entry, ENTRY_FIELDS["cid"]) if capsule else None
        if record.kind == SUBMIT and record.answer == WAITING:
            waiting[cid] = (record.place, record.number)
        is_event = record.kind == POLL and record.answer == ANSWERED
        request = waiting.pop(record.completion.cid, None) if is_event else None
        calls.append(Call(record.place, caller, number, record, None, command, cid, text, page, request))
    return calls


def say_briefly(capsule, block_size, admin, known):
    """A command's name, and its line without its data and its command identifier. `known` keeps what was said."""
    entry = with_bits(capsule.entry, ENTRY_FIELDS["cid"], 0)
    if (entry, capsule.data) not in known:
        name, words = say_entry(entry, capsule.data, 0, block_size, admin)
        words.pop("data", None)
        known[entry, capsule.data] = name, command_line(name, words)
    return known[entry, capsule.data]


def page_of(entry, admin):
    """What the data of an answered entry are: (kind, offset, NSID), or None."""
    command = command_of(entry, admin)
    nsid, low = bits_of(entry, (32, 32)), bits_of(entry, (320, 8))
    if command and command.name == "identify":
        kinds = {CNS_NAMESPACE: "id-ns", CNS_CONTROLLER: "id-ctrl", CNS_ACTIVE_LIST: "list-ns",
                 CNS_DESCRIPTORS: "ns-descs"}
        return (kinds[low], 0, nsid) if low in kinds else None
    if command and command.name in ("get-log", "read"):
        kinds = {CHANGED_NAMESPACES_LOG: "changed-ns-list-log", ANA_LOG: "ana-log"}
        return (kinds[low], bits_of(entry, (384, 64)), nsid) if low in kinds else None
    return None


# Lines

def line_of(call):
    """What stands behind the place and the caller of a call."""
    if call.edit:
        end = "the drain ended" if call.edit.what == "done" else call.edit.answer
        return "%-7s  line %d  %s%s" % (call.edit.what, call.edit.line, call.text + "  " if call.text else "", end)
    text = ("after %d" if call.record.kind == POLL else "#%d") % call.record.number
    answer = answer_text(call.record, call.command)
    if call.request:
        answer += ", answers the request #%d of place %d" % (call.request[1], call.request[0])
    return "%-7s  %s  %s%s" % (KINDS[call.record.kind], text, call.text + "  " if call.text else "", answer)


def answer_text(record, command=None):
    """The answer of a record: held, waiting, no event, an event, or its completion."""
    if record.answer != ANSWERED:
        return ANSWERS[record.kind][record.answer]
    cqe = record.completion
    parts = [status_text(cqe.status, command)]
    if record.kind == POLL:
        event = read_event(cqe.result)
        parts.append("event: %s (type %d, information %02Xh, log %02Xh)" % (
            event.name, event.kind, event.information, event.log))
    elif cqe.result:
        parts.append("result %Xh" % cqe.result)
    parts.append("sq %d cid %d" % (cqe.sq_id, cqe.cid))
    if cqe.sq_head:
        parts.append("sq head %d" % cqe.sq_head)
    if record.data:
        parts.append("%d bytes" % len(record.data))
    return ", ".join(parts)


def status_text(field, command=None):
    """A status field in words: '8100h LBA Out of Range (SCT 0, SC 80h, DNR)'."""
    status = read_status(field, command in (None, "connect"))
    if field == 0:
        return "success"
    flags = [name for name, bit in (("DNR", status.dnr), ("More", status.more), ("phase 1", status.phase)) if bit]
    flags += ["CRD %d" % status.crd] if status.crd else []
    return "%04Xh %s (%s)" % (field, status.name, ", ".join(["SCT %d" % status.sct, "SC %02Xh" % status.sc] + flags))


def dump_lines(data):
    """Bytes as offset and hexadecimal digits, 16 a line; a line like the one before is left out, as `*`."""
    lines, last = [], None
    for at in range(0, len(data), 16):
        part = data[at:at + 16].hex(" ")
        if part != last:
            lines.append("%06x  %s" % (at, part))
        elif lines[-1] != "*":
            lines.append("*")
        last = part
    return lines


# Pages, as `nvme` prints them

def page_lines(call):
    """The lines of the page that a call carries."""
    kind, offset, nsid = call.page
    data = call.record.data
    if kind == "ana-log" and (offset or len(data) < ANA_HEADER_BYTES):
        return ["%s from offset %d:" % (kind, offset)] + dump_lines(data)
    printers = {"id-ctrl": controller_lines, "id-ns": lambda data: namespace_lines(data, nsid),
                "ns-descs": lambda data: descriptor_lines(data, nsid),
                "list-ns": list_lines, "ana-log": ana_lines,
                "changed-ns-list-log": lambda data: changed_lines(data, offset // 4)}
    return printers[kind](data)


def field_text(value, form):
    """A field's value as `nvme` prints it: hexadecimal as C's %#x does."""
    return ("%#x" % value if value else "0") if form == "x" else str(value)


def controller_lines(data):
    """`nvme id-ctrl`."""
    values = read_fields(data, CONTROLLER_FIELDS)
    return ["NVME Identify Controller:"] + [
        "%-*s: %s" % (PAGE_WIDTH, field[0], field_text(values[field[0]], field[3])) for field in CONTROLLER_FIELDS]


def namespace_lines(data, nsid):
    """`nvme id-ns`."""
    values = read_fields(data, NAMESPACE_FIELDS)
    lines = ["NVME Identify Namespace %d:" % nsid]
    for field in NAMESPACE_FIELDS:
        name = "nsattr\t" if field[0] == "nsattr" else "%-8s" % field[0]
        lines.append("%s: %s" % (name, field_text(values[field[0]], field[3])))
    for index, form in enumerate(read_lba_formats(data)):
        lines.append("lbaf %2d : ms:%-3d lbads:%-2d rp:%s %s" % (
            index, form["ms"], form["lbads"], field_text(form["rp"], "x"), "(in use)" if form["in_use"] else ""))
    return [line.rstrip() for line in lines]


def descriptor_lines(data, nsid):
    """`nvme ns-descs`."""
    return ["NVME Namespace Identification Descriptors NS %d:" % nsid] + [
        "%-8s: %s" % pair for pair in read_descriptors(data)]


def list_lines(data):
    """`nvme list-ns`."""
    return ["[%4u]:%s" % (index, field_text(nsid, "x")) for index, nsid in enumerate(read_nsid_list(data))]


def changed_lines(data, first):
    """`nvme changed-ns-list-log`. The first number of all is FFFFFFFFh where more namespaces changed than fit."""
    changed = read_nsid_list(data)
    if first == 0 and changed[:1] == [ALL_NAMESPACES]:
        return ["more than %d ns changed" % ACTIVE_LIST_ENTRIES]
    return ["[%4u]:%s" % (first + index, field_text(nsid, "x")) for index, nsid in enumerate(changed)]


def ana_lines(data):
    """`nvme ana-log`."""
    page = read_ana_page(data)
    lines = ["ANA LOG HEADER :-", "chgcnt\t:\t%d" % page.chgcnt, "ngrps\t:\t%d" % page.ngrps, "ANA Log Desc :-"]
    for group in page.groups:
        lines += ["grpid\t:\t%d" % group.grpid, "nnsids\t:\t%d" % group.nnsids, "chgcnt\t:\t%d" % group.chgcnt,
                  "state\t:\t%s" % ANA_STATES.get(group.state, "invalid state")]
        lines += ["\tnsid\t:\t%d" % nsid for nsid in group.nsids] + [""]
    return lines if page.whole else lines + ["(the read ends here, before the page does)"]


# JSON

def as_object(call):
    """A call as an object of JSON."""
    base = {"place": call.place, "caller": call.caller, "command": call.text}
    if call.edit:
        kind = {"kind": call.edit.what, "line": call.edit.line}
        return dict(base, **kind, **({"answer": call.edit.answer} if call.edit.answer else {}))
    record = call.record
    base.update(kind=KINDS[record.kind], number=record.number, answer=ANSWERS[record.kind][record.answer])
    if record.answer == ANSWERED:
        base["completion"] = completion_object(record.completion, call.command)
    if record.answer == ANSWERED and record.kind == POLL:
        base["event"] = dict(read_event(record.completion.result)._asdict())
        base["request"] = {"place": call.request[0], "number": call.request[1]} if call.request else None
    if call.page:
        base["page"] = page_object(call)
    if record.data:
        base["data"] = record.data.hex()
    return base


def completion_object(cqe, command):
    """A completion as an object, its status in its parts."""
    status = dict(read_status(cqe.status, command in (None, "connect"))._asdict())
    return dict(cqe._asdict(), status=status)


def page_object(call):
    """The page that a call carries as an object."""
    kind, offset, nsid = call.page
    data = call.record.data
    known = {"kind": kind, "offset": offset, "nsid": nsid}
    if kind == "id-ctrl":
        known.update(read_fields(data, CONTROLLER_FIELDS))
    elif kind == "id-ns":
        known.update(read_fields(data, NAMESPACE_FIELDS), lbafs=read_lba_formats(data))
    elif kind == "ns-descs":
        known.update(read_descriptors(data))
    elif kind in ("list-ns", "changed-ns-list-log"):
        known["nsids"] = read_nsid_list(data)
    elif offset == 0 and len(data) >= ANA_HEADER_BYTES:
        page = read_ana_page(data)
        groups = [dict(group._asdict(), state=ANA_STATES.get(group.state, group.state)) for group in page.groups]
        known.update(chgcnt=page.chgcnt, ngrps=page.ngrps, groups=groups, whole=page.whole)
    return known
