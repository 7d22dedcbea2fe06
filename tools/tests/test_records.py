"""Response files and journals in words: each kind of record, each status, each page, by the bytes of the formats."""

import json
import os
import tempfile
import unittest

import capsule_text
import run_files
from made import make_run
from nvmet_formats import (
    Bad, read_capsules, read_journal, read_plan, read_record, read_responses, record_bytes)
from support import placed, run_tool


def record(place, kind, answer, number, completion="00" * 16, data=b""):
    """A record: place 0 to 3, kind 4, answer 5, number 8 to 11, length 12 to 15, completion 16 to 31, data."""
    head = placed(16, {0: place.to_bytes(4, "little").hex(), 4: "%02x%02x" % (kind, answer),
                       8: number.to_bytes(4, "little").hex(), 12: len(data).to_bytes(4, "little").hex()})
    return head + bytes.fromhex(completion) + data


# The worked example of the formats: the execute at place 1 of the first capsule, cid 1 on SQ 1, status 0.
EXECUTED = bytes.fromhex("01000000020100000000000000000000" "00000000000000000000010001000000")

STATUSES = [
    ("0000", "success"),
    ("0280", "8002h Invalid Opcode (SCT 0, SC 01h, DNR)"),
    ("0480", "8004h Invalid Field (SCT 0, SC 02h, DNR)"),
    ("1680", "8016h Invalid Namespace (SCT 0, SC 0Bh, DNR)"),
    ("1880", "8018h Command Sequence Error (SCT 0, SC 0Ch, DNR)"),
    ("1e80", "801Eh Data SGL Length Invalid (SCT 0, SC 0Fh, DNR)"),
    ("0081", "8100h LBA Out of Range (SCT 0, SC 80h, DNR)"),
    ("0a82", "820Ah Event Request Limit Exceeded (SCT 1, SC 05h, DNR)"),
    ("0083", "8300h Connect Incompatible Format (SCT 1, SC 80h, DNR)"),
    ("0483", "8304h Connect Invalid Parameters (SCT 1, SC 82h, DNR)"),
    ("0883", "8308h Connect Invalid Host (SCT 1, SC 84h, DNR)"),
    ("0006", "0600h Internal Path Error (SCT 3, SC 00h)"),
    ("0206", "0602h ANA Persistent Loss (SCT 3, SC 01h)"),
    ("0406", "0604h ANA Inaccessible (SCT 3, SC 02h)"),
    ("0606", "0606h ANA Transition (SCT 3, SC 03h)"),
    ("ff7f", "7FFFh unknown status (SCT 7, SC FFh, More, phase 1, CRD 3)"),
]

BAD_RECORDS = [
    (EXECUTED[:31], "offset 0: the record is cut, 31 of 32 bytes"),
    (EXECUTED + b"x", "offset 32: the record is cut, 1 of 32 bytes"),
    (record(0, 2, 1, 0, data=b"abc")[:-1], "offset 0: the data are cut, 2 of 3 bytes"),
    (record(0, 1, 3, 0), "offset 0: no record has kind 1 with answer 3"),
    (record(0, 2, 0, 0), "offset 0: no record has kind 2 with answer 0"),
    (record(0, 3, 2, 0), "offset 0: no record has kind 3 with answer 2"),
    (record(0, 5, 1, 0), "offset 0: no record has kind 5 with answer 1"),
    (EXECUTED[:6] + b"\1" + EXECUTED[7:], "offset 0: bytes 6 and 7 of the record aren't zero"),
    (record(0, 1, 0, 0, "01" + "00" * 15), "offset 0: a completion where none was answered"),
]

# The pages: the command, its bytes by the tables of the formats, and lines that `nvme` prints of them. (nvme-cli 2.3
# itself was given these pages once, in place of a device's answers: but for the power states and the device's name in
# the first line of ana-log it printed these lines, to the byte.)
CONTROLLER = placed(4096, {
    4: b"5aefdbbc0a7be8e7    ".hex(), 24: b"Linux".ljust(40).hex(), 64: b"1.0     ".hex(), 76: "0b", 77: "05",
    78: "0100", 80: "00040100", 92: "00090000", 111: "01", 259: "03", 261: "04", 320: "0a00", 342: "0a", 343: "1f",
    344: "80000000", 348: "80000000", 512: "66", 513: "44", 514: "8000", 516: "00080000", 520: "0800",
    536: "01000000", 540: "00080000", 768: b"testnqn".hex(), 1792: "04000000", 1796: "01000000"})
CONTROLLER_LINES = [
    "NVME Identify Controller:", "vid       : 0", "sn        : 5aefdbbc0a7be8e7    ", "mn        : Linux" + " " * 35,
    "fr        : 1.0     ", "ieee      : 000000", "cmic      : 0xb", "mdts      : 5", "cntlid    : 0x1",
    "ver       : 0x10400", "oaes      : 0x900", "cntrltype : 1", "fguid     : 00000000-0000-0000-0000-000000000000",
    "aerl      : 3", "lpa       : 0x4", "kas       : 10", "anatt     : 10", "anacap    : 31", "anagrpmax : 128",
    "nanagrpid : 128", "sqes      : 0x66", "cqes      : 0x44", "maxcmd    : 128", "nn        : 2048",
    "oncs      : 0x8", "sgls      : 0x1", "mnan      : 2048", "subnqn    : testnqn", "ioccsz    : 4",
    "iorcsz    : 1"]
NAMESPACE = placed(4096, {
    0: "1000000000000000", 8: "1000000000000000", 16: "0f00000000000000", 30: "01", 92: "02000000",
    104: "ef90689c6c46d44c89c14067801309a8", 128: "00000900"})
NAMESPACE_LINES = [
    "NVME Identify Namespace 7:", "nsze    : 0x10", "ncap    : 0x10", "nuse    : 0xf", "nmic    : 0x1",
    "flbas   : 0", "anagrpid: 2", "nsattr\t: 0", "nguid   : ef90689c6c46d44c89c14067801309a8",
    "eui64   : 0000000000000000", "lbaf  0 : ms:0   lbads:9  rp:0 (in use)"]
DESCRIPTORS = placed(4096, {0: "03100000" "00112233445566778899aabbccddeeff"
                               "02100000" "ef90689c6c46d44c89c14067801309a8" "0401000000"})
DESCRIPTOR_LINES = [
    "NVME Namespace Identification Descriptors NS 1:", "uuid    : 00112233-4455-6677-8899-aabbccddeeff",
    "nguid   : ef90689c6c46d44c89c14067801309a8", "csi     : 0"]
LIST = placed(4096, {0: "01000000" "07000000"})
LIST_LINES = ["[   0]:0x1", "[   1]:0x7"]
CHANGED = placed(4096, {0: "01000000" "02000000" "00040000"})
CHANGED_LINES = ["[   0]:0x1", "[   1]:0x2", "[   2]:0x400"]
TOO_MANY = placed(4096, {0: "ffffffff"})
ANA = bytes.fromhex("0000000000000000" "0100" "000000000000" "01000000" "02000000" "0000000000000000" "01"
                    + "00" * 15 + "01000000" "02000000")
ANA_LINES = ["ANA LOG HEADER :-", "chgcnt\t:\t0", "ngrps\t:\t1", "ANA Log Desc :-", "grpid\t:\t1", "nnsids\t:\t2",
             "chgcnt\t:\t0", "state\t:\toptimized", "\tnsid\t:\t1", "\tnsid\t:\t2", ""]
GROUPS_ONLY = ANA[:20] + bytes(4) + ANA[24:48]

PAGES = [
    ("identify cns=1", CONTROLLER, CONTROLLER_LINES, False),
    ("identify cns=0 nsid=7", NAMESPACE, NAMESPACE_LINES, False),
    ("identify cns=2", LIST, LIST_LINES, True),
    ("identify cns=3 nsid=1", DESCRIPTORS, DESCRIPTOR_LINES, True),
    ("get-log lid=4", CHANGED, CHANGED_LINES, True),
    ("get-log lid=4 offset=4 bytes=4", CHANGED[4:8], ["[   1]:0x2"], True),
    ("get-log lid=4 offset=8", bytes(4096), [], True),
    ("get-log lid=4", TOO_MANY, ["more than 1024 ns changed"], True),
    ("get-log lid=0Ch bytes=56", ANA, ANA_LINES, True),
    ("get-log lid=0Ch bytes=48 rgo=1", GROUPS_ONLY, ANA_LINES[:5] + ["nnsids\t:\t0"] + ANA_LINES[6:8] + [""], True),
    ("get-log lid=0Ch bytes=52", ANA[:52], ANA_LINES[:9] + ["", "(the read ends here, before the page does)"], True),
    ("get-log lid=0Ch bytes=8", ANA[:8], ["ana-log from offset 0:", "000000  00 00 00 00 00 00 00 00"], True),
    ("get-log lid=0Ch bytes=16 offset=16", ANA[16:32],
     ["ana-log from offset 16:", "000000  01 00 00 00 02 00 00 00 00 00 00 00 00 00 00 00"], True),
]


class Records(unittest.TestCase):
    def test_the_worked_example(self):
        one = read_record(EXECUTED, 0)
        self.assertEqual((one.place, one.kind, one.answer, one.number, one.data), (1, 2, 1, 0, b""))
        self.assertEqual(tuple(one.completion), (0, 0, 1, 1, 0))
        self.assertEqual(record_bytes(one), EXECUTED)
        self.assertEqual(run_files.answer_text(one), "success, sq 1 cid 1")

    def test_each_answer(self):
        event = "02000400" + "00000000" + "0000" "0000" "0d00" "0000"
        ana = "02030c00" + "00000000" + "0000" "0000" "0b00" "0000"
        rows = [(record(0, 1, 0, 0), "held"), (record(0, 1, 2, 0), "waiting"), (record(0, 3, 3, 5), "no event"),
                (record(0, 1, 1, 0, "7f007f00" + "00" * 8 + "0900" "0000"), "success, result 7F007Fh, sq 0 cid 9"),
                (record(0, 4, 1, 0, "7f00010f20000000" "0000" "0100" "0200" "0000"),
                 "success, result 200F01007Fh, sq 1 cid 2"),
                (record(0, 2, 1, 0, "00" * 16, b"abc"), "success, sq 0 cid 0, 3 bytes"),
                (record(0, 3, 1, 5, event),
                 "success, event: namespace attribute changed (type 2, information 00h, log 04h), sq 0 cid 13"),
                (record(0, 3, 1, 5, ana),
                 "success, event: ANA change (type 2, information 03h, log 0Ch), sq 0 cid 11")]
        for blob, words in rows:
            with self.subTest(words=words):
                self.assertEqual(run_files.answer_text(read_record(blob, 0)), words)

    def test_each_status(self):
        for digits, words in STATUSES:
            blob = record(0, 1, 1, 0, "00" * 14 + digits)
            with self.subTest(words=words):
                self.assertEqual(run_files.answer_text(read_record(blob, 0)), words + ", sq 0 cid 0")

    def test_bad_records(self):
        for blob, words in BAD_RECORDS:
            with self.subTest(words=words), self.assertRaises(Bad) as caught:
                read_responses(blob)
            self.assertEqual(str(caught.exception), words)


class Pages(unittest.TestCase):
    def page(self, line, data):
        admin = "connect subsys=a\n"
        capsules = read_capsules(capsule_text.build(admin + line))
        records = read_responses(record(0, 1, 1, 1, data=data))
        return run_files.queue_calls("q", 1, capsules, records, True)[0]

    def test_each_page(self):
        for line, data, lines, whole in PAGES:
            call = self.page(line, data)
            printed = run_files.page_lines(call)
            with self.subTest(line=line):
                if whole:
                    self.assertEqual(printed, lines)
                for wanted in lines:
                    self.assertIn(wanted, printed)
                json.dumps(run_files.as_object(call))

    def test_pages_as_objects(self):
        page = run_files.as_object(self.page("get-log lid=0Ch bytes=56", ANA))["page"]
        self.assertEqual((page["kind"], page["chgcnt"], page["whole"], page["groups"]),
                         ("ana-log", 0, True,
                          [{"grpid": 1, "nnsids": 2, "chgcnt": 0, "state": "optimized", "nsids": [1, 2]}]))
        page = run_files.as_object(self.page("identify cns=1", CONTROLLER))["page"]
        self.assertEqual((page["kind"], page["nn"], page["subnqn"], page["mdts"]), ("id-ctrl", 2048, "testnqn", 5))
        page = run_files.as_object(self.page("identify cns=0 nsid=7", NAMESPACE))["page"]
        self.assertEqual((page["nsid"], page["nuse"], page["lbafs"]),
                         (7, 15, [{"ms": 0, "lbads": 9, "rp": 0, "in_use": True}]))
        self.assertEqual(run_files.as_object(self.page("identify cns=2", LIST))["page"]["nsids"], [1, 7])
        self.assertEqual(run_files.as_object(self.page("identify cns=3 nsid=1", DESCRIPTORS))["page"]["csi"], "0")


class Texts(unittest.TestCase):
    def test_journal(self):
        text = b"nvmet-journal 1\nplaces 9\nedit 3 1 ok\nedit 4 2 EBUSY\ndone 8 1"
        self.assertEqual([tuple(line) for line in read_journal(text)[1]],
                         [(3, "edit", 1, "ok"), (4, "edit", 2, "EBUSY"), (8, "done", 1, None)])
        rows = [(b"", "line 1"), (b"nvmet-journal 1\n", "line 2"), (b"nvmet-journal 1\nplaces 01\n", "line 2"),
                (b"nvmet-journal 1\nplaces 4294967296\n", "line 2"),
                (b"nvmet-journal 1\nplaces 0\nedit 0 1 EWRONG\n", "line 3"),
                (b"nvmet-journal 1\nplaces 1\nedit 0 1 ok\n\n", "line 4"),
                (b"nvmet-journal 1\nplaces 1\ndone 0 4294967296\n", "line 3")]
        for blob, words in rows:
            with self.subTest(blob=blob), self.assertRaisesRegex(Bad, "^%s: " % words):
                read_journal(blob)

    def test_plan(self):
        good = b"nvmet-plan 1\nsimple\ndisk /dev/ram0 9 16\nqueue 1 q1 r1\n"
        plan = read_plan(good)
        self.assertEqual((plan.simple, tuple(plan.disks[0]), tuple(plan.queues[0])),
                         (True, ("/dev/ram0", 9, 16), (1, "q1", "r1")))
        rows = [(b"", 1), (b"nvmet-plan 2\n", 1), (good.replace(b"disk", b"disc"), 3), (good.replace(b"9", b"10"), 3),
                (good.replace(b" 16", b" 016"), 3), (good.replace(b"1 q1", b"2 q1"), 4), (good + b"simple\n", 5),
                (good.replace(b"r1", b"q1"), 4), (good + b"disk /dev/ram0 9 16\n", 5), (good + b"config c\n", 5),
                (good.replace(b"queue", b"# queue"), 5), (b"nvmet-plan 1\nconfig c\n", 3),
                (b"nvmet-plan 1\nconfig c\njournal c\n", 3)]
        for blob, number in rows:
            with self.subTest(blob=blob), self.assertRaisesRegex(Bad, "^line %d: " % number):
                read_plan(blob)


class TheCommand(unittest.TestCase):
    def setUp(self):
        self.folder = tempfile.TemporaryDirectory()
        self.addCleanup(self.folder.cleanup)

    def put(self, name, blob):
        with open(os.path.join(self.folder.name, name), "wb") as file:
            file.write(blob)

    def run_it(self, *words):
        return run_tool(self.folder.name, "records", *words)

    def put_simple_run(self):
        self.put("plan", b"nvmet-plan 1\nsimple\ndisk /dev/ram0 9 16\nqueue 1 q1 r1\n")
        self.put("q1", capsule_text.build("read blocks=1\nread slba=16"))
        self.put("r1", record(0, 1, 0, 0) + record(1, 2, 1, 0, "00" * 10 + "0100" "0000" "0000", bytes(512))
                 + record(2, 1, 1, 1, "00" * 10 + "0100" "0100" "0081"))

    def test_a_simple_run(self):
        self.put_simple_run()
        status, out, _ = self.run_it("plan")
        self.assertEqual((status, out.splitlines()), (0, [
            "0  q1  submit   #0  read nsid=1 slba=0 blocks=1  held",
            "1  q1  execute  #0  read nsid=1 slba=0 blocks=1  success, sq 1 cid 0, 512 bytes",
            "2  q1  submit   #1  read nsid=1 slba=16 blocks=1  8100h LBA Out of Range (SCT 0, SC 80h, DNR), sq 1 cid 1",
        ]))
        self.assertEqual(self.run_it("r1", "--queue", "q1")[1].replace("queue", "q1"), out)
        self.assertEqual(self.run_it("r1")[1].splitlines()[0], "0  queue  submit   #0  held")
        objects = [json.loads(line) for line in self.run_it("plan", "--json")[1].splitlines()]
        self.assertEqual([one["place"] for one in objects], [0, 1, 2])
        self.assertEqual(objects[2]["completion"]["status"]["sc"], 0x80)
        self.assertEqual(objects[1]["data"], "00" * 512)
        self.assertIn("    000000  00 00", self.run_it("plan", "--data")[1])

    def test_a_run_of_several_queues_is_in_order_of_places(self):
        places = make_run(self.folder.name, commands=20, queues=4, disables=4)
        status, out, error = self.run_it("plan", "--pages")
        self.assertEqual((status, error), (0, ""))
        found = [line for line in out.splitlines() if not line.startswith("    ")]
        self.assertEqual([int(line.split()[0]) for line in found], list(range(places)))
        for words in ("enable 0  ok", "the drain ended", "EBUSY", "waiting", "no event", "namespace attribute changed"):
            self.assertIn(words, out)
        status, out, _ = self.run_it("j")
        self.assertEqual((status, out.splitlines()[0].split()[1:4]), (0, ["editor", "edit", "line"]))

    def test_places_that_do_not_fit(self):
        self.put_simple_run()
        self.put("r1", record(0, 1, 0, 0) + record(2, 2, 1, 0))
        status, _, error = self.run_it("plan")
        self.assertEqual((status, error), (1, "records: the files aren't those of one run: place 1 is missing\n"))
        self.put("r1", record(0, 1, 0, 0) + record(0, 2, 1, 0))
        self.assertIn("place 0 is there twice", self.run_it("plan")[2])

    def test_exit_statuses(self):
        self.put_simple_run()
        self.put("r1", EXECUTED[:30])
        self.assertEqual(self.run_it("plan")[::2], (1, "records: r1: offset 0: the record is cut, 30 of 32 bytes\n"))
        self.assertEqual(self.run_it("none")[0], 1)
        self.assertEqual(self.run_it()[0], 2)
        self.assertEqual(self.run_it("plan", "--yaml")[0], 2)
        self.assertEqual(self.run_it("--help")[0], 0)


if __name__ == "__main__":
    unittest.main()
