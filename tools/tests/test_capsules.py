"""Queue files from text and back: each command's bytes as the formats have them, errors, and exact round trips."""

import glob
import os
import random
import tempfile
import unittest

import capsule_text
import nvmet_formats
from nvmet_formats import Bad
from support import REPOSITORY, entry, run_tool

# A line, its entry as bytes at offsets (flags 40h and cid 0 where none are given), and its data.
COMMANDS = [
    ("flush", entry({0: "00", 4: "01000000"}), b""),
    ("flush nsid=0xFFFFFFFF cid=65535", entry({2: "ffff", 4: "ffffffff"}), b""),
    ("write cid=1 slba=0 blocks=8 data=zeros",
     entry({0: "01", 2: "0100", 4: "01000000", 32: "00100000", 40: "0000000000000000", 48: "07000000"}), bytes(4096)),
    ("read nsid=7 slba=4294967297 blocks=65536 length=5",
     entry({0: "02", 4: "07000000", 32: "05000000", 40: "0100000001000000", 48: "ffff0000"}), b""),
    ("read", entry({0: "02", 4: "01000000", 32: "00020000"}), b""),
    ("write-zeroes slba=16 blocks=2", entry({0: "08", 4: "01000000", 40: "1000000000000000", 48: "01000000"}), b""),
    ("property-set cc=460001h",
     entry({0: "7f", 4: "00", 40: "00000000", 44: "14000000", 48: "0100460000000000"}), b""),
    ("property-set size=1 offset=1Ch value=FFFFFFFFFFFFFFFFh",
     entry({0: "7f", 4: "00", 40: "01000000", 44: "1c000000", 48: "ffffffffffffffff"}), b""),
    ("property-get property=cap", entry({0: "7f", 4: "04", 40: "01000000"}), b""),
    ("property-get property=vs", entry({0: "7f", 4: "04", 44: "08000000"}), b""),
    ("property-get property=cc", entry({0: "7f", 4: "04", 44: "14000000"}), b""),
    ("property-get property=csts", entry({0: "7f", 4: "04", 44: "1c000000"}), b""),
    ("identify cns=1", entry({0: "06", 32: "00100000", 40: "01000000"}), b""),
    ("identify cns=3 nsid=9 length=4095", entry({0: "06", 4: "09000000", 32: "ff0f0000", 40: "03000000"}), b""),
    ("get-log lid=4 rae=1", entry({0: "02", 32: "00100000", 40: "0480ff03"}), b""),
    ("get-log lid=0Ch bytes=48 rgo=1 offset=16",
     entry({0: "02", 32: "30000000", 40: "0c010b00", 48: "1000000000000000"}), b""),
    ("get-log lid=12 bytes=1048576", entry({0: "02", 32: "00001000", 40: "0c00ffff", 44: "03000000"}), b""),
    ("set-features fid=0Bh value=900h", entry({0: "09", 40: "0b000000", 44: "00090000"}), b""),
    ("get-features fid=7", entry({0: "0a", 40: "07000000"}), b""),
    ("event-request cid=10", entry({0: "0c", 2: "0a00"}), b""),
    ("abort sqid=3 command=258", entry({0: "08", 40: "03000201"}), b""),
    ("keep-alive", entry({0: "18"}), b""),
    ("raw opcode=7Eh flags=0 cid=1 nsid=2 cdw2=3 cdw3=4 mptr=5 sgl-address=6 length=0 sgl-rest=7 cdw10=8 cdw11=9 "
     "cdw12=10 cdw13=11 cdw14=12 cdw15=13",
     entry({0: "7e", 1: "00", 2: "0100", 4: "02000000", 8: "03000000", 12: "04000000", 16: "0500000000000000",
            24: "0600000000000000", 36: "07000000", 40: "08000000", 44: "09000000", 48: "0a000000", 52: "0b000000",
            56: "0c000000", 60: "0d000000"}), b""),
    ("raw opcode=5 nsid=1 data=hex:c0ffee", entry({0: "05", 4: "01000000", 32: "03000000"}), b"\xc0\xff\xee"),
    ("raw opcode=7Fh fctype=5 data=hex:01", entry({0: "7f", 4: "05", 32: "01000000"}), b"\x01"),
]


def connect_data(cntlid, subsys, host=b"", hostid=b""):
    """Connect data: host identifier, CNTLID at 16, subsystem at 256, host at 512."""
    blob = bytearray(1024)
    blob[0:len(hostid)] = hostid
    blob[16:18] = cntlid
    blob[256:256 + len(subsys)] = subsys
    blob[512:512 + len(host)] = host
    return bytes(blob)


CONNECTS = [
    ("connect subsys=gen", entry({0: "7f", 4: "01", 32: "00040000", 44: "1f00"}), connect_data(b"\xff\xff", b"gen")),
    ("connect qid=3 subsys=gen host=hostnqn",
     entry({0: "7f", 4: "01", 32: "00040000", 42: "0300", 44: "7f00"}), connect_data(b"\x01\x00", b"gen", b"hostnqn")),
    ("connect qid=1 sqsize=0 cntlid=2 subsys=a host=b hostid=00112233-4455-6677-8899-aabbccddeeff kato=5 cattr=4 "
     "recfmt=1",
     entry({0: "7f", 4: "01", 32: "00040000", 40: "0100", 42: "0100", 46: "04", 48: "05000000"}),
     connect_data(b"\x02\x00", b"a", b"b", bytes.fromhex("00112233445566778899aabbccddeeff"))),
    ("connect data=fill:FFh sqsize=31", entry({0: "7f", 4: "01", 32: "00040000", 44: "1f00"}), b"\xff" * 1024),
]

BAD_LINES = [
    ("writ", "no command 'writ'"),
    ("5x", "a repeat is a number"),
    ("0x read", "a repeat is a number"),
    ("read slba", "'slba' is no NAME=VALUE"),
    ("read slba=1 slba=2", "'slba=2' is given twice"),
    ("read lba=1", "read has no field 'lba'"),
    ("read slba=1g", "'1g' is no number"),
    ("read blocks=0", "blocks=0 isn't from 1 to 65536"),
    ("read blocks=65537", "blocks=65537 isn't from 1 to 65536"),
    ("read cid=65536", "cid=65536 isn't from 0 to 65535"),
    ("2x read cid=65535+1", "cid=65536 isn't from 0 to 65535"),
    ("write", "data= is missing"),
    ("write data=no/such/file", "no/such/file: cannot read"),
    ("write data=hex:0", "isn't pairs of hexadecimal digits"),
    ("write data=hex:00", "the data have 1 bytes, and the length is 512"),
    ("read data=zeros", "data= on a command whose data don't go to the controller"),
    ("raw cid=1", "raw needs opcode="),
    ("raw opcode=1 length=131073 data=zeros", "131073 bytes of data, more than 131072"),
    ("get-log bytes=2", "bytes=2 isn't a multiple of 4 above 0"),
    ("connect data=zeros subsys=a", "data= or the names of its fields"),
    ("connect subsys=" + "a" * 257, "subsys has more than 256 bytes"),
    ("block-size 1024", "block-size is 512 or 4096"),
    ("65537x flush", "more than 65536 capsules"),
    ("513x raw opcode=2 length=131072", "the responses may need"),
]


class Writing(unittest.TestCase):
    def test_each_command_has_its_bytes(self):
        for line, wanted, data in COMMANDS + CONNECTS:
            with self.subTest(line=line):
                self.assertEqual(capsule_text.build(line).hex(), (wanted + data).hex())

    def test_each_command_is_tried(self):
        tried = {line.split()[0] for line, _, _ in COMMANDS + CONNECTS}
        self.assertEqual(tried, set(nvmet_formats.COMMAND_BY_NAME) | {"raw"})

    def test_data(self):
        rows = [("pattern:250", bytes(j % 256 for j in range(250, 762))),
                ("pattern:1,7", bytes((1 + 7 * j) % 256 for j in range(512))),
                ("fill:7", b"\x07" * 512), ("zeros", bytes(512))]
        for text, wanted in rows:
            with self.subTest(text=text):
                self.assertEqual(capsule_text.build("write data=" + text)[64:], wanted)

    def test_repeats_comments_and_steps(self):
        text = "# first\n\n  3x write slba=8+2 data=pattern:1+10 # last\n\tflush\r\n"
        blob = capsule_text.build(text)
        self.assertEqual(len(blob), 3 * (64 + 512) + 64)
        for turn in range(3):
            capsule = blob[turn * 576:turn * 576 + 576]
            self.assertEqual(capsule[2:4], bytes([turn, 0]))
            self.assertEqual(capsule[40:48], bytes([8 + 2 * turn]) + bytes(7))
            self.assertEqual(capsule[64], 1 + 10 * turn)
        self.assertEqual(blob[3 * 576:].hex(), entry({2: "0300", 4: "01000000"}).hex())

    def test_block_size(self):
        self.assertEqual(capsule_text.build("block-size 4096\nread")[32:36].hex(), "00100000")
        self.assertEqual(capsule_text.build("read blocks=2", 4096)[32:36].hex(), "00200000")

    def test_data_of_a_file(self):
        with tempfile.TemporaryDirectory() as folder:
            name = os.path.join(folder, "data")
            with open(name, "wb") as file:
                file.write(b"x" * 1024)
            blob = capsule_text.build("write data=" + name)
            self.assertEqual((blob[32:36].hex(), blob[48:52].hex(), blob[64:]), ("00040000", "01000000", b"x" * 1024))
            with self.assertRaisesRegex(Bad, "line 1: the data have 1024 bytes, and the length is 512"):
                capsule_text.build("write blocks=1 data=" + name)

    def test_an_error_names_its_line(self):
        for line, words in BAD_LINES:
            with self.subTest(line=line), self.assertRaises(Bad) as caught:
                capsule_text.build("flush\n# passed over\n" + line + "\nnothing")
            self.assertTrue(str(caught.exception).startswith("line 3: "), caught.exception)
            self.assertIn(words, str(caught.exception))


def random_capsule(draw):
    """An entry of a command with random fields, or of any bits, with the data that it needs."""
    number = draw.getrandbits(512) if draw.random() < 0.3 else 0
    if draw.random() < 0.8:
        command = draw.choice(nvmet_formats.COMMANDS)
        number = nvmet_formats.with_bits(number, (0, 16), command.opcode | 0x4000)
        number = nvmet_formats.with_bits(number, (32, 8), command.fctype or draw.randrange(4))
        for field in command.fields:
            value = draw.choice([0, 1, draw.getrandbits(field.bits)])
            number = nvmet_formats.with_bits(number, field[1:3], value)
    length = draw.choice([0, 1, 512, 1024, 4096, draw.randrange(3000)])
    number = nvmet_formats.with_bits(number, (256, 32), length)
    if nvmet_formats.direction(number) != nvmet_formats.TO_CONTROLLER:
        return number.to_bytes(64, "little")
    names = bytearray(length)
    for at in (256, 512):
        names[at:at + 9] = draw.choice([b"nqn.a", b"#a b", b"\n\x85\xa0", b"a\0b", b""]).ljust(9, b"\0")
    data = draw.choice([bytes(length), capsule_text.pattern(draw.randrange(256), draw.randrange(256), length),
                        bytes(draw.getrandbits(8) for _ in range(length)), bytes(names[:length])])
    return number.to_bytes(64, "little") + data


class RoundTrip(unittest.TestCase):
    def again(self, blob, block_size=512):
        text = capsule_text.say(blob, block_size)
        self.assertRegex(text, "^[ -~\n]*$")
        self.assertEqual(capsule_text.build(text).hex(), blob.hex())
        return text

    def test_each_command_is_said_by_its_name(self):
        for line, wanted, data in COMMANDS + CONNECTS:
            text = self.again(wanted + data)
            name = line.split()[0]
            if name not in ("get-log", "abort", "raw"):
                self.assertEqual(text.splitlines()[2].split()[0], name)
        admin = capsule_text.say(capsule_text.build("connect subsys=a\nget-log lid=4\nabort sqid=1"))
        self.assertEqual([line.split()[0] for line in admin.splitlines()[3:]], ["get-log", "abort"])

    def test_examples(self):
        names = glob.glob(os.path.join(REPOSITORY, "examples", "*", "q*")) + glob.glob(
            os.path.join(REPOSITORY, "crates", "*", "data", "q*"))
        self.assertTrue(names)
        for name in names:
            with self.subTest(name=name), open(name, "rb") as file:
                blob = file.read()
                if name.endswith(".txt"):
                    with open(name[:-len(".txt")], "rb") as queue:
                        self.assertEqual(capsule_text.build(blob.decode()), queue.read())
                else:
                    self.again(blob)

    def test_a_thousand_random_files(self):
        draw = random.Random(20)
        for _ in range(1000):
            self.again(b"".join(random_capsule(draw) for _ in range(draw.randrange(6))), draw.choice([512, 4096]))

    def test_repeats_are_said_once(self):
        text = self.again(capsule_text.build("4x event-request\n2x keep-alive"))
        self.assertEqual(text.splitlines()[2:], ["4x event-request", "2x keep-alive"])

    def test_what_is_not_well_formed_is_named(self):
        good = capsule_text.build("flush\nwrite data=zeros")
        rows = [(good[:-1], "offset 64: the data are cut, 511 of 512 bytes"),
                (good + b"ab", "offset 640: the entry is cut, 2 of 64 bytes"),
                (good[:64] + entry({0: "01", 32: "01000200"}), "offset 64: 131073 bytes of data, more than 131072"),
                (bytes(64) * 65537, "offset 4194304: more than 65536 capsules")]
        for blob, words in rows:
            with self.subTest(words=words), self.assertRaises(Bad) as caught:
                capsule_text.say(blob)
            self.assertEqual(str(caught.exception), words)


class TheCommand(unittest.TestCase):
    def setUp(self):
        self.folder = tempfile.TemporaryDirectory()
        self.addCleanup(self.folder.cleanup)

    def put(self, name, blob):
        with open(os.path.join(self.folder.name, name), "wb") as file:
            file.write(blob)

    def get(self, name):
        with open(os.path.join(self.folder.name, name), "rb") as file:
            return file.read()

    def test_there_and_back(self):
        self.put("t", b"2x read slba=0+8 blocks=8\n")
        self.assertEqual(run_tool(self.folder.name, "capsules", "write", "t", "q")[0], 0)
        self.assertEqual(len(self.get("q")), 128)
        status, out, _ = run_tool(self.folder.name, "capsules", "print", "q")
        self.assertEqual((status, out.splitlines()[2:]),
                         (0, ["read nsid=1 slba=0 blocks=8", "read nsid=1 slba=8 blocks=8"]))
        self.assertEqual(run_tool(self.folder.name, "capsules", "write", "-", "q2", text=out)[0], 0)
        self.assertEqual(self.get("q2"), self.get("q"))
        self.assertEqual(sorted(os.listdir(self.folder.name)), ["q", "q2", "t"])

    def test_exit_statuses(self):
        self.put("t", b"flush\nfluss\n")
        self.put("q", b"kept")
        status, _, error = run_tool(self.folder.name, "capsules", "write", "t", "q")
        self.assertEqual((status, self.get("q")), (1, b"kept"))
        self.assertTrue(error.startswith("capsules: t: line 2: no command 'fluss'"), error)
        self.assertEqual(run_tool(self.folder.name, "capsules", "print", "q")[::2],
                         (1, "capsules: q: offset 0: the entry is cut, 4 of 64 bytes\n"))
        self.assertEqual(run_tool(self.folder.name, "capsules", "print", "none")[0], 1)
        self.assertEqual(run_tool(self.folder.name, "capsules", "write", "t", "no/such/q")[0], 1)
        for words in ((), ("print",), ("write", "t"), ("wrote", "t", "q"), ("print", "q", "--no")):
            self.assertEqual(run_tool(self.folder.name, "capsules", *words)[0], 2, words)
        self.assertEqual(run_tool(self.folder.name, "capsules", "--help")[0], 0)

    def test_what_was_read_is_not_overwritten(self):
        self.put("t", b"write data=d\n")
        self.put("d", b"x" * 512)
        os.link(os.path.join(self.folder.name, "d"), os.path.join(self.folder.name, "also-d"))
        for name in ("./t", "d", "also-d"):
            status, _, error = run_tool(self.folder.name, "capsules", "write", "t", name)
            self.assertEqual(status, 1)
            self.assertIn("was read, and isn't written over", error)
        self.assertEqual((self.get("t"), self.get("d")), (b"write data=d\n", b"x" * 512))
        self.assertEqual(sorted(os.listdir(self.folder.name)), ["also-d", "d", "t"])

    def test_a_failed_write_leaves_what_was_there(self):
        self.put("t", b"flush\n")
        os.mkdir(os.path.join(self.folder.name, "q"))
        self.assertEqual(run_tool(self.folder.name, "capsules", "write", "t", "q")[0], 1)
        self.assertEqual(run_tool(self.folder.name, "capsules", "write", "t", "/dev/full")[0], 1)
        self.assertEqual(sorted(os.listdir(self.folder.name)), ["q", "t"])


if __name__ == "__main__":
    unittest.main()
