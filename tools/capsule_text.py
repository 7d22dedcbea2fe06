"""Queue files as text: one command a line, with the names of its fields.

    # a comment
    block-size 4096
    write nsid=1 slba=0 blocks=8 data=pattern:0
    100x read slba=0+8 blocks=8
    raw opcode=7Eh cdw10=1

`build` makes the bytes of such a text, and `say` the text of such bytes.
"""

import re

from nvmet_formats import (
    BLOCKS, BY_BLOCKS, BY_BYTES, BY_DATA, CAPSULE_LIMIT, COMMAND_BY_NAME, CONNECT_BYTES, CONNECT_FIELDS,
    ENTRY_FIELDS, FABRICS, FCTYPE, NSID_OF_IO, NUMD_HIGH, NUMD_LOW, PAGE_BYTES, PROPERTIES, QUEUE_FILE_LIMIT,
    ROOM_LIMIT, ROOM_OF_FILE, SLBA, TO_CONTROLLER, TRANSFER_LIMIT, Bad, Command, Field, bits_of, capsule_bytes,
    command_of, direction, read_capsules, read_file, room_of, serves_admin, with_bits)

BLOCK_SIZES = (512, 4096)
RAW = Command("raw", None, None, [Field("fctype", *FCTYPE)], BY_DATA)
LONGEST_NUMBER = 40  # digits; no field has more than 20
FLAGS = 0x40  # an SGL, and no fused command
PLAIN_NAME = re.compile(b"[!-~]*")


def number(text):
    """A number: 10, 0x0A or 0Ah."""
    if len(text) > LONGEST_NUMBER:
        raise Bad("'%s..' is no number of any field" % text[:LONGEST_NUMBER])
    if re.fullmatch("[0-9]+", text):
        return int(text)
    if re.fullmatch("0[xX][0-9a-fA-F]+", text):
        return int(text, 16)
    if re.fullmatch("[0-9a-fA-F]+[hH]", text):
        return int(text[:-1], 16)
    raise Bad("'%s' is no number (10, 0x0A and 0Ah are one)" % text)


def stepped(text, turn):
    """A number, or FIRST+STEP, which grows by STEP with each turn of a repeated line."""
    first, plus, step = text.partition("+")
    return number(first) + (number(step) * turn if plus else 0)


def pattern(first, step, length):
    """Bytes of which byte j is first + step * j, modulo 256."""
    once = bytes((first + step * j) % 256 for j in range(256))
    return (once * (length // 256 + 1))[:length]


def data_of(text, turn, length):
    """The bytes that `data=` names. Without a length only a file or `hex:` says how many."""
    kind, colon, rest = text.partition(":")
    if text == "zeros" or (kind in ("pattern", "fill") and colon):
        if length is None:
            raise Bad("data=%s needs a length" % text)
        if text == "zeros":
            return bytes(length)
        first, comma, step = rest.partition(",")
        if kind == "fill":
            return pattern(stepped(rest, turn), 0, length)
        return pattern(stepped(first, turn), number(step) if comma else 1, length)
    if kind == "hex" and colon:
        if not re.fullmatch("([0-9a-fA-F]{2})*", rest):
            raise Bad("'%s' isn't pairs of hexadecimal digits" % rest[:40])
        return bytes.fromhex(rest)
    try:
        return read_file(text)
    except Bad as bad:
        raise Bad("%s: %s" % (text, bad))


def connect_data(words, turn):
    """The data of a Connect by the names of their fields."""
    blob = bytearray(CONNECT_BYTES)
    for name, (offset, size) in CONNECT_FIELDS.items():
        text = words.get(name)
        if text is None:
            continue
        if name == "cntlid":
            part = fitted(name, stepped(text, turn), 16).to_bytes(2, "little")
        elif name == "hostid":
            part = data_of("hex:" + text.replace("-", ""), turn, None)
        else:
            part = text.encode("latin-1")
        if len(part) > size:
            raise Bad("%s has more than %d bytes" % (name, size))
        blob[offset:offset + len(part)] = part
    return bytes(blob)


def fitted(name, value, bits, plus=0):
    """A number that has room in its field, as the field holds it."""
    if not 0 <= value + plus < 1 << bits:
        raise Bad("%s=%d isn't from %d to %d" % (name, value, -plus, (1 << bits) - 1 - plus))
    return value + plus


def with_shorthands(command, words):
    """The words of a line with its shorthands written out."""
    words = dict(words)
    if command.name == "connect":
        admin = number(words.get("qid", "0").partition("+")[0]) == 0
        words.setdefault("sqsize", "31" if admin else "127")
        if "data" not in words:
            words.setdefault("cntlid", "FFFFh" if admin else "1")
    if command.name.startswith("property"):
        for name, (offset, size) in PROPERTIES.items():
            value = words.pop(name, None) if command.name == "property-set" else None
            if value is not None or words.get("property") == name:
                words.update(offset=str(offset), size=str(size))
                words.update({} if value is None else {"value": value})
        if words.get("property") in PROPERTIES:
            words.pop("property")
    return words


def known_words(command):
    """The names that a line of this command may use."""
    names = {field.name for field in command.fields} | set(ENTRY_FIELDS) - {"opcode"} | {"data"}
    if command.name == "connect":
        names |= set(CONNECT_FIELDS)
    if command.name == "raw":
        names.add("opcode")
    return names | ({"bytes"} if command.length == BY_BYTES else set())


def own_words(command):
    """The names that mean something for this command alone, for a message."""
    fields = [field.name for field in command.fields]
    return fields + sorted(known_words(command) - set(ENTRY_FIELDS) - set(fields))


def refuse_unknown(command, words):
    """Refuses a name that no field of the command has."""
    for name in words:
        if name not in known_words(command):
            raise Bad("%s has no field '%s'; it has %s" % (
                command.name, name, " ".join(own_words(command))))
    if command.name == "connect" and "data" in words and any(name in words for name in CONNECT_FIELDS):
        raise Bad("connect takes data= or the names of its fields, and not both")
    if command.name == "raw" and "opcode" not in words:
        raise Bad("raw needs opcode=")


def entry_of(command, words, turn, position):
    """The entry of a command without its length."""
    entry = with_bits(0, ENTRY_FIELDS["flags"], FLAGS)
    entry = with_bits(entry, ENTRY_FIELDS["cid"], position % (1 << 16))
    if command.opcode is not None:
        entry = with_bits(entry, ENTRY_FIELDS["opcode"], command.opcode)
    if command.fctype is not None:
        entry = with_bits(entry, FCTYPE, command.fctype)
    for name, (start, bits) in ENTRY_FIELDS.items():
        if name in words and not any(field.name == name for field in command.fields):
            entry = with_bits(entry, (start, bits), fitted(name, stepped(words[name], turn), bits))
    for field in command.fields:
        value = field.default
        if field.name in words:
            value = stepped(words[field.name], turn)
        elif field_is_said(words, field):
            continue
        entry = with_bits(entry, field[1:3], fitted(field.name, value, field.bits, field.plus))
    return entry


def field_is_said(words, field):
    """Whether the line gives the bits of a field by the name of an entry's dword."""
    return any(name in words and start <= field.start < start + bits for name, (start, bits) in ENTRY_FIELDS.items())


def length_by(command, words, entry, given, block_size):
    """The length that a command has where its line names none."""
    if command.length == BY_BLOCKS:
        return (bits_of(entry, BLOCKS[1:3]) + 1) * block_size
    if command.length == BY_DATA:
        return len(given) if given is not None else 0
    return command.length


def blocks_from_data(command, words, given, block_size):
    """A Write of a file has as many blocks as the file fills, where its line doesn't say."""
    if command.length != BY_BLOCKS or "blocks" in words or given is None or not given or len(given) % block_size:
        return words
    return dict(words, blocks=str(len(given) // block_size))


def given_data(command, words, turn):
    """The data of a line where they say their own length, else None."""
    if command.name == "connect" and "data" not in words:
        return connect_data(words, turn)
    text = words.get("data")
    if text is None or text == "zeros" or re.match("(pattern|fill):", text):
        return None
    return data_of(text, turn, None)


def capsule_of(command, words, turn, position, block_size):
    """One capsule, as entry and data."""
    words = with_shorthands(command, words)
    refuse_unknown(command, words)
    given = given_data(command, words, turn)
    words = blocks_from_data(command, words, given, block_size)
    entry = entry_of(command, words, turn, position)
    if command.length == BY_BYTES:
        entry, length = with_transfer(entry, words, turn)
    else:
        length = length_by(command, words, entry, given, block_size)
    if "length" in words:
        length = stepped(words["length"], turn)
    entry = with_bits(entry, ENTRY_FIELDS["length"], fitted("length", length, 32))
    return entry, capsule_data(entry, words, turn, given, length)


def with_transfer(entry, words, turn):
    """A Get Log Page with the number of its dwords, and its length."""
    length = stepped(words.get("bytes", str(PAGE_BYTES)), turn)
    if length % 4 or not length:
        raise Bad("bytes=%d isn't a multiple of 4 above 0" % length)
    dwords = fitted("bytes", length // 4 - 1, 32)
    entry = with_bits(entry, NUMD_LOW, dwords & 0xFFFF)
    return with_bits(entry, NUMD_HIGH, dwords >> 16), length


def capsule_data(entry, words, turn, given, length):
    """The data that stand after an entry."""
    if direction(entry) != TO_CONTROLLER:
        if "data" in words:
            raise Bad("data= on a command whose data don't go to the controller")
        return b""
    if length > TRANSFER_LIMIT:
        raise Bad("%d bytes of data, more than %d" % (length, TRANSFER_LIMIT))
    if given is None:
        if "data" not in words and length:
            raise Bad("data= is missing: data=FILE, pattern:FIRST, fill:BYTE, zeros or hex:DIGITS")
        given = data_of(words["data"], turn, length) if length else b""
    if len(given) != length:
        raise Bad("the data have %d bytes, and the length is %d" % (len(given), length))
    return given


def words_of(line):
    """The words of a line before its comment."""
    words = []
    for word in re.split("[ \t\r]+", line.strip(" \t\r")):
        if word.startswith("#") or not word:
            break
        words.append(word)
    return words


def parse_line(words):
    """How often, the command, and its fields by name."""
    repeat = re.fullmatch("([0-9]+)x", words[0])
    times = number(repeat.group(1)) if repeat else 1
    words = words[1:] if repeat else words
    if not words or times < 1:
        raise Bad("a repeat is a number from 1, 'x', and a command")
    name, fields = words[0], {}
    command = RAW if name == "raw" else COMMAND_BY_NAME.get(name)
    if not command:
        raise Bad("no command '%s'; there are %s raw" % (name, " ".join(COMMAND_BY_NAME)))
    for word in words[1:]:
        key, equals, value = word.partition("=")
        if not equals or key in fields:
            raise Bad("'%s' is %s" % (word, "given twice" if equals else "no NAME=VALUE"))
        fields[key] = value
    return times, command, fields


def build(text, block_size=512):
    """The bytes of a queue file. Raises Bad with the number of the first line that is none."""
    blob, position, room = bytearray(), 0, ROOM_OF_FILE
    for at, line in enumerate(text.split("\n"), 1):
        words = words_of(line)
        try:
            if not words:
                continue
            if words[0] == "block-size":
                block_size = read_block_size(words)
                continue
            times, command, fields = parse_line(words)
            for turn in range(times):
                entry, data = capsule_of(command, fields, turn, position, block_size)
                blob += capsule_bytes(entry, data)
                position, room = position + 1, room + room_of(entry)
                refuse_too_much(position, len(blob), room)
        except Bad as bad:
            raise Bad("line %d: %s" % (at, bad))
    return bytes(blob)


def refuse_too_much(capsules, size, room):
    """Refuses what the program would refuse: too many capsules or bytes, or too much room for their responses."""
    if capsules > CAPSULE_LIMIT:
        raise Bad("more than %d capsules" % CAPSULE_LIMIT)
    if size > QUEUE_FILE_LIMIT:
        raise Bad("more than %d bytes" % QUEUE_FILE_LIMIT)
    if room > ROOM_LIMIT:
        raise Bad("the responses may need %d bytes, more than %d" % (room, ROOM_LIMIT))


def read_block_size(words):
    """The block size of the lines after this one."""
    size = number(words[1]) if len(words) == 2 else 0
    if size not in BLOCK_SIZES:
        raise Bad("block-size is 512 or 4096")
    return size


# From bytes to text

def shown(name, value):
    """A number as the text has it: decimal where people count, else hexadecimal."""
    counted = ("nsid", "slba", "blocks", "length", "cid", "qid", "sqsize", "bytes", "sqid", "command", "rgo", "rae",
               "offset", "size", "kato", "recfmt")
    if value < 10 or name in counted and value < 1 << (16 if name == "nsid" else 32):
        return str(value)
    return "%Xh" % value if "%X" % value < "A" else "0%Xh" % value


def data_text(data):
    """The shortest `data=` that gives these bytes."""
    if not any(data):
        return "zeros"
    first, step = data[0], (data[1] - data[0]) % 256 if len(data) > 1 else 0
    if data == pattern(first, step, len(data)):
        return "fill:%d" % first if step == 0 else "pattern:%d" % first + ("" if step == 1 else ",%d" % step)
    return "hex:" + data.hex()


def connect_words(data):
    """The fields of Connect data as words, or the data as they are where names say less."""
    if len(data) != CONNECT_BYTES:
        return {"data": data_text(data)} if data else {}
    words = {}
    for name, (offset, size) in CONNECT_FIELDS.items():
        part = data[offset:offset + size]
        if name == "cntlid":
            words[name] = shown("value", int.from_bytes(part, "little"))
        elif name == "hostid":
            words.update({name: part.hex()} if any(part) else {})
        elif not PLAIN_NAME.fullmatch(part.rstrip(b"\0")):
            return {"data": data_text(data)}
        elif any(part):
            words[name] = part.rstrip(b"\0").decode("ascii")
    return words


def property_words(command, words):
    """The offset and size of a property by its name, where it has one."""
    for name, (offset, size) in PROPERTIES.items():
        if (number(words.get("offset", "0")), number(words.get("size", "0"))) == (offset, size):
            rest = {key: value for key, value in words.items() if key not in ("offset", "size")}
            if command.name == "property-get":
                return dict(property=name, **rest)
            value = rest.pop("value", "0")
            return dict({name: value}, **rest)
    return words


def words_by(command, entry, data):
    """The words by which a command says an entry, as far as its fields reach."""
    words = {}
    for field in command.fields:
        value = bits_of(entry, field[1:3]) - field.plus
        if value != field.default or field in (NSID_OF_IO, SLBA, BLOCKS):
            words[field.name] = shown(field.name, value)
    if command.name == "connect":
        words = dict({"qid": str(bits_of(entry, (336, 16))), "sqsize": str(bits_of(entry, (352, 16)))}, **words)
        words.update(connect_words(data))
    elif command.name.startswith("property"):
        words = property_words(command, words)
    if command.length == BY_BYTES:
        dwords = bits_of(entry, NUMD_LOW) | bits_of(entry, NUMD_HIGH) << 16
        words["bytes"] = str(4 * dwords + 4)
    if direction(entry) == TO_CONTROLLER and data and command.name != "connect":
        words["data"] = data_text(data)
    return words


def raw_words(entry, data):
    """The words of `raw` for an entry: every field that isn't as usual."""
    words = {"opcode": shown("opcode", bits_of(entry, ENTRY_FIELDS["opcode"]))}
    if bits_of(entry, ENTRY_FIELDS["opcode"]) == FABRICS and bits_of(entry, ENTRY_FIELDS["nsid"]) < 256:
        words["fctype"] = shown("fctype", bits_of(entry, FCTYPE))
    elif bits_of(entry, ENTRY_FIELDS["nsid"]):
        words["nsid"] = shown("nsid", bits_of(entry, ENTRY_FIELDS["nsid"]))
    for name in ENTRY_FIELDS:
        value = bits_of(entry, ENTRY_FIELDS[name])
        if name not in ("opcode", "flags", "cid", "nsid", "length") and value:
            words[name] = shown(name, value)
    if direction(entry) == TO_CONTROLLER and data:
        words["data"] = data_text(data)
    return words


def with_usual(words, command, entry, position, block_size):
    """The words with flags, command identifier and length where they aren't as usual."""
    value = lambda name, entry: bits_of(entry, ENTRY_FIELDS[name])
    try:
        built = capsule_of(command, words, 0, position, block_size)[0]
    except Bad:
        # the data don't have the usual length
        words = dict(words, length=shown("length", value("length", entry)))
        try:
            built = capsule_of(command, words, 0, position, block_size)[0]
        except Bad:
            return words
    unusual = [name for name in ("flags", "cid", "length") if value(name, built) != value(name, entry)]
    return dict(words, **{name: shown(name, value(name, entry)) for name in unusual})


def say_entry(entry, data, position, block_size=512, admin=False):
    """A capsule as a command and its words: by name where its fields say all of it, else as `raw`."""
    command = command_of(entry, admin)
    for form in ([command] if command else []) + [RAW]:
        words = raw_words(entry, data) if form is RAW else words_by(form, entry, data)
        words = with_usual(words, form, entry, position, block_size)
        try:
            read = parse_line(words_of(line_of(form.name, words)))
            if read[0] == 1 and capsule_of(read[1], read[2], 0, position, block_size) == (entry, data):
                return form.name, words
        except Bad:
            pass
    raise AssertionError("no text says this entry: %0128x" % entry)


def line_of(name, words):
    """A command and its words as a line."""
    return " ".join([name] + ["%s=%s" % pair for pair in words.items()])


def say(blob, block_size=512):
    """The text of a queue file, of which `build` makes the same bytes."""
    capsules = read_capsules(blob)
    admin = serves_admin(capsules)
    lines, last, times = [], None, 0
    for position, capsule in enumerate(capsules):
        line = line_of(*say_entry(capsule.entry, capsule.data, position, block_size, admin))
        if line == last:
            times += 1
            lines[-1] = "%dx %s" % (times, line)
        else:
            lines.append(line)
            last, times = line, 1
    head = ["# %d capsules, %d bytes" % (len(capsules), len(blob)), "block-size %d" % block_size]
    return "\n".join(head + lines) + "\n"
