"""A run as an SVG: lanes for the editor and the queues, places along the axis."""

from collections import Counter, namedtuple
from nvmet_formats import (
    ANSWERED, CONTROL, DISABLE, EXECUTE, HELD, POLL, SUBMIT, WAITING, read_event, read_status)
from run_files import EDITOR, line_of
from svg import INK, RAIL, SOFT, circle, cross, diamond, line, rect, sheet as svg_sheet, short, tag, words

BAND_ABOVE = 800  # places from which on the lanes are bands
PLOT_WIDTH, LEFT, RIGHT, TOP = 1400, 130, 30, 76
WIDEST, NARROWEST = 44, 3  # pixels of a place
LANE, BAND_LANE, AXIS = 72, 92, 40
LEGEND_WIDTH = 1240
BAND, BIN_PIXELS, BIN_PLACES = 46, 4, 6  # height of a band; the least width of one stretch
FULL_SHARE = 0.98  # so many stretches fit into a band; what is higher is cut at its edge
RED, AMBER, GREEN, VIOLET = "#c62828", "#f0a020", "#2e7d32", "#6a3d9a"
NOTICE = "#e65100"

# Kinds of command: letter, colour, words.
READ, WRITE, ZEROES, FLUSH, ADMIN, FABRIC = "read", "write", "write-zeroes", "flush", "admin", "fabrics"
LETTERS = {READ: "R", WRITE: "W", ZEROES: "Z", FLUSH: "F", "identify": "I", "get-log": "L", "set-features": "S",
           "get-features": "G", "event-request": "E", "abort": "A", "keep-alive": "K", "connect": "C",
           "property-set": "P", "property-get": "P", "raw": "?"}
LETTERS_TOLD = ("A letter and the namespace: R read, W write, Z write-zeroes, F flush. I identify, L get-log, "
                "S set-features, G get-features, E event-request, A abort, K keep-alive, C connect, P property. "
                "NS and ANA are notices.")
COLOURS = {READ: "#3b7dd8", WRITE: "#e07b39", ZEROES: "#8d6e63", FLUSH: "#26a69a", ADMIN: "#7f8c9b",
           FABRIC: VIOLET, "refused": RED}

Span = namedtuple("Span", "call start end")
Drain = namedtuple("Drain", "line name start end")


def kind_of(command):
    """The kind of command that a colour stands for."""
    if command in (READ, WRITE, ZEROES, FLUSH):
        return command
    return FABRIC if command in ("connect", "property-set", "property-get") else ADMIN


def is_refused(call):
    """Whether the call was answered with another status than success."""
    return bool(call.record and call.record.answer == ANSWERED and call.record.completion.status)


# What is drawn

def spans_of(calls):
    """From each submit that was held to its execute, or to None where the files have none."""
    held, spans = {}, []
    for call in calls:
        if call.record.kind == SUBMIT and call.record.answer == HELD:
            held[call.record.number] = call
        elif call.record.kind == EXECUTE and call.record.number in held:
            start = held.pop(call.record.number)
            spans.append(Span(start, start.place, call.place))
    return spans + [Span(call, call.place, None) for call in held.values()]


def drains_of(calls):
    """From each disable that began a drain to its end."""
    begun, drains = {}, []
    for call in calls:
        match = DISABLE.fullmatch(call.text or "")
        if call.edit.what == "edit" and call.edit.answer == "ok" and (match or not call.text):
            name = "%s/%s" % match.groups() if match else "line %d" % call.edit.line
            begun[call.edit.line] = (name, call.place)
        elif call.edit.what == "done" and call.edit.line in begun:
            drains.append(Drain(call.edit.line, *begun.pop(call.edit.line), call.place))
    return drains


# The whole

class Sheet:
    """Where things stand: pixels of a place, lanes, and the elements so far."""

    def __init__(self, run):
        self.run = run
        self.places = max(run.places, 1)
        self.bands = self.places > BAND_ABOVE
        self.unit = PLOT_WIDTH / self.places
        if not self.bands:
            self.unit = min(max(self.unit, NARROWEST), WIDEST)
        self.width = self.unit * self.places
        self.bin = max(BIN_PIXELS, BIN_PLACES * self.unit)
        self.lane = BAND_LANE if self.bands else LANE
        self.edits = [call for call in run.calls if call.edit]
        self.lanes = ([EDITOR] if self.edits else []) + run.queues
        self.bottom = TOP + self.lane * len(self.lanes)
        self.parts = []
        self.full_band = full_band(self) if self.bands else 0

    def x(self, place):
        """The middle of a place."""
        return LEFT + (place + 0.5) * self.unit

    def y(self, lane):
        """The top of a lane."""
        return TOP + self.lane * lane

    def add(self, *parts):
        self.parts += parts


def draw(run, name):
    """The SVG of a run."""
    sheet = Sheet(run)
    drains = drains_of(sheet.edits)
    draw_frame(sheet, name, drains)
    lane = 0
    if sheet.edits:
        draw_drains(sheet, drains)
        (draw_editor_band if sheet.bands else draw_editor)(sheet)
        lane = 1
    for number in range(1, len(run.queues) + 1):
        calls = [call for call in run.calls if call.queue == number]
        (draw_queue_band if sheet.bands else draw_queue)(sheet, sheet.y(lane + number - 1), calls)
    draw_axis(sheet)
    draw_legend(sheet)
    width, height = max(LEFT + sheet.width + RIGHT, LEGEND_WIDTH), sheet.bottom + AXIS + 66
    return svg_sheet(width, height, sheet.parts)


def plural(count, word):
    return "%s %s%s" % (format(count, ","), word, "" if count == 1 else "s")


def draw_frame(sheet, name, drains):
    """Title, what the run was in numbers, and the lanes with their names."""
    calls = sheet.run.calls
    refused = sum(is_refused(call) for call in calls)
    events = sum(bool(call.record and call.record.kind == POLL and call.record.answer == ANSWERED) for call in calls)
    edits = [call.edit for call in sheet.edits if call.edit.what == "edit"]
    facts = [plural(len(calls), "call"), plural(refused, "refused command"),
             plural(len(edits), "edit") + ", %d refused" % sum(edit.answer != "ok" for edit in edits),
             plural(len(drains), "drain"), plural(events, "event")]
    if drains:
        longest = max(drains, key=lambda drain: drain.end - drain.start)
        facts.append("longest drain %d places, line %d" % (longest.end - longest.start, longest.line))
    sheet.add(words(LEFT, 28, "Run of " + name, 17, font_weight="bold"), words(LEFT, 50, " · ".join(facts), 12, SOFT))
    for number, lane in enumerate(sheet.lanes):
        y = sheet.y(number)
        if number % 2 == 0:
            sheet.add(rect(0, y, LEFT + sheet.width + RIGHT, sheet.lane, "#f7f7f9"))
        sheet.add(words(14, y + 31, lane, 13, font_weight="bold"))
    for number, queue in enumerate(sheet.run.plan.queues if sheet.run.plan else []):
        y = sheet.y(number + (1 if sheet.edits else 0))
        sheet.add(words(14, y + 46, "queue %d, port %d" % (number + 1, queue.port), 10, SOFT))


def step_of(sheet):
    """The distance of the axis's numbers: 1, 2 or 5 times a power of ten, with room for each number."""
    step, room = 1, 8 * len(format(sheet.places, ",")) + 14
    while step * sheet.unit < room:
        step = step * 5 // 2 if str(step)[0] == "2" else step * 2
    return step


def draw_axis(sheet):
    """The places below the lanes."""
    y = sheet.bottom
    sheet.add(line(LEFT, y, LEFT + sheet.width, y, INK))
    for place in range(0, sheet.places, step_of(sheet)):
        x = sheet.x(place)
        sheet.add(line(x, y, x, y + 5, INK), words(x, y + 18, format(place, ","), 11, INK, "middle"))
    sheet.add(words(LEFT + sheet.width / 2, y + 34, "place", 11, SOFT, "middle"))


# The editor

def draw_drains(sheet, drains):
    """Each disable's bar up to the end of its drain. It shades what the queues did meanwhile."""
    y = sheet.y(0) + (60 if sheet.bands else 44)
    for drain in drains:
        x = sheet.x(drain.start)
        width = max(sheet.x(drain.end) - x, 1.2)
        title = "disable of %s, line %d: edit at place %d, done at place %d" % (
            drain.name, drain.line, drain.start, drain.end)
        sheet.add(rect(x, sheet.y(0), width, sheet.bottom - sheet.y(0), AMBER, fill_opacity=0.10))
        sheet.add(rect(x, y, width, 12, AMBER, title))
        if width > 7 * len(drain.name):
            sheet.add(words(x + width / 2, y + 9.5, drain.name, 9, INK, "middle", title=title))


def draw_editor(sheet):
    """Each edit with its line, and its errno where it was refused."""
    y = sheet.y(0) + 28
    sheet.add(line(LEFT, y, LEFT + sheet.width, y, RAIL))
    for call in sheet.edits:
        x, title = sheet.x(call.place), "place %d: %s" % (call.place, line_of(call))
        if call.edit.what == "done":
            sheet.add(line(x, y - 6, x, y + 16, AMBER, title, stroke_width=2.4))
            continue
        refused = call.edit.answer != "ok"
        if refused:
            sheet.add(cross(x, y, 4, RED, title))
            if sheet.unit >= 6:
                sheet.add(words(x - 3, y + 8, call.edit.answer, 8, RED, turned=True))
        else:
            sheet.add(line(x, y - 8, x, y + 8, GREEN, title, stroke_width=2.4))
        if sheet.unit >= 8:
            sheet.add(words(x, y - 13, str(call.edit.line), 9, RED if refused else GREEN, "middle"))


# A queue, call by call

def draw_queue(sheet, top, calls):
    """Bars from submit to execute, and a mark for each other call."""
    y = top + 30
    sheet.add(line(LEFT, y, LEFT + sheet.width, y, RAIL))
    for poll in calls:
        if poll.request:
            start, end = sheet.x(poll.request[0]), sheet.x(poll.place)
            path = "M%s %sC%s %s %s %s %s %s" % tuple(short(v) for v in (
                start, y + 5, start, y + 32, end, y + 32, end, y + 6))
            sheet.add(tag("path", line_of(poll), d=path, fill="none",
                          stroke=NOTICE, stroke_width=1.3, stroke_dasharray="4 2"))
    for span in spans_of(calls):
        draw_span(sheet, y, span)
    for call in calls:
        draw_mark(sheet, y, call)


def letter(sheet, x, y, text, colour):
    """A label over a mark, where a place is wide enough."""
    if sheet.unit >= 8:
        sheet.add(words(x, y - 12, text, 9, colour, "middle"))


def nsid_in(call):
    """The namespace in a command's line, for a label."""
    for word in (call.text or "").split():
        if word.startswith("nsid="):
            return word[5:]
    return ""


def draw_span(sheet, y, span):
    """The bar of a held command."""
    end = sheet.places - 0.5 if span.end is None else span.end
    x, width = sheet.x(span.start), max(sheet.x(end) - sheet.x(span.start), 2)
    colour = COLOURS[kind_of(span.call.command)]
    title = "%s: held at place %d, %s" % (
        span.call.text or "capsule %d" % span.call.record.number, span.start,
        "never executed" if span.end is None else "executed at place %d" % span.end)
    inset = min(sheet.unit * 0.3, 4)
    sheet.add(rect(x - inset, y - 7, width + 2 * inset, 14, colour, title, rx=2))
    text = LETTERS.get(span.call.command, "?") + (nsid_in(span.call) if sheet.unit >= 12 else "")
    letter(sheet, x, y, text, colour)


def draw_mark(sheet, y, call):
    """The mark of a call that is neither held nor an execute."""
    record, x = call.record, sheet.x(call.place)
    title = "place %d: %s" % (call.place, line_of(call))
    if record.kind == EXECUTE or record.kind == SUBMIT and record.answer == HELD:
        if is_refused(call):
            sheet.add(cross(x, y, 4, RED, title))
        return
    text = LETTERS.get(call.command, "")
    if is_refused(call):
        status = read_status(record.completion.status)
        sheet.add(cross(x, y, 4, RED, title))
        if sheet.unit >= 6:
            sheet.add(words(x - 3, y + 8, "%04Xh" % status.field, 8, RED, turned=True))
        letter(sheet, x, y, text, RED)
    elif record.kind == POLL and record.answer == ANSWERED:
        event = read_event(record.completion.result)
        sheet.add(diamond(x, y, 6, NOTICE, title))
        letter(sheet, x, y, "NS" if event.log == 4 else "ANA" if event.log == 12 else "!", NOTICE)
    elif record.kind == POLL:
        sheet.add(circle(x, y, 1.6, SOFT, title))
    elif record.kind == CONTROL:
        sheet.add(diamond(x, y, 5, VIOLET, title))
        letter(sheet, x, y, text, VIOLET)
    else:
        colour = COLOURS[kind_of(call.command)]
        hollow = record.answer == WAITING
        sheet.add(circle(x, y, 4, "white" if hollow else colour, title, stroke=colour, stroke_width=1.6))
        letter(sheet, x, y, text, colour)


# Bands

def bin_of(sheet, place):
    """The stretch of places that a place falls into."""
    return int((place + 0.5) * sheet.unit / sheet.bin)


def stack(sheet, top, counts, colours, title):
    """Stacked counts of each stretch of places, cut at the top of the band."""
    for at in sorted({at for at, _ in counts}):
        y = top + BAND
        for kind, colour in colours.items():
            count = counts.get((at, kind), 0)
            tall = min(BAND * count / sheet.full_band, y - top)
            y -= tall
            if tall > 0:
                sheet.add(rect(LEFT + at * sheet.bin, y, sheet.bin, tall, colour, title % (count, kind)))


def full_band(sheet):
    """How many calls of one caller in one stretch fill a band: what all but a few stretches stay below."""
    counts = sorted(Counter((call.caller, bin_of(sheet, call.place)) for call in sheet.run.calls).values())
    return counts[int(FULL_SHARE * (len(counts) - 1))]


def draw_editor_band(sheet):
    """How many edits were made and refused in each stretch."""
    top, counts = sheet.y(0) + 8, Counter()
    for call in sheet.edits:
        if call.edit.what == "edit":
            counts[bin_of(sheet, call.place), "refused edits" if call.edit.answer != "ok" else "edits"] += 1
    stack(sheet, top, counts, {"edits": GREEN, "refused edits": RED}, "%d %s")
    sheet.add(line(LEFT, top + BAND, LEFT + sheet.width, top + BAND, RAIL))
    sheet.add(words(14, top + 62, "drains", 9, SOFT))


def draw_queue_band(sheet, top, calls):
    """How many calls of each kind fell into each stretch, what was refused, and how long commands were held."""
    counts, refused, events = Counter(), Counter(), []
    for call in calls:
        at = bin_of(sheet, call.place)
        if is_refused(call):
            refused[at] += 1
            counts[at, "refused"] += 1
        elif call.record.kind != POLL:
            counts[at, kind_of(call.command) if call.record.kind != CONTROL else FABRIC] += 1
        elif call.record.answer == ANSWERED:
            events.append(call)
    base = top + 8
    stack(sheet, base, counts, COLOURS, "%d calls: %s")
    sheet.add(line(LEFT, base + BAND, LEFT + sheet.width, base + BAND, RAIL))
    draw_held(sheet, base + 50, spans_of(calls))
    for at, count in refused.items():
        sheet.add(rect(LEFT + at * sheet.bin, base + 64, sheet.bin, 8, RED, plural(count, "refused command")))
    for call in events:
        sheet.add(diamond(sheet.x(call.place), base + 68, 5, NOTICE, "place %d: %s" % (call.place, line_of(call))))
    sheet.add(words(14, base + 58, "held", 9, SOFT), words(14, base + 71, "refused, events", 9, SOFT))


def draw_held(sheet, y, spans):
    """How much of each stretch passed while a command of the queue was held."""
    cover = Counter()
    for span in spans:
        start, end = sheet.unit * span.start, sheet.unit * (sheet.places if span.end is None else span.end)
        for at in range(int(start / sheet.bin), int(end / sheet.bin) + 1):
            inside = min(end, (at + 1) * sheet.bin) - max(start, at * sheet.bin)
            cover[at] += max(inside, 0) / sheet.bin
    for at, share in cover.items():
        sheet.add(rect(LEFT + at * sheet.bin, y, sheet.bin, 10, "#37474f", "commands were held for %d%% of this stretch"
                       % (100 * min(share, 1)), fill_opacity=short(min(share, 1) * 0.9 + 0.05)))


# The legend

def draw_legend(sheet):
    """What the colours and marks mean."""
    x, y = LEFT, sheet.bottom + AXIS + 26
    for kind in (READ, WRITE, ZEROES, FLUSH, ADMIN, FABRIC):
        sheet.add(rect(x, y - 9, 16, 10, COLOURS[kind], rx=2), words(x + 21, y, kind, 11))
        x += 34 + 7 * len(kind)
    for mark, text in ((cross(x + 6, y - 4, 4, RED, "refused"), "refused"),
                       (diamond(x + 90, y - 4, 6, NOTICE, "event"), "event")):
        sheet.add(mark)
        sheet.add(words(x + (18 if text == "refused" else 102), y, text, 11))
    x += 160
    sheet.add(line(x, y - 11, x, y + 2, GREEN, stroke_width=2.4), words(x + 8, y, "edit", 11))
    sheet.add(rect(x + 48, y - 10, 34, 12, AMBER), words(x + 88, y, "disable up to the end of its drain", 11))
    if not sheet.bands:
        sheet.add(circle(x + 312, y - 4, 4, "white", "waiting", stroke=COLOURS[ADMIN], stroke_width=1.6),
                  words(x + 322, y, "waiting event request", 11))
        sheet.add(words(LEFT, y + 20, LETTERS_TOLD, 10, SOFT))
    else:
        sheet.add(words(x + 312, y, "a full band: %s of a caller in %d places" % (
            plural(sheet.full_band, "call"), round(sheet.bin / sheet.unit)), 11))
