#!/usr/bin/env python3
# Draws docs/pictures/data.svg, a street for every call from what is lent to what is answered, and docs/pictures/read.svg, the stations of a file on its way
# through slp_read. A box has a crate's name, or some crates', and a word or two of what is done there. It wants nothing but Python; `data.py --check` draws
# nothing, and says whether both pictures are those that it would draw, every crate that they name is one of crates.txt, and every call of slp.h has a street.
import pathlib
import re
import sys

here = pathlib.Path(__file__).resolve().parent
GAP, PAD, LINE = 24, 10, 14.5
STYLE = """
    text { font-family: sans-serif; font-size: 11.5px; fill: #333333; }
    .h { font-size: 15px; font-weight: bold; fill: #111111; } .n { font-size: 12.5px; font-weight: bold; fill: #111111; } .c { font-size: 12px; font-family: monospace; fill: #111111; }
    rect { stroke-width: 1.3; rx: 6px; }
    .lent { fill: #e8eef7; stroke: #34507a; } .writes { fill: #e9f5e6; stroke: #3b7a34; } .reads { fill: #fdf1df; stroke: #a8701a; } .given { fill: #f3e8f5; stroke: #74398a; } .no { fill: #fbdada; stroke: #b00020; }
    .a { stroke: #555555; stroke-width: 1.3; fill: none; marker-end: url(#a); } .u { stroke: #cccccc; stroke-width: 1; }
"""
NARROW, WIDE = set("iljtfrI.,:;'|! ()-"), set("mwMWGOQ_")


def width(text, size, bold=False):
    """About how wide a text is, and not less: the font is the reader's own."""
    return sum(0.36 if c in NARROW else 0.88 if c in WIDE else 0.62 for c in text) * size * (1.08 if bold else 1)


class Picture:
    def __init__(self):
        self.parts, self.crates = [], set()

    def text(self, x, y, words, kind="", anchor="middle"):
        words = words.replace("&", "&amp;").replace("<", "&lt;")
        self.parts.append(f'<text x="{x:g}" y="{y:g}"' + (f' class="{kind}"' if kind else "") + (' text-anchor="middle"' if anchor == "middle" else "") + f">{words}</text>")

    def box(self, x, y, w, h, kind, name, lines):
        """A box, with its text in the middle of its height."""
        if kind in ("writes", "reads"):
            self.crates |= set(re.findall(r"[a-z_]+", re.sub(r"(::\w+)+", "", name)))
            self.crates |= set(re.findall(r"\b(?:read|rows|check|index|final|map|start)_[a-z_]+", " ".join(lines)))
        self.parts.append(f'<rect class="{kind}" x="{x:g}" y="{y:g}" width="{w:g}" height="{h:g}"/>')
        top = y + h / 2 - LINE * len(lines) / 2 + (5 if not lines else 4)
        self.text(x + w / 2, top, name, "n")
        for i, line in enumerate(lines):
            self.text(x + w / 2, top + LINE * (i + 1), line)

    def arrow(self, path):
        self.parts.append(f'<path class="a" d="{path}"/>')

    def svg(self, w, h, label):
        head = f'<svg xmlns="http://www.w3.org/2000/svg" viewBox="0 0 {w:g} {h:g}" role="img" aria-label="{label}">\n  <style>{STYLE}  </style>\n'
        marker = '  <defs><marker id="a" viewBox="0 0 10 10" refX="9" refY="5" markerWidth="7" markerHeight="7" orient="auto"><path d="M0,0 L10,5 L0,10 z" fill="#555555"/></marker></defs>\n'
        return head + marker + f'  <rect x="0" y="0" width="{w:g}" height="{h:g}" fill="#ffffff"/>\n' + "".join(f"  {part}\n" for part in self.parts) + "</svg>\n"


def need(name, lines):
    return max([width(name, 12.5, True)] + [width(line, 11.5) for line in lines]) + 2 * PAD


# A street: its calls, and its boxes in the order in which they are passed. The last box of a street is what is given.
GAME = [
    (["slp_write"], [
        ("lent", "a game, its stores", ["template, codes, metadata"]),
        ("writes", "ser::judge", ["1 to 7: frames; 8, 9: start;", "10: codes; 11: ending"]),
        ("writes", "ser::length", ["bytes by counts;", "12, before any byte"]),
        ("writes", "ser::file", ["layout: table; start_block;", "codes"]),
        ("writes", "events", ["eights: places, spread;", "single rows: record"]),
        ("writes", "ending", ["ends, tail"]),
        ("given", "a file", ["whole"]),
    ]),
    (["slp_write_frames", "slp_write_frame"], [
        ("lent", "a game's frames", ["a place, a range"]),
        ("writes", "frames::judge", ["1 to 7"]),
        ("writes", "append", ["13; length by counts; 12"]),
        ("writes", "events", ["the same writer of frames"]),
        ("given", "a run of frames", ["in a lent output"]),
    ]),
    (["slp_write_head", "slp_write_end", "slp_length_field"], [
        ("lent", "a start; an end", ["template, codes; metadata"]),
        ("writes", "live", ["begin, finish, length:", "the judges and writers of slp_write"]),
        ("given", "a recording", ["frames between by slp_write_frames;", "closed, it is the file of slp_write"]),
    ]),
    (["slp_write_final"], [
        ("lent", "a game, its stores", ["scratch, a byte a frame"]),
        ("writes", "final_file", ["judges as ser does; 13"]),
        ("writes", "final_rows", ["rows that are not final,", "over windows of ids"]),
        ("writes", "final_file, events", ["runs of kept rows"]),
        ("given", "a file", ["each id once"]),
    ]),
    (["slp_rows", "slp_pre_of, .."], [
        ("lent", "a game's frames", ["a range of rows"]),
        ("writes", "frames::judge", ["1 to 7"]),
        ("reads", "rows_run", ["13, 12; a run's cells"]),
        ("reads", "rows_given", ["a struct of any cells"]),
        ("given", "rows", ["cells, or structs"]),
    ]),
    (["slp_frame_row", "slp_pre_row, .."], [
        ("lent", "a game's frames", ["an index"]),
        ("writes", "frames::judge", ["1 to 7"]),
        ("reads", "transpose", ["13; a record by the listing"]),
        ("reads", "rows", ["floats, signed numbers, marks"]),
        ("given", "a row", ["a struct"]),
    ]),
    (["slp_rollbacks"], [
        ("lent", "frame ids", ["a mode, mask, scratch"]),
        ("reads", "rollback", ["2, 12, 13, 12; then one sweep"]),
        ("given", "a mask", ["a byte a frame"]),
    ]),
    (["slp_room"], [
        ("lent", "a plan", ["a version, the most of each"]),
        ("writes", "room", ["1, 2, 7, 8; a sum of counts"]),
        ("given", "bytes", ["to reserve"]),
    ]),
    (["slp_columns"], [
        ("lent", "a version", ["a family's number"]),
        ("writes", "layout", ["the one table"]),
        ("given", "columns", ["how many"]),
    ]),
    (["slp_column", "slp_refusal_words", "slp_fault_words"], [
        ("lent", "a number", ["of a family and column;", "of a refusal, of a fault"]),
        ("writes", "names", ["beside layout's table"]),
        ("given", "a struct", ["with the text in it"]),
    ]),
    (["slp_write_map"], [
        ("lent", "entries", ["five cells each, texts"]),
        ("writes", "map", ["20, 21, 22, 23, 2, 12; then the body"]),
        ("given", "a body", ["of metadata"]),
    ]),
    (["slp_read_map"], [
        ("lent", "a body", ["of metadata"]),
        ("reads", "map_reader", ["the first wrong place decides: 20 to 23; 2, 12; then filled"]),
        ("given", "entries", ["five cells each"]),
    ]),
]
FILE = [
    (["slp_walk", "slp_step_at", "slp_first_place"], [
        ("lent", "a file", ["whole or cut"]),
        ("reads", "head", ["14, 15: signature,", "length, table"]),
        ("reads", "de", ["16, 17: from event to event"]),
        ("given", "its events", ["and stray bytes;", "where they start"]),
    ]),
    (["slp_measure"], [
        ("lent", "a file", []),
        ("reads", "read_judge", ["first pass: 14 to 17, 19, 1, 19, 2"]),
        ("reads", "measure", ["counts become lengths"]),
        ("given", "what is needed", ["lengths, frame input, places"]),
    ]),
    (["slp_read"], [
        ("lent", "a file, empty stores", []),
        ("reads", "read_judge", ["the same first pass"]),
        ("reads", "read_held", ["12: a store too short"]),
        ("reads", "read_fill", ["second pass: read_pass;", "codes: read_outline"]),
        ("reads", "measure", ["start: read_start;", "end: read_outline"]),
        ("given", "a game, its stores", ["as slp_write takes them"]),
    ]),
    (["slp_check"], [
        ("lent", "a file", ["whoever wrote it"]),
        ("reads", "head, read_judge", ["14, 15; first event: 19, 1"]),
        ("reads", "check_parts", ["codes, check_table, frames", "in any order of ports, ends"]),
        ("reads", "check_file", ["tail: map_reader; 23"]),
        ("given", "sound", ["or what is wrong first"]),
    ]),
    (["slp_measure_repair", "slp_repair"], [
        ("lent", "a broken file", ["an output"]),
        ("reads", "repair_judge", ["14, 15, 19, 1, 19; the length", "is not looked at: repair_head"]),
        ("reads", "repair_scan", ["the last place where", "a replay may end"]),
        ("reads", "repair_call", ["12; the length, the tail"]),
        ("given", "a file", ["that slp_read accepts"]),
    ]),
    (["slp_fault"], [
        ("lent", "a file", ["that is refused with 19"]),
        ("reads", "measure", ["0, or the refusal"]),
        ("reads", "fault_scan", ["the first event that", "may not come"]),
        ("reads", "fault_reason", ["why it may not"]),
        ("given", "a fault", ["event, byte, reason"]),
    ]),
    (["slp_write_index", "slp_accepts_index"], [
        ("lent", "a file", ["an output; an index"]),
        ("reads", "head, index_passes", ["14 to 17; FrameStarts counted"]),
        ("reads", "index_calls", ["24, 2; then 12, or 25, 26"]),
        ("reads", "index_passes", ["rows written, or compared"]),
        ("given", "an index", ["or whether it is the file's"]),
    ]),
    (["slp_find_frame"], [
        ("lent", "an index", ["an id"]),
        ("reads", "index_form", ["25, 27; from the last row back"]),
        ("given", "a moment", ["row, offset, id"]),
    ]),
]


def street(p, y, calls, boxes, left, right):
    high = max([LINE * (1 + len(lines)) for _, _, lines in boxes] + [LINE * len(calls)]) + 14
    for i, call in enumerate(calls):
        p.text(16, y + high / 2 - LINE * len(calls) / 2 + LINE * (i + 0.72), call, "c", "start")
    wants = [need(name, lines) for _, name, lines in boxes]
    spare = (right - left - GAP * (len(boxes) - 1) - sum(wants)) / len(boxes)
    if spare < 0:
        sys.exit(f"data.py: the street of {calls[0]} is {-spare * len(boxes):.0f} too wide")
    x = left
    for i, ((kind, name, lines), want) in enumerate(zip(boxes, wants)):
        w = want + min(spare, 60)
        if i == len(boxes) - 1:
            w, x = right - max(x, right - want - 60), max(x, right - want - 60)
        p.box(x, y, w, high, kind, name, lines)
        if i + 1 < len(boxes):
            end = x + w + GAP
            if i + 2 == len(boxes):
                end = max(end, right - wants[-1] - 60)
            p.arrow(f"M{x + w:g},{y + high / 2:g} H{end - 2:g}")
        x += w + GAP
    return y + high + 12


def streets():
    p, wide = Picture(), 1290
    y = 28
    for title, rows in (("From a game, and from numbers", GAME), ("From a file", FILE)):
        p.text(16, y, title, "h", "start")
        y += 14
        for calls, boxes in rows:
            y = street(p, y, calls, boxes, 168, wide - 16)
        y += 26
    p.text(16, y - 8, "Blue is lent, green writes or judges a game, orange reads, violet is answered. Numbers are those of refusals; a refused call touches nothing.", "", "start")
    return p, p.svg(wide, y + 8, "A street for every call")


def read():
    """The stations of slp_read: the first pass on the left, the second on the right."""
    p, wide = Picture(), 1080

    def station(x, y, w, kind, name, lines):
        """A box; answers the place below it."""
        if need(name, lines) > w:
            sys.exit(f"data.py: {name} wants {need(name, lines):.0f}")
        h = LINE * (1 + len(lines)) + 14
        p.box(x, y, w, h, kind, name, lines)
        return y + h

    def under(x, y, w, boxes):
        """Boxes that one above them calls, one after another, each with an arrow from the line at its left."""
        top = y
        for name, lines in boxes:
            low = station(x + 28, y + 12, w, "reads", name, lines)
            p.arrow(f"M{x + 12:g},{top:g} V{(y + 12 + low) / 2:g} H{x + 26:g}")
            y = low
        return y

    p.text(16, 28, "A file on its way through slp_read", "h", "start")
    p.text(16, 60, "First pass: judged and counted", "n", "start")
    y = station(16, 72, 160, "lent", "the file, as bytes", [])
    stops = []
    for name, lines in (("head::table::parse_head", ["14, 15: signature, length, table"]), ("read_judge::first_event", ["19: no GameStart; 1: its version"]), ("read_judge::judge_parts", ["19: any of its parts is wrong"])):
        p.arrow(f"M96,{y:g} V{y + 16:g}")
        low = station(16, y + 18, 304, "reads", name, lines)
        stops.append((y + 18 + low) / 2)
        y = low
    y = under(16, y, 276, [
        ("read_judge::start_fits", ["the block's length; seats: read_start"]),
        ("read_outline::codes", ["blocks of codes; listed_right:", "what the table says of them"]),
        ("read_scan::frames", ["in order, and counted: eight alike", "at once, else read_order by events"]),
        ("read_outline::ends", ["none, one, or two alike"]),
    ])
    p.arrow(f"M20,{stops[-1] + 21.5:g} V{y + 16:g}")
    low = station(16, y + 18, 304, "reads", "read_judge::judge_counts", ["2: too many rows"])
    stops.append((y + 18 + low) / 2)
    left = low
    middle = (stops[2] + stops[3]) / 2
    for stop in stops:
        p.parts.append(f'<path d="M320,{stop:g} H342" stroke="#b00020" stroke-width="1.3" fill="none"/>')
    p.parts.append(f'<path d="M342,{stops[0]:g} V{stops[3]:g}" stroke="#b00020" stroke-width="1.3" fill="none"/>')
    p.arrow(f"M342,{middle:g} H360")
    p.box(362, middle - 44, 160, 88, "no", "refused", ["of what 19 or 1 refuses,", "de::walk says whether", "14 to 17 come first;", "nothing was touched"])
    # to the second pass
    x = 568
    p.arrow(f"M96,{left:g} V{left + 16:g} H542 V{72 + 21.75:g} H{x - 2}")
    p.text(x, 60, "Second pass: stores filled", "n", "start")
    y = station(x, 72, 230, "reads", "read_held::read_held", ["12: a store too short"])
    p.arrow(f"M{x + 96},{y:g} V{y + 16:g}")
    into = y + 18
    y = station(x, into, 230, "reads", "read_fill::read_into", [])
    middle = (into + y) / 2
    p.arrow(f"M{x + 230},{middle:g} H{x + 268}")
    p.box(x + 270, middle - 21.75, 226, 43.5, "reads", "read_outline::copy_codes", ["last, the bytes of code blocks"])
    p.arrow(f"M{x + 96},{y:g} V{y + 16:g}")
    top = y + 18
    y = station(x, top, 230, "reads", "read_pass::fill_events", ["clears who is absent: read_event"])
    p.arrow(f"M{x + 96},{y:g} V{y + 16:g}")
    p.arrow(f"M{x + 230},{(top + y) / 2:g} H{x + 383} V{y + 16:g}")
    y += 18
    station(x, y, 226, "reads", "read_eights::fill_players", ["first, the players' three stores"])
    low = station(x + 270, y, 226, "reads", "read_lists::fill_rows", ["then the other eleven"])
    a = under(x, low, 212, [
        ("read_places::find_next", ["a table of up to eight", "frames' events"]),
        ("gather::get_records", ["a column's eight cells"]),
        ("read_event", ["else an event by itself"]),
    ])
    b = under(x + 270, low, 198, [
        ("read_leap::leap", ["eight frames with players'", "events alone"]),
        ("read_turn::turn", ["else one event: its row, its", "frame's id and offsets"]),
        ("read_event", ["how each of them is put"]),
    ])
    y = max(a, b) + 22
    p.arrow(f"M{x},{middle:g} H{x - 12} V{y + 29:g} H{x - 2}")
    low = station(x, y, 316, "reads", "measure::opened", ["start: read_start; end: read_outline;", "what the tail is, and where parts stand"])
    p.arrow(f"M{x + 316},{(y + low) / 2:g} H{x + 352}")
    p.box(x + 354, y, 142, low - y, "given", "the game", ["by value; its columns", "in the lent stores"])
    return p, p.svg(wide, max(left + 30, low + 16), "A file on its way through slp_read")


def homeless():
    """The calls of the header that no street names; `slp_pre_row, ..` stands for all whose names end as its own."""
    named = [call for rows in (GAME, FILE) for calls, _ in rows for call in calls]
    kin = tuple(name.split(",")[0][name.split(",")[0].rindex("_") :] for name in named if name.endswith(", .."))
    header = (here / "../../include/slp.h").read_text()
    calls = re.findall(r"^(?!static)\w[\w ]*?[ *](slp_\w+)\([^{;]*;", header, flags=re.M)
    return sorted(call for call in calls if call not in named and not call.endswith(kin))


def main():
    if sys.argv[1:] == ["--check"] and homeless():
        sys.exit(f"docs/pictures/data.py has no street for {homeless()}")
    crates = {line.split(":")[0].split()[0] for line in (here / "../../crates.txt").read_text().splitlines() if line.strip() and not line.startswith("#")}
    for name, (picture, drawn) in (("data.svg", streets()), ("read.svg", read())):
        if sys.argv[1:] == ["--check"]:
            if picture.crates - crates:
                sys.exit(f"{name}: no crates: {sorted(picture.crates - crates)}")
            if (here / name).read_text() != drawn:
                sys.exit(f"{name} is not what docs/pictures/data.py draws: run it")
            print(f"{name}: {len(picture.crates)} crates")
        else:
            (here / name).write_text(drawn)


main()
