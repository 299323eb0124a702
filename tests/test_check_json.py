"""`snapd check FILE --json`: the same as its lines, as one object on one line."""

import json

import segment_file as layout
from segment_file import body_at, gate_at
from serving import segments
from test_damage import WHOLE, changed


def line_of_slot(slot):
    match slot["state"]:
        case "open":
            return f"slot {slot['slot']} open number {slot['number']} length {slot['length']}\n"
        case "bad":
            return f"slot {slot['slot']} bad {slot['flaw']}\n"
        case state:
            return f"slot {slot['slot']} {state}\n"


def lines_of(found):
    """The lines of a document."""
    if found["header"] != "open":
        return f"header {found['header']}\n"
    answer = "none" if found["answer"] is None else f"number {found['answer']}"
    slots = "".join(map(line_of_slot, found["slots"]))
    return f"header index {found['index']} count {found['count']}\n{slots}answer {answer}\n"


def agree(snapd, data):
    """Both forms of the findings of these bytes say the same, and end alike."""
    file = snapd.file("F")
    file.write_bytes(data)
    lines, document = snapd("check", "F"), snapd("check", "F", "--json")
    assert (lines.status, lines.errors) == (document.status, document.errors)
    assert document.output.count(b"\n") == 1 and document.output.endswith(b"}\n"), document.output
    found = json.loads(document.output)
    # Each in its order, with no space between its tokens.
    assert document.output == json.dumps(found, separators=(",", ":")).encode() + b"\n"
    assert lines_of(found).encode() == lines.output
    assert file.read_bytes() == data
    return lines.status


def shown(*slots, answer, index=0, count=1):
    """The document of a file whose header is open, by its slots' members from `state` on."""
    slots = ",".join(f'{{"slot":{number},"state":{slot}}}' for number, slot in enumerate(slots))
    return f'{{"header":"open","index":{index},"count":{count},"slots":[{slots}],"answer":{answer}}}\n'


def bad(why):
    return f'"bad","flaw":"{why}"'


OPEN_3, OPEN_4, CLOSED = '"open","number":3,"length":5', '"open","number":4,"length":4', '"closed"'
# Bytes that are put into a file whose slot 0 holds number 3, and slot 1 number 4; the status, and the document.
ROWS = [
    ([], 0, shown(OPEN_3, OPEN_4, CLOSED, answer=4)),
    ([(8, b"\2\5")], 0, shown(OPEN_3, OPEN_4, CLOSED, answer=4, index=2, count=5)),
    ([(gate_at(0) + 1, b"\1")], 3, shown(bad("gate"), OPEN_4, CLOSED, answer="null")),
    ([(body_at(1) + 8, b"\xff")], 3, shown(OPEN_3, bad("length"), CLOSED, answer="null")),
    ([(body_at(0) + 15, b"\1")], 3, shown(bad("zeros"), OPEN_4, CLOSED, answer="null")),
    ([(gate_at(2), bytes([layout.OPEN]))], 3, shown(OPEN_3, OPEN_4, bad("number"), answer="null")),
    ([(gate_at(0), b"\0"), (gate_at(1), b"\0")], 3, shown(CLOSED, CLOSED, CLOSED, answer="null")),
    ([(layout.HEADER_GATE, b"\0")], 3, '{"header":"unformatted"}\n'),
    ([(0, b"T")], 3, '{"header":"wrong"}\n'),
]


def test_rows(snapd, _):
    for places, status, row in ROWS:
        snapd.file("F").write_bytes(changed(WHOLE, *places))
        snapd("check", "F", "--json").gave(status, row)
        snapd("check", "--json", "F").gave(status, row)
    snapd("check", "F", "--json", "--json").failed_with(2)
    snapd("check", "F", "--text").failed_with(2)
    snapd("get", "F", "--json").failed_with(2)


def test_any_bytes_say_the_same(snapd, rng):
    whole = layout.holding((16, b"before"), (17, b"now"), index=0, count=3)
    assert agree(snapd, whole) == 0
    assert agree(snapd, bytes(layout.LENGTH)) == 3
    seen = set()
    for _ in range(150):
        data = bytearray(whole)
        for _ in range(rng.randrange(1, 4)):
            block = rng.randrange(len(data) // 4_096) * 4_096
            data[block + rng.choice((0, 1, 8, 9, 10, 11, 20, 4_095))] = rng.randrange(256)
        seen.add(agree(snapd, bytes(data)))
    assert seen == {0, 3}


def test_refusals_are_those_of_the_lines(snapd, _):
    snapd.file("F").write_bytes(b"x")
    assert snapd("check", "F", "--json") == snapd("check", "F")
    assert snapd("check", "G", "--json") == snapd("check", "G")
    with open("/dev/full", "wb") as full:
        segments(snapd, [(0, b"")])
        run = snapd("check", "S0", "--json", stdout=full)
    assert (run.status, run.errors) == (1, "snapd: standard output: No space left on device (os error 28)\n")
