"""The page for people without a browser: what its script makes of the server's documents, run by Node on a few elements
of its own. What it looks like in a browser is in test_http.py."""

import json
import re
import shutil
import subprocess

from http_place import SeenServer
from program import Skipped
from serving import fresh
from waiting import PATIENCE

# Runs the script with stand-ins for a browser's document, clock and connection. Standard input has the script, words of
# it that are to be worth something, and for each poll the time and the documents by path, or a status in place of one.
# Prints what each of the words is worth, and what the page shows after each poll.
BROWSER = r"""
const { script, words, ids, polls } = JSON.parse(require("fs").readFileSync(0, "utf8"));
class Element {
  constructor(name) { Object.assign(this, { name, kept: [], own: {}, dataset: {}, scrollWidth: 0, clientWidth: 9 }); }
  get textContent() { return this.kept.map((it) => typeof it === "string" ? it : it.textContent).join(""); }
  set textContent(text) { this.kept = [String(text)]; }
  append(it) { this.kept.push(it); }
  appendChild(it) { this.kept.push(it); return it; }
  setAttribute(key, value) { this.own[key] = String(value); }
  removeAttribute(key) { delete this.own[key]; }
  hasAttribute(key) { return key in this.own; }
  toggleAttribute(key, is) { if (is) this.own[key] = ""; else delete this.own[key]; }
  addEventListener() {}
  cells() { return this.kept.map((row) => row.kept.map((it) => it.textContent)); }
}
const byId = Object.fromEntries(ids.map((id) => [id, new Element(id)]));
const document = {
  body: new Element("body"), title: "", hidden: false, addEventListener() {},
  getElementById: (id) => byId[id], createElement: (name) => new Element(name),
  createElementNS: (_, name) => new Element(name),
};
let poll, again = null, timers = 0;
const fetch = async (path) => {
  const found = poll.documents[path];
  if (found === undefined) throw new TypeError("no connection");
  const ok = typeof found === "string";
  return { ok, status: found, text: async () => ok ? found : "why\n" };
};
class ResizeObserver { observe() {} }
const names = ["document", "fetch", "performance", "setTimeout", "clearTimeout", "ResizeObserver"];
const shown = () => ({
  title: document.title, state: byId.state.textContent, news: byId.news.textContent,
  version: byId.version.textContent, where: byId.where.textContent, refusals: byId.refusals.textContent,
  tiles: byId.tiles.cells(), rows: byId.rows.cells(), stores: byId.stores.cells(),
  plots: byId.plots.kept.map((it) => it.kept[1].own["aria-label"]),
});
(async () => {
  const seen = [];
  let told;
  for (poll of polls) {
    if (again === null)
      told = new Function(...names, script + "\nreturn [" + words.join(", ") + "];")(
        document, fetch, { now: () => poll.at }, (call) => { again = call; timers += 1; }, () => {}, ResizeObserver);
    else again();
    // The first timer of a poll ends it, and the second one begins the next.
    while (timers < 2 * seen.length + 2) await new Promise(setImmediate);
    seen.push(shown());
  }
  console.log(JSON.stringify([told, seen]));
})();
"""


def page_of(snapd):
    """The page and its script, as a server answers them."""
    with SeenServer(snapd, *fresh(snapd, 1)) as server:
        return [server.get(path)[2].decode() for path in ("/", "/board.js")]


def run(snapd, words, polls):
    """The page itself, what these words of its script are worth, and what it shows after each poll."""
    node = shutil.which("node")
    if not node:
        raise Skipped("node isn't here (Debian's package nodejs)")
    page, script = page_of(snapd)
    asked = {"script": script, "words": words, "ids": re.findall(r' id="(\w+)"', page), "polls": polls}
    found = subprocess.run(
        [node, "-e", BROWSER], input=json.dumps(asked), capture_output=True, text=True, timeout=PATIENCE, check=False
    )
    assert (found.returncode, found.stderr) == (0, ""), found
    return page, *json.loads(found.stdout)


# Words of the script, and what each is worth.
WORTH = [
    *((f'grouped("{digits}")', text) for digits, text in (
        ("0", "0"), ("999", "999"), ("1000", "1,000"), (str(2**63 - 1), "9,223,372,036,854,775,807"),
    )),
    *((f"rounded({x})", text) for x, text in (("0", "0"), ("0.04", "0.0"), ("9.94", "9.9"), ("10", "10"),
                                              ("1234.5", "1,235"))),
    *((f"span({ms})", text) for ms, text in (
        ("0.016", "16 \u00b5s"), ("0.9994", "999 \u00b5s"), ("1", "1.0 ms"), ("9.9", "9.9 ms"), ("10", "10 ms"),
        ("999", "999 ms"), ("1000", "1.0 s"), ("9900", "9.9 s"), ("59900", "60 s"), ("60000", "1 min 0 s"),
        ("3599000", "59 min 59 s"), ("3600000", "1 h 0 min"), ("172799000", "47 h 59 min"), ("172800000", "2 d 0 h"),
    )),
    *((f"size({count})", text) for count, text in (
        ('"0"', "0 B"), ('"1023"', "1023 B"), ('"1024"', "1.0 KiB"), ('"1536"', "1.5 KiB"), ("1048575", "1024.0 KiB"),
        ("1048576", "1.0 MiB"), (2**30, "1.0 GiB"), (2**40, "1.0 TiB"), (2**50, "1024.0 TiB"),
    )),
    ('visible("a\\tb\\nc\\u00e9")', "a\\u{9}b\u21b5\nc\u00e9"),
    *((f'visible("\\u{code:04x}")', f"\\u{{{code:x}}}") for code in (
        0, 0x1F, 0x7F, 0x85, 0x9F, 0xAD, 0x61C, 0x200B, 0x200E, 0x200F, 0x2028, 0x2029, 0x202A, 0x202D, 0x202E, 0x2060,
        0x2066, 0x2069, 0x206F, 0xFEFF,
    )),
    *((f'visible("\\u{code:04x}")', chr(code)) for code in (0x20, 0x7E, 0xA0, 0x200A, 0x2010, 0x2027, 0x202F, 0x2070)),
    ('shown({text: ""})', {"text": "", "form": "empty"}),
    ('shown({text: "h\\u00e9"})', {"text": "h\u00e9", "form": "3 bytes"}),
    ('shown({base64: "AP8BAv4="})', {"text": "00ff0102 fe", "form": "5 bytes, hex"}),
    ('parse(\'{"a":18446744073709551615,"b":"1\\\\"2","c":[-1.5e3,null]}\')',
     {"a": str(2**64 - 1), "b": '1"2', "c": ["-1.5e3", None]}),
    *((f"within(quantile({counts}, [0.016, 0.032], {part}), [0.016, 0.032])", text) for counts, part, text in (
        ("[0, 0, 0]", 0.5, "\u2013"), ("[1, 1, 0]", 0.5, "16 \u00b5s"), ("[1, 1, 0]", 0.99, "32 \u00b5s"),
        ("[99, 0, 1]", 0.99, "16 \u00b5s"), ("[98, 0, 2]", 0.99, "> 32 \u00b5s"),
    )),
]


def test_what_the_script_makes_of_numbers_and_texts(snapd, _):
    _, told, _ = run(snapd, [it for it, _ in WORTH], [{"at": 0, "documents": {}}])
    assert len(told) == len(WORTH)
    for (words, wanted), found in zip(WORTH, told):
        assert found == wanted, (words, found)


# ---- all of the page ----

BOUNDS = [16, 32, 64]


def times(*counts, total):
    return {"counts": counts, "total_nanoseconds": total}


def statistics(uptime, updates, scans, parts, fenced=True):
    """Of two segments: one that is updated, and one that may be fenced, with no update and no file."""
    return {
        "version": "1.2.3", "uptime_milliseconds": uptime, "now_milliseconds": 5, "resident_bytes": 3 * 2**20,
        "addresses": ["127.0.0.1:7070", "unix:at"], "connections": {"total": 1234, "open": 2},
        "requests": {"update": 7, "scan": scans, "part": parts, "status": 9}, "scan_looks": 1,
        "received_bytes": uptime, "sent_bytes": 3 * uptime,
        "refusals": [{"number": 1, "name": "Malformed", "count": 0}, {"number": 5, "name": "OutOfStep", "count": 1200},
                     {"number": 13, "name": "DeviceFailed", "count": 2}],
        "bounds_microseconds": BOUNDS,
        "segments": [
            {"segment": 0, "file": "D/a.seg", "name": "a", "number": 7, "fenced": False, "updates": updates,
             "repeats": 0, "age_milliseconds": 2500,
             "store": times(updates - 20, 5, 14, 1, total=updates * 20_000),
             "value_wait": times(updates, 0, 0, 0, total=updates * 3_000),
             "gate_wait": times(updates, 0, 0, 0, total=updates * 4_000)},
            {"segment": 1, "file": None, "name": None, "number": 8, "fenced": fenced, "updates": 0, "repeats": 0,
             "age_milliseconds": None, "store": times(0, 0, 0, 0, total=0), "value_wait": times(0, 0, 0, 0, total=0),
             "gate_wait": times(0, 0, 0, 0, total=0)},
        ],
    }


def documents(number, *words, **more):
    """Those that the page asks for, by path: the first segment has this number."""
    scan = {"segments": [{"segment": 0, "number": number, "text": "hi\u202e"},
                         {"segment": 1, "number": 2**63 - 1, "base64": "/w=="}]}
    found = {"/scan": scan, "/stats": statistics(*words, **more), "/history": {"samples": []}}
    return {path: json.dumps(it) for path, it in found.items()}


POLLS = [
    {"at": 0, "documents": documents(1_000, 1_000, 1_000, 10, 20)},
    {"at": 2_000, "documents": documents(1_020, 3_000, 1_020, 13, 21)},
    {"at": 70_000, "documents": documents(1_020, 71_000, 1_020, 13, 21, fenced=False)},
    {"at": 71_000, "documents": {**documents(1_020, 72_000, 1_020, 13, 21), "/scan": 503}},
    {"at": 74_000, "documents": {}},
]
NONE = "\u2013"
STORES = "A store: half within, and 99 % (dashed)"
# What the page shows after each poll: the first segment's number and rate, its state and the other one's, what is
# counted by the second, for how long the server has run, and what the plots are called.
SHOWN = [
    ("1,000", NONE, "moves", "fenced", (NONE, NONE, NONE, NONE), "1.0 s", [
        f"Updates stored a second: now {NONE}, at most 1.0", f"Scans a second: now {NONE}, at most 1.0",
        f"{STORES}: now {NONE}, {NONE}, at most 16 \u00b5s",
    ]),
    ("1,020", "10", "moves", "fenced", ("10", "2.0", "1000 B", "2.9 KiB"), "3.0 s", [
        "Updates stored a second: now 10, at most 10", "Scans a second: now 2.0, at most 2.0",
        f"{STORES}: now 16 \u00b5s, 16 \u00b5s, at most 16 \u00b5s",
    ]),
    ("1,020", "0", "stands still", "quiet", ("0", "0", "1000 B", "2.9 KiB"), "1 min 11 s", [
        "Updates stored a second: now 0, at most 10", "Scans a second: now 0, at most 2.0",
        f"{STORES}: now {NONE}, {NONE}, at most 16 \u00b5s",
    ]),
]
SAID = [
    *[("fenced 1 \u2013 snapd", "live", "Fenced: segment 1. It takes no update until a restart.")] * 2,
    ("still 0 \u2013 snapd", "live", "Stands still: segment 0 (a)."),
    ("refused \u2013 snapd", "the server refuses", "The server is there and refuses: /scan answers 503 why"),
    ("gone \u2013 snapd", "the server has been gone since NOW", "The server hasn't answered since NOW. "
     "What stands here is from before; the page asks again every 3 seconds."),
]


def below(page, body, rows):
    """The cells of a table's rows, each by what its column is called."""
    head = page.split(f'<tbody role="rowgroup" id="{body}">')[0].rpartition("<thead")[2]
    names = re.findall(r"<th [^>]*>([^<]*)</th>", head)
    assert all(len(row) == len(names) for row in rows), (names, rows)
    return [dict(zip(names, row)) for row in rows]


def test_each_figure_is_where_it_belongs(snapd, _):
    """At the first poll, at the next ones, and what stays and what is said of a server that refuses or is gone."""
    page, _, seen = run(snapd, [], POLLS)
    for found, (number, rate, first, second, rates, uptime, plots) in zip(seen, [*SHOWN, SHOWN[-1], SHOWN[-1]]):
        assert below(page, "rows", found["rows"]) == [
            {"Segment": "0 a", "Number": number, "Age": "2.5 s", "Updates/s": rate, "State": first,
             "Value": "hi\\u{202e}5 byteswhole"},
            {"Segment": "1 ", "Number": "9,223,372,036,854,775,807", "Age": NONE,
             "Updates/s": NONE if rate == NONE else "0", "State": second, "Value": "ff1 bytes, hexwhole"},
        ], found["rows"]
        none = dict.fromkeys(("Mean", "Half within", "99 % within", "Wait for the value", "Wait for the gate", "File"))
        assert below(page, "stores", found["stores"]) == [
            {"Segment": "0", "Stores": number, "Mean": "20 \u00b5s", "Half within": "16 \u00b5s",
             "99 % within": "64 \u00b5s", "Wait for the value": "3 \u00b5s", "Wait for the gate": "4 \u00b5s",
             "File": "D/a.seg"},
            {"Segment": "1", "Stores": "0", **dict.fromkeys(none, NONE)},
        ], found["stores"]
        assert found["tiles"] == [list(it) for it in (
            *zip(("Updates stored/s", "Scans/s", "Received/s", "Sent/s"), rates), ("Connections open", "2"),
            ("Connections in all", "1,234"), ("Memory", "3.0 MiB"), ("Running for", uptime),
        )], found["tiles"]
        assert found["plots"] == plots, found["plots"]
        assert (found["version"], found["where"]) == ("1.2.3", "127.0.0.1:7070  unix:at")
        assert found["refusals"] == "1,200 OutOfStep, 2 DeviceFailed"
    clock = re.compile(r"\d{1,2}:\d\d:\d\d( [AP]M)?")
    said = [tuple(clock.sub("NOW", it[name]) for name in ("title", "state", "news")) for it in seen]
    assert said == SAID, said


def test_links_of_the_page_lead_to_what_they_name(snapd, _):
    """And it has each place that its script fills, once."""
    with SeenServer(snapd, *fresh(snapd, 1)) as server:
        page, script = (server.get(path)[2].decode() for path in ("/", "/board.js"))
        links = re.findall(r'<a href="([^"]*)">([^<]*)</a>', page)
        assert len(links) == 14 and all(path == named for path, named in links), links
        for path in {path for path, _ in links} | {"/board.css", "/board.js"}:
            assert path in page and server.get(path)[0] == 200, path
    filled = set(re.findall(r'byId\("(\w+)"\)', script))
    assert len(filled) > 8 and all(page.count(f' id="{it}"') == 1 for it in filled), filled
    for named in re.findall(r'aria-(?:labelledby|describedby)="(\w+)"', page):
        assert page.count(f' id="{named}"') == 1, named
