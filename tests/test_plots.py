"""The drawings of the documents are what their figures make of them, and show each figure where it belongs."""

import json
import pathlib
import re
import subprocess
import sys
import xml.etree.ElementTree as xml

TOP = pathlib.Path(__file__).resolve().parent.parent
sys.path.append(str(TOP / "bench"))

import plots  # noqa: E402
from figures import Figures  # noqa: E402

SVG = "{http://www.w3.org/2000/svg}"


def document(*figures):
    """What a benchmark writes that measured these, each by what, of whom and its rounds in microseconds."""
    noted = Figures()
    for what, of, rounds in figures:
        noted.note(what, of, rounds)
    return {"date": "2026-11-28", "machine": "a machine", "figures": noted.noted}


def marks(text, tag):
    return xml.fromstring(text).iter(f"{SVG}{tag}")


def test_a_point_stands_where_its_median_is(snapd, _):
    """Ten times as long is as much higher, whoever took so long; the quartiles are the ends of a line through it."""
    figures = [(f"update, {writers}, {flush}", of, [time * many] * 3)
               for many, writers in ((1, "1 writer"), (10, "10 writers"))
               for flush in (plots.OWN, plots.SLOW) for of, time in (("snapd", 20), ("redis", 200))]
    text = plots.drawn("updates", document(*figures))
    heights = [float(it.get("cy")) for it in marks(text, "circle")]
    assert len(heights) == 8 and heights[:4] == heights[4:]
    (mine, mine_of_ten), (its, its_of_ten) = heights[:2], heights[2:4]
    assert mine_of_ten == its and abs((mine - its) - (its - its_of_ten)) < 0.2 and mine > its > its_of_ten
    named = {it.text: it.get("fill") for it in marks(text, "text")}
    colours = [it.get("stroke") for it in marks(text, "polyline")]
    assert [named["snapd"], named["redis"]] == colours[:2] == colours[2:] and colours[0] != colours[1]
    assert "2026-11-28; a machine; medians of 3 rounds" in named


def test_the_quartiles_are_drawn(snapd, _):
    figures = [(what, of, [10, 20, 30, 40, 50]) for of in ("snapd", "yardstick")
               for what in ("scan beside 0 writers", "scan beside 16 writers", "its 99th percentile, beside 0",
                            "its 99th percentile, beside 16")]
    made = document(*figures)
    kept = {(it["median"], *it["quartiles"], it["rounds"], it["unit"]) for it in made["figures"]}
    assert kept == {(30, 20, 40, 5, "us")}
    text = plots.drawn("scans", made)
    through = [it for it in marks(text, "line") if it.get("stroke-opacity")]
    points = list(marks(text, "circle"))
    assert len(through) == len(points) == 8
    for line, point in zip(through, points):
        assert line.get("x1") == line.get("x2") == point.get("cx")
        assert float(line.get("y1")) > float(point.get("cy")) > float(line.get("y2"))


def test_the_parts_of_a_bar_fill_it(snapd, _):
    parts = {"one": 10.0, "two": 30.0, "three": 60.0}
    text = plots.drawn("stages", document(*((plots.PLOTS["stages"].parts, of, [time]) for of, time in parts.items())))
    bars = [it for it in marks(text, "rect") if it.get("height") == "40"]
    widths = [float(it.get("width")) for it in bars]
    assert [round(it / sum(widths), 2) for it in widths] == [0.1, 0.3, 0.6]
    for left, right in zip(bars, bars[1:]):
        assert abs(float(left.get("x")) + float(left.get("width")) - float(right.get("x"))) < 0.2
    assert {"one", "10%", "60.0", "all: 100.0"} <= {it.text for it in marks(text, "text")}


def test_each_drawing_is_what_its_figures_make(snapd, _):
    assert {it.stem for it in plots.FOLDER.glob("*.svg")} == plots.PLOTS.keys()
    assert {it.stem for it in plots.FOLDER.glob("*.json")} == {it.source for it in plots.PLOTS.values()}
    for name, plot in plots.PLOTS.items():
        made = json.loads((plots.FOLDER / f"{plot.source}.json").read_text())
        assert re.fullmatch(r"\d{4}-\d\d-\d\d", made["date"])
        assert made["machine"] and made["program"].startswith("snapd ")
        assert (plots.FOLDER / f"{name}.svg").read_text() == plots.drawn(name, made), f"run: make figures ({name})"
        assert xml.parse(plots.FOLDER / f"{name}.svg").getroot().tag == f"{SVG}svg"


def test_the_script_draws_into_a_folder(snapd, _):
    for it in plots.FOLDER.glob("*.json"):
        (snapd.folder / it.name).write_bytes(it.read_bytes())
    script = [sys.executable, str(TOP / "bench" / "plots.py"), "--folder", str(snapd.folder)]
    subprocess.run([*script, "stages"], check=True)
    assert [it.name for it in snapd.folder.glob("*.svg")] == ["stages.svg"]
    subprocess.run(script, check=True)
    for name in plots.PLOTS:
        assert (snapd.folder / f"{name}.svg").read_bytes() == (plots.FOLDER / f"{name}.svg").read_bytes()
