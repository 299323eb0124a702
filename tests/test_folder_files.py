"""Which files of a folder are its segments', by their names and by what they say: in which order they are served, and
what is said where that is none."""

import shutil

import segment_file as layout
from test_folder import made, serve

# What the files a.seg, b.seg and so on say of themselves, each its segment and how many there are; and the order that
# they are served in, by their places in that list.
ORDERS = [
    ([(0, 1)], [0]),
    ([(2, 3), (0, 3), (1, 3)], [1, 2, 0]),
    ([(it, 16) for it in range(15, -1, -1)], [*range(15, -1, -1)]),
]
NO_SEGMENT = (
    "D/b.seg: it is no segment file: bring a copy back if it was one, else move it out of D, "
    "or give it a name that doesn't end in .seg"
)


def missing(index, count):
    again = f"snapd format D/segment-{index:02}.seg --index {index} --count {count}"
    return f"D: segment {index} of {count} is missing: bring its file back, or make a new and empty one with {again}"


def twice(index, count):
    return f"D/c.seg: it is segment {index} of {count}, as D/a.seg is: move one of them out of D"


# The same, and what is said of it.
FAULTS = [
    ([], "D: it has no segment file: make them with snapd init D --count N"),
    ([(1, 2)], missing(0, 2)),
    ([(3, 4), (0, 4), (1, 4)], missing(2, 4)),
    ([(0, 16)], missing(1, 16)),
    ([(1, 2), (0, 2), (1, 2)], twice(1, 2)),
    ([(1, 3), (0, 3), (1, 3)], twice(1, 3)),
    ([(0, 2), (1, 3), (1, 2)],
     "D/b.seg: it is of 3 segments, and D/a.seg of 2: move the one that doesn't belong here out of D"),
    *(([(0, 2), wrong], NO_SEGMENT) for wrong in ((2, 2), (0, 0), (3, 17), (255, 255))),
]


def folder_of(snapd, places):
    """The folder D with these files. Each has its place in the list as its number."""
    place = snapd.file("D")
    shutil.rmtree(place, ignore_errors=True)
    place.mkdir()
    for at, (index, count) in enumerate(places):
        (place / f"{chr(ord('a') + at)}.seg").write_bytes(layout.holding((at, b""), index=index, count=count))
    return place


def test_files_are_put_in_order(snapd, _):
    for places, order in ORDERS:
        folder_of(snapd, places)
        run = serve(snapd)
        wanted = [f"segment {index} number {at} length 0 spare closed" for index, at in enumerate(order)]
        assert run.status == 0 and run.output.decode().splitlines()[: len(order)] == wanted, (places, run)


def test_files_that_are_no_whole(snapd, _):
    for places, line in FAULTS:
        folder_of(snapd, places)
        serve(snapd).gave(3, errors=f"snapd: {line}\n")


# ---- names ----

SEGMENTS = ("segment-00.seg", "a.seg", ".seg", "\u00e4 \u00f6.seg", "a.b.seg")
OTHERS = ("seg", "a.seg~", "a.SEG", "segment-00.seg.bak", ".seg.", "aseg")


def test_names_of_segments(snapd, _):
    for name in SEGMENTS + OTHERS:
        place = folder_of(snapd, [(0, 1)])
        (place / "a.seg").rename(place / name)
        if name in SEGMENTS:
            assert serve(snapd).status == 0, name
        else:
            serve(snapd).gave(3, errors="snapd: D: it has no segment file: make them with snapd init D --count N\n")


# Names, a count, and whether a file of that name is of a segment above that count.
FURTHER = [
    ("segment-04.seg", 4, True),
    ("segment-15.seg", 4, True),
    ("segment-4.seg", 16, True),
    ("segment-16.seg", 16, True),
    ("segment-.seg", 16, True),
    ("segment-03.seg", 4, False),
    ("segment-00.seg", 1, False),
    ("segment-15.seg", 16, False),
    ("a.seg", 1, False),
    ("segment-04.seg~", 4, False),
    ("Segment-04.seg", 4, False),
]


def test_names_of_further_segments(snapd, _):
    for name, count, is_further in FURTHER:
        place = folder_of(snapd, [])
        (place / name).write_bytes(b"")
        run = snapd("init", "D", "--count", count)
        if is_further:
            run.gave(
                3,
                errors=f"snapd: D/{name}: it is none of {count} segments: "
                "give the count that D was made with, or move it out of there\n",
            )
            assert [it.name for it in place.iterdir()] == [name]
        elif name in ("a.seg", "Segment-04.seg"):
            # No server takes it, so it is refused once the files are made.
            run.gave(3, made(count), serve(snapd).errors)
        else:
            run.gave(0, made(count))
