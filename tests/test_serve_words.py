"""The words of `serve` that set limits and the log, up to their bounds, and the segments that the mask of `call ADDR
part MASK` names. Wrong words are those of test_words.py."""

import remedies
from serving import Server, fresh

ADDRESS = "127.0.0.1:0"
MISSING = remedies.failed("missing", remedies.MISSING, remedies.no_file("missing"))


def test_limits_within_their_bounds_are_taken(snapd, _):
    """Then the file is looked for, which isn't there."""
    for words in [
        ("--clients-max", 1), ("--clients-max", 1_000_000), ("--idle", 1), ("--idle=31536000",),
        ("--log", "error"), ("--log", "warn"), ("--log", "info"), ("--log=debug",),
        ("--clients-max=50", "--idle=60", "--log=warn", "--scanners=2", "--connections=3"),
    ]:
        snapd("serve", ADDRESS, "missing", *words).gave(1, errors=MISSING)


# ---- some segments ----

def lines_of(scan, *segments):
    """The lines of these segments in what a scan of all printed."""
    lines = scan.output.decode().splitlines(keepends=True)
    return "".join(lines[segment] for segment in segments)


def test_a_part_is_the_lines_of_its_segments(snapd, _):
    """Of sixteen, in ascending order, each under its own index; all of them are what a scan prints."""
    with Server(snapd, *fresh(snapd, 16)) as server:
        for segment in range(0, 16, 3):
            snapd("call", server.address, "update", segment, 1, f"{segment:02x}").gave(0, "stored 1\n")
        snapd("call", server.address, "update", 3, 2, "6869").gave(0, "stored 2\n")
        scan = snapd("call", server.address, "scan")
        snapd("call", server.address, "part", "0009").gave(
            0, "segment 0 number 1 value 00\nsegment 3 number 2 value 6869\n"
        )
        snapd("call", server.address, "part", "8002").gave(
            0, "segment 1 number 0 value -\nsegment 15 number 1 value 0f\n"
        )
        for mask in ("aBc0", "ABC0", "abc0", "0001", "8000", "5555", "FFFF"):
            named = [segment for segment in range(16) if int(mask, 16) >> segment & 1]
            snapd("call", server.address, "part", mask).gave(0, lines_of(scan, *named))
        snapd("call", server.address, "part", "ffff").gave(0, scan.output)


def test_a_part_of_segments_that_are_not_there(snapd, _):
    """The refusal's detail is how many there are."""
    with Server(snapd, *fresh(snapd, 2)) as server:
        snapd("call", server.address, "part", "0003").gave(
            0, "segment 0 number 0 value -\nsegment 1 number 0 value -\n"
        )
        for mask in ("0004", "0005", "8001", "ffff"):
            snapd("call", server.address, "part", mask).gave(3, errors="snapd: refused 2 NoSegment 2\n")
