"""Sixteen writers and eight readers on a server of real files, and the judgement of all replies."""

import segment_file as layout
from load import Load
from serving import Server, fresh


def whole_record(snapd, rng, updates, scanners):
    """Runs this many updates, and more if the scans have shown too few of them. Then it judges the record, and checks
    the files."""
    load = Load(16, rng)
    files = fresh(snapd, 16)
    with Server(snapd, *files, scanners=scanners) as server:
        load.run(server, 8, lambda: load.answered >= updates * (1 if len(load.moments) > 200 else 20))
        load.resume(server)
        load.judge()
    assert load.answered >= updates and len(load.moments) > 200, (load.answered, len(load.moments))
    for segment, file in enumerate(files):
        last = load.numbers[segment]
        assert layout.answer_of(snapd.file(file).read_bytes()) == (last, load.values[segment][last])
    with Server(snapd, *files) as server:
        load.resume(server)
        load.judge()


def test_ten_thousand_updates(snapd, rng):
    whole_record(snapd, rng, 10_000, 2)


def test_a_scanner_for_each_reader(snapd, rng):
    whole_record(snapd, rng, 1_000, 8)


def test_workers_that_store_themselves(snapd, rng):
    """Some have one connection, and so they store, beside others whose storers do."""
    whole_record(snapd, rng, 1_000, 16)
