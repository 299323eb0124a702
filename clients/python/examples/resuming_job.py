"""A job that continues where it was, however it died.

    python3 resuming_job.py ADDRESS SEGMENT STEPS

It adds up the squares of 1 to STEPS, one step after another, and keeps step and sum in its segment of a snapd server.
Kill it with `kill -9` at any time and start it again with the same arguments: it continues with the next step. At the
end it prints the sum.
"""

import json
import sys

from snapd_client import Client


def main() -> None:
    address, segment, steps = sys.argv[1], int(sys.argv[2]), int(sys.argv[3])
    with Client(address) as client:
        mine = client.segment(segment)
        state = json.loads(mine.get() or b'{"step": 0, "sum": 0}')
        print("begins after step", state["step"], file=sys.stderr, flush=True)
        while state["step"] < steps:
            step = state["step"] + 1
            state = {"step": step, "sum": state["sum"] + step * step}
            mine.put(json.dumps(state).encode())
    print(state["sum"])


main()
