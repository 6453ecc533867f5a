#!/usr/bin/env python3
# The cases of the program that runs histories: each a history and the answer that document 01 and docs/REPLAY.md ask
# for it, written out by hand. Run in this folder, it writes the frames of the histories to stdin and those of the
# answers to stdout.
def history(cores, rows, *calls):
    times = b"".join(time.to_bytes(4, "big") for row in rows for time in row)
    return bytes([cores, len(rows)]) + times + b"".join(calls)


def poll(place, demand):
    return bytes([1, place]) + demand.to_bytes(4, "big")


def done(*answers):
    return bytes([0]) + b"".join(answers)


def ended(*polls):
    return bytes([0, 0, len(polls)]) + b"".join(bytes([place, 0, 0, 0, response]) for place, response in polls)


def refused(number, place):
    return bytes([number, place, 0])


TICK = bytes([2, 0, 0, 0, 0, 0])
TAKEN = bytes([0, 0, 0])
ROWS = [(2, 3, 3), (1, 4, 5)]

CASES = [
    # One core: the second row waits for the first, which is polled too soon and then at its gap.
    (history(1, ROWS, poll(1, 2), poll(2, 1), TICK, poll(1, 2), TICK, TICK, poll(1, 2)),
     done(TAKEN, TAKEN, TAKEN, refused(22, 1), ended((1, 2)), ended((2, 3)), TAKEN)),
    # Wrong places and demands.
    (history(1, ROWS, poll(0, 1), poll(3, 1), poll(1, 0), poll(1, 3), poll(2, 1), poll(2, 1), poll(1, 2), TICK),
     done(refused(20, 0), refused(20, 3), refused(23, 1), refused(23, 1), TAKEN, refused(22, 2), TAKEN, TAKEN)),
    # The gap has passed and the poll before is unfinished.
    (history(1, [(1, 1, 1), (1, 1, 1)], poll(1, 1), poll(2, 1), TICK, poll(2, 1), poll(1, 1)),
     done(TAKEN, TAKEN, ended((1, 1)), refused(21, 2), TAKEN)),
    # Two cores: both polls end in the first tick.
    (history(2, [(1, 2, 3), (1, 2, 3)], poll(1, 1), poll(2, 1), TICK), done(TAKEN, TAKEN, ended((1, 1), (2, 1)))),
    # No calls; no cores; a gap below the deadline in the second row; a kind that no call has; a row cut short.
    (history(1, ROWS), done()),
    (history(0, ROWS), bytes([1, 2, 0])),
    (history(1, [(2, 3, 3), (1, 4, 3)], TICK), bytes([1, 5, 2])),
    (history(1, ROWS, TICK, bytes([3, 0, 0, 0, 0, 0])), bytes([2, 0, 6])),
    (bytes([1, 1, 0]), bytes([4])),
]


def frames(contents):
    return b"".join(len(content).to_bytes(2, "big") + content for content in contents)


# The input ends inside the second row of a history with no calls: it is not run, and has no answer.
CUT = frames([history(1, ROWS)])[:-6]

with open("stdin", "wb") as file:
    file.write(frames(history for history, _ in CASES) + CUT)
with open("stdout", "wb") as file:
    file.write(frames(answer for _, answer in CASES))
