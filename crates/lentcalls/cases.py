#!/usr/bin/env python3
# The cases of the program that lends benches to calls: each a bench made by hand, calls on it, and the answers and the
# bench that document 01 asks for, written out by hand. Run in this folder, it writes the frames to stdin and the
# answers to stdout.
def number(value, size=8):
    return value.to_bytes(size, "big")


def entry(c, d, t, last=None, demand=0, left=0):
    released = number(0, 1) + number(0) if last is None else number(1, 1) + number(last)
    return number(c) + number(d) + number(t) + released + number(demand) + number(left)


# What stands past the rows of a table: nothing that a bench would allow, up to the largest numbers, so that a call that
# looks at it or changes it is seen.
PAST = [entry(0, 2**64 - 1, place, 2**64 - place, 2**63, 2**63 + place) for place in range(1, 33)]


def bench(cores, instant, *entries, count=None):
    rows = len(entries) if count is None else count
    return number(cores, 4) + number(instant) + number(rows, 2) + b"".join(list(entries) + PAST[len(entries):])


def poll(place, demand):
    return number(1, 1) + number(place) + number(demand)


def run(ticks):
    return number(3, 1) + number(2**40) + number(ticks)


def ended(*polls):
    told = b"".join(number(place, 1) + number(response) for place, response in polls)
    return bytes(9) + number(len(polls), 1) + told


def refused(which, place=0):
    return number(which, 1) + number(place) + bytes(1)


# A tick has kind 2, or any kind that no other call has; its place and demand are not looked at.
TICK = number(2, 1) + bytes(16)
TICKS = [TICK, number(0, 1) + number(1) + number(2), number(255, 1) + number(2**64 - 1) + number(2**64 - 1)]
TAKEN = ended()
END = 1_000_000_000


# A case whose calls are all refused by 29: a release, a tick and a run, of which the last is taken and does nothing.
def broken(*record, **more):
    made = bench(*record, **more)
    return made, [poll(1, 1), TICK, run(2)], [refused(29), refused(29), TAKEN], made


FINE = entry(2, 3, 3)
CASES = [
    # One core: the second row waits for the first.
    (bench(1, 5, FINE, entry(1, 4, 5)), [poll(1, 2), poll(2, 1), *TICKS],
     [TAKEN, TAKEN, TAKEN, ended((1, 2)), ended((2, 3))],
     bench(1, 8, entry(2, 3, 3, 5, 2, 0), entry(1, 4, 5, 5, 1, 0))),
    # Two cores: the two rows at the top end in the first tick, and the third, which has waited, in the third.
    (bench(2, 0, entry(1, 2, 3), entry(1, 2, 3), entry(2, 5, 9)),
     [poll(3, 2), poll(1, 1), poll(2, 1), TICK, TICK, TICK],
     [TAKEN, TAKEN, TAKEN, ended((1, 1), (2, 1)), TAKEN, ended((3, 3))],
     bench(2, 3, entry(1, 2, 3, 0, 1, 0), entry(1, 2, 3, 0, 1, 0), entry(2, 5, 9, 0, 2, 0))),
    # Places 0, past the rows and far past them; demands 0 and above C.
    (bench(1, 0, FINE),
     [poll(0, 1), poll(2, 1), poll(2**64 - 1, 0), poll(1, 0), poll(1, 3), poll(1, 2**64 - 1), poll(1, 1)],
     [refused(20, 0), refused(20, 2), refused(20, 2**64 - 1), refused(23, 1), refused(23, 1), refused(23, 1), TAKEN],
     bench(1, 0, entry(2, 3, 3, 0, 1, 1))),
    # Too soon, though unfinished too; unfinished, the gap over; exactly at the gap; a wrong demand before both.
    (bench(1, 10, entry(2, 3, 3, 8, 2, 1), entry(1, 4, 5, 5, 1, 1), entry(1, 2, 4, 6, 1, 0)),
     [poll(1, 1), poll(2, 1), poll(3, 1), poll(3, 1), poll(1, 3)],
     [refused(22, 1), refused(21, 2), TAKEN, refused(22, 3), refused(23, 1)],
     bench(1, 10, entry(2, 3, 3, 8, 2, 1), entry(1, 4, 5, 5, 1, 1), entry(1, 2, 4, 10, 1, 1))),
    # A poll of the first instant ends at the last: the longest response time. There a tick is refused, and no release.
    (bench(1, END - 1, entry(1, 1, 1, 0, 1, 1)), [TICK, TICK, poll(1, 1), poll(1, 1)],
     [ended((1, END)), refused(24), TAKEN, refused(22, 1)], bench(1, END, entry(1, 1, 1, END, 1, 1))),
    # Many ticks: the polls that end are not told, and the run stops at the clock's end.
    (bench(1, 20, entry(2, 3, 3, 20, 2, 2), entry(3, 9, 9, 19, 3, 3)), [run(0), run(4), poll(1, 1), TICK],
     [TAKEN, TAKEN, TAKEN, ended((1, 1))], bench(1, 25, entry(2, 3, 3, 24, 1, 0), entry(3, 9, 9, 19, 3, 1))),
    (bench(16, END - 2, entry(5, 5, 5, END - 2, 5, 5)), [run(3), TICK, run(9)], [TAKEN, refused(24), TAKEN],
     bench(16, END, entry(5, 5, 5, END - 2, 5, 3))),
    # 32 rows: all are served by 16 cores in two ticks.
    (bench(16, 1, *[entry(1, 2, 3, 0, 1, 1)] * 32), [TICK, TICK],
     [ended(*[(place, 2) for place in range(1, 17)]), ended(*[(place, 3) for place in range(17, 33)])],
     bench(16, 3, *[entry(1, 2, 3, 0, 1, 0)] * 32)),
    # 29: a table that fails 1 to 6, in this order.
    broken(1, 0, count=0),
    broken(1, 0, *[FINE] * 32, count=33),
    broken(1, 0, *[FINE] * 32, count=65535),
    broken(0, 0, FINE),
    broken(17, 0, FINE),
    broken(0x01000001, 0, FINE),
    broken(1, 0, FINE, entry(0, 3, 3)),
    broken(1, 0, FINE, entry(4, 3, 3)),
    broken(1, 0, FINE, entry(2, 4, 3)),
    broken(1, 0, FINE, entry(2, 3, 1_000_001)),
    # 29: an instant above the last; a last release after it, by one; a demand above C; a remainder above that demand;
    # work on a row never released.
    broken(1, END + 1, FINE),
    broken(1, 6, FINE, entry(2, 3, 3, 7, 0, 0)),
    broken(1, 6, FINE, entry(2, 3, 3, 6, 3, 0)),
    broken(1, 6, FINE, entry(2, 3, 3, 6, 1, 2)),
    broken(1, 6, FINE, entry(2, 3, 3, None, 1, 1)),
    # The bounds of these: all of them are fine.
    (bench(16, 6, FINE, entry(2, 3, 1_000_000, 6, 2, 2), entry(2, 3, 3, None, 2, 0)), [poll(2, 2), TICK, poll(3, 1)],
     [refused(22, 2), TAKEN, TAKEN], bench(16, 7, FINE, entry(2, 3, 1_000_000, 6, 2, 1), entry(2, 3, 3, 7, 1, 1))),
    # No calls. A row is released by any byte but 0, and the last release of one that is not is not looked at.
    (bench(1, 0, FINE), [], [], bench(1, 0, FINE)),
    (bench(1, 9, number(2) + number(3) + number(3) + number(255, 1) + number(9) + number(1) + number(1),
           number(2) + number(3) + number(3) + number(0, 1) + number(77) + number(0) + number(0)), [TICK],
     [ended((1, 1))], bench(1, 10, entry(2, 3, 3, 9, 1, 0), FINE)),
]


def frame(content):
    return number(len(content), 2) + content


# The input ends inside the call of the last frame: it is not run, and has no answer.
CUT = frame(bench(1, 0, FINE) + TICK)[:-1]

with open("stdin", "wb") as file:
    file.write(b"".join(frame(made + b"".join(calls)) for made, calls, _, _ in CASES) + CUT)
with open("stdout", "wb") as file:
    file.write(b"".join(b"".join(answers) + after for _, _, answers, after in CASES))
