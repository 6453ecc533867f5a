#!/usr/bin/env python3
# The cases of the framed program: each a sheet and the text that document 01 asks for it, written out by hand.
# Run in this folder, it writes the frames of the sheets to stdin and those of the texts to stdout.
def board(cores, tick):
    return bytes([1, cores]) + tick.to_bytes(2, "big")


def row(label, priority, c, d, t):
    numbers = [(label, 2), (priority, 2), (c, 4), (d, 4), (t, 4)]
    return bytes([2]) + b"".join(n.to_bytes(size, "big") for n, size in numbers)


def end(count):
    return bytes([3, count])


def document(third_deadline):
    rows = [row(101, 1, 200, 500, 500), row(110, 10, 200, third_deadline, 1000), row(102, 2, 300, 800, 800)]
    return board(2, 100) + b"".join(rows) + end(3)


def one(*times):
    return board(1, 1) + row(7, 1, *times) + end(1)


def rows(count):
    return b"".join(row(i, i, 1, 1000000, 1000000) for i in range(1, count + 1))


SOUND = row(7, 1, 1, 4, 4)
MILLION = 1000000
FIRST = "cores 2 tick 100 rows 3\n1 101 2 5\n2 102 3 8\n"
FULL = "".join(f"{i} {i} {1 if i <= 16 else 2} 1000000\n" for i in range(1, 33))

CASES = [
    # the sheet of document 01, with D 3 in its last row, and without its last byte
    (document(400), FIRST + "3 110 4 4\nall shown\n"),
    (document(399), FIRST + "not shown 3 110\n"),
    (document(400)[:-1], "refused 11 55\n"),
    # numbers 1 to 6
    (board(2, 100) + end(0), "refused 1 0\n"),
    (board(0, 100) + SOUND + end(1), "refused 2 0\n"),
    (board(17, 1) + SOUND + end(1), "refused 2 0\n"),
    (board(255, 1) + end(0), "refused 1 0\n"),
    (one(0, 5, 5), "refused 3 1\n"),
    (one(5, 4, 3), "refused 4 1\n"),
    (one(4, 5, 4), "refused 5 1\n"),
    (one(MILLION, MILLION, MILLION + 1), "refused 6 1\n"),
    (board(1, 1) + row(8, 2, 1, 2, 1) + SOUND + end(2), "refused 5 2\n"),
    # number 8: the first row without a bound is named, with its label
    (board(1, 1) + row(9, 999, 1, 1, 1) + row(0, 3, 1, 1, 1) + end(2), "cores 1 tick 1 rows 2\n1 0 1 1\nnot shown 2 9\n"),
    # numbers 11 to 19
    (b"", "refused 11 0\n"),
    (board(1, 1), "refused 11 4\n"),
    (board(1, 1) + SOUND[:-1], "refused 11 4\n"),
    (bytes([7]), "refused 12 0\n"),
    (board(1, 1) + bytes([0]), "refused 12 4\n"),
    (end(0), "refused 13 0\n"),
    (bytes([2]), "refused 13 0\n"),
    (board(1, 1) + SOUND + board(1, 1), "refused 13 21\n"),
    (board(1, 1) + rows(33), "refused 14 548\n"),
    (board(1, 1) + SOUND + SOUND + end(2), "refused 15 21\n"),
    (board(1, 1) + row(7, 0, 1, 4, 4) + end(1), "refused 16 4\n"),
    (board(1, 1) + row(7, 1000, 1, 4, 4) + end(1), "refused 16 4\n"),
    (board(1, 1) + SOUND + end(2), "refused 17 21\n"),
    (board(1, 1) + SOUND + end(1) + b"\0", "refused 18 23\n"),
    (board(1, 0) + SOUND + end(1), "refused 19 0\n"),
    # 32 rows: on 16 cores the first 16 need one tick, the others two
    (board(16, 1) + rows(32) + end(32), "cores 16 tick 1 rows 32\n" + FULL + "all shown\n"),
    # exactly 1,024 bytes, and more
    (document(400) + bytes(1024 - 57), "refused 18 57\n"),
    (document(400) + bytes(1100 - 57), "refused 18 57\n"),
    (bytes([1, 1, 0, 1] * 256), "refused 13 4\n"),
    (bytes([1, 1, 0, 1] * 1024), "refused 13 4\n"),
    # the largest numbers; the remainder of a time is dropped; the least of each
    (board(1, 1) + row(65535, 999, MILLION, MILLION, MILLION) + end(1), "cores 1 tick 1 rows 1\n1 65535 1000000 1000000\nall shown\n"),
    (board(16, 65535) + row(10, 9, 65535, 2**32 - 1, 2**32 - 1) + end(1), "cores 16 tick 65535 rows 1\n1 10 1 65537\nall shown\n"),
    (board(3, 100) + row(0, 1, 199, 299, 399) + end(1), "cores 3 tick 100 rows 1\n1 0 1 2\nall shown\n"),
    (board(3, 100) + row(0, 1, 99, 299, 399) + end(1), "refused 3 1\n"),
]


def frames(parts):
    return b"".join(len(part).to_bytes(2, "big") + part for part in parts)


with open("stdin", "wb") as sheets, open("stdout", "wb") as texts:
    sheets.write(frames(sheet for sheet, _ in CASES))
    texts.write(frames(text.encode() for _, text in CASES))
