"""Compares zeldrupt_recall with an implementation of its own, on files good and damaged, short and long.

Usage: compare.py DRIVER [CALLS] [SEED]
"""
import random
import struct
import subprocess
import sys

WIDTHS = {"B": 128, "T": 4, "M": 16}


def origin(kind):
    return bytes(range(16)) if kind == "M" else bytes(WIDTHS[kind])


def is_change(kind, change):
    return kind != "M" or sorted(change) == list(range(16))


def act(kind, change, state):
    if kind == "B":
        return bytes(a ^ b for a, b in zip(change, state))
    if kind == "T":
        total = int.from_bytes(change, "little") + int.from_bytes(state, "little")
        return (total % 2**32).to_bytes(4, "little")
    return bytes(change[n] for n in state)


def recall(file, cell, moment, area):
    """The answer, and the area after it."""
    if len(file) < 8:
        return 5, area
    kind = chr(file[0])
    if kind not in WIDTHS:
        return 6, area
    width = WIDTHS[kind]
    version, cells, count = struct.unpack("<BHI", file[1:8])
    if version != 1:
        return 7, area
    if not 1 <= cells <= 4096:
        return 8, area
    if count > 65535:
        return 9, area
    if len(file) != 8 + count * (6 + width):
        return 10, area
    if len(area) < width:
        return 11, area
    if cell >= cells:
        return 13, area
    if moment > count:
        return 14, area
    state, newest = origin(kind), 0
    for number in range(1, moment + 1):
        start = 8 + (number - 1) * (6 + width)
        next_number, its_cell = struct.unpack("<IH", file[start : start + 6])
        change = file[start + 6 : start + 6 + width]
        if its_cell >= cells:
            return 15, area
        if its_cell != cell:
            continue
        if next_number != newest:
            return 16, area
        if not is_change(kind, change):
            return 17, area
        state, newest = act(kind, change, state), number
    return 0, state + area[width:]


TALLIES = bytes.fromhex("5401020002000000" "00000000000005000000" "000000000100feffffff")
SWAP_0_1, SWAP_1_2 = bytes([1, 0] + list(range(2, 16))), bytes([0, 2, 1] + list(range(3, 16)))
MAPS = bytes.fromhex("4d01010002000000" "000000000000") + SWAP_0_1 + bytes.fromhex("010000000000") + SWAP_1_2

# calls worked out by hand: file, cell, moment, answer and, where it is 0, the state
WORKED = [
    (TALLIES, 0, 0, 0, bytes(4)),
    (TALLIES, 0, 2, 0, bytes([5, 0, 0, 0])),
    (TALLIES, 1, 2, 0, bytes([254, 255, 255, 255])),
    (TALLIES, 0, 3, 14, None),
    (TALLIES, 2, 0, 13, None),
    (TALLIES[:27], 0, 2, 10, None),
    (TALLIES + bytes(1), 0, 2, 10, None),
    (TALLIES[:18] + bytes([1]) + TALLIES[19:], 1, 2, 16, None),
    (TALLIES[:18] + bytes([1]) + TALLIES[19:], 1, 1, 0, bytes(4)),
    (TALLIES[:22] + bytes([2]) + TALLIES[23:], 0, 2, 15, None),
    (MAPS, 0, 2, 0, bytes([2, 0, 1] + list(range(3, 16)))),
    (MAPS[:14] + bytes(16) + MAPS[30:], 0, 2, 17, None),
]


def worked_calls():
    for file, cell, moment, answer, state in WORKED:
        area = bytes([170] * 20)
        after = area if state is None else state + area[len(state) :]
        if recall(file, cell, moment, area) != (answer, after):
            raise SystemExit(f"the comparison itself is wrong: cell {cell}, moment {moment}, expected {answer}")
        yield file, cell, moment, area


def some_change(rng, kind):
    if kind == "M":
        numbers = list(range(16))
        rng.shuffle(numbers)
        return bytes(numbers)
    return rng.randbytes(WIDTHS[kind])


def good_file(rng, kind, cells, count):
    newest = [0] * cells
    parts = [kind.encode() + struct.pack("<BHI", 1, cells, count)]
    for number in range(1, count + 1):
        cell = rng.randrange(cells)
        parts.append(struct.pack("<IH", newest[cell], cell) + some_change(rng, kind))
        newest[cell] = number
    return b"".join(parts)


def set_bytes(file, at, new):
    return file[:at] + new + file[at + len(new) :]


def damaged(rng, file, kind, cells, count):
    """One thing changed, or a few bytes."""
    step = 6 + WIDTHS[kind]
    start = 8 + rng.randrange(max(count, 1)) * step
    way = rng.randrange(12)
    if way == 0:
        return file[: rng.randrange(10)]
    if way == 1:
        return set_bytes(file, 0, rng.randbytes(1))
    if way == 2:
        return set_bytes(file, 0, rng.choice(b"BTM").to_bytes(1, "little"))
    if way == 3:
        return set_bytes(file, 1, bytes([rng.choice([0, 2, 255])]))
    if way == 4:
        return set_bytes(file, 2, struct.pack("<H", rng.choice([0, 1, cells + 1, 4096, 4097, 65535])))
    if way == 5:
        wrong = rng.choice([0, count + 1, max(count, 1) - 1, 65535, 65536, 2**32 - 1])
        return set_bytes(file, 4, struct.pack("<I", wrong))
    if way == 6:
        return file[:-1] if rng.random() < 0.5 else file + b"\0"
    if count == 0:
        return file
    if way == 7:
        return set_bytes(file, start + 4, struct.pack("<H", rng.choice([cells, cells - 1, cells + 1, 65535])))
    if way == 8:
        return set_bytes(file, start, struct.pack("<I", rng.choice([0, 1, count, 2**32 - 1])))
    if way == 9:
        return set_bytes(file, start + 6 + rng.randrange(step - 6), rng.randbytes(1))
    for _ in range(rng.randrange(1, 6)):
        file = set_bytes(file, rng.randrange(len(file)), rng.randbytes(1))
    return file


def some_call(rng):
    kind = rng.choice("BTM")
    size = rng.random()
    count = rng.randrange(8) if size < 0.7 else rng.randrange(200) if size < 0.99 else rng.randrange(3000)
    cells = rng.choice([1, 2, 3, 5, rng.randrange(1, 4097), 4096])
    file = good_file(rng, kind, cells, count)
    if rng.random() < 0.6:
        file = damaged(rng, file, kind, cells, count)
    cell = rng.choice([0, rng.randrange(cells), cells - 1, cells, 2**32 - 1, 65536])
    if count and rng.random() < 0.5:  # a cell that has records
        cell = struct.unpack("<H", (file + bytes(14))[12:14])[0]
    moment = rng.choice([count, count, rng.randrange(count + 1), 0, count + 1, 2**32 - 1])
    width = WIDTHS[kind]
    area = rng.randbytes(rng.choice([width, width + 1, width + rng.randrange(200), 300, width - 1, 0]))
    return file, cell, moment, area


def long_calls(rng):
    """Files of as many records as there can be, one of them with a fault in its last record."""
    for kind in "BTM":
        file = good_file(rng, kind, 7, 65535)
        for moment in (0, 65534, 65535, 65536):
            yield file, 3, moment, rng.randbytes(130)
        last = len(file) - 6 - WIDTHS[kind]
        wrong = set_bytes(file, last, struct.pack("<IH", 65535, 3))
        yield wrong, 3, 65534, rng.randbytes(130)
        yield wrong, 3, 65535, rng.randbytes(130)


def main():
    driver = sys.argv[1]
    calls = int(sys.argv[2]) if len(sys.argv) > 2 else 20000
    seed = int(sys.argv[3]) if len(sys.argv) > 3 else 1
    rng = random.Random(seed)
    cases = list(worked_calls()) + [some_call(rng) for _ in range(calls)] + list(long_calls(rng))
    sent = b"".join(struct.pack("<IIII", len(f), c, m, len(a)) + f + a for f, c, m, a in cases)
    got = subprocess.run([driver], input=sent, stdout=subprocess.PIPE, check=True).stdout
    at, wrong, answers = 0, 0, {}
    for i, (file, cell, moment, area) in enumerate(cases):
        answer, after = recall(file, cell, moment, area)
        answers[answer] = answers.get(answer, 0) + 1
        expected = struct.pack("<I", answer) + after
        if got[at : at + len(expected)] != expected:
            wrong += 1
            if wrong <= 5:
                print(f"call {i}: cell {cell}, moment {moment}: expected {expected[:24].hex()}, got {got[at:at + 24].hex()}")
        at += len(expected)
    if at != len(got):
        wrong += 1
        print("the driver wrote more or less than it was asked for")
    print("calls by answer:", ", ".join(f"{a}: {n}" for a, n in sorted(answers.items())))
    print(f"{len(cases)} calls, {wrong} wrong")
    return 1 if wrong else 0


if __name__ == "__main__":
    sys.exit(main())
