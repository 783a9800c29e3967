#!/usr/bin/env python3
"""Answers the examples of crates/cases and crates/rule_cases from the rules, apart from the Rattle code.

    tools/answer_cases.py < crates/cases/stdin | diff - crates/cases/stdout
    tools/answer_cases.py < crates/rule_cases/stdin | diff - crates/rule_cases/stdout
"""
import sys

TABLE = {
    13: [(7_000, 15_000, 45)],
    19: [(50, 100, 175), (101, 500, 140)],
    22: [(20, 60, 150), (61, 500, 90)],
    25: [(4_000, 40_000, 110)],
    27: [(200, 2_000, 40)],
    35: [(200, 800, 45)],
    36: [(50, 1_000, 115)],
    43: [(11_000, 18_000, 30)],
}
LETTERS = b"ABCDEFGHIJKLMNOPQRSTUVWXYZ0123456789"


def limit(number, target, lower, upper):
    share = [p * target for first, last, p in TABLE.get(number, []) if first <= target <= last]
    return min(share + [1000 * min(abs(target - lower), abs(target - upper))])


def big_endian(part):
    return int.from_bytes(part, "big")


def row_fault(table, target, lower, upper, length, inside, name, earlier):
    if table != 0 and table not in TABLE:
        return 4
    if target == 0 or not lower < target < upper or upper > 99_999:
        return 5
    if not 1 <= length <= 12 or not inside or any(byte not in LETTERS for byte in name):
        return 6
    return 7 if name in earlier else 0


def read(s):
    if not 10 <= len(s) <= 4_096 or big_endian(s[0:2]) != len(s):
        return "refused 1 at row 0"
    count, rows, names_length, names = (big_endian(s[i:i + 2]) for i in (2, 4, 6, 8))
    if not 1 <= count <= 16:
        return "refused 2 at row 0"
    rows_end, names_end = rows + 21 * count, names + names_length
    if min(rows, names) < 10 or max(rows_end, names_end) > len(s) or (rows_end > names and names_end > rows):
        return "refused 3 at row 0"
    earlier, answer = [], "accepted"
    for k in range(count):
        r = s[rows + 21 * k:rows + 21 * k + 21]
        offset, length = big_endian(r[19:21]), r[18]
        place = names + offset
        name = s[place:place + length]
        fault = row_fault(big_endian(r[0:2]), big_endian(r[2:6]), big_endian(r[6:10]), big_endian(r[10:14]),
                          length, offset + length <= names_length, name, earlier)
        if fault:
            return f"refused {fault} at row {k}"
        earlier.append(name)
        answer += f" {name.decode()} at {place}"
    return answer


def draft(text):
    """The bytes of a sheet that is written out: rows, then names, then the header over whatever lies there."""
    head, *rows = text.split("|")
    *numbers, names = head.split()
    length, stated, count, rows_at, names_length, names_at = map(int, numbers)
    s = bytearray(70_000 + length)
    for k, row in enumerate(rows):
        table, target, lower, upper, name_length, name_offset = map(int, row.split())
        at = rows_at + 21 * k
        for value, size in ((table, 2), (target, 4), (lower, 4), (upper, 4), (100_000, 4), (name_length, 1), (name_offset, 2)):
            s[at:at + size] = value.to_bytes(size, "big")
            at += size
    s[names_at:names_at + len(names.encode())] = names.encode()
    for i, value in enumerate((stated, count, rows_at, names_length, names_at)):
        s[2 * i:2 * i + 2] = value.to_bytes(2, "big")
    return bytes(s[:length])


def outside(k, deviation, unit):
    return abs(deviation) > k * max(unit, 1)


def guideline(name, unit, window):
    if window and outside(3, window[0], unit):
        return 2
    if name == "german":
        return 0
    if all(outside(2, e, unit) for e in window[:2]) and len(window) >= 2:
        return 2
    return int(bool(window) and outside(2, window[0], unit))


def shows(name, newest):
    if name == "side":
        return all(e > 0 for e in newest) or all(e < 0 for e in newest)
    oldest_first = newest[::-1]
    pairs = list(zip(oldest_first, oldest_first[1:]))
    return all(a < b for a, b in pairs) or all(a > b for a, b in pairs)


def verdict(rules, unit, window):
    base, *layers = rules.split("+")
    result = guideline(base, unit, window)
    for layer in layers:
        name, k, level = layer.split(":")
        k, level = min(12, max(5, int(k))), 2 if int(level) == 2 else 1
        if len(window) >= k and shows(name, window[:k]):
            result = max(result, level)
    return ("fit", "warning", "alarm")[result]


def is_number(text):
    return text.isascii() and text.isdigit() and int(text) < 2**32


def rules_read(text):
    place = 0
    for i, part in enumerate(text.split("+")):
        fields = part.split(":")
        if i == 0:
            fault = "unknown guideline" if part not in ("swiss", "german") else None
        elif len(fields) != 3:
            fault = "wrong fields"
        elif fields[0] not in ("side", "drift"):
            fault = "unknown layer"
        else:
            fault = "wrong k" if not is_number(fields[1]) else "wrong level" if not is_number(fields[2]) else None
        if fault:
            return f"wrong at {place}: {fault}"
        place += len(part.encode()) + 1
    return "read"


def value(text):
    whole, point, decimals = text.partition(".")
    if point and not 1 <= len(decimals) <= 2:
        return "none"
    digits = whole + decimals.ljust(2, "0")
    return int(digits) if whole and is_number(digits) and digits.isdigit() else "none"


def answer(line):
    word, rest = line.split(" ", 1)
    if word == "sheet":
        return read(draft(rest))
    if word == "rules":
        return rules_read(rest)
    if word == "value":
        return value(rest)
    if word == "verdict":
        rules, unit, *window = rest.split()
        return verdict(rules, int(unit), list(map(int, window)))
    numbers = list(map(int, rest.split()))
    if word == "limit":
        return limit(*numbers)
    if word == "deviation":
        return 3000 * (numbers[0] - numbers[1])
    k, deviation, size = numbers
    return str(abs(deviation) > k * size).lower()


for line in sys.stdin.read().splitlines():
    print(line if line == "" or line.startswith("#") else f"{line} -> {answer(line)}")
