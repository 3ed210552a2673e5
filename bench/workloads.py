#!/usr/bin/env python3
"""Writes the workloads of the benchmark to a folder: w1, w2 and w3, and short ones of the same make, w1s, w2s and w3s."""
import itertools
import pathlib
import sys

LAST_YEAR = 120
KRONA = [*range(1, 11), 12, 15, 20]
EURO = [*range(1, 31), *range(35, 61, 5)]
RESERVE = "R".encode().hex()
SETTLE = "S".encode().hex()


def frame(letter, *parts):
    """A line: a letter, then bytes."""
    return (letter.encode() + b"".join(parts)).hex().upper()


def byte(number):
    return bytes([number])


def word(number):
    return number.to_bytes(4, "big", signed=True)


def quotation(maturity):
    """Rises for 20 years, then falls a little."""
    return 15_000 + 700 * maturity if maturity <= 20 else 29_160 - 8 * maturity


def cash_flow(year):
    """Every seventh is negative."""
    size = 1_000_000 + 7_919 * year
    return size if year % 7 else -size


def quote(maturity, moved=0):
    return frame("Q", byte(maturity), word(quotation(maturity) + moved))


def post(year, more=0):
    return frame("P", byte(year), word(cash_flow(year) + more))


def opening(code, maturities, years):
    """A book of swaps with its quotations and cash flows, settled."""
    yield frame("O", b"S", byte(0), code.encode())
    yield from map(quote, maturities)
    yield from map(post, years)
    yield SETTLE


def questions(lines):
    """Every year in turn: its forward, its discount factor, its zero rate, and the reserve."""
    yield from opening("SEK", KRONA, range(1, LAST_YEAR + 1))
    asked = [
        line
        for year in range(1, LAST_YEAR + 1)
        for line in (frame("F", byte(year)), frame("D", byte(year)), frame("Z", byte(year)), RESERVE)
    ]
    yield from itertools.islice(itertools.cycle(asked), lines)


def quotations(rounds):
    """One quotation after the other moves by -5 to 5 ppm; the book is settled again and asked for the reserve."""
    yield from opening("EUR", EURO, range(1, LAST_YEAR + 1))
    for i in range(rounds):
        maturity = EURO[7 * i % len(EURO)]
        yield frame("W", byte(maturity))
        yield quote(maturity, 5 * i % 11 - 5)
        yield SETTLE
        yield RESERVE


def cash_flows(lines):
    """The cash flows of the even years are posted and struck in turn, with the reserve asked after each change."""
    yield from opening("SEK", KRONA, range(1, LAST_YEAR + 1, 2))
    years = itertools.cycle(range(2, LAST_YEAR + 1, 2))
    for before, year in zip(range(0, lines, 4), years):
        yield post(year, before)
        yield RESERVE
        yield frame("X", byte(year))
        yield RESERVE


WORKLOADS = {
    "w1": (questions, 200_000),
    "w2": (quotations, 20_000),
    "w3": (cash_flows, 200_000),
    "w1s": (questions, 4_800),
    "w2s": (quotations, 720),
    "w3s": (cash_flows, 24_000),
}


def main(folder, *names):
    """Writes the named workloads, or all; NAME=SIZE asks for another size."""
    folder = pathlib.Path(folder)
    folder.mkdir(parents=True, exist_ok=True)
    for name in names or WORKLOADS:
        name, _, size = name.partition("=")
        make, usual = WORKLOADS[name]
        with open(folder / name, "w") as out:
            out.writelines(line + "\n" for line in make(int(size or usual)))


if __name__ == "__main__":
    if len(sys.argv) < 2:
        sys.exit("usage: workloads.py FOLDER [NAME | NAME=SIZE]...")
    main(*sys.argv[1:])
