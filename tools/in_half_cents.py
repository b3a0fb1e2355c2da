#!/usr/bin/env python3
# The output that a day must give, from its NAME.out. Since W6 the prices of event lines count half cents. The outputs of the
# folders IN_CENTS came before it, in cents, and stay as they were given, for an outside vector is not adjusted (in w2 those that
# we derived keep to the same measure); so whoever compares with them doubles the price of each line 11, 12 and 14 first. The
# outputs of days/desk, days/examples, days/w6 and days/w7 are in half cents.
#
#   tools/in_half_cents.py NAME.out     print it, in half cents
import pathlib
import sys

IN_CENTS = ("base", "w2", "w4", "w5")
DAYS = pathlib.Path(__file__).resolve().parent.parent / "days"
PRICE_AT = {b"11": 18, b"12": 10, b"14": 10}  # where the eight digits of the price begin


def with_price_doubled(line):
    at = PRICE_AT.get(line[:2])
    return line if at is None else b"%s%08x%s" % (line[:at], 2 * int(line[at:at + 8], 16), line[at + 8:])


def output_of(path):
    """The event lines of the file NAME.out, in half cents."""
    given = path.read_bytes()
    if path.resolve().parent not in [DAYS / folder for folder in IN_CENTS]:
        return given
    return b"".join(map(with_price_doubled, given.splitlines(keepends=True)))


if __name__ == "__main__":
    if len(sys.argv) != 2:
        sys.exit("usage: tools/in_half_cents.py NAME.out")
    sys.stdout.buffer.write(output_of(pathlib.Path(sys.argv[1])))
