"""Reads an hour's file from standard input, settles its hour with January's default thresholds, and prints each user's place, position before, quantity, money and
position after. A refusal prints its cause and ends with status 1.

Usage: PYTHONPATH=bindings/python python3 examples/settle.py <examples/case_a.csv
"""

import sys

from gas_day import LENGTH_USUAL, GasDay, Refusal, default_thresholds, read_hour_file


def settle(data):
    """The lines of place, position before, quantity, money and position after."""
    file = read_hour_file(data)
    day = GasDay(file.users, LENGTH_USUAL)
    done = day.settle_file(file, default_thresholds(1, file.zone), excess_price=20_000, shortfall_price=25_000)
    for place, after in enumerate(day.positions(file.zone)):
        yield place, done.quantity[place] + after, done.quantity[place], done.money[place], after


def main():
    try:
        lines = list(settle(sys.stdin.buffer.read()))
    except Refusal as refusal:
        print(f"refused,{refusal.number}", end="\r\n")
        return 1
    print("g,before,q,money,after", end="\r\n")
    for line in lines:
        print(*line, sep=",", end="\r\n")
    return 0


if __name__ == "__main__":
    sys.exit(main())
