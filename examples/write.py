"""Writes the hour's file of the requirements' case A, from lists of amounts, to standard output: an hour, its zone, and of each user an entry, an exit, a net title
transfer and a pooling transfer.

Usage: PYTHONPATH=bindings/python python3 examples/write.py >target/hour.csv
"""

import sys

from gas_day import Zone, write_hour_file


def main():
    file = write_hour_file(
        1,
        Zone.H,
        entry=[30_000_000, 15_000_000, 2_000_000],
        exit=[-10_000_000, -5_000_000, -5_000_000],
        title=[0, 0, 0],
        pooling=[0, 0, 0],
    )
    sys.stdout.buffer.write(file)


if __name__ == "__main__":
    main()
