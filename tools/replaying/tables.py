"""Tables for people and for programs."""
import csv
import sys


def write_table(heads, rows, texts=()):
    """Writes rows of strings below their heads. Columns of these numbers are texts, and begin at the left; all others are numbers."""
    lines = [heads, *rows]
    widths = [max(map(len, column)) for column in zip(*lines)]
    for line in lines:
        cells = (cell.ljust(width) if at in texts else cell.rjust(width) for at, (cell, width) in enumerate(zip(line, widths)))
        print("  ".join(cells).rstrip())


def write_csv(heads, rows):
    writer = csv.writer(sys.stdout, lineterminator="\n")
    writer.writerow(heads)
    writer.writerows(rows)
