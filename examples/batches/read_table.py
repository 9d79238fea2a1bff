#!/usr/bin/env python3
"""Reads a table that `agg_tool answer` printed.

    agg_tool answer SUMMARY > totals.csv && read_table.py totals.csv

The columns of the example are city, sales, total and all_paid. Null is \\N, a boolean t or f, and a sum may be larger than 64 bits,
which an int of Python holds. Needs Python 3.
"""

import csv
import sys


def number(field):
    return None if field == r"\N" else int(field)


def boolean(field):
    return {"t": True, "f": False, r"\N": None}[field]


def read_table(path):
    with open(path, encoding="utf-8", newline="") as stream:
        rows = csv.DictReader(stream, strict=True)
        # Of two columns of one name a dictionary keeps the last.
        if len(set(rows.fieldnames)) < len(rows.fieldnames):
            sys.exit(f"{path}: two columns have one name: give them others by AS")
        return [
            {
                "city": None if row["city"] == r"\N" else row["city"],
                "sales": number(row["sales"]),
                "total": number(row["total"]),
                "all_paid": boolean(row["all_paid"]),
            }
            for row in rows
        ]


table = read_table(sys.argv[1])
totals = [row["total"] for row in table if row["total"] is not None]
unpaid = [" ".join(row["city"].split()) for row in table if row["all_paid"] is False]
print(f"{len(table)} groups, {sum(totals)} in all, of {len(table) - len(totals)} nothing is known, not paid: {', '.join(unpaid)}")
