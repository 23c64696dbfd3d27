#!/usr/bin/env python3
"""Loads allotment files by Python's sqlite3, as a plain script would: what ./bench holds the desk's load against.

load.py FILE DESK CSV ..    makes FILE with the tables of the desk's database DESK, and loads each file as one batch
"""
import csv
import datetime
import sqlite3
import sys

KINDS = {"flight": 0, "room": 1, "transfer": 2, "cover": 3}
EPOCH = datetime.date(1970, 1, 1)


def load(conn, number, path):
    """Loads the file as the batch of this number, in one transaction: the places that are held stay held."""
    with open(path, newline="", encoding="ascii") as file:
        rows = list(csv.reader(file))[1:]
    content = "".join(f"{kind[0].upper()}/{supplier}/{product}/{night}/{places}\n" for kind, supplier, product, night, places in rows)
    conn.execute("BEGIN")
    conn.execute("INSERT INTO batch VALUES (?, ?, ?)", (f"load-{number}", number + 1, content.encode()))
    for kind, supplier, product, night, places in rows:
        day = (datetime.date.fromisoformat(night) - EPOCH).days
        conn.execute(
            "INSERT INTO stock VALUES (?1, ?2, ?3, ?4, ?5, ?5) ON CONFLICT(kind, supplier, product, night) "
            "DO UPDATE SET free = excluded.allot - (allot - free), allot = excluded.allot",
            (KINDS[kind], supplier, product, day, int(places)),
        )
    conn.execute("UPDATE meta SET events = ? WHERE one = 1", (number + 1,))
    conn.execute("COMMIT")


def main():
    """Makes the tables, and loads each file."""
    tables = [row[0] for row in sqlite3.connect(sys.argv[2]).execute("SELECT sql FROM sqlite_master WHERE sql IS NOT NULL")]
    conn = sqlite3.connect(sys.argv[1], isolation_level=None)
    conn.execute("PRAGMA journal_mode = WAL")
    conn.execute("PRAGMA synchronous = FULL")
    conn.execute("PRAGMA foreign_keys = ON")
    for table in tables:
        conn.execute(table)
    conn.execute("INSERT INTO meta VALUES (1, 2, 0, 0)")
    for number, path in enumerate(sys.argv[3:]):
        load(conn, number, path)
    conn.close()


main()
