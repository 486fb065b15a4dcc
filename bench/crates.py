#!/usr/bin/env python3
"""What single crates take, by the program `measure`: values, a table before anyone asks for a row, statements of SQL.

    bench/crates.py MEASURE [--rows N] [--rounds R] [--only WORD] [--folder FOLDER]

MEASURE is `crates/measure/out/measure`, built by `rt run` in crates/measure. Beside statements stands sqlite3, its import included."""
from measuring import Table, has, make_tables, setting, write

words = setting(__doc__, ("--rows", 1_000_000, "rows of the large table"))
TABLE, GROUPS = "{|[grp: int, id: int, name: string, score: int]|}", "{|[grp: int, label: string]|}"
COLUMNS = {"t": "id integer, name text, grp integer, score integer", "h": "grp integer, label text"}


make_tables(words.rows)
table = Table(words)
for step in ("build", "copy", "sort", "groups"):
    table.add(f"{step} {words.rows:,} records", [words.program, step, str(words.rows)])
table.add("the records of a table, by `csv`", [words.program, "records", "t.csv"], peer="the records of a table, by `csv`")
table.add("the table, attached", [words.program, "table", "t.csv", TABLE], peer="the records of a table, by `csv`")
FILES = {"t": ("t.csv", TABLE, "t"), "a": ("a.csv", TABLE, "t"), "b": ("a.csv", TABLE, "t"), "h": ("h.csv", GROUPS, "h")}
for name, statement, named in [
    ("select by a column", 'SELECT t0."id" AS "id", t0."name" AS "name" FROM "t" t0 WHERE t0."grp" = 3', "t"),
    ("join with the groups", 'SELECT t0."id" AS "id", t1."label" AS "label" FROM "t" t0, "h" t1 WHERE t0."grp" = t1."grp"', "th"),
    ("join of a tenth with a tenth by a key", 'SELECT t0."name" AS "n", t1."score" AS "s" FROM "a" t0, "b" t1 WHERE t0."id" = t1."id"', "ab"),
    ("a chain of three tables", 'SELECT t0."name" AS "n", t2."label" AS "l" FROM "a" t0, "b" t1, "h" t2 WHERE t0."id" = t1."id" AND t1."grp" = t2."grp"', "abh"),
    ("DISTINCT groups", 'SELECT DISTINCT t0."grp" AS "g" FROM "t" t0', "t"),
]:
    peer = f"{name}: sqlite3"
    path = name.replace(" ", "_") + ".sql"
    write(path, ".mode csv\n" + "".join(f"create table {it}({COLUMNS[FILES[it][2]]});\n.import --skip 1 {FILES[it][0]} {it}\n" for it in named) + statement + ";\n")
    if has("sqlite3"):
        table.add(peer, ["sqlite3", ":memory:"], path, peer)
    table.add(name, [words.program, "sql", statement, *(part for it in named for part in (it, FILES[it][1], FILES[it][0]))], peer=peer)
table.run()
