#!/usr/bin/env python3
"""Questions over tables, beside sqlite3, which imports the same tables into memory and answers the same question in one process.

    bench/tables.py PROGRAM [--rows N] [--rounds R] [--only WORD] [--folder FOLDER]

The table has N rows (1,000,000: 39.7 MB) `id,name,grp,score` in 100 groups; beside it stands one of the groups. The last column
tells how often each scan was started and how many rows the drivers handed."""
from measuring import Table, has, make_tables, setting, write

words = setting(__doc__, ("--rows", 1_000_000, "rows of the large table"))
TABLE, GROUPS = "[grp: int, id: int, name: string, score: int]", "[grp: int, label: string]"
# A name of a source, its file, its columns for sqlite3 and for a catalogue.
SOURCES = {
    "t": ("t.csv", "id integer, name text, grp integer, score integer", TABLE),
    "a": ("a.csv", "id integer, name text, grp integer, score integer", TABLE),
    "b": ("a.csv", "id integer, name text, grp integer, score integer", TABLE),
    "h": ("h.csv", "grp integer, label text", GROUPS),
}


def make_sources():
    make_tables(words.rows)
    for driver in ("flat", "sql"):
        write(f"{driver}.cat", "".join(f'source {name} : {{|{columns}|}} = {driver} "{path}";\n' for name, (path, _, columns) in SOURCES.items()))
    write("list.cat", "".join(f'source {name} : [|{columns}|] = flat "{path}";\n' for name, (path, _, columns) in SOURCES.items()))


# A question, the tables that it names, as CPL, as SQL, and the ways in which it is run: a catalogue and options.
QUESTIONS = [
    ("count of the rows", "t", "count(t);", "select count(*) from t;", ["flat"]),
    ("the rows of a group, two columns", "t", "{|[id=x.id, name=x.name] | \\x <- t, x.grp = 3|};", "select id, name from t where grp = 3;",
     ["flat", "flat --no-delegate", "sql", "sql --no-delegate"]),
    ("a count over them", "t", "count({|x | \\x <- t, x.grp = 3|});", "select count(*) from t where grp = 3;", ["flat", "flat --no-delegate", "sql", "sql --no-delegate"]),
    ("the set of the groups", "t", "{x.grp | \\x <- t};", "select distinct grp from t;", ["flat"]),
    ("join with the groups", "th", "{|[id=x.id, label=y.label] | \\x <- t, \\y <- h, y.grp = x.grp|};", "select t.id, h.label from t, h where h.grp = t.grp;",
     ["flat", "flat --join block", "sql"]),
    ("the groups bound by `let` before the join", "th", "let \\g == h in {|[id=x.id, label=y.label] | \\x <- t, \\y <- g, y.grp = x.grp|};",
     "select t.id, h.label from t, h where h.grp = t.grp;", ["flat", "flat --no-rewrite"]),
    ("join of the rows with themselves by a key", "t", "{|[name=x.name, score=y.score] | \\x <- t, \\y <- t, x.id = y.id|};", None, ["flat"]),
    ("join of a tenth with a tenth by a key", "ab", "{|[name=x.name, score=y.score] | \\x <- a, \\y <- b, x.id = y.id|};",
     "select a.name, b.score from a, b where a.id = b.id;", ["flat", "sql"]),
    ("for each group its names", "th", "{[grp=g.grp, names={|x.name | \\x <- t, x.grp = g.grp|}] | \\g <- h};",
     "select h.grp, group_concat(t.name, ', ') from h join t on t.grp = h.grp group by h.grp;", ["flat"]),
    ("a count of the groups inside a loop", "th", "sum({|x.score + count(h) | \\x <- t|});", "select sum(t.score + (select count(*) from h)) from t;", ["flat"]),
    ("the list of all rows", "t", "[|x | \\x <- t|];", "select * from t;", ["list", "list --first 10"]),
    ("the join with the groups as a list", "th", "[|[id=x.id, label=y.label] | \\x <- t, \\y <- h, y.grp = x.grp|];",
     "select t.id, h.label from t, h where h.grp = t.grp;", ["list", "list --first 10"]),
]
ITSELF = "select a.name, b.score from t a, t b where a.id = b.id;"

make_sources()
table = Table(words, ("Rows handed, then starts", r"^(?:handed|scan \d+ starts|join \d+ .*starts) (\d+)"))
for name, named, text, query, ways in QUESTIONS:
    peer = f"{name}: sqlite3"
    path = name.replace(" ", "_").replace("`", "").replace(",", "") + ".cpl"
    write(path, text + "\n")
    write(path + ".sql", ".mode csv\n" + "".join(f"create table {it}({SOURCES[it][1]});\n.import --skip 1 {SOURCES[it][0]} {it}\n" for it in named) + (query or ITSELF) + "\n")
    if has("sqlite3"):
        table.add(peer, ["sqlite3", ":memory:"], path + ".sql", peer)
    for way in ways:
        catalogue, *options = way.split()
        told = " ".join([f"`{catalogue}`" if len({it.split()[0] for it in ways}) > 1 else "", *(f"`{it}`" for it in [" ".join(options)] if it)]).strip()
        table.add(f"{name}{': ' if told else ''}{told}", [words.program, "run", path, f"{catalogue}.cat", "--stats", *options], peer=peer)
table.add("`gen 0 N`", [words.program, "gen", "0", str(min(words.rows, 1_000_000))])
table.run()
