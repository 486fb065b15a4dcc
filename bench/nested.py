#!/usr/bin/env python3
"""Files of nested values, beside jq over the same data as JSON.

    bench/nested.py PROGRAM [--bytes N] [--rounds R] [--only WORD] [--folder FOLDER]

The file has N bytes (100,000,000: 818,242 items) of records with a variant and two sets. `upgrade` prints it with its type."""
import random
from measuring import Table, has, setting, write

words = setting(__doc__, ("--bytes", 100_000_000, "size of the file"))
TYPE = "[acc: string, loc: <chr: int>, marks: {int}, refs: {string}, title: string]"


def make_files():
    choose, size, i = random.Random(5), 0, 0
    with open("genes.kx", "w") as kx, open("genes.json", "w") as json, open("typed.kx", "w") as typed:
        typed.write(f"type {TYPE};\n")
        while size < words.bytes:
            title, place = choose.randrange(10**6), choose.randrange(20)
            marks, refs = [str(choose.randrange(100)) for _ in range(6)], [f"r{choose.randrange(1000)}" for _ in range(4)]
            quoted = [f'"{it}"' for it in refs]
            item = f'[acc="X{i}", loc=<chr={place}>, marks={{{", ".join(marks)}}}, refs={{{", ".join(quoted)}}}, title="Locus {title}"];\n'
            size += kx.write(item)
            typed.write(item)
            json.write(f'{{"acc":"X{i}","loc":{{"chr":{place}}},"marks":[{",".join(marks)}],"refs":[{",".join(quoted)}],"title":"Locus {title}"}}\n')
            i += 1


make_files()
for name in ("genes", "typed"):
    write(f"{name}.cat", f'source genes : [|{TYPE}|] = nested "{name}.kx";\n')
table = Table(words)
for name, command, text, asked in [
    ("show", ["show", "genes.kx"], None, ["-c", ".", "genes.json"]),
    ("show, of a file that states its type", ["show", "typed.kx"], None, ["-c", ".", "genes.json"]),
    ("upgrade", ["upgrade", "genes.kx", TYPE], None, ["-c", ".", "genes.json"]),
    ("a count of the items", ["run", "count.cpl", "genes.cat"], "count(genes);", ["-n", "reduce inputs as $i (0; .+1)", "genes.json"]),
    ("the same, of a file that states its type", ["run", "count.cpl", "typed.cat"], "count(genes);", ["-n", "reduce inputs as $i (0; .+1)", "genes.json"]),
    ("the accessions of a chromosome", ["run", "select.cpl", "genes.cat"], "[|a | [acc=\\a, loc=<chr=7>, ...] <- genes|];", ["-r", "select(.loc.chr==7)|.acc", "genes.json"]),
    ("all references", ["run", "flatten.cpl", "genes.cat"], "[|r | \\g <- genes, \\r <- g.refs|];", ["-r", ".refs[]", "genes.json"]),
]:
    if text:
        write(command[1], text + "\n")
    peer = f"{name}: jq"
    if has("jq"):
        table.add(peer, ["jq", *asked], peer=peer)
    table.add(name, [words.program, *command], peer=peer)
table.run()
