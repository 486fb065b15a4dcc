#!/usr/bin/env python3
"""Programs that are as large, as nested or as slow as the limits allow.

    bench/programs.py PROGRAM [--rounds R] [--only WORD] [--stack] [--folder FOLDER]

Each should take at most a second and 100 MB; docs/PERFORMANCE.md says of which that is not so. With --stack it tells of each
the least stack, in steps of 64 KB, with which it ends the same."""
import resource, subprocess, sys
from measuring import Table, setting, write

is_stack = "--stack" in sys.argv and not sys.argv.remove("--stack")
words = setting(__doc__)


def numbers(f, n=2000):
    return ", ".join(str(f(i)) for i in range(n))


def word(i):
    return "".join("bcdfghjklmnpqrstvwxz"[i // 20**k % 20] for k in (2, 1, 0))


def uses(n):
    return ", ".join("x." + word(i) for i in range(n))


def wrapped(inner, before, behind, n):
    return before * n + inner + behind * n


def opened(n, first):
    text = "r"
    for i in range(n):
        text = f"[l{first + i}={i}, ...{text}]"
    return text


def counted(n):
    text = "count(t)"
    for i in range(n):
        text = f"count({{|{text} + x{i}.a | \\x{i} <- t|}})"
    return text


def conditions(n):
    return "{1 | \\x <- {1, 2}, \\y <- {1, 2}, " + ", ".join(["y = 1"] * n + ["x = 1"] * n) + "}"


def lets(n, m):
    bound = "".join(f"let \\v{i} == {{x, {i}}} in " for i in range(n))
    fields = ", ".join(f"a{i}=[p=v{i}, q=v{i}]" for i in range(n))
    return "[s={" + bound + "{[" + fields + "] | \\y <- {1, 2}, \\w <- {1, 2}, " + ", ".join(["w = 1"] * m + ["y = 1"] * m) + "} | \\x <- {1, 2}}]"


def nested(k):
    return "1" if k == 0 else f"[a={nested(k - 1)}]"


def fat(n, k):
    one, two, path = nested(k), nested(k).replace("1", "2"), ".a" * k
    drawn = f"\\x <- {{{one}, {two}}}, \\y <- {{{one}, {two}}}, \\p <- {{y{path}}}, \\q <- {{x{path}}}"
    return "{1 | " + ", ".join([drawn] + ["p = 1"] * n + ["q = 1"] * n) + "}"


def promoted(n):
    # (where the conditions held, the loops behind them would be run 2**n times)
    return "{1 | \\x <- {1, 2}, " + ", ".join(["_ <- {1, 2}"] * n + ["x = 3"] * n) + "}"


# A name, the commands, the text, and its catalogue if it has one.
PROGRAMS = [
    ("two literals of 2,000 integers, 4 million tests", ["run"], "{x | \\x <- {%s}, \\y <- {%s}, x = y};" % (numbers(lambda i: (i * 7919) % 100003), numbers(lambda i: i)), None),
    ("a record of 3,000 fields", ["types", "run"], "[" + ", ".join(f"f{i}={i}" for i in range(3000)) + "];", None),
    ("a chain of 500 `++`", ["types", "run"], " ++ ".join(f"{{{i % 7}}}" for i in range(500)) + ";", None),
    ("1,500 definitions over open records", ["types"], "".join(f"define d{i} == \\x => [a=x.a, b=x.b];\n" for i in range(1500)) + "d0([a=1,b=2]);", None),
    ("240 definitions, each used by the next", ["types", "run"],
     "define d0 == \\x => x.a;\n" + "".join(f"define d{i} == \\x => d{i - 1}(x);\n" for i in range(1, 240)) + "d239([a=1]);", None),
    ("250 comprehensions in one another", ["types", "run"], wrapped("{1}", "{x + 1 | \\x <- ", "}", 250) + ";", None),
    ("a term of depth 512", ["run"], "define a == 1" + " + 1" * 511 + "; a;", None),
    ("102 counts of loops over a table in one another", ["types", "run"], counted(102) + ";", "t"),
    ("a function with 2,000 different fields", ["types"], "define f == \\x => {%s};\n{};" % uses(2000), None),
    ("a set of 2,000 different variants", ["types"], "{%s};" % ", ".join(f"<{word(i)}=1>" for i in range(2000)), None),
    ("five functions of 1,700 different fields", ["types"], "".join(f"define f{k} == \\x => {{{uses(1700)}}};\n" for k in range(5)) + "{};", None),
    ("4,000 uses of a source of 7,000 fields", ["types"], "[|%s|];" % ", ".join(["s"] * 4000), "s7000"),
    ("2,000 different fields of that source", ["types"], "{[%s] | \\x <- s};" % ", ".join(f"{word(i)}=x.{word(i)}" for i in range(2000)), "s7000"),
    ("1,000 definitions that are a source of 6,000 fields", ["types"], "".join(f"define d{i} == s;\n" for i in range(1000)) + "{};", "s6000"),
    ("a definition of 4,000 zeros, and 3,400 of it that nobody uses", ["run"],
     "define a=={" + ",".join(["0"] * 4000) + "};\n" + "".join(f"define b{i}==a;\n" for i in range(3400)) + "1;", None),
    ("2,500 definitions, each the one before, of 4,000 zeros", ["run"],
     "define b0=={" + ",".join(["0"] * 4000) + "};\n" + "".join(f"define b{i}==b{i - 1};\n" for i in range(1, 2500)) + "b2499;", None),
    ("2,000 records that have more fields each", ["types"], "".join(f"define d{k} == \\r => {opened(250, 250 * k)};\n" for k in range(8)) + "count({d0([x=1]).l0});", None),
    ("a pattern of 3,000 fields and the others", ["types"], "define p == [%s, ...\\r] => r;\n1;" % ", ".join(f"f{i}=_" for i in range(3000)), None),
    ("120 conditions on the inner variable before 120 on the outer one", ["run"], conditions(120) + ";", None),
    ("240 and 240 of them", ["run"], conditions(240) + ";", None),
    ("120 `let`s round 60 and 60 conditions", ["run"], lets(120, 60) + ";", None),
    ("235 and 235 conditions on paths of 26 fields", ["run"], fat(235, 26) + ";", None),
    ("60 generators before 60 conditions on the first, none of which holds", ["run"], promoted(60) + ";", None),
    ("160 and 160 of them", ["run"], promoted(160) + ";", None),
    ("240 and 240 of them, generators and conditions", ["run"], promoted(240) + ";", None),
    ("`{1|` 256 times", ["check"], wrapped("1", "{1|", "}", 256) + ";", None),
    ("255 `case` in the branch, and 29,000 `+1` inside", ["check"], wrapped("1" + "+1" * 29000, "case <a=1> of <a=_> => ", " end", 255) + ";", None),
    ("256 groups, and 32,000 `+1` inside", ["check"], wrapped("1" + "+1" * 32000, "(", ")", 256) + ";", None),
    ("32,767 items `{1,1,..}`", ["check"], "{" + ",".join(["1"] * 32766) + "};", None),
]
# (the first ends with the limit of a scheme's text)
STATUS = {("types", "4,000 uses of a source of 7,000 fields"): 10}


def source(n):
    return "source s : {[%s]} = flat \"s.csv\";\n" % ",".join(word(i) + ":int" for i in range(n))


def ends(command, stack):
    """The status and the output with this much stack, in KB."""
    ran = subprocess.run(command, capture_output=True, preexec_fn=lambda: resource.setrlimit(resource.RLIMIT_STACK, (stack << 10, stack << 10)), check=False)
    return ran.returncode, ran.stdout


write("t.csv", "a\n1\n")
write("t.cat", 'source t : {|[a: int]|} = flat "t.csv";\n')
write("s7000.cat", source(7000))
write("s6000.cat", source(6000))
table = Table(words)
for number, (name, commands, text, catalogue) in enumerate(PROGRAMS):
    assert len(text) <= 65536, (name, len(text))
    write(f"{number}.cpl", text + "\n" if len(text) < 65536 else text)
    for command in commands:
        table.add(f"`{command}`: {name}", [words.program, command, f"{number}.cpl", *([f"{catalogue}.cat"] if catalogue else [])], wanted=STATUS.get((command, name), 0))
if is_stack:
    for name, command, _, _, _ in table.rows:
        wanted, low, high = ends(command, 65536), 0, 1024
        while low + 1 < high:
            middle = (low + high) // 2
            low, high = (low, middle) if ends(command, 64 * middle) == wanted else (middle, high)
        print(f"| {name} | {64 * high} KB |", flush=True)
else:
    table.run()
