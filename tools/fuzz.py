#!/usr/bin/env python3
"""Runs a program `kleisli` over programs, catalogues, tables and files of values in which random bytes were changed, and tells
each run that does not end as docs/LANGUAGE.md says.

    tools/fuzz.py PROGRAM [--count N] [--seed S] [--jobs J] [--seconds T] [--memory MB] [--stack MB] [--keep FOLDER] [--only I]

What is changed are the examples, by each catalogue beside them and by none, and the cases of crates/cases/data that say words
and files. Of an input some bytes are put in place of others, put in, taken out or doubled; some are words of the language and
pieces of other files. The command and its options are mostly those of the case, and else others that fit it. Made rows are kept
at 300, so that loops in loops over them end.

Each run has a folder of its own, T seconds (10), MB of address space (512; 0 for no bound) and a stack of MB (4; 0 for that of
the shell). It has to end with a status of the table, not by a signal and not by the clock:
- 0, with nothing on the stream of errors, or with the counts where `--stats` asked for them;
- 1 to 11, with exactly one line on the stream of errors, which is one of that status. With 1 to 4 nothing is printed.

N inputs are tried (1000), on J processors (all). Input I of seed S is always the same: `--only I` runs that one and tells all of it.
A run that ends otherwise is told by a line, and with --keep its files and `words` are left under FOLDER/I. Last comes how many
inputs ended with each status, and how many in an hour. The status is 0 where all ended as they should.

It starts from the top of a checkout, wherever it is called, with nothing but Python's own modules."""
import argparse, collections, multiprocessing, os, random, re, resource, shutil, subprocess, sys, tempfile, time

TOP = os.path.dirname(os.path.dirname(os.path.abspath(__file__)))
# What one seed may hold, and how many made rows there may be.
MOST_BYTES = 200_000
MOST_ROWS = 300

NUMBER = rb"[0-9]+"
NAME = rb"[A-Za-z_][A-Za-z_0-9]*"
PLACE = rb" at byte " + NUMBER
LINES = {
    1: rb"usage: .*",
    2: rb"text: (?:no token|syntax|refutable pattern|unknown name NAME|name NAME (?:twice|misapplied))" + PLACE,
    3: rb"types: no typing for declaration " + NUMBER,
    4: rb"(?:catalogue: (?:syntax" + PLACE + rb"|name NAME twice|no driver NAME|type of NAME does not suit its driver)|type: syntax" + PLACE + rb")",
    5: rb"source .*: bad at " + NUMBER,
    6: rb"overflow",
    7: rb"read fault",
    8: rb"write fault",
    9: rb"out of memory",
    10: rb"limit: (?:program bytes|catalogue bytes|nesting|term nodes|term depth|scheme bytes|file bytes|item nesting)",
    11: rb"source NAME changed",
}
LINES = {status: re.compile(line.replace(b"NAME", NAME) + rb"\n", re.S) for status, line in LINES.items()}
COUNTS = re.compile(rb"steps [0-9]+\nhits [0-9]+\nmisses [0-9]+\npeak [0-9]+\nhanded [0-9]+\n(?:(?:scan|join) [0-9]+ [^\n]*\n)*")

PIECES = [
    b"{", b"}", b"{|", b"|}", b"[|", b"|]", b"[", b"]", b"(", b")", b"<", b">", b"<-", b"|", b",", b";", b"=", b"==", b"=>", b"\\x",
    b"...", b".", b"++", b"-", b"+", b"*", b"<=", b"<>", b'"', b'""', b"\\", b'"\\x00"', b'"\\xff"', b"\xef\xbb\xbf", b"\r\n", b"\n",
    b"\0", b"\xff", b"#", b"0", b"-1", b"9223372036854775807", b"9223372036854775808", b"-9223372036854775808", b"true", b"false",
    b"if ", b" then ", b" else ", b"let ", b" in ", b"case ", b" of ", b" end", b"otherwise ", b"define ", b"not ", b" and ", b" or ",
    b"count(", b"sum(", b"member(", b"source ", b"flat", b"nested", b"sql", b"made", b"int", b"string", b"bool", b": {|[a: int]|}",
    b"type ", b"type [a: int];",
]
TYPES = [
    b"int", b"string", b"{int}", b"[|string|]", b"[]", b"[a: int]", b"[a: int, b: {|bool|}]", b"<a: int, b: []>",
    b"[acc: string, domains: {string}, product: <protein: int, rna: string>]",
    b"[acc: string, loc: <chr: int, unknown: string>, refs: {string}]",
]
SETTINGS = [
    ["--no-rewrite"], ["--no-delegate"], ["--join", "block"], ["--join", "index"], ["--block", "1"], ["--block", "2"], ["--fetch", "1"],
    ["--fetch", "3"], ["--cache", "0"], ["--cache", "1"], ["--first", "1"], ["--first", "0"], ["--stats"],
]


class Job:
    """Words, and the files that they and a catalogue name: a path, its bytes, and what it is."""

    def __init__(self, words, files):
        self.words, self.files = words, files


# ---- what is changed


class Values:
    """The values of a file of values: texts are bytes, records and variants are dicts, and collections lists."""

    TOKEN = re.compile(rb'\s*(?:(-?[0-9]+)|([A-Za-z_][A-Za-z_0-9]*)|"((?:[^"\\]|\\.)*)"|(\{\||\|\}|\[\||\|\]|[][{}<>=,;]))', re.S)
    ESCAPES = {b"n": b"\n", b"t": b"\t", b"r": b"\r", b'"': b'"', b"\\": b"\\"}
    CLOSERS = {b"{": b"}", b"{|": b"|}", b"[|": b"|]"}

    def __init__(self, text):
        self.tokens = []
        at = 0
        while text[at:].strip():
            token = self.TOKEN.match(text, at)
            self.tokens.append(token)
            at = token.end()
        self.at = 0

    def take(self):
        self.at += 1
        return self.tokens[self.at - 1]

    def is_next(self, sign):
        return self.tokens[self.at][4] == sign

    def all(self):
        values = []
        while self.at < len(self.tokens):
            values.append(self.value())
            self.take()
        return values

    def fields(self, closer):
        fields = {}
        while not self.is_next(closer):
            label = self.take()[2].decode()
            self.take()
            fields[label] = self.value()
            if self.is_next(b","):
                self.take()
        self.take()
        return fields

    def value(self):
        token = self.take()
        if token[1]:
            return int(token[1])
        if token[2]:
            return token[2] == b"true"
        if token[3] is not None:
            return re.sub(rb"\\(x..|.)", lambda it: self.ESCAPES.get(it[1]) or bytes([int(it[1][1:], 16)]), token[3], flags=re.S)
        if token[4] == b"[":
            return self.fields(b"]")
        if token[4] == b"<":
            return self.fields(b">")
        closer, items = self.CLOSERS[token[4]], []
        while not self.is_next(closer):
            items.append(self.value())
            if self.is_next(b","):
                self.take()
        self.take()
        return items


def text_of(value):
    if isinstance(value, bytes):
        return value
    if isinstance(value, dict):
        return value["text"] * value["times"]
    return b"".join(text_of(part) for part in value)


def bytes_at(path):
    with open(path, "rb") as file:
        return file.read()


def sort_of(path):
    return os.path.splitext(path)[1] or ".kx"


def cases():
    folder = os.path.join(TOP, "crates", "cases", "data")
    for name in sorted(os.listdir(folder)):
        if not name.endswith(".kx"):
            continue
        for case in Values(bytes_at(os.path.join(folder, name))).all():
            if "words" in case and "files" in case:
                words = [text_of(word).decode() for word in case["words"]]
                yield Job(words, [(file["path"].decode(), text_of(file.get("text", b""))) for file in case["files"]])


def examples():
    for folder, _, names in sorted(os.walk(os.path.join(TOP, "examples"))):
        paths = [os.path.relpath(os.path.join(folder, name), TOP) for name in sorted(names)]
        catalogues = [path for path in paths if path.endswith(".cat")]
        for path in paths:
            if path.endswith(".kx"):
                yield Job(["show", path], [(path, bytes_at(os.path.join(TOP, path)))])
            if path.endswith(".cpl"):
                yield Job(["run", path], [(path, bytes_at(os.path.join(TOP, path)))])
                for catalogue in catalogues:
                    named = {path, catalogue}
                    text = bytes_at(os.path.join(TOP, catalogue)).decode()
                    named.update(it for it in re.findall(r'"([^"]+)"', text) if os.path.isfile(os.path.join(TOP, it)))
                    yield Job(["run", path, catalogue], [(it, bytes_at(os.path.join(TOP, it))) for it in sorted(named)])


def is_sound(path):
    return path and not path.startswith("/") and ".." not in path.split("/")


def all_jobs():
    """All whose files are not too large and lie below the folder of their run; those over sources more than once."""
    seen, jobs = set(), []
    for job in [*examples(), *cases()]:
        key = repr((job.words, job.files))
        if key in seen or not job.files or sum(len(text) for _, text in job.files) > MOST_BYTES:
            continue
        seen.add(key)
        if job.words and all(is_sound(path) for path, _ in job.files):
            # (one over sources stands there four times, since it goes the whole way)
            jobs += [job] * (4 if len(job.files) > 2 else 1)
    return jobs


# ---- how it is changed


def changed(text, like, choose):
    """A text with some bytes changed; `like` are texts of the same sort."""
    text = bytearray(text)
    for _ in range(choose.choice((1, 1, 1, 2, 2, 3, 5, 9))):
        at = choose.randrange(len(text) + 1)
        size = choose.choice((1, 1, 2, 4, 8, 16))
        way = choose.randrange(9)
        if way == 0:
            text[at : at + 1] = bytes([choose.randrange(256)])
        elif way == 1:
            text[at:at] = bytes(choose.randrange(256) for _ in range(choose.randrange(1, 4)))
        elif way == 2:
            del text[at : at + size]
        elif way == 3:
            text[at:at] = choose.choice(PIECES)
        elif way == 4:
            text[at : at + size] = choose.choice(PIECES)
        elif way == 5:
            text[at:at] = text[at : at + size] * choose.choice((1, 2, 3, 300))
        elif way == 6:
            other = choose.choice(like)
            begin = choose.randrange(len(other) + 1)
            text[at : at + choose.randrange(size + 1)] = other[begin : begin + 4 * size]
        elif way == 7:
            del text[at:]
        elif text:
            at = choose.randrange(len(text))
            text[at] ^= 1 << choose.randrange(8)
    return bytes(text)


def fewer_rows(text):
    return re.sub(rb'("\s*[0-9]+\s+)([0-9]+)', lambda it: it[1] + (it[2] if int(it[2]) <= MOST_ROWS else b"%d" % MOST_ROWS), text)


def other_words(words, choose):
    words = list(words)
    if words[0] == "show" and len(words) > 1 and choose.random() < 0.3:
        words = ["upgrade", words[1], choose.choice(TYPES).decode()]
    if words[0] == "upgrade" and len(words) > 2 and choose.random() < 0.4:
        # (a word of the command line ends at a byte 0, and is UTF-8)
        words[2] = changed(words[2].encode(), TYPES, choose).replace(b"\0", b"").decode(errors="ignore")
    if words[0] in ("run", "explain", "check", "types") and choose.random() < 0.3:
        words = [choose.choice(("run", "run", "explain", "check", "types")), *(it for it in words[1:3] if not it.startswith("-"))]
        if words[0] in ("run", "explain"):
            for setting in choose.sample(SETTINGS, choose.randrange(4)):
                if setting[0] not in words:
                    words += setting
    return words


def input_of(jobs, by_sort, seed, number):
    """The words and files of an input."""
    choose = random.Random(f"{seed} {number}")
    job = choose.choice(jobs)
    files = dict(job.files)
    paths = sorted(files)
    # (most changes of a program or a catalogue only make it none)
    weights = [1 if sort_of(path) in (".cpl", ".cat") else 2 for path in paths]
    for path in sorted(set(choose.choices(paths, weights, k=choose.choice((1, 1, 1, 2))))):
        files[path] = changed(files[path], by_sort[sort_of(path)], choose)
    for path in files:
        if sort_of(path) == ".cat":
            files[path] = fewer_rows(files[path])
    return other_words(job.words, choose), files


# ---- how it ends


def set_limits(memory, stack):
    def limit():
        resource.setrlimit(resource.RLIMIT_CORE, (0, 0))
        if memory:
            resource.setrlimit(resource.RLIMIT_AS, (memory << 20, memory << 20))
        if stack:
            resource.setrlimit(resource.RLIMIT_STACK, (stack << 20, stack << 20))

    return limit


def wrong_with(words, status, out, err):
    """Why a run did not end as it should, or None."""
    if status < 0:
        return f"signal {-status}"
    if status and status not in LINES:
        return f"status {status}"
    if status and not (err.count(b"\n") == 1 and LINES[status].fullmatch(err)):
        return f"status {status}, with {err[:200]!r} on the stream of errors"
    if status in (1, 2, 3, 4) and out:
        return f"status {status}, and {out[:200]!r} was printed"
    if not status and err and not ("--stats" in words and COUNTS.fullmatch(err)):
        return f"status 0, with {err[:200]!r} on the stream of errors"
    # (a file without items has no line, and no source is asked by a plan without scans)
    if not status and (out or words[0] not in ("show", "explain")) and not out.endswith(b"\n"):
        return f"status 0, and {out[-200:]!r} was printed"
    return None


def tried(setting, words, files):
    """The status of a run, or None by the clock; what it wrote; and why it did not end as it should."""
    with tempfile.TemporaryDirectory(prefix="fuzz-") as folder:
        for path, text in files.items():
            place = os.path.join(folder, path)
            os.makedirs(os.path.dirname(place), exist_ok=True)
            with open(place, "wb") as file:
                file.write(text)
        try:
            done = subprocess.run(
                [setting.program, *words], cwd=folder, stdin=subprocess.DEVNULL, capture_output=True, timeout=setting.seconds,
                preexec_fn=set_limits(setting.memory, setting.stack), check=False,
            )
        except subprocess.TimeoutExpired:
            return None, b"", b"", f"more than {setting.seconds} s"
    return done.returncode, done.stdout, done.stderr, wrong_with(words, done.returncode, done.stdout, done.stderr)


def keep(folder, number, words, files):
    place = os.path.join(folder, str(number))
    shutil.rmtree(place, ignore_errors=True)
    for path, text in [*files.items(), ("words", "\n".join(words).encode())]:
        os.makedirs(os.path.dirname(os.path.join(place, path)), exist_ok=True)
        with open(os.path.join(place, path), "wb") as file:
            file.write(text)


WORK = {}


def begin(setting):
    jobs = all_jobs()
    by_sort = collections.defaultdict(list)
    for job in jobs:
        for path, text in job.files:
            by_sort[sort_of(path)].append(text)
    WORK.update(setting=setting, jobs=jobs, by_sort=by_sort)


def try_input(number):
    setting = WORK["setting"]
    words, files = input_of(WORK["jobs"], WORK["by_sort"], setting.seed, number)
    status, _, _, why = tried(setting, words, files)
    if why and setting.keep:
        keep(setting.keep, number, words, files)
    return number, status, words, why


def tell_one(setting):
    begin(setting)
    words, files = input_of(WORK["jobs"], WORK["by_sort"], setting.seed, setting.only)
    status, out, err, why = tried(setting, words, files)
    if setting.keep:
        keep(setting.keep, setting.only, words, files)
    print("words", words)
    for path, text in files.items():
        print(path, text)
    print("status", status, "out", out, "err", err)
    print(why or "ended as it should")
    return 1 if why else 0


def try_all(setting):
    counts, wrong, begun = collections.Counter(), 0, time.monotonic()
    with multiprocessing.Pool(setting.jobs, begin, (setting,)) as pool:
        for number, status, words, why in pool.imap_unordered(try_input, range(setting.count), 16):
            counts[status] += 1
            if why:
                wrong += 1
                print(f"input {number} of seed {setting.seed}, {' '.join(words)}: {why}", flush=True)
    hours = (time.monotonic() - begun) / 3600
    for status, count in sorted(counts.items(), key=lambda it: (it[0] is None, it[0] or 0)):
        print(f"status {'none' if status is None else status}: {count}")
    print(f"{setting.count} inputs of seed {setting.seed}, {wrong} ended otherwise; {setting.count / hours:,.0f} in an hour")
    return 1 if wrong else 0


def main():
    reader = argparse.ArgumentParser(description=__doc__, formatter_class=argparse.RawDescriptionHelpFormatter)
    reader.add_argument("program")
    reader.add_argument("--count", type=int, default=1000)
    reader.add_argument("--seed", type=int, default=0)
    reader.add_argument("--jobs", type=int, default=os.cpu_count())
    reader.add_argument("--seconds", type=float, default=10)
    reader.add_argument("--memory", type=int, default=512)
    reader.add_argument("--stack", type=int, default=4)
    reader.add_argument("--keep")
    reader.add_argument("--only", type=int)
    setting = reader.parse_args()
    setting.program = os.path.abspath(setting.program)
    return try_all(setting) if setting.only is None else tell_one(setting)


if __name__ == "__main__":
    sys.exit(main())
