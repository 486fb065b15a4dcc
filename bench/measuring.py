"""What the scripts of this folder share.

They build nothing: each takes the path of a built program, makes its inputs in a folder, runs each question so many times in
turns with its peers, and prints a table for docs/PERFORMANCE.md: the medians of processor time (user and system), of wall-clock
time and of peak memory, and the ratio of processor time to the peer's. Peers that are not installed are left out.
Nothing but Python's own modules is needed."""
import argparse, atexit, collections, os, random, re, resource, shutil, statistics, subprocess, tempfile, time

Run = collections.namedtuple("Run", "cpu wall memory told")


def setting(description, *more):
    """Reads the words of a script: the program, and what all scripts take."""
    reader = argparse.ArgumentParser(description=description, formatter_class=argparse.RawDescriptionHelpFormatter)
    reader.add_argument("program")
    reader.add_argument("--rounds", type=int, default=3, help="how often each is run")
    reader.add_argument("--only", default="", help="only the rows whose name has this in it")
    reader.add_argument("--folder", help="where inputs are made and left; else a folder of its own that is removed")
    for name, default, said in more:
        reader.add_argument(name, type=type(default), default=default, help=said)
    words = reader.parse_args()
    words.program = os.path.abspath(words.program)
    if words.folder:
        os.makedirs(words.folder, exist_ok=True)
        os.chdir(words.folder)
    else:
        folder = tempfile.mkdtemp(prefix="bench-")
        os.chdir(folder)
        atexit.register(shutil.rmtree, folder, ignore_errors=True)
    return words


def has(peer):
    return shutil.which(peer) is not None


def write(path, text):
    with open(path, "w", encoding="utf-8") as file:
        file.write(text)


def make_tables(rows):
    """The table `t.csv` of so many rows in 100 groups, `a.csv` of a tenth of them, and `h.csv` of the groups."""
    for path, count in (("t.csv", rows), ("a.csv", rows // 10)):
        choose = random.Random(7)
        with open(path, "w", encoding="utf-8") as file:
            file.write("id,name,grp,score\n")
            for i in range(count):
                file.write(f"{i},sample {choose.randrange(10**9):09d} of {i % 97:02d},{choose.randrange(100)},{choose.randrange(10**6)}\n")
    write("h.csv", "grp,label\n" + "".join(f"{i},group {i}\n" for i in range(100)))


def watched(child):
    """Waits until a run ends, and answers its peak of memory in KB as it was last seen."""
    seen = 0
    while os.waitid(os.P_PID, child.pid, os.WEXITED | os.WNOWAIT | os.WNOHANG) is None:
        with open(f"/proc/{child.pid}/status", encoding="utf-8") as file:
            seen = max([seen, *(int(it) for it in re.findall(r"^VmHWM:\s*([0-9]+)", file.read(), re.M))])
        time.sleep(0.005)
    return seen


def measured(words, given=os.devnull, wanted=0):
    """One run, whose output is thrown away; a status other than the wanted one ends the script."""
    begun = time.time()
    with open(given, "rb") as given, tempfile.TemporaryFile("w+") as told:
        child = subprocess.Popen(words, stdin=given, stdout=subprocess.DEVNULL, stderr=told)
        seen = watched(child)
        wall = time.time() - begun
        _, status, usage = os.wait4(child.pid, 0)
        child.returncode = os.waitstatus_to_exitcode(status)
        told.seek(0)
        said = told.read()
    if child.returncode != wanted:
        raise SystemExit(f"{' '.join(words)}: status {child.returncode}, {said[:500]}")
    # (what the system counts of a run begins with what Python had when it forked)
    forked = resource.getrusage(resource.RUSAGE_SELF).ru_maxrss
    return Run(usage.ru_utime + usage.ru_stime, wall, (usage.ru_maxrss if usage.ru_maxrss > forked else seen) / 1024, said)


class Table:
    """Rows in their order. A row with no peer begins a group, and the ratios of those behind it are to the last `peer` of it."""

    def __init__(self, words, last=None):
        self.words, self.rows, self.last = words, [], last

    def add(self, name, command, given=os.devnull, peer=None, wanted=0):
        """`peer` names the row that this one is compared with; its own name where it is a peer itself."""
        if self.words.only in name:
            self.rows.append((name, command, given, peer, wanted))

    def run(self):
        took = collections.defaultdict(list)
        for _ in range(self.words.rounds):
            for name, command, given, _, wanted in self.rows:
                took[name].append(measured(command, given, wanted))
        head = ["What", "Processor time", "Wall clock", "Memory", "To the peer's time"] + ([self.last[0]] if self.last else [])
        print("|" + "|".join(f" {it} " for it in head) + "|")
        print("|" + "---|" * len(head))
        for name, _, _, peer, _ in self.rows:
            runs = took[name]
            cpu, wall, memory = (statistics.median(getattr(run, it) for run in runs) for it in ("cpu", "wall", "memory"))
            beside = statistics.median(run.cpu for run in took[peer]) if peer in took else None
            ratio = f"{cpu / beside:.2f}" if beside else ""
            cells = [name, f"{cpu:.2f} s", f"{wall:.2f} s", f"{memory:.0f} MB" if memory >= 10 else f"{memory:.1f} MB", ratio]
            print("|" + "|".join(f" {it} " for it in cells + ([" ".join(re.findall(self.last[1], runs[-1].told, re.M))] if self.last else [])) + "|", flush=True)
