"""Runs of the program `admissions do`, timed, and the same rows written by Python's sqlite3: for the scripts of bench/.

Each figure is the median of three runs. The file is once on the disk that holds the program and once on a memory file system, if there
is one, so that the cost of the program itself can be distinguished from that of the disk.
"""
import contextlib
import json
import os
import resource
import select
import sqlite3
import statistics
import subprocess
import tempfile
import time

DONE = b'{"done":true}\n'
# a line that changes nothing, and its answer in a register without that school: it shows that the file is open
HARMLESS = {"cmd": "raise_pan", "school": "NOSCHOOL", "pan": 1}
UNKNOWN = '{"name":"UnknownSchool","refused":1}'
RUNS = 3
MEMORY = "/dev/shm"
# seconds between two looks for answers
PAUSE = 0.0002
# what a run may cost, as a multiple of the baseline, and what a command may cost in a large register, as a multiple of one in a small one
MOST_ON_DISK = 1.5
MOST_IN_MEMORY = 2.5
MOST_GROWTH = 1.3


def type_of(folder):
    """The type of the file system that holds a folder, as /proc/mounts has it."""
    found = ("", "unknown")
    with open("/proc/mounts") as mounts:
        for mount in mounts:
            _, point, kind = mount.split()[:3]
            within = folder == point or folder.startswith(point.rstrip("/") + "/")
            if within and len(point) >= len(found[0]):
                found = (point, kind)
    return found[1]


def file_systems(program):
    """The file systems to measure on: the name of each, a folder of it, and the most that a run may cost there."""
    beside = os.path.dirname(program)
    found = [(f"disk ({type_of(beside)})", beside, MOST_ON_DISK)]
    if type_of(MEMORY) == "tmpfs" and os.access(MEMORY, os.W_OK):
        found.append(("memory (tmpfs)", MEMORY, MOST_IN_MEMORY))
    return found


def lines(commands):
    return b"".join(json.dumps(it).encode() + b"\n" for it in commands)


def are_done(commands, answers):
    assert answers == DONE.decode().splitlines() * len(commands), [it for it in answers if it != DONE.decode().strip()][:3] or len(answers)


def new_register(program, room, name):
    file = os.path.join(room, name)
    subprocess.run([program, "init", file, "secondary", "2025"], check=True)
    return file


def register(program, room, name, commands):
    """A new register in which these commands were done."""
    file = new_register(program, room, name)
    whole(program, file, commands)
    return file


def spent_by(arguments, given=b""):
    """Wall-clock and CPU seconds for one process, and what it printed."""
    before = resource.getrusage(resource.RUSAGE_CHILDREN)
    start = time.perf_counter()
    ran = subprocess.run(arguments, input=given, stdout=subprocess.PIPE, check=True)
    seconds = time.perf_counter() - start
    after = resource.getrusage(resource.RUSAGE_CHILDREN)
    return (seconds, after.ru_utime + after.ru_stime - before.ru_utime - before.ru_stime), ran.stdout


def whole(program, file, commands):
    """Wall-clock and CPU seconds for one run over these commands, from its start to its end. Each must be done."""
    cost, printed = spent_by([program, "do", file], lines(commands))
    are_done(commands, printed.decode().splitlines())
    return cost


def database(room, tables):
    """A new database of Python's sqlite3 with these tables, in WAL mode with synchronous=FULL."""
    conn = sqlite3.connect(os.path.join(room, "baseline.db"), isolation_level=None)
    conn.execute("PRAGMA journal_mode=WAL")
    conn.execute("PRAGMA synchronous=FULL")
    for text in tables:
        conn.execute(text)
    return conn


def insert(conn, rows):
    """Inserts rows, which are in lists by their tables' names, by a statement each."""
    for table, them in rows.items():
        text = f"INSERT INTO {table} VALUES ({', '.join('?' * len(them[0]))})" if them else ""
        for row in them:
            conn.execute(text, row)


def baseline(room, tables, writes, before=()):
    """Wall-clock and CPU seconds in which Python's sqlite3 runs these statements on new tables: each in a transaction of its own, in WAL
    mode with synchronous=FULL. The statements `before` are run in one transaction, which is not timed."""
    conn = database(room, tables)
    conn.execute("BEGIN")
    for text, row in before:
        conn.execute(text, row)
    conn.execute("COMMIT")
    start, used = time.perf_counter(), time.process_time()
    for text, row in writes:
        conn.execute("BEGIN")
        conn.execute(text, row)
        conn.execute("COMMIT")
    seconds, used = time.perf_counter() - start, time.process_time() - used
    conn.close()
    return seconds, used


def rows_of(file, tables):
    """The rows of these tables of a file, in lists by the tables' names."""
    with contextlib.closing(sqlite3.connect(file)) as conn:
        return {table: conn.execute(f"SELECT * FROM {table}").fetchall() for table in tables}


def tables_of(file, tables):
    """The texts that make these tables, by their names."""
    with contextlib.closing(sqlite3.connect(file)) as conn:
        return dict(conn.execute(f"SELECT name, sql FROM sqlite_schema WHERE name IN ({', '.join('?' * len(tables))})", tables))


def at_once(room, tables, rows):
    """Wall-clock and CPU seconds in which Python's sqlite3 writes these rows into new tables in one transaction."""
    conn = database(room, tables.values())
    start, used = time.perf_counter(), time.process_time()
    conn.execute("BEGIN")
    insert(conn, rows)
    conn.execute("COMMIT")
    seconds, used = time.perf_counter() - start, time.process_time() - used
    conn.close()
    return seconds, used


def spent(process):
    """CPU seconds that a process has used so far."""
    with open(f"/proc/{process.pid}/schedstat") as it:
        return int(it.read().split()[0]) / 1e9


def memory(process):
    """The memory of a process in megabytes: what it has now, and the most that it had."""
    with open(f"/proc/{process.pid}/status") as it:
        status = dict(line.split(":", 1) for line in it)
    return tuple(int(status[name].split()[0]) / 1024 for name in ("VmRSS", "VmHWM"))


class Desk:
    """A run of the program, which gets some commands at a time and must end with this status."""

    def __init__(self, program, file, status=0):
        self.process = subprocess.Popen([program, "do", file], stdin=subprocess.PIPE, stdout=subprocess.PIPE, bufsize=0)
        assert self.process.stdin and self.process.stdout
        self.given, self.printed = self.process.stdin, self.process.stdout
        os.set_blocking(self.printed.fileno(), False)
        self.status = status

    def __enter__(self):
        return self

    def __exit__(self, *_):
        self.given.close()
        status = self.process.wait()
        assert status == self.status, f"the program ended with {status}, and not with {self.status}"

    def take(self, commands):
        """Sends these commands and waits for their answers. Each must be done."""
        are_done(commands, self.answers(commands))

    def answers(self, commands):
        """Sends these commands and waits for their answers, a line for each. The commands are few enough that the answers fit into a pipe."""
        return self.answers_to(lines(commands))

    def answers_to(self, given):
        """The same for lines of input. Where there are several, the answers are looked for now and then: a reader that waits for them is woken by each,
        which costs the run more than to print it."""
        self.given.write(given)
        pieces, wanted = [], given.count(b"\n")
        while wanted > 0:
            more = self.printed.read(65536)
            if more is None:
                if wanted > 1:
                    time.sleep(PAUSE)
                else:
                    select.select([self.process.stdout], [], [])
                continue
            assert more, "the program ended"
            pieces.append(more)
            wanted -= more.count(b"\n")
        return b"".join(pieces).decode().splitlines()

    def timed(self, commands):
        """The answers to these commands, and the wall-clock and CPU seconds from their lines to the last answer."""
        given = lines(commands)
        used, start = self.spent(), time.perf_counter()
        found = self.answers_to(given)
        return found, (time.perf_counter() - start, self.spent() - used)

    def until_open(self):
        """Waits until the file is open, by a line that is refused; so the run ends with the status for a refused line."""
        answers = self.answers([HARMLESS])
        assert answers == [UNKNOWN], answers
        self.status = self.status or 3

    def spent(self):
        """CPU seconds that the run has used so far."""
        return spent(self.process)

    def memory(self):
        """The memory of the run in megabytes: what it has now, and the most that it had."""
        return memory(self.process)

    def cost(self, commands):
        """CPU seconds for one of these commands, on average."""
        before = self.spent()
        self.take(commands)
        return (self.spent() - before) / len(commands)


def opening(program, file):
    """Wall-clock and CPU seconds from the start of a run until its file is open."""
    start = time.perf_counter()
    with Desk(program, file) as run:
        run.until_open()
        return time.perf_counter() - start, run.spent()


def within(program, file, commands):
    """Wall-clock and CPU seconds for these commands in a run that is open, without its start and its end. Each must be done."""
    with Desk(program, file) as run:
        run.until_open()
        answers, cost = run.timed(commands)
    are_done(commands, answers)
    return cost


def medians(found):
    """The median of each figure over several runs."""
    return tuple(statistics.median(it) for it in zip(*found))


def compare(program, what, tables, before, commands, writes):
    """Prints the cost of these commands in a register that has seen the commands `before`, as a multiple of the baseline's cost of the writes."""
    for where, folder, most in file_systems(program):
        ours, theirs = [], []
        for _ in range(RUNS):
            with tempfile.TemporaryDirectory(dir=folder) as room:
                theirs.append(baseline(room, tables, writes))
                file = new_register(program, room, "whole.db")
                if before:
                    whole(program, file, before)
                ours.append(whole(program, file, commands))
        (run, used), (least, least_used) = medians(ours), medians(theirs)
        print(
            f"| {what}, {where} | {run / least:.2f} | at most {most} | {used / least_used:.2f} "
            f"| {len(commands) / run:.0f} and {len(writes) / least:.0f} a second |",
            flush=True,
        )


def compare_open(program, what, tables, commands, writes):
    """The same on the memory file system, for a run that is open: without the start of the program and the open and the close of its file, as the
    baseline is measured without its own."""
    where, folder, most = file_systems(program)[-1]
    ours, theirs, idle = [], [], []
    for _ in range(RUNS):
        with tempfile.TemporaryDirectory(dir=folder) as room:
            theirs.append(baseline(room, tables, writes)[0])
            file = new_register(program, room, "whole.db")
            idle.append(whole(program, file, [])[0])
            ours.append(within(program, file, commands)[0])
    run, least = statistics.median(ours), statistics.median(theirs)
    print(
        f"| {what}, {where}, in a run that is open (to start, open and close take {statistics.median(idle) * 1000:.0f} milliseconds) "
        f"| {run / least:.2f} | at most {most} | | {len(commands) / run:.0f} and {len(writes) / least:.0f} a second |",
        flush=True,
    )


def growth(what, small, large):
    """Prints how a command's CPU time grows, from its seconds in small and in large registers."""
    few, many = statistics.median(small), statistics.median(large)
    print(
        f"| {what} | | at most {MOST_GROWTH} | {many / few:.2f} | {many * 1e6:.0f} and {few * 1e6:.0f} microseconds |",
        flush=True,
    )


def head(what, last):
    print(f"| {what} | Ratio of the times | Target | Ratio of the CPU times | {last} |\n|---|---|---|---|---|", flush=True)
