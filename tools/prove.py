#!/usr/bin/env python3
"""Proves and builds programs of this repository, with as many crates side by side as there are processors.

usage: tools/prove.py PROGRAM..
       tools/prove.py --passed SECONDS     the gate, which began at this time, has just proved all and built the programs

The launchers at the top call it where a program isn't built from the present sources. It takes a copy of the sources and
has the toolchain's prover check each crate that the programs stand on, the crates with the longest chain of others behind
them first. As in the merge gate, a crate is checked over the statements of the libraries below, whose proofs were checked
before, and not over their proofs. Each proved library is kept, with a sum of all that it was made from, so a run that was
interrupted goes on with the crates that are left, and after an edit only the crates that it reaches are proved again. Runs
at the same time wait for one another. Standard error gets a line for each crate; all else goes to a log, named where
something fails.
Status 0: each program stands in crates/PROGRAM/out/PROGRAM, beside a file PROGRAM.sources that says from what. Else 125.
"""
import contextlib
import ctypes
import fcntl
import hashlib
import os
import pathlib
import re
import shutil
import signal
import subprocess
import sys
import time
from concurrent.futures import FIRST_COMPLETED, ThreadPoolExecutor, wait

TOP = pathlib.Path(__file__).resolve().parent.parent
PARTS = ("src", "specs", "proofs")
MEMORY_OF_A_JOB = 2 * 2**30
MOST_JOBS = 4
# a crate with fewer lines of code takes longer by several jobs, of which each reads the libraries below
LINES_FOR_JOBS = 300
# about how many milliseconds a crate takes: to read what is below, to link a program, and for each byte of its parts
TO_READ, TO_LINK, TO_PROVE = 10_000, 75_000, {"src": 2.9, "specs": 0.07, "proofs": 0.07}
# a crate is long where the chain of crates from it on takes this share of the time that all that is left would take
LONG = 1.2
# how much a crate that isn't long gives way to those that are
NICE = 10
TARGET = "x86_64-unknown-linux-gnu"
PR_SET_PDEATHSIG = 1
LIBC = ctypes.CDLL(None)


class Failed(Exception):
    """A crate could not be proved; its text says why, for the user."""


def say(text):
    print(f"tensors: {text}", file=sys.stderr, flush=True)


def kit():
    """The folder of the toolchain and the line that names its version."""

    def told(word):
        return subprocess.run(["rt", word], capture_output=True, text=True, check=True).stdout.strip()

    try:
        return pathlib.Path(told("doc")).parent, told("version")
    except (OSError, subprocess.SubprocessError) as why:
        raise Failed(f"the Rattle toolchain's command rt isn't on the PATH, or fails: {why}") from why


def listed():
    """The crates of crates.txt, each with its line, the crates of the repository that it names, and those of the toolchain."""
    lines = {}
    for line in (TOP / "crates.txt").read_text().splitlines():
        before, colon, after = line.partition("#")[0].partition(":")
        if colon:
            lines[before.split()[0]] = (line, after.split())
    return {
        name: (line, [it for it in below if it in lines], [it for it in below if it not in lines])
        for name, (line, below) in lines.items()
    }


def closure(names, crates):
    """The crates that these stand on and they themselves, lowest first."""
    order = []

    def visit(name):
        if name not in order:
            for below in crates[name][1]:
                visit(below)
            order.append(name)

    for name in names:
        visit(name)
    return order


def files_of(folder):
    """The files that the check of a crate reads."""
    return sorted(it for part in PARTS for it in (folder / part).rglob("*") if it.is_file())


def time_of(name):
    """About how long the check of a crate takes. Only the order of the crates goes by it."""
    folder = TOP / "crates" / name
    sizes = {part: sum(it.stat().st_size for it in (folder / part).rglob("*") if it.is_file()) for part in PARTS}
    is_program = (folder / "src" / "main.rt").is_file()
    return TO_READ + TO_LINK * is_program + sum(TO_PROVE[part] * size for part, size in sizes.items())


def most_jobs(name):
    """How many jobs may check a crate."""
    lines = sum(file.read_bytes().count(b"\n") for file in (TOP / "crates" / name / "src").rglob("*.rt"))
    return MOST_JOBS if lines >= LINES_FOR_JOBS else 1


def sum_of(names, crates, top=TOP):
    """A sum of all that the crates are made from."""
    total = hashlib.sha256()
    for name in sorted(names):
        total.update(crates[name][0].encode() + b"\n")
        for file in files_of(top / "crates" / name):
            content = file.read_bytes()
            total.update(f"{file.relative_to(top)} {len(content)}\n".encode() + content)
    return total.hexdigest()


def room():
    """The folder for copies and logs: within .git, so on the same disk and seen by no check; else in the user's cache."""
    if (TOP / ".git").is_dir():
        return TOP / ".git" / "proving"
    cache = os.environ.get("XDG_CACHE_HOME") or os.path.expanduser("~/.cache")
    return pathlib.Path(cache) / f"tensors-proving-{hashlib.sha256(bytes(TOP)).hexdigest()[:12]}"


def processors():
    """How many jobs to run, one a processor, where memory holds them; and whether it holds one more."""
    found = len(os.sched_getaffinity(0))
    with contextlib.suppress(OSError, ValueError):
        quota, period = pathlib.Path("/sys/fs/cgroup/cpu.max").read_text().split()
        found = min(found, max(int(quota) // int(period), 1))
    with contextlib.suppress(OSError, AttributeError):
        available = re.search(r"MemAvailable:\s+(\d+)", pathlib.Path("/proc/meminfo").read_text())
        room = max(1024 * int(available[1]) // MEMORY_OF_A_JOB, 1)
        return min(found, room), room > found
    return found, False


def begin_child(gives_way):
    """What a child does before the prover: it is a group of its own, ends when this program is killed, and may give way."""
    # not a session of its own: the kernel shares processors out among sessions first, and only then by who gives way
    os.setpgrp()
    with contextlib.suppress(AttributeError):
        LIBC.prctl(PR_SET_PDEATHSIG, signal.SIGTERM)
    if gives_way:
        os.nice(NICE)


class Builder:
    """One run: the crates to prove, the copy from which they are proved, the libraries that are kept, and the log."""

    def __init__(self, programs, crates, toolchain):
        self.room, self.crates, self.programs = room(), crates, programs
        self.kit, self.version = toolchain
        self.order = closure(programs, crates)
        self.sources, self.proved, self.log = self.room / "sources", self.room / "proved", self.room / "log"
        self.begin, self.done, self.running, self.stopped = time.monotonic(), 0, {}, False
        self.weight = {it: time_of(it) for it in self.order}
        # a crate and the longest chain of crates above it
        self.chain = dict(self.weight)
        for name in reversed(self.order):
            for below in crates[name][1]:
                self.chain[below] = max(self.chain[below], self.weight[below] + self.chain[name])

    def prepare(self):
        """Takes a copy of the sources, and lets go of what is kept of crates that are no more."""
        shutil.rmtree(self.sources, ignore_errors=True)
        self.proved.mkdir(exist_ok=True)
        for old in self.proved.glob("*.build"):
            if old.stem not in self.crates:
                old.unlink()
                shutil.rmtree(old.with_suffix(".rlib"), ignore_errors=True)
        for name in self.order:
            for part in PARTS:
                if (TOP / "crates" / name / part).is_dir():
                    shutil.copytree(TOP / "crates" / name / part, self.sources / "crates" / name / part)
        self.log.write_text("")

    def build_of(self, name):
        """The file that names the build of the library that is kept, and what that was made from."""
        return self.proved / f"{name}.build"

    def key(self, name):
        """A sum of all that a crate is made from. Statements serve only over the very builds over which they were made, so
        these count, and not what they were made from."""
        total = hashlib.sha256(f"{self.version}\n{sum_of([name], self.crates, self.sources)}\n".encode())
        for below in closure([name], self.crates)[:-1]:
            total.update(f"{below} {self.build_of(below).read_text()}\n".encode())
        return total.hexdigest()

    def is_kept(self, name):
        """Whether the library is kept, from the present sources and over the present builds of those below."""
        build = self.build_of(name)
        return name not in self.programs and build.is_file() and build.read_text().split()[:1] == [self.key(name)]

    def words(self, name, jobs):
        """The call of the prover for a crate."""
        _, below, of_kit = self.crates[name]
        is_program = name in self.programs
        words = [self.kit / "bin" / "rattle", "build", "--crate-name", name, "--jobs", jobs]
        words += ["-o", self.proved / f"{name}.{'o' if is_program else 'rlib'}"]
        for folder, names in ((self.kit / "rlibs", ["std", *of_kit]), (self.proved, below)):
            words += [word for it in names for word in ("--extern", f"{it}={folder / it}.rlib")]
            words += ["-L", f"dependency={folder}"]
        words += ["--links", f"{name}=", "--antt-project", self.kit / "rattle" / "logic" / "antt-project.json"]
        words += ["--logic-built", self.kit / "logic_built"]
        if is_program:
            words += ["--backend", "llvm", "--toolchain", self.kit / "toolchain", "src/main.rt"]
        else:
            words += ["--statements", "src/lib.rt"]
        return [str(it) for it in words]

    def call(self, name, words, gives_way, out):
        """Runs a command of the toolchain in the copy of a crate; its status, less than 0 where a signal ended it."""
        how = {"cwd": self.sources / "crates" / name, "stdin": subprocess.DEVNULL, "stdout": out, "stderr": subprocess.STDOUT}
        self.running[name] = ran = subprocess.Popen(words, preexec_fn=lambda: begin_child(gives_way), **how)
        try:
            if self.stopped:
                self.stop()
            return ran.wait()
        finally:
            del self.running[name]

    def prove(self, name, jobs, gives_way):
        """Proves one crate; a library is kept, a program is linked and takes its place."""
        begin, key = time.monotonic(), self.key(name)
        self.build_of(name).unlink(missing_ok=True)
        with open(self.room / f"{name}.log", "w+", errors="replace") as out:
            status = self.call(name, self.words(name, jobs), gives_way, out)
            if status == -signal.SIGKILL and jobs > 1:
                out.write("killed, most likely for want of memory: once more with one job\n")
                out.flush()
                status = self.call(name, self.words(name, 1), gives_way, out)
            if status == 0 and name in self.programs:
                status = self.link(name, out)
            out.seek(0)
            text = f"== {name}: {time.monotonic() - begin:.1f} s, {jobs} jobs\n{out.read()}"
        (self.room / f"{name}.log").unlink()
        with open(self.log, "a") as log:
            log.write(text)
        if status == 0 and name not in self.programs:
            self.build_of(name).write_text(f"{key} {time.time_ns()}\n")
        return status

    def link(self, name, out):
        """Links a proved program, which takes the place of the one that stands, and records what it was proved from."""
        to, made = TOP / "crates" / name / "out", self.proved / f"{name}.o"
        to.mkdir(exist_ok=True)
        words = [self.kit / "bin" / "rattle-link", "--target", TARGET, "--toolchain", self.kit / "toolchain"]
        words += ["-o", to / f"{name}.new", made, self.kit / "c" / "libos_c.a", self.kit / "c" / "liblibc_c.a"]
        status = self.call(name, [str(it) for it in words], False, out)
        made.unlink()
        if status == 0:
            os.replace(to / f"{name}.new", to / name)
            # what was proved is the copy, so its sum is the one to write down
            record(name, self.crates, self.sources)
        return status

    def tell(self, name):
        self.done += 1
        minutes = (time.monotonic() - self.begin) / 60
        say(f"proved {name} ({self.done} of {len(self.order)}, {minutes:.1f} minutes)")

    def start(self, pool, left, given, tasks, lanes, more):
        """Starts the crates that can be proved now, those with the longest chain first. Processors that no crate waits for go
        to those that start. A crate whose chain is long beside all that is left gets two jobs though others wait, of which one
        may be more than there are processors; the others give way to it."""
        ready = [it for it in left if all(below in given for below in self.crates[it][1])]
        ready.sort(key=lambda it: -self.chain[it])
        idle = lanes - sum(jobs for _, jobs in tasks.values())
        work = sum(self.weight[it] for it in self.order if it not in given)
        for at, name in enumerate(ready):
            is_long = self.chain[name] * lanes > LONG * work
            room = idle + (more and is_long)
            if room <= 0:
                return
            jobs = max(1, idle // (len(ready) - at))
            if is_long:
                jobs = max(jobs, min(2, room))
            jobs = min(jobs, most_jobs(name))
            left.remove(name)
            idle -= jobs
            tasks[pool.submit(self.prove, name, jobs, not is_long)] = name, jobs

    def build(self):
        self.prepare()
        lanes, more = processors()
        left, given, tasks, failed = [], set(), {}, []
        for name in self.order:
            # lowest first, so the builds below are known; one below that is to be proved has none that is kept
            if all(below in given for below in self.crates[name][1]) and self.is_kept(name):
                given.add(name)
                self.done += 1
            else:
                self.build_of(name).unlink(missing_ok=True)
                left.append(name)
        if given:
            say(f"{len(given)} of {len(self.order)} are proved already")
        with ThreadPoolExecutor(lanes + 1) as pool:
            try:
                while left or tasks:
                    if not failed:
                        self.start(pool, left, given, tasks, lanes, more)
                    if not tasks:
                        break
                    for ended in wait(tasks, return_when=FIRST_COMPLETED).done:
                        name, _ = tasks.pop(ended)
                        if ended.result() == 0:
                            given.add(name)
                            self.tell(name)
                        else:
                            failed.append(name)
                            self.stop()
            except BaseException:
                self.stop()
                raise
        shutil.rmtree(self.sources, ignore_errors=True)
        if failed:
            raise Failed(f"{failed[0]} is not proved; what was said stands in {self.log}")

    def stop(self):
        """Ends what runs, and what begins from here on."""
        self.stopped = True
        for ran in list(self.running.values()):
            with contextlib.suppress(ProcessLookupError):
                os.killpg(ran.pid, signal.SIGTERM)


def sources_file(program):
    return TOP / "crates" / program / "out" / f"{program}.sources"


def is_built(program, crates):
    """Whether the program stands, proved from the present sources; if so, later calls see that from the times of the files."""
    made, sources = TOP / "crates" / program / "out" / program, sources_file(program)
    if not made.is_file():
        return False
    now = sources.with_suffix(".new")
    now.write_text("")
    # a file that is changed from here on has a later time than this
    time.sleep(0.02)
    text = f"{sum_of(closure([program], crates), crates)} {hashlib.sha256(made.read_bytes()).hexdigest()}\n"
    if not sources.is_file() or sources.read_text() != text:
        now.unlink()
        return False
    at = now.stat().st_mtime_ns
    now.write_text(text)
    os.utime(now, ns=(at, at))
    os.replace(now, sources)
    return True


def record(program, crates, top):
    """Writes down that the program that stands was proved from the sources under this folder."""
    made = TOP / "crates" / program / "out" / program
    text = f"{sum_of(closure([program], crates), crates, top)} {hashlib.sha256(made.read_bytes()).hexdigest()}\n"
    sources_file(program).write_text(text)
    # older than every source, until a look finds that these are the present sources
    os.utime(sources_file(program), (0, 0))


def passed(begin):
    """Records the programs that the gate has built, where no source has changed since it began."""
    crates = listed()
    programs = [it for it in crates if (TOP / "crates" / it / "out" / it).is_file()]
    files = [TOP / "crates.txt", *(file for name in crates for file in files_of(TOP / "crates" / name))]
    if all(file.stat().st_ctime < begin for file in files):
        for name in programs:
            record(name, crates, TOP)
            is_built(name, crates)


def make(programs):
    crates = listed()
    for name in programs:
        if name not in crates or not (TOP / "crates" / name / "src" / "main.rt").is_file():
            raise Failed(f"there is no program {name} in crates.txt")
    for name in closure(programs, crates):
        if not (TOP / "crates" / name / "src").is_dir():
            raise Failed(f"crates.txt names {name}, but there is no folder crates/{name}/src")
    if all([is_built(name, crates) for name in programs]):
        return
    toolchain = kit()
    while True:
        left = [name for name in programs if not is_built(name, crates)]
        if not left:
            return
        builder = Builder(left, crates, toolchain)
        say(f"proving and building {' '.join(left)} from {len(builder.order)} crates; the first time takes some minutes")
        say("(until then ./try answers the same requests, unproved; Ctrl-C stops, and the next call goes on)")
        builder.build()
        crates = listed()


def main(programs):
    if not programs:
        sys.exit("usage: tools/prove.py PROGRAM..")
    if programs[0] == "--passed":
        passed(float(programs[1]))
        return
    for number in (signal.SIGTERM, signal.SIGHUP):
        signal.signal(number, signal.default_int_handler)
    (here := room()).mkdir(parents=True, exist_ok=True)
    with open(here / "lock", "w") as lock:
        try:
            fcntl.flock(lock, fcntl.LOCK_EX | fcntl.LOCK_NB)
        except BlockingIOError:
            say("another run proves this repository: waiting for it")
            fcntl.flock(lock, fcntl.LOCK_EX)
        try:
            make(programs)
        except Failed as why:
            say(str(why))
            sys.exit(125)
        except KeyboardInterrupt:
            say("stopped; the next call goes on from here")
            sys.exit(125)


main(sys.argv[1:])
