"""Says how far the proofs are."""
import re
import threading
import time

import kit

rt, rtlib = kit.rt, kit.rt.rtlib
# About how many functions are checked for each `fn` of the source, since derives write some, and how many seconds of
# processor time each takes, until this run has measured it.
FUNCTIONS, SECONDS = 1.25, 2.0


def functions_of(crate):
    """Returns about how many functions a check of the crate proves."""
    texts = (rtlib.text_of(it) for it in rtlib.files_of(crate.folder) if it.endswith(".rt") and "/tests" not in it)
    return int(FUNCTIONS * sum(len(re.findall(r"\bfn [a-z]", it)) for it in texts))


class Progress:
    def __init__(self, crates):
        self.crates, self.lock, self.usage = crates, threading.Lock(), {}
        self.counts, self.done, self.inside, self.ends = {}, set(), {}, {}
        self.proved, self.seconds, self.told = 0, 0.0, time.time()

    def begin(self, names):
        self.counts = {it: functions_of(self.crates[it]) for it in names}

    def used(self, name, usage):
        """Adds what a check or a build of the crate used."""
        with self.lock:
            seconds, most = self.usage.get(name, (0.0, 0))
            self.usage[name] = seconds + usage.ru_utime + usage.ru_stime, max(most, usage.ru_maxrss)

    def minutes_left(self):
        """Returns about how many minutes are left: the functions to come, shared by the processors."""
        to_come = sum(much - self.inside.get(it, 0) for it, much in self.counts.items() if it not in self.done)
        each = self.seconds / self.proved if self.proved > 100 else SECONDS
        return max(1, round(to_come * each / 60 / rt.processors()))

    def line(self, what):
        ended = sum(self.counts[it] for it in self.done) + sum(self.inside.values())
        left = f", about {self.minutes_left()} minutes left" if len(self.done) < len(self.counts) else ""
        of = f"{len(self.done)} of {len(self.counts)} crates, {ended:,} of {sum(self.counts.values()):,} functions{left}"
        print(f"  {what}: {of}", file=kit.OUT, flush=True)
        self.told = time.time()

    def at(self, name):
        with self.lock:
            self.inside[name] = 0

    def function(self, name, function, number, of):
        with self.lock:
            self.inside[name], self.counts[name] = number, of
            self.ends.setdefault(name, []).append((time.time(), function))
            if time.time() - self.told > 60:
                self.line(f"at {name}")

    def kept(self, name):
        with self.lock:
            self.done.add(name)
            self.line(f"{name} is kept from an earlier run")

    def slowest(self, name, begun):
        """Writes how many seconds by the clock were between the ends of the crate's functions to build/NAME.functions, the
        most first. The seconds of a function are also those of the lemmas that it is the first to cite."""
        ends = self.ends.get(name, [])
        lasted = [(end - before, function) for (end, function), (before, _) in zip(ends, [(begun, ""), *ends])]
        if lasted:
            with open(f"{kit.TOP}/build/{name}.functions", "w", encoding="utf-8") as it:
                it.writelines(f"{seconds:7.2f} {function}\n" for seconds, function in sorted(lasted, reverse=True))

    def end(self, name, status, begun):
        clock = time.time() - begun
        with self.lock:
            self.slowest(name, begun)
            self.inside.pop(name, None)
            seconds, most = self.usage.get(name, (0.0, 0))
            if status or not seconds:
                print(f"  {name} is NOT PROVED", file=kit.OUT, flush=True)
                return
            self.done.add(name)
            self.proved, self.seconds = self.proved + self.counts[name], self.seconds + seconds
            took = f"{seconds / 60:.1f} minutes of processor time, {clock / 60:.1f} by the clock, {most / 1e6:.1f} GB"
            self.line(f"{name} is proved ({took})")
