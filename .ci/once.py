"""Proves crates once each, by rt ci's own steps: from nothing, or over what was kept of the same files.

It does all that rt ci does for a crate but two things, which `make gate` does: it proves no tests, and tries no edits
of must-fail/. Each program is built and run as both compilers make it. What is proved is kept as rt ci keeps it, so
that neither proves again what the other did. The library for C is built from the same proof: rt ci builds nothing of a
static library, so that a build would prove it again."""
import concurrent.futures
import contextlib
import fcntl
import hashlib
import json
import os
import re
import shutil
import subprocess
import tempfile
import time
import types

import kit

rt, rtlib = kit.rt, kit.rt.rtlib
PART = "the proofs"


class Kept(rt.Kept):
    """What is kept of proofs: as rt ci does, and under names of their own the archive of a static library, and the object
    that a program is linked of, for those who link it otherwise."""

    def key(self, crate):
        key = super().key(crate)
        return hashlib.sha256(f"{key} with its archive".encode()).hexdigest() if crate.is_static else key

    def made(self, crate, tests):
        if not crate.is_static or tests:
            return super().made(crate, tests)
        return [it for it in [f"{crate.name}.a"] if os.path.isfile(f"{crate.folder}/out/{it}")]

    def is_whole(self, crate, tests, files):
        return files == [f"{crate.name}.a"] if crate.is_static and not tests else super().is_whole(crate, tests, files)

    def object_of(self, crate, key):
        return f"{self.place(crate, False, key)}-object"

    def give(self, crate, tests, key):
        is_given = super().give(crate, tests, key)
        if is_given and crate.is_program:
            with contextlib.suppress(OSError):
                shutil.copyfile(f"{self.object_of(crate, key)}/0", f"{crate.folder}/out/{crate.name}.o")
        return is_given

    def keep(self, crate, tests, key):
        super().keep(crate, tests, key)
        if tests or not self.at or not os.path.isdir(self.place(crate, tests, key)):
            return
        if crate.is_static:
            # rt ci's own entry, which has no files
            plain = super().key(crate)
            self.put(self.place(crate, tests, plain), lambda room: made_of(room, plain))
        elif crate.is_program:
            self.put(self.object_of(crate, key), lambda room: shutil.copyfile(f"{crate.folder}/out/{crate.name}.o", f"{room}/0"))

    def put(self, place, write):
        """Makes an entry, which is written apart and then renamed, so that no other run meets half of it."""
        with contextlib.suppress(OSError):
            room = tempfile.mkdtemp(prefix=f"rt-new-{os.getpid()}-", dir=self.at)
            write(room)
            os.rename(room, place)


def made_of(room, key):
    with open(f"{room}/made.json", "w", encoding="utf-8") as it:
        json.dump({"key": key, "files": []}, it)


def without(words, *flags):
    for flag in flags:
        at = words.index(flag)
        words = [*words[:at], *words[at + 2 :]]
    return words


def proved_archive(crate, flags):
    """Proves a static library, and builds its archive from what the check left."""
    words, room = crate.words(flags, keeps=False), "out/checked"
    status = crate.prove(["check", *words, "-o", room])
    if not status:
        words = [*without(words, "--logic-built", "--jobs"), "--crate-checked", room, "--toolchain", f"{rt.KIT}/toolchain"]
        status = crate.call(rtlib.RATTLE, "build", *words, "--backend", "llvm", "-o", f"out/lib{crate.name}.a")
    if not status:
        os.replace(f"{crate.folder}/out/lib{crate.name}.a", f"{crate.folder}/out/{crate.name}.a")
    rt.clear(f"{crate.folder}/{room}")
    return status


def at_once(compile_by):
    """Has both compilers build a program at the same time: rt ci calls one after the other, and what follows waits."""
    others = {}

    def begin(crate, backend, words, to):
        if backend == "rattle":
            return others.pop(crate.name).result()
        with concurrent.futures.ThreadPoolExecutor() as pool:
            others[crate.name] = pool.submit(compile_by, crate, "rattle", words, to)
            return compile_by(crate, backend, words, to)

    return begin


class Watched:
    """Runs what rt runs of rattle, and tells the progress how far each proof is and what it took."""

    def __init__(self, spent, progress):
        self.spent, self.progress = spent, progress

    def run(self, words, **how):
        """As subprocess.run, which rt calls for each proof."""
        verb = words[words.index(rtlib.RATTLE) + 1] if rtlib.RATTLE in words else ""
        if "--crate-name" not in words or verb not in ("check", "build"):
            return subprocess.run(words, **how)
        name, more = words[words.index("--crate-name") + 1], []
        if verb == "check":
            # (a library's build takes no --progress)
            more = ["--progress"]
        how.pop("stdout", None)

        def told(line):
            found = re.match(r"checked (\S+), (\d+) of (\d+)$", line)
            if found:
                self.progress.function(name, found[1], int(found[2]), int(found[3]))
            return not found

        status, said, usage = self.spent.call(PART, [*words, *more], told, **how)
        self.progress.used(name, usage)
        return subprocess.CompletedProcess(words, status, said, None)


def hand_over(crate, folder):
    """Copies what was made of a program or a static library to the folder: NAME and NAME.o, or libNAME.a."""
    out = f"{crate.folder}/out"
    if crate.is_program:
        shutil.copy(f"{out}/{crate.name}", f"{folder}/{crate.name}")
        with contextlib.suppress(FileNotFoundError):
            shutil.copyfile(f"{out}/{crate.name}.o", f"{folder}/{crate.name}.o")
    elif crate.is_static:
        shutil.copyfile(f"{out}/{crate.name}.a", f"{folder}/lib{crate.name}.a")


def stamped(crates):
    """Marks the libraries that stand in out/rlib as built, as rt check marks its own, so that what runs next does not
    prove them again. They are from one run, so they fit each other."""
    for crate in crates:
        if os.path.isdir(crate.rlib):
            with open(f"{crate.folder}/out/rlib/stamp", "w", encoding="utf-8") as it:
                it.write(crate.stamp())


def give_libraries(top, names):
    """Puts what was kept of these libraries into out/rlib, where they are not built and those below them are the same."""
    rt.Crate.allowed, rtlib.Crate, rt.Crate.cuts_libraries = rt.handles_of(top), rt.Crate, True
    crates = [it for it in rt.crates_of(top) if it.name in names]
    kept = Kept(crates)
    for crate in crates:
        if not crate.is_built() and all(it.name in kept.rlibs for it in crate.below()):
            # (its files may be the same as those of what is kept)
            rt.clear(f"{crate.folder}/out/rlib")
            if kept.give(crate, False, kept.key(crate)):
                stamped([crate])
        if crate.is_built():
            kept.is_built(crate)


@contextlib.contextmanager
def alone(top):
    """Waits for another rt ci in this copy of the repository to end, and gives a folder in which what rt check left is set
    aside. It is put back at the end, or, after a run that was killed, by the next one."""
    git = rt.git_of(top)
    if git != f"{top}/.git":
        # (a worktree's may lie on another disk)
        with tempfile.TemporaryDirectory(prefix=f"rt-aside-{os.getpid()}-") as aside:
            try:
                yield aside
            finally:
                rt.put_back(top, aside)
        return
    with open(f"{git}/rt-ci.lock", "w") as lock:
        fcntl.flock(lock, fcntl.LOCK_EX)
        aside = f"{git}/rt-aside"
        if os.path.isdir(aside) and not os.path.islink(aside):
            rt.put_back(top, aside, was_killed=True)
        rt.clear(aside)
        os.mkdir(aside)
        try:
            yield aside
        finally:
            rt.put_back(top, aside)
            rt.clear(aside)


def prove(names, spent, progress, log, anew=False, beside=lambda tasks: {}):
    """Proves these crates and those below them where it is called, and what runs beside: tasks as rt's in_lanes takes
    them. What rt says goes to the file log. Returns rt's status, and how many crates passed and failed."""
    watched, in_lanes, ci = Watched(spent, progress), rt.in_lanes, rt.Crate.ci

    def prove_once(crate, flags, tests):
        begun = time.time()
        progress.at(crate.name)
        status = proved_archive(crate, flags) if crate.is_static else ci(crate, flags, tests)
        progress.end(crate.name, status, begun)
        return status

    class Told(Kept):
        def give(self, crate, tests, key):
            is_given = super().give(crate, tests, key)
            if is_given:
                progress.kept(crate.name)
            return is_given

    def with_beside(tasks):
        progress.begin([key[0] for key in tasks if key[1] == "proof"])
        return in_lanes({**tasks, **beside(tasks)})

    rtlib.subprocess = rt.subprocess = types.SimpleNamespace(**{**vars(subprocess), "run": watched.run})
    rt.Crate.compile_by = at_once(rt.Crate.compile_by)
    rt.Crate.has_tests = lambda crate: False
    rt.edits_of = lambda crate: ([], [])
    rt.Crate.ci, rt.Kept, rt.in_lanes = prove_once, Told, with_beside
    # One job a check, since four take half as much processor time again, and as many checks as processors, whatever memory
    # rt reckons with: it would prove swimwatch, which takes 17 GB, at the end and alone.
    os.environ.setdefault("RT_JOBS", str(rt.processors()))
    if not os.access(rt.STORE if os.path.isdir(rt.STORE) else os.path.dirname(rt.STORE), os.W_OK):
        # (the kit is root's, say)
        rt.STORE = os.path.join(os.environ.get("XDG_CACHE_HOME") or os.path.expanduser("~/.cache"), "swimtab", "proofs")
    top = os.getcwd()
    with alone(top) as aside, open(log, "w", encoding="utf-8") as it, contextlib.redirect_stdout(it):
        status = rt.where_disk_lasts(rt.ci_over, aside, anew, names)
    with open(log, encoding="utf-8") as it:
        counts = re.search(r"(?m)^(\d+) passed, (\d+) failed.*\n\Z", it.read())
    return status, *((int(counts[1]), int(counts[2])) if counts else (0, 1))


def of_failures(log):
    """Returns what rt said of the crates that failed, without the lines of what was proved."""
    with open(log, encoding="utf-8") as it:
        parts = re.split(r"(?m)^(?=== )", it.read())
    is_told = lambda line: not re.match(r"(fn|impl|struct|enum|trait|const|statements|by-macro:?) .*(: proved|loaded=\d+ checked=\d+|blocks=\d+)$|rt: \S+ (proved|is kept.*)$", line)
    found = [parts[0], *[it for it in parts[1:] if re.search(r"(?m)^rt: .*(NOT PROVED|FAILED)", it)], *parts[-1:]]
    lines = [line for part in dict.fromkeys(found) for line in part.split("\n") if is_told(line)]
    return "\n".join(lines)
