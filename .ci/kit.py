"""The parts of the kit's command rt that our scripts use. rt is a Python file; the scripts load it as a module, so that
they check as rt ci does."""
import importlib.machinery
import importlib.util
import os
import shutil
import subprocess
import sys
import threading

sys.dont_write_bytecode = True
# Where the scripts write: what rt says goes elsewhere.
OUT = sys.stdout
TOP = os.path.dirname(os.path.dirname(os.path.realpath(__file__)))
# The prover's allocator gives no memory back to the system while it runs: where that was tried, a proof took a tenth
# less time and held 7 % more.
os.environ.setdefault("MIMALLOC_PURGE_DELAY", "-1")


def load():
    found = shutil.which("rt")
    if not found:
        sys.exit("rt was not found: unpack the Rattle kit and put its folder bin on the PATH")
    loader = importlib.machinery.SourceFileLoader("rt", os.path.realpath(found))
    rt = importlib.util.module_from_spec(importlib.util.spec_from_loader("rt", loader))
    sys.modules["rt"] = rt
    loader.exec_module(rt)
    return rt


rt = load()


def crates(top=TOP):
    """Returns the repository's crates by their names, each after those that it uses."""
    os.chdir(top)
    return {it.name: it for it in sorted(rt.rtlib.crates_below(top), key=lambda it: len(it.below()))}


def logic():
    """Returns the part of rt version that names the prover's logic, which several kits may share."""
    with open(f"{rt.KIT}/KIT-ID", encoding="utf-8") as it:
        return it.read().partition("logic ")[2].strip()


class Spent:
    """How much processor time the commands of each part took, in seconds, with all that they started and waited for."""

    def __init__(self):
        self.lock, self.seconds = threading.Lock(), {}

    def add(self, part, usage):
        with self.lock:
            self.seconds[part] = self.seconds.get(part, 0) + usage.ru_utime + usage.ru_stime

    def call(self, part, words, told=None, **how):
        """Runs a command, and returns its status, its output and what it used. Each line is passed to told as it comes, and
        is part of the output unless told says no."""
        how = {"stdin": subprocess.DEVNULL, "stderr": subprocess.STDOUT, "text": True, "errors": "replace", **how}
        ran = subprocess.Popen(words, stdout=subprocess.PIPE, bufsize=1, **how)
        said = []
        for line in ran.stdout:
            if not told or told(line):
                said.append(line)
        _, status, usage = os.wait4(ran.pid, 0)
        ran.returncode = os.waitstatus_to_exitcode(status)
        self.add(part, usage)
        return ran.returncode, "".join(said), usage
