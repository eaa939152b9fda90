"""Watches the memory of tests. Each runs as it is, and then once for each of its first 500 allocations, with that
allocation refused; it may then end with an error of its own setup. A test fails if

- an assertion fails, or a signal ends it;
- an allocation is not freed;
- a block that is freed, or that a realloc moves away from, holds eight bytes of a key or of its text;
- its name has `asks_for_little`, and it asks for more than 4,096 bytes at once;
- its name ends in `_holds_at_most_N_kib`, and it holds more than N times 1,024 bytes at once.
"""
import os
import re
import subprocess
import sys
import tempfile

import kit

MOST = 500
# What no freed block may hold: the tests' keys of 16, 24 and 32 bytes, with which the words of an expanded key begin,
# and for each key the first plane of the products that GHASH keeps of its hash key, as it is stored in memory.
KEYS = ",".join(
    [
        "10171e252c333a41484f565d646b7279",
        "181f262d343b424950575e656c737a81888f969da4abb2b9",
        "20272e353c434a51585f666d747b828990979ea5acb3bac1c8cfd6dde4ebf2f9",
        "002346658daecbe8d9fa9fbc54771231",
        "002e5d73ba94e7c9b799eac40d23507e",
        "0053a7f48cdf2b78db887c2f5704f0a3",
    ]
)
# The first and the last of the keys in base64, without padding, as key files have them.
TEXTS = "454263654a53777a4f6b464954315a645a4774796551,494363754e547844536c465958325a7464487543695a43586e71577373377242794d2f573365547238766b"
# What is looked for in the tests of a crate: in each run, and only where no allocation is refused (a JSON list that
# serde_json gives up is freed as it is).
SECRETS = {
    "memberlist_cipher_tests": (KEYS, KEYS),
    "keyring_tests": (KEYS, f"{KEYS},{TEXTS}"),
    "key_files_tests": (f"{KEYS},{TEXTS}", f"{KEYS},{TEXTS}"),
}
ASSERTED = re.compile(rb"assert")


def library(room):
    """Compiles what is preloaded into each test, and returns its path."""
    made = f"{room}/watch_memory.so"
    subprocess.run(["cc", "-shared", "-fPIC", "-O2", "-o", made, f"{kit.TOP}/.ci/watch_memory.c", "-ldl"], check=True)
    return made


class Watch:
    """The runs of some tests of one program."""

    def __init__(self, program, preloaded, room):
        self.program, self.preloaded, self.room, self.runs, self.faults = program, preloaded, room, 0, []

    def run(self, test, number, secrets):
        """Runs the test with the allocation of this number refused, or with none for 0. Returns whether one was, and
        the most bytes that were asked for at once and that were held."""
        refused, counted = f"{self.room}/refused", f"{self.room}/counted"
        for it in (refused, counted):
            if os.path.exists(it):
                os.remove(it)
        env = {"PATH": os.environ.get("PATH", ""), "REFUSE": str(number), "REFUSED": refused, "COUNTED": counted, "SECRETS": secrets, "LD_PRELOAD": self.preloaded}
        how = {"stdin": subprocess.DEVNULL, "stdout": subprocess.PIPE, "stderr": subprocess.STDOUT}
        what = f"{test}{f' with allocation {number} refused' if number else ''}"
        try:
            ran = subprocess.run([self.program, test], env=env, timeout=60, cwd=self.room, **how)
            status, said = ran.returncode, ran.stdout
        except subprocess.TimeoutExpired:
            status, said = 124, b""
        counts = [0, None, 0, 0]
        if os.path.exists(counted):
            with open(counted, encoding="utf-8") as it:
                counts = [int(word) for word in it.read().split()]
        greatest, held, peak, exposed = counts
        if status < 0 or status >= 124 or ASSERTED.search(said):
            self.faults.append(f"{what}: status {status}: {said[-400:].decode(errors='replace')}")
        elif held != 0:
            self.faults.append(f"{what}: allocations not freed: {'unknown' if held is None else held}")
        elif exposed:
            self.faults.append(f"{what}: freed blocks that hold a key: {exposed}")
        return os.path.exists(refused), greatest, peak

    def watch(self, test, secrets):
        always, plain = secrets
        _, greatest, peak = self.run(test, 0, plain)
        if "asks_for_little" in test and greatest > 4096:
            self.faults.append(f"{test}: asks for {greatest} bytes at once")
        most = re.search(r"_holds_at_most_(\d+)_kib$", test)
        if most and peak > 1024 * int(most[1]):
            self.faults.append(f"{test}: holds {peak} bytes at once")
        for number in range(1, MOST + 1):
            if not self.run(test, number, always)[0]:
                break
            self.runs += 1


def tests_of(program):
    """Returns the names of the program's tests."""
    listed = subprocess.run([program, "--list"], stdout=subprocess.PIPE, text=True, check=True).stdout
    return re.findall(r"(?m)^(\S+): test$", listed)


def watch(program, tests):
    """Watches these tests of the program, and returns how many runs had an allocation refused, and what is wrong."""
    with tempfile.TemporaryDirectory(prefix="swimtab-memory-") as room:
        seen = Watch(program, library(room), room)
        for test in tests:
            seen.watch(test, SECRETS.get(test.partition("::")[0], ("", "")))
    return seen.runs, seen.faults


def main(words):
    program, turn, turns = words[0], int(words[1]), int(words[2])
    runs, faults = watch(program, tests_of(program)[turn::turns])
    for it in faults:
        print(f"failed: {it}")
    print(f"{runs} runs with an allocation refused, {len(faults)} failed")
    return 1 if faults or not runs else 0


if __name__ == "__main__":
    sys.exit(main(sys.argv[1:]))
