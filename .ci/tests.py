"""The tests of crates, with no proof. The crates NAME_tests are compiled as modules of one crate, since reading the
libraries takes most of the time; a program with tests of its own is compiled alone."""
import os
import re
import shutil
import tempfile

import kit
import unproved

rt, rtlib = kit.rt, kit.rt.rtlib
TOGETHER = "all_tests"


class Gathered:
    """The crates NAME_tests as one crate, each a module of that name."""

    name, is_program, said = TOGETHER, False, {}
    sources_below = rtlib.Crate.sources_below

    def __init__(self, crates, folder):
        self.folder, self.libraries = folder, []
        for it in [below for crate in crates for below in crate.below()]:
            if it not in self.libraries:
                self.libraries.append(it)
        self.of_kit = sorted({name for crate in crates for name in crate.of_kit})
        for crate in crates:
            self.take(crate)
        with open(f"{folder}/src/lib.rt", "w", encoding="utf-8") as it:
            it.write("#![tactic(auto)]\n\n" + "".join(f"#[cfg(test)]\nmod {crate.name};\n" for crate in crates))

    def below(self):
        return self.libraries

    def take(self, crate):
        """Copies the crate's src/tests.rt and src/tests/ under its name."""
        for at, _, names in os.walk(f"{crate.folder}/src"):
            for name in sorted(names):
                path = os.path.relpath(f"{at}/{name}", f"{crate.folder}/src")
                if path == "lib.rt":
                    continue
                to = f"{self.folder}/src/{re.sub('^tests', crate.name, path)}"
                os.makedirs(os.path.dirname(to), exist_ok=True)
                with open(f"{at}/{name}", encoding="utf-8") as one, open(to, "w", encoding="utf-8") as other:
                    other.write(one.read().replace("crate::tests", f"crate::{crate.name}"))


def programs(crates):
    """Returns the names of the programs of tests: of all crates NAME_tests together, and of each other crate with tests."""
    own = [it.name for it in crates.values() if not it.name.endswith("_tests") and it.has_tests()]
    return [TOGETHER, *own]


def compiled(spent, part, crates, name, to):
    """Compiles the tests of this name to the file `to`. Returns whether that was done, and what was said."""
    if name != TOGETHER:
        return unproved.build(spent, part, crates[name], True, to)
    with tempfile.TemporaryDirectory(prefix="swimtab-tests-") as folder:
        gathered = Gathered([it for it in crates.values() if it.name.endswith("_tests")], folder)
        return unproved.build(spent, part, gathered, True, to)


def ran(spent, part, program):
    """Runs the tests of a program, and returns how many passed, how many failed, and what was said."""
    with tempfile.TemporaryDirectory(prefix="swimtab-run-") as folder:
        copy = shutil.copy(program, folder)
        status, said, _ = spent.call(part, [rtlib.RUNNER, "--seconds", "60", copy], cwd=folder)
    counts = re.search(r"(?m)^test result: \w+\. (\d+) passed; (\d+) failed", said)
    if not counts or status and counts[2] == "0":
        return 0, 1, said
    return int(counts[1]), int(counts[2]), "".join(it for it in said.splitlines(True) if not it.endswith("... ok\n"))


