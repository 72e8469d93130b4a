"""Wrong programs that the contracts shut out.

An edit of crates/NAME/must-fail or crates/NAME/wrong makes a wrong program of the crate. Its line
'# refused: FUNCTION NEED' says what must fail: the proof of that function alone, at that need, which is the goal
as the prover names it. (Functions that call each other are proved together: all of them, parted by commas, stand
for one.) An edit of a definition has the line '# refused: law NAME', for a law or a need that no longer holds.
`rt ci` refuses the edits of must-fail from nothing; here all of them run on what is already checked, which takes
seconds, and the reason is compared too. What is checked of a crate stands in its folder out/incremental, as `rt check` left
it: each try begins with a copy of that, so that only what the edit touches is checked. The prover is called as
`rt must-fail` calls it, with the words that rt has for the crate, over the libraries below it that are built; rt's own check
would note each wrong program's folder as work to begin others with. Of every public function of a library two wrong
programs at least must be refused: its own, or that of a function that it calls in the same crate. The public functions are those
of the interface in the library's rlib, where a crate above had it built, and else those that its sources declare.

Edits of one line in the body of different functions are tried together, a batch at a time. A function's
proof goes by its own code and by the promises of what it calls, and these edits change no promise, so a
need that fails in a batch fails alone too, and no edit breaks the function of another. Only a need that
fails in the function's own proof is taken from a batch, and only if no function fails by itself but those
of the batch; all else is tried alone.

A goal that the prover's tactics are to prove has no proof to read: it fails where they did not prove it. A proof that no
longer fits the code, since it names what is not there, is no refusal. The prover names goals and steps after the code's text,
as returns-then-n-eq0 after a test of n, and a changed test has another name: a line '# names: BEFORE AFTER' of an edit has such a
name, as the code has it and as the wrong program has it, and the function's own proof is read with the second.

Whole sessions and marked cases are computed, which costs time, and few edits name them. They are left out where an
edit is to be refused at another law.

Usage: wrong_programs.py [NAME[/LABEL]..]   from the root of the repository, after `rt check` of each crate
"""

import os
import re
import shutil
import subprocess
import sys
import tempfile
import time
from concurrent.futures import ThreadPoolExecutor
from pathlib import Path

sys.path.insert(0, str(Path(shutil.which("rt") or "rt").resolve().parent))
import rtlib  # noqa: E402

ROOT = Path.cwd()
WORKERS = max(1, min(4, len(os.sched_getaffinity(0))))

# The file of a crate's proofs/ that computes whole sessions or marked cases.
COMPUTED = {"calls": "Session", "meaning": "Cases"}

# An error of one of these kinds says that a proof no longer fits the code, and not that a fact fails.
MISFITS = re.compile(
    r"(?:not|data type `[^`]*` is) in scope(?! here)|has no field|that can be named (?:from )?here|exports no|unknown name"
    r"|is already a name of this module|expects? \d+ arguments?|unused premise|explicit arguments? more than|projects from a"
)
CASCADE = re.compile(r"was not admitted|was not checked|were not checked|cannot be checked|stands by its signature alone")
CALLS = "it calls `"


class Edit:
    """One wrong program: the text that is replaced in each file, and what must be refused."""

    def __init__(self, crate, path):
        self.crate = crate
        self.label = path.stem
        self.refused = ""
        self.names = {}
        self.pairs = []
        self.unproved = []
        file = old = ""
        for line in path.read_text().splitlines():
            word, _, rest = line.removeprefix("# ").partition(" ")
            if word == "refused:":
                self.refused = rest
            elif word == "names:":
                before, after = rest.split()
                self.names[before] = after
            elif word == "file:":
                file = rest
            elif word == "old:":
                old = rest
            elif word == "new:":
                self.pairs.append((file, old, rest))

    def name(self):
        return f"{self.crate}/{self.label}"

    def function(self):
        return self.refused.partition(" ")[0]

    def need(self):
        return self.refused.partition(" ")[2]

    def of_one_function(self):
        """Is it one line in the body of one function of a library? Such a line can break no function but that one."""
        file, old, new = self.pairs[0]
        path = ROOT / "crates" / self.crate / file
        line = next((line for line in path.read_text().splitlines() if old in line), old) if path.exists() else old
        told = any(word in line + new for word in ("ensures", "requires", "const ", "use ", "fn ", "pub ", "struct ", "impl "))
        body = len(self.pairs) == 1 and file.startswith("src/") and not told
        return body and is_library(self.crate) and self.function() != "law" and "," not in self.function()

    def apply(self, folder):
        for file, old, new in self.pairs:
            path = folder / file
            text = path.read_text() if path.exists() else ""
            if text.count(old) != 1:
                raise ValueError(f"{file} does not have the old text once")
            path.write_text(text.replace(old, new))
        for place in places_of(self.function()) if self.names else []:
            for proof in (folder / place).glob("*.antt"):
                proof.write_text(renamed(proof.read_text(), self.names))

    def leave_out_computed(self, folder):
        """Takes what is computed out of the crate's proofs, but where this edit is to be refused there."""
        module = COMPUTED.get(self.crate)
        path = folder / "proofs" / f"{module}.antt"
        if module and not re.search(rf"^(pub )?{re.escape(self.need())} :", path.read_text(), re.M):
            path.unlink()
            lib = folder / "proofs" / "Lib.antt"
            lib.write_text(lib.read_text().replace(f"pub mod {module}\n", ""))


def places_of(function):
    """Where a function's own proof may stand in its crate's folder: in one of its own, or in that of a cycle of calls, with the names of all in it."""
    _, *path = function.split(",")[0].split("::")
    cycle = "+" + "_".join(name.rpartition("::")[2] for name in function.split(","))
    return ["/".join(["proofs", *path, ""]), "/".join(["proofs", *path[:-1], cycle, ""])]


def renamed(text, names):
    """A proof's text with these names of goals and steps in place of those before. A name with a dot before it is a step's, which no import names."""
    fields = {name for name in names if name.startswith(".")}

    def after(found):
        whole, name = found.group(0), found.group(0).lstrip(".")
        return names[whole] if whole in fields else whole.replace(name, names.get(name, name))

    lines = re.split(r"^(use .*)$", text, flags=re.M)
    imports = [re.sub(r"[^\W\d][\w'-]*", after, line) for line in lines[1::2]]
    others = [re.sub(r"\.?[^\W\d][\w'-]*", after, line) for line in lines[::2]]
    return "".join(other + line for other, line in zip(others, [*imports, ""]))


def crates():
    """The crates of crates.txt that are of this repository, in its order."""
    names = re.findall(r"^(\w+)[^#:\n]*:", (ROOT / "crates.txt").read_text(), re.M)
    return [n for n in names if (ROOT / "crates" / n).exists()]


def is_library(crate):
    return (ROOT / "crates" / crate / "src" / "lib.rt").exists()


def edits_of(crate):
    folder = ROOT / "crates" / crate
    paths = sorted(folder.glob("must-fail/*.edit")) + sorted(folder.glob("wrong/*.edit"))
    return [Edit(crate, path) for path in paths]


def interface_of(crate):
    """The lines that declare a library's public functions, without their attributes, with the module that the file is: of its interface, or of its sources."""
    built = ROOT / "crates" / crate / "out" / "rlib" / f"{crate}.rlib" / "interface" / "lang" / "src"
    source = built if built.exists() else ROOT / "crates" / crate / "src"
    for path in sorted(source.rglob("*.rt")):
        module = crate if path.stem == "lib" else f"{crate}::{path.stem}"
        for line in path.read_text().splitlines():
            line = re.sub(r"^(# \[[^\]]*\] )+", "", line)
            yield module, line.removeprefix("    ") if line.startswith("    pub ") else line


def public_functions(crate):
    """The public functions, named as the prover names them: a method by the module that declares its type."""
    home = {}
    for module, line in interface_of(crate):
        declared = re.match(r"pub (?:struct|enum) (\w+)", line)
        if declared:
            home[declared.group(1)] = module
    found = []
    owner = ""
    for module, line in interface_of(crate):
        if line.startswith("impl "):
            owner = line.split(" ")[1]
        elif line == "}":
            owner = ""
        named = re.match(r'pub (?:extern "C" )?fn (\w+)', line)
        if named:
            place = f"{home[owner]}::{owner}" if owner else module
            found.append(f"{place}::{named.group(1)}")
    return found


def parts_of(crate):
    """The folders of a crate that the prover reads."""
    folder = ROOT / "crates" / crate
    return [folder / part for part in rtlib.PARTS if (folder / part).is_dir()]


def words_for(crate):
    """The prover's words for a check of the crate, over the libraries below it, which must be built."""
    folder = str(ROOT / "crates" / crate)
    made = rtlib.Crate(folder, str(ROOT), {})
    lacking = [below.name for below in made.below() if not below.is_built()]
    if lacking:
        raise RuntimeError(f"{crate} stands on {' '.join(lacking)}, not built as it stands: run rt check in crates/{crate} first")
    return [rtlib.RATTLE, "check", *made.words(["--jobs", "1"], keeps=False)]


def linked(folder, to):
    """Copies a folder of kept work. The prover replaces a file of what it checked, and changes none, so that these are linked where they can be."""

    def copy(one, other):
        try:
            if one.endswith(".oantt"):
                return os.link(one, other)
        except OSError:
            pass
        return shutil.copy2(one, other)

    shutil.copytree(folder, to, symlinks=True, copy_function=copy)


class Store:
    """A crate as it stands, with what is checked of it."""

    def __init__(self, crate, folder):
        self.words = words_for(crate)
        self.folder = folder / crate
        self.folder.mkdir()
        for part in parts_of(crate):
            shutil.copytree(part, self.folder / part.name)
        kept = ROOT / "crates" / crate / "out" / "incremental"
        if kept.exists():
            linked(str(kept), str(self.folder / "incremental"))
        else:
            (self.folder / "incremental").mkdir()
        status, report = self.check(self.folder)
        if status != 0:
            raise RuntimeError(f"{crate} is not proved as it stands: {report[-2000:]}")

    def check(self, folder):
        """The exit status and the report of one check of the crate in this folder, over the folder's own kept work."""
        words = [*self.words, "--incremental", str(folder / "incremental")]
        ended = subprocess.run(words, cwd=folder, stdin=subprocess.DEVNULL, stdout=subprocess.PIPE, stderr=subprocess.STDOUT, text=True, errors="replace")
        lines = [line for line in ended.stdout.splitlines() if not line.startswith("so far: ")]
        return ended.returncode, "\n".join(lines)

    def tried(self, edits):
        """The status and the report of a check with these edits made, beginning with what is kept."""
        with tempfile.TemporaryDirectory() as room:
            folder = Path(room) / "crate"
            folder.mkdir()
            for part in self.folder.iterdir():
                if part.name != "incremental":
                    shutil.copytree(part, folder / part.name)
            for edit in edits:
                edit.apply(folder)
            if len(edits) == 1:
                edits[0].leave_out_computed(folder)
            linked(str(self.folder / "incremental"), str(folder / "incremental"))
            return self.check(folder)


def errors(report):
    """Each error, with the lines that go on with it."""
    return re.findall(r"^\S+: error.*(?:\n  .*)*", report, re.M)


def failed_needs(report):
    """Each fact that fails: the name of the declaration or need in question, without what only follows."""
    needs = set()
    for error in errors(report):
        named = re.match(r"\S+: error: `([^`]+)`", error)
        if named and not CASCADE.search(error):
            needs.add(named.group(1))
    for line in report.splitlines():
        need = re.match(r"note: .* is not proved .*\(`([^`]+)`\)", line)
        if need:
            needs.add(need.group(1))
    for _, verdict in verdicts(report):
        needs |= unproved_goals(verdict)
    return needs


def unproved_goals(verdict):
    """The goals that the prover's tactics did not prove, as a function's verdict names them."""
    return set(re.findall(r"`([^`]+)`", verdict.partition("did not prove ")[2].partition(";")[0]))


def verdicts(report):
    """Each function that is not proved, with what the report says of it: that a callee is not proved either, where that is so."""
    return re.findall(r"^fn (\S+): ((?!proved).*)$", report, re.M)


def is_of(function, error):
    """Is it an error in the function's own proof?"""
    return any(f"/{place}" in error.partition(": error")[0] for place in places_of(function))


def needs_in_proof(report, function):
    """Each fact that fails in the function's own proof, by its need: the author's, or the one that the prover made."""
    needs = set()
    for error in errors(report):
        named = re.match(r"\S+: error: `([^`]+)`", error)
        if named and is_of(function, error) and not CASCADE.search(error):
            needs.add(named.group(1))
    for name, verdict in verdicts(report):
        if name == function:
            needs |= unproved_goals(verdict)
    return needs


def callers_of(report, function):
    """The functions that are not proved for this function's sake: itself, and those that call it, one through another."""
    calls = {name: set(re.findall(r"`([^`]+)`", verdict.partition("it calls ")[2])) for name, verdict in verdicts(report)}
    found = {function}
    more = found
    while more:
        more = {name for name, callees in calls.items() if found & callees} - found
        found = found | more
    return sorted(found)


def refused_of(batch, status, report):
    """The edits of a batch that are refused as they must be."""
    wrong = {name for name, verdict in verdicts(report) if CALLS not in verdict}
    if status != 1 or "logic=not-proved" not in report or not wrong <= {edit.function() for edit in batch}:
        return []
    misfits = [error for error in errors(report) if MISFITS.search(error)]
    fit = [edit for edit in batch if not any(is_of(edit.function(), error) for error in misfits)]
    refused = [edit for edit in fit if edit.need() in needs_in_proof(report, edit.function())]
    for edit in refused:
        edit.unproved = callers_of(report, edit.function())
    return refused


def fault_in(edit, status, report):
    """What is wrong with a refusal, or nothing."""
    if status != 1 or "logic=not-proved" not in report:
        return "not refused" if status == 0 else f"it did not reach the prover (status {status})"
    misfit = next((error for error in errors(report) if MISFITS.search(error)), None)
    if misfit:
        return "the proof no longer fits: " + misfit[:200]
    wrong = [name for name, verdict in verdicts(report) if CALLS not in verdict]
    if edit.function() != "law" and wrong != edit.function().split(","):
        return f"not proved by itself: {wrong}, failed: {sorted(failed_needs(report))}"
    if edit.need() not in failed_needs(report):
        return f"failed: {sorted(failed_needs(report))}"
    edit.unproved = [name for name, _ in verdicts(report)]
    return None


def try_edit(edit, store):
    """Makes the wrong program in a copy of the crate as it stands, and checks it."""
    began = time.monotonic()
    try:
        fault = fault_in(edit, *store.tried([edit]))
    except ValueError as error:
        fault = str(error)
    print(f"{edit.name()}: {fault or 'refused, at ' + edit.refused} ({time.monotonic() - began:.0f} s)", flush=True)
    return fault is None


def try_batch(batch, store):
    """Makes one program with all edits of a batch, and checks it. Returns those that are refused as they must be."""
    began = time.monotonic()
    try:
        refused = refused_of(batch, *store.tried(batch))
    except ValueError:
        refused = []
    for edit in refused:
        print(f"{edit.name()}: refused, at {edit.refused} (in a batch of {len(batch)}, {time.monotonic() - began:.0f} s)", flush=True)
    return refused


def batches_of(edits):
    """Edits of the code of one function each, in batches with one of each function of a crate; and all other edits."""
    together, alone = [], []
    for edit in edits:
        if not edit.of_one_function():
            alone.append(edit)
            continue
        free = (batch for batch in together if batch[0].crate == edit.crate and edit.function() not in [e.function() for e in batch])
        batch = next(free, None)
        if batch is None:
            together.append([edit])
        else:
            batch.append(edit)
    return together, alone


def run(edits):
    """Tries every edit, as many at a time as there are workers. Returns how many are refused as they must be."""
    with tempfile.TemporaryDirectory() as folder, ThreadPoolExecutor(WORKERS) as pool:
        edited = sorted({edit.crate for edit in edits}, key=is_library)
        stores = {crate: pool.submit(Store, crate, Path(folder)) for crate in edited}

        def in_batch(batch):
            store = stores[batch[0].crate].result()
            return try_batch(batch, store) if len(batch) > 1 else []

        def by_itself(edit):
            return try_edit(edit, stores[edit.crate].result())

        together, alone = batches_of(edits)
        passed = [edit for refused in pool.map(in_batch, together) for edit in refused]
        alone += [edit for batch in together for edit in batch if edit not in passed]
        return len(passed) + sum(pool.map(by_itself, alone))


def counts_of(edits):
    """How many edits are refused of each public function of the libraries that have code."""
    counts = []
    for crate in filter(is_library, crates()):
        functions = public_functions(crate)
        if not functions and any("pub fn" in path.read_text() for path in (ROOT / "crates" / crate / "src").rglob("*.rt")):
            raise RuntimeError(f"{crate} has functions, and its interface lists none")
        counts += [(f, sum(f in edit.unproved for edit in edits)) for f in functions]
    return counts


def main():
    wanted = sys.argv[1:]
    every = [edit for crate in crates() for edit in edits_of(crate)]
    edits = [e for e in every if not wanted or e.crate in wanted or e.name() in wanted]
    if not edits:
        print("no such crate or edit")
        return 2
    passed = run(edits)
    counts = [] if wanted else counts_of(every)
    few = [(function, count) for function, count in counts if count < 2]
    for function, count in few:
        print(f"{function}: {count} wrong programs are refused, and two are wanted")
    failed = len(edits) - passed + len(few)
    print(f"{len(edits) + len(counts) - failed} passed, {failed} failed")
    return failed != 0


if __name__ == "__main__":
    sys.exit(main())
