"""How an edit of a crate is tried and judged, for tests/further, tests/reasons and tests/controls.

An edit is made in a copy of the tree. Its check begins with what the crate's own check kept in out/, so that only what the edit touches is
checked again.
"""
import concurrent.futures, inspect, os, pathlib, queue, re, shutil, subprocess, sys, tempfile, threading, time

import judged

TREE = pathlib.Path(__file__).resolve().parent.parent
JOBS = int(os.environ.get("RT_JOBS") or len(os.sched_getaffinity(0)))
# What the prover says first where an edit only made a proof unfit: a name is gone, or the text is none.
UNFIT = (
    r"can be named (from )?here|has no field|has no ``|not in scope|was not admitted|explicit argument|takes? (\d+|no) argument"
    r"|unresolved|no such|operand is missing|expected the end|cannot continue"
)


def check(folder):
    """What the prover says of the crate in a folder. A check that ends with no verdict, as one that is killed for memory, is made once more."""
    for _ in range(2):
        ran = subprocess.run(["rt", "check", "--jobs", "1"], cwd=folder, stdin=subprocess.DEVNULL, stdout=subprocess.PIPE,
                             stderr=subprocess.STDOUT, text=True, errors="replace")
        if "\nlogic=" in ran.stdout:
            break
    return ran.stdout


def linked(one, other):
    """A second name for a file that rt made, or a copy: rt puts another in such a file's place, and never writes into it."""
    if one.endswith(".oantt") or "/out/rlib/" in one:
        try:
            return os.link(one, other)
        except OSError:
            pass
    return shutil.copy2(one, other)


def copy_crate(whence, to, *kept):
    """A crate's files, and of what rt keeps in its out/ these parts."""
    shutil.copytree(whence, to, ignore=lambda at, names: {"out"} & set(names) if pathlib.Path(at) == pathlib.Path(whence) else ())
    for part in kept:
        if (whence / "out" / part).is_dir():
            shutil.copytree(whence / "out" / part, to / "out" / part, copy_function=linked)


def copy_tree(whence, to, *kept):
    to.mkdir()
    shutil.copy(whence / "crates.txt", to)
    for crate in sorted((whence / "crates").iterdir()):
        copy_crate(crate, to / "crates" / crate.name, *kept)
    return to


def apply(edit, crate):
    """Replaces each old text, which must stand in its file once; says what is wrong with the edit, if anything is."""
    file = old = None
    for line in edit.read_text().splitlines():
        word, _, rest = line.partition(":")
        if word == "file":
            file = crate / rest.strip()
        elif word == "old":
            old = rest[1:]
        elif word == "new":
            if not file or not file.is_file():
                return f"there is no file {file and file.relative_to(crate)}"
            text = file.read_text()
            if text.count(old) != 1:
                return f"the old text stands {text.count(old)} times in {file.name}"
            file.write_text(text.replace(old, rest[1:]))
    return None


def verdict(said):
    """Whether the prover refuses an edit for a fact, by its first message, and what that tells."""
    lines = said.splitlines()
    first = next((l for l in lines if ": error" in l or l.startswith("note: ") and "not proved" in l), "")
    if "\nlogic=proved" in said:
        return False, "NOT REFUSED"
    if "\nlogic=not-proved" not in said:
        return False, "NO VERDICT: " + (first or said[-300:])[:300]
    if re.search(UNFIT, re.sub(r"`[^`]*`", "``", first)):
        return False, "WEAK: " + first[:300]
    place = re.match(r"(?:note: )?(?:\./)?((?:src|specs|proofs)/[^\s:]+):", first)
    if not place or place[1].startswith("specs/"):
        return False, "WEAK: the edit's own text is refused: " + first[:300]
    return True, f"refused, as it must be (first at {place[1]})"


def crate_of(edit):
    return edit.relative_to(TREE / "crates").parts[0]


def name_of(edit):
    return f"{crate_of(edit)}/{edit.stem}"


def attempt(edit, judge, whole, trees):
    """Whether the prover says of an edit what it must, by the judge, and prints that."""
    crate, tree, began = crate_of(edit), trees.get(), time.time()
    folder, own = tree / "crates" / crate, whole / "crates" / crate
    try:
        shutil.rmtree(folder)
        copy_crate(own, folder, "incremental")
        bad = apply(whole / edit.relative_to(TREE), folder)
        ok, text = (False, "BAD EDIT: " + bad) if bad else judge(check(folder))
        shutil.rmtree(folder)
        copy_crate(own, folder, "rlib")
    finally:
        trees.put(tree)
    print(f"{pathlib.Path(sys.argv[0]).name} {name_of(edit)}: {text}, {time.time() - began:.0f} s", flush=True)
    return ok


def attempt_all(edits, judges, held=lambda edit, whole: None):
    """Whether each is as its judge wants, in as many copies of the tree as there are jobs. `held` is told at once of one that is, and the
    copy of the tree, in which nothing changes, that it was tried over."""
    for crate in sorted({crate_of(e) for e in edits}):
        if "\nlogic=proved" not in check(TREE / "crates" / crate):
            sys.exit(f"{pathlib.Path(sys.argv[0]).name}: {crate} itself is not proved")
    with tempfile.TemporaryDirectory() as folder:
        whole, trees = copy_tree(TREE, pathlib.Path(folder, "whole"), "incremental", "rlib"), queue.Queue()
        for i in range(JOBS):
            trees.put(copy_tree(whole, pathlib.Path(folder, str(i)), "rlib"))

        def one(edit, judge):
            ok = attempt(edit, judge, whole, trees)
            if ok:
                held(edit, whole)
            return ok

        with concurrent.futures.ThreadPoolExecutor(JOBS) as pool:
            return list(pool.map(one, edits, judges))


class Record:
    """What was tried and was as it must be: a line for each, with the sum of what it is judged by."""

    def __init__(self, file):
        self.file, self.lock, self.tried = TREE / "tests" / file, threading.Lock(), None
        lines = self.file.read_text().splitlines() if self.file.is_file() else []
        self.sums = {name: told for told, name in (line.split() for line in lines)}

    def due(self, edits):
        """Those that are not recorded as they stand."""
        return [e for e, told in judged.sums(edits, judgement()) if self.sums.get(name_of(e)) != told]

    def note(self, edit, whole, edits):
        """Records one that held in a copy of the tree, with its sum there, as soon as it did; edits are all that are tried there."""
        with self.lock:
            if self.tried is None:
                self.tried = dict(judged.sums(edits, judgement(), whole))
            self.sums[name_of(edit)] = self.tried[edit]
            self.write()

    def keep(self, edits):
        """Drops those that are no more."""
        self.sums = {name: told for name, told in self.sums.items() if name in {name_of(e) for e in edits}}
        self.write()

    def write(self):
        self.file.write_text("".join(f"{told} {name}\n" for name, told in sorted(self.sums.items())))


def judgement():
    """The prover, and the rules by which its words are read."""
    version = subprocess.run(["rt", "version"], check=True, stdout=subprocess.PIPE, text=True).stdout.strip()
    return judged.total([version, UNFIT, *(inspect.getsource(rule) for rule in (check, apply, verdict))])


def chosen(name, edits, words):
    """The edits of the crates, or those named by crate and name; all where none is named."""
    named = {word: [e for e in edits if word in (crate_of(e), name_of(e))] for word in words}
    without = [word for word, found in named.items() if not found]
    if without or not edits:
        sys.exit(f"{name}: no wrong program of {', '.join(without) or 'any crate'}")
    return sorted({e for found in named.values() for e in found}) if words else edits


def refuse_all(name, edits, held=lambda edit, whole: None):
    refused = attempt_all(edits, [verdict] * len(edits), held)
    print(f"{name}: {sum(refused)} of {len(edits)} wrong programs refused")
    return all(refused)


def main(name, pattern, words):
    """Tries the wrong programs that a pattern finds in the crates' folders, as tests/further says."""
    every = sorted(TREE.glob(f"crates/*/{pattern}"))
    if words[:1] not in (["--due"], ["--record"]):
        return 0 if refuse_all(name, chosen(name, every, words)) else 1
    record = Record(f"{name}-recorded")
    due = record.due(chosen(name, every, words[1:]))
    if not due:
        print(f"{name}: all are recorded as they stand")
        return 0
    print(f"{name}: {len(due)} of {', '.join(sorted({crate_of(e) for e in due}))} are due", flush=True)
    if words[0] == "--due":
        return 0 if refuse_all(name, due) else 1
    refused = refuse_all(name, due, lambda edit, whole: record.note(edit, whole, due))
    record.keep(every)
    return 0 if refused else 1
