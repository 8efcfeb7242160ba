"""What a wrong program is judged by, as a sum: where that stands as it was, so does the verdict.

The prover judges an edit of a crate by the crate's own files and by what these see of the crates below: definitions and contracts, not
bodies, comments or laws (no true law lets a wrong program through). Seen is what the crate's files and the edit name, what that names in
turn, and where each name is taken from. So a new definition below, another body or another proof changes no sum above, and a changed
definition or contract changes the sums of all that come to it.
"""
import functools, hashlib, pathlib, re

TREE = pathlib.Path(__file__).resolve().parent.parent
WORD = re.compile(r"[^\s(){};,.:«»\[\]&]+")
PATH = re.compile(r"\b\w+(?:::\w+)+")
USE = re.compile(r"(?m)^.*?\buse .*\n?")
# the names of a use that go on in further lines
NAMES = re.compile(r"(?ms)^([^\n]*\buse [^\n]*\{)\n(.*?)\}")
ATTRIBUTE = re.compile(r"(?m)^ *#!?\[tactic\b.*\]\n")
KEYWORDS = r" *(?:pub )?((?:(?:unfoldable|abbrev|opaque|record|data) )*)(?:pub )?(?:(?:record|data) )?"


def dependencies(text):
    """Each crate of a crates.txt with those that it names, and those that they name."""
    lines = [line.partition("#")[0] for line in text.splitlines()]
    # behind a name may stand what kind of crate it is
    named = {name.split()[0]: rest.split() for name, colon, rest in (line.partition(":") for line in lines) if colon}

    def below(crate):
        return {crate}.union(*(below(other) for other in named.get(crate, [])))

    return {crate: below(crate) for crate in named}


def words(text):
    """The names in a text; of an infix one also its parts, since it is written around its operands."""
    return {part for word in WORD.findall(text) for part in [word, *word.split("◌")] if part}


def without_comments(text):
    text = re.sub(r"(?m)^[ \t]*(//|--).*\n?", "", text)
    return re.sub(r"[ \t]+(//|--) .*", "", text)


def paragraphs(text):
    return [part.strip() for part in re.split(r"\n\s*\n", text)]


class File:
    """A source: its text, the names that it takes and where from, the modules taken whole, its paragraphs by the names they introduce, and
    the lines that all of them stand under: parameters of modules, and how tightly infix names bind."""

    def __init__(self, path, text):
        text = NAMES.sub(lambda use: f"{use[1]}{' '.join(use[2].split())}}}", without_comments(text))
        self.path, self.crate, self.part, self.text = path, *path.split("/")[:2], text
        self.taken, self.whole, self.introduces = {}, set(), {}
        self.over = sorted(re.findall(r"(?m)^ *(?:infix|module ).*", self.text))
        for line in re.findall(USE, self.text):
            self.take(line)
        if self.part == "src":
            self.read_code()
        else:
            self.read_definitions()

    def take(self, line):
        how, _, rest = line.partition("use ")
        module, brace, names = rest.strip().rstrip(";").partition("{")
        module, _, other = module.partition(" as ")
        if not brace and (other or "::" not in module):
            return self.whole.add(module)
        if not brace:
            module, _, names = module.rpartition("::")
        for name in filter(str.strip, names.rstrip("}").split(",")):
            old, _, new = name.strip().partition(" as ")
            for word in words(new or old):
                self.taken.setdefault(word, set()).add((how.strip(), module.rstrip("."), old))

    def introduce(self, names, paragraph):
        for name in names:
            self.introduces.setdefault(name, set()).add(paragraph)

    def read_code(self):
        """Functions without their bodies and tactics, types, traits with their impls, constants, and names passed on."""
        text = re.sub(r"(?ms)^( *)\{\n.*?^\1\}\n", "", re.sub(ATTRIBUTE, "", self.text))
        text = re.sub(r"(?ms)^( *)([^\n]*\bfn [^\n]*)\{\n.*?^\1\}\n", r"\1\2\n", text)
        for block, name in re.findall(r"(?ms)^((?:pub )?(?:trait|impl) (\w+)(?:: [^\n]*| for [^\n]*)\{\n.*?^\}\n)", text):
            self.introduce([name], block)
        for paragraph in paragraphs(text):
            for line in re.findall(r"(?m)^ *pub use .*", paragraph):
                self.introduce([line.rstrip(";").split("::")[-1]], line)
            kept = re.sub(USE, "", paragraph)
            self.introduce(re.findall(r"\b(?:fn|struct|enum|trait|const|impl) (\w+)", kept), kept)

    def read_definitions(self):
        """Definitions; of proofs only what is no law: numbers and records that cases and witnesses are made of."""
        for paragraph in paragraphs(re.sub(USE, "", self.text)):
            record = re.search(r"(?m)^ *(?:pub )?record ", paragraph)
            for line in paragraph.splitlines():
                lead, name = re.match(KEYWORDS + r"(\S*)", line).groups()
                if lead or " : " in line and not record and self.part == "specs":
                    self.introduce(words(name), paragraph)


@functools.lru_cache(maxsize=None)
def read(path, text):
    return File(path, text)


class Tree:
    def __init__(self, top):
        self.crates = top / "crates"
        self.below = dependencies((top / "crates.txt").read_text())
        paths = [p for c in self.below for part in ("src", "specs", "proofs") for p in sorted((self.crates / c / part).rglob("*.*t*"))]
        self.files = {p: read(str(p.relative_to(self.crates)), p.read_text()) for p in paths if p.suffix in (".rt", ".antt")}
        self.passed = self.files[self.crates / "prelude/proofs/Prelude.antt"].taken
        self.by_part, self.found = {}, {}
        for file in self.files.values():
            self.by_part.setdefault((file.crate, file.part), []).append(file)

    def of_crate(self, crate, *parts):
        return [f for part in parts for f in self.by_part.get((crate, part), ())]

    def places(self, module, file):
        """The files in which a name of the module is sought; none for the toolchain's libraries."""
        logic = re.match(r"Rattle\.(\w+)\.(specs|proofs)(?:\.(.*))?$", module)
        if logic:
            crate, part, rest = logic.groups()
            path = self.crates / crate / part / ((rest or "").replace(".", "/") + ".antt")
            return [self.files[path]] if path in self.files else self.of_crate(crate, "specs", "src") if part == "specs" else []
        crate = module.split("::")[0]
        return self.of_crate(file.crate if crate in ("crate", "self", "super") else crate, "src")

    def sought(self, name, module, file):
        """Which name stands where for a name of a module: for a variant, or a law of its kind of type, the type, in the code."""
        declared = re.match(r"Rattle\.(\w+)\.(?:specs\.declared|proofs(?=.*\.TheLaws))\.(?:[a-z_]\w*\.)*(\w+)", module)
        if declared:
            return declared.group(2), self.of_crate(declared.group(1), "src")
        return name, self.places(module, file)

    def named_in(self, file, text):
        """The paragraphs that a text of a file names, each with its file, and how its names are taken."""
        if (file, text) not in self.found:
            self.found[file, text] = self.look_up(file, text)
        return self.found[file, text]

    def look_up(self, file, text):
        found, taken = set(), set()

        def seek(name, files):
            found.update((f, p) for f in files for p in f.introduces.get(name, ()))

        whole = [f for module in file.whole for f in self.places(module, file)]
        for module in file.whole:
            seek(*self.sought("", module, file))
        for name in words(text):
            seek(name, [file, *whole])
            for how, module, old in file.taken.get(name, ()):
                taken.add((name, how, module, old))
                for part in words(old):
                    seek(*self.sought(part, module, file))
        for path in PATH.findall(text):
            seek(path.split("::")[-1], self.places(path, file))
        return found, taken | {("as", "", module, "") for module in file.whole}

    def seen(self, starts):
        """All that texts, each with its file, come to name, as lines."""
        reached, lines, todo = set(), set(), list(starts)
        while todo:
            file, text = todo.pop()
            found, taken = self.named_in(file, text)
            lines |= {" ".join((file.path, *t)) for t in taken} | {" ".join((file.path, *file.over))}
            todo += found - reached
            reached |= found
        return lines | {f"{file.path} {paragraph}" for file, paragraph in reached}

    def of_names(self, texts):
        """How prelude passes on the names in the texts."""
        return {" ".join((name, *taken)) for text in texts for name in words(text) for taken in self.passed.get(name, ())}

    def by_crate(self, crate):
        """What all edits of a crate are judged by: its files, and what they see."""
        own = self.of_crate(crate, "src", "specs", "proofs")
        texts = [f.text for f in own]
        return texts, self.seen([(f, f.text) for f in own]) | self.of_names(texts)

    def by_edit(self, crate, edit):
        """What an edit is judged by besides: itself, and what it sees."""
        text, starts = edit.read_text(), []
        for part in text.split("file: ")[1:]:
            path = self.crates / crate / part.splitlines()[0].strip()
            if path in self.files:
                starts.append((self.files[path], part))
        return [text], self.seen(starts) | self.of_names([text])


def total(parts):
    return hashlib.sha256("\0".join(parts).encode()).hexdigest()[:16]


def sums(edits, judgement, top=None):
    """The sum of each edit as it stands in a tree, under a judgement: the prover and the rules by which its words are read."""
    tree, crates = Tree(top or TREE), {}
    for edit in edits:
        crate = edit.relative_to(TREE / "crates").parts[0]
        if crate not in crates:
            texts, seen = tree.by_crate(crate)
            crates[crate] = total([judgement, *sorted(texts), *sorted(seen)])
        texts, seen = tree.by_edit(crate, tree.crates / edit.relative_to(TREE / "crates"))
        yield edit, total([crates[crate], *texts, *sorted(seen)])
