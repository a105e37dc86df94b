"""Must-fail edits and their twins: reading them, applying them, what an edit touches, and what refuses it by the prover's words.

An edit is a file of `rt`'s format (`file:`, `old:`, `new:`) with lines beside it that `rt` passes over:
    # refused by: NAME, ..   what has to fail: a function of the crate, or FILE.NAME, the declaration NAME of proofs/FILE.antt
    # toy: WORDS             it is one of the machines or mistakes that document 01 lists, in its words
    # no twin: REASON        why there is no edit of its place and shape that means nothing
    # edit: NAME             what follows is the edit NAME, where a file has several that are tried together
The other comment lines tell the mistake. crates/CRATE/must-fail has those that `rt ci` tries too, tests/edits/CRATE those that only
tests/edits/run tries, and tests/twins/CRATE the twins of both, under the same names.
"""
import glob
import os
import re
import shutil
import subprocess
import threading
from concurrent.futures import ThreadPoolExecutor

ROOT = os.path.dirname(os.path.dirname(os.path.dirname(os.path.abspath(__file__))))


def text_of(path):
    with open(path, encoding="utf-8") as f:
        return f.read()


class Edit:
    """One edit. `file` is the name of its file, which may hold several, each after a line '# edit: NAME'; alone it has the file's name."""

    def __init__(self, path, lines):
        self.path = os.path.relpath(path, ROOT)
        parts = self.path.split("/")
        self.crate, self.file = parts[1] if parts[0] == "crates" else parts[2], parts[-1][: -len(".edit")]
        self.name = self.file
        self.refused_by, self.toy, self.no_twin, self.told, self.changes = [], None, None, [], []
        file = old = None
        for line in lines:
            if line.startswith("# edit: "):
                self.name = line[len("# edit: "):]
            elif line.startswith("# refused by: "):
                self.refused_by += [n.strip() for n in line[len("# refused by: "):].split(",")]
            elif line.startswith("# toy: "):
                self.toy = line[len("# toy: "):]
            elif line.startswith("# no twin: "):
                self.no_twin = line[len("# no twin: "):]
            elif line.startswith("# "):
                self.told.append(line[2:])
            elif line.startswith("file: "):
                file = line[len("file: "):]
            elif line.startswith("old: "):
                old = line[len("old: "):]
            elif line.startswith("new:"):
                self.changes.append((file, old, line[4:].removeprefix(" ")))
        self.label = f"{self.crate}/{self.name}"


IMPORT = re.compile(r"(use \S+\.)\{(.*)\}")


def as_imported(text, old, new):
    """The same change, where it adds names to an import to which another edit of the same check has added some: to the import as it is now."""
    before, after = IMPORT.fullmatch(old or ""), IMPORT.fullmatch(new)
    if not before or not after or before.group(1) != after.group(1):
        return old, new
    module, names = after.group(1), after.group(2).split(", ")
    now = [line for line in text.splitlines() if line.startswith(module + "{")]
    if len(now) != 1 or not set(before.group(2).split(", ")) <= set(names):
        return old, new
    there = IMPORT.fullmatch(now[0]).group(2).split(", ")
    return now[0], module + "{" + ", ".join(there + [n for n in names if n not in there]) + "}"


# A test against a number or a constant, either way round.
AGAINST = r"(?:\w+::)*(\d+|[A-Z_]+)"
TEST = re.compile(rf"\b(?:if|while) (?:{AGAINST} (<=?) (\w+)[^{{]*|(\w+)[^{{]*? ([=!<>]=|[<>]) {AGAINST}(?: && [^{{]*)?) {{")
SAID = {"==": "eq", "!=": "ne", "<": "lt", "<=": "le", ">": "gt", ">=": "ge"}


def tests(text):
    """What the prover names the tests of a text by: `n < 5` and `5 > n` are n-lt5."""
    for number, turned, of, x, sign, against in TEST.findall(text):
        sign, by = SAID[sign or turned.replace("<", ">")], against or number
        yield f"{x or of}-{sign}{'' if by.isdigit() else '-'}{by}"


class Sources:
    """The files of a crate with the changes of some edits."""

    def __init__(self, crate):
        self.folder, self.texts, self.made = os.path.join(ROOT, "crates", crate), {}, set()

    def take(self, edit):
        """Makes an edit's changes, but for those that another has made already; what is wrong, if one cannot be made: then none is."""
        texts = dict(self.texts)
        for file, old, new in edit.changes:
            if (file, old, new) in self.made:
                continue
            if not file or not os.path.isfile(os.path.join(self.folder, file)):
                return f"no file {file}"
            text = texts.get(file) or text_of(os.path.join(self.folder, file))
            old, new = as_imported(text, old, new)
            if not old or text.count(old) != 1:
                return f"its text is not once in {file}: {old}"
            texts[file] = text.replace(old, new)
            if file.startswith("src/") and not any(f.startswith("proofs/") for f, _, _ in edit.changes):
                self.rename(texts, text, old, new)
        if not edit.changes:
            return "it changes nothing"
        self.texts, self.made = texts, self.made | set(edit.changes)
        return None

    def rename(self, texts, text, old, new):
        """Goals have names by the tests on their way. Where an edit makes another test of one, the names follow in the proof of its function, so that
        the proof still fits the code, and what is refused is what it says."""
        (first, last), were, are = lines_of(text, old), list(tests(old)), list(tests(new))
        of = {f.name for f in functions_of(None, text) if f.line <= first and last <= f.end}
        for path in glob.glob(os.path.join(self.folder, "proofs/**/*.antt"), recursive=True) if len(were) == len(are) else ():
            file = os.path.relpath(path, self.folder)
            for before, after in set(zip(were, are)) - set(zip(are, are)) if of & set(proved_in(file)) else ():
                # a later test that has the new name already is then the second of it
                proof = re.sub(rf"(?<=-){after}(?![\w-])", f"{after}-2", texts.get(file) or text_of(path))
                texts[file] = re.sub(rf"(?<=-){before}(?!\w)", after, proof)

    def write(self, folder):
        for file, text in self.texts.items():
            with open(os.path.join(folder, file), "w", encoding="utf-8") as f:
                f.write(text)


def edits_in(path):
    """The edits of a file: one, or one for each line '# edit: NAME', up to the next such line."""
    lines = text_of(path).splitlines()
    starts = [n for n, line in enumerate(lines) if line.startswith("# edit: ")] or [0]
    return [Edit(path, lines[start:end]) for start, end in zip(starts, starts[1:] + [len(lines)])]


def edits(folder):
    """The edits of the folders that a pattern names; by crate and name."""
    return sorted((e for p in glob.glob(os.path.join(ROOT, folder, "*.edit")) for e in edits_in(p)), key=lambda e: (e.crate, e.name))


def in_rt_ci():
    return edits("crates/*/must-fail")


def further():
    return edits("tests/edits/*")


def twins():
    return edits("tests/twins/*")


def asked(all_of_them, words):
    """Those that the words name, by CRATE or CRATE/NAME; all, where there is no word."""
    chosen = [e for e in all_of_them if not words or e.crate in words or e.label in words]
    known = {e.crate for e in all_of_them} | {e.label for e in all_of_them}
    for word in words:
        if word not in known:
            raise SystemExit(f"no edit is named {word}")
    return chosen


def crates():
    """The crates, each with those that it uses, in the order of crates.txt."""
    rows = [line.split("#")[0].partition(":") for line in text_of(os.path.join(ROOT, "crates.txt")).splitlines()]
    return {name.split()[0]: uses.split() for name, colon, uses in rows if colon}


# ---- the code: functions by their lines, and which a caller reaches

FN = re.compile(r'^( *)(pub )?(extern "C" )?fn (\w+)')
IMPL = re.compile(r"impl(?:<[^ ]*>)? (?:(?:\w+::)*(\w+)(?:<(\w+)>)? for )?(\w+)")


class Function:
    def __init__(self, crate, name, line, exported, public):
        self.crate, self.name, self.line, self.exported, self.public = crate, name, line, exported, public
        self.of, self.body, self.end, self.text, self.contract = None, None, None, "", ""


def functions_of(crate, text):
    """The functions of a file's text. `body` is the line after which a function's body begins, `end` its last; lines count from 1. `of` is the type of a
    method, its own or one of an impl of a trait."""
    found, owner, of, now, indent = [], None, None, None, ""
    for number, line in enumerate(text.splitlines(), 1):
        if now is None:
            if m := IMPL.match(line):
                trait, argument, of = m.groups()
                # as the prover says it: U32FromFailure is the impl of From<Failure> for u32
                owner = "".join(w[0].upper() + w[1:] for w in (of, trait, argument) if w) if trait else of
            elif line == "}":
                owner = of = None
            if m := FN.match(line):
                indent = m.group(1)
                now = Function(crate, f"{owner}::{m.group(4)}" if indent else m.group(4), number, bool(m.group(3)), bool(m.group(2)))
                now.of = of
                found.append(now)
        if now is not None:
            now.text += re.sub(r"//.*", "", line) + "\n"
            if now.body is None:
                now.contract = now.text
            if now.body is None and (line == indent + "{" or number == now.line and line.endswith("{")):
                now.body = number
            if line == indent + "}":
                now.end, now = number, None
    return found


def all_functions():
    return {
        (f.crate, f.name): f
        for crate in crates()
        for path in sorted(glob.glob(os.path.join(ROOT, "crates", crate, "src/*.rt")))
        for f in functions_of(crate, text_of(path))
    }


def calls(function, known):
    """The functions that one calls, by the words of its text; a method by its name, whatever it is called on."""
    to = set()
    text = function.text.partition("fn ")[2]
    for dot, path in re.findall(r"(\.?)((?:\w+::)*\w+)\s*\(", text):
        *above, last = path.split("::")
        if dot:
            to |= {k for k in known if k[1].endswith("::" + last)}
        elif not above:
            to.add((function.crate, last))
        elif above[-1] == "Self":
            to.add((function.crate, function.name.split("::")[0] + "::" + last))
        else:
            to |= {k for k, f in known.items() if f.of == above[-1] and k[1].endswith("::" + last)} | {(above[-1], last)}
    return to & known.keys()


def reach(starts, known):
    seen, todo = set(), list(starts)
    while todo:
        key = todo.pop()
        if key not in seen:
            seen.add(key)
            todo += calls(known[key], known)
    return seen


def reached_functions(known):
    """What the functions that users call reach: a program's `main`, the exported C functions and the public functions of `machine`."""
    return reach([k for k, f in known.items() if f.name == "main" or f.exported or f.crate == "machine" and f.public], known)


# ---- what an edit touches

def lines_of(text, old):
    first = text[: text.index(old)].count("\n") + 1
    return first, first + old.count("\n")


def touched_functions(edit):
    """The functions whose bodies it changes, and whether it changes anything else of the code."""
    bodies, more = set(), False
    for file, old, new in edit.changes:
        if not file.startswith("src/"):
            continue
        text = text_of(os.path.join(ROOT, "crates", edit.crate, file))
        first, last = lines_of(text, old)
        within = [f for f in functions_of(edit.crate, text) if f.body < first and last <= f.end]
        bodies |= {f.name for f in within}
        more |= not within
    return bodies, more


MARKS = r"(?:(?:abbrev|unfoldable|pub|private|irreducible) )*"
DECLARED = re.compile(r"^( *)" + MARKS + r"(?:record |data )?([^\s(){}:→λ]+)(?: [^=]*)? :(?: |$)")
WORD = re.compile(r"\.?[^\s(){}\[\],;.λ]+")


class Declaration:
    def __init__(self, name, indent, words):
        self.name, self.indent, self.lines, self.words = name, indent, set(), set(words)
        # how it is mentioned: by the parts of its name, also behind a module's
        self.mentioned = {dot + part for part in name.split("◌") if part for dot in ("", ".")}


def declarations(text):
    """The declarations of an antt file, with their lines and the words that they mention. What is declared further in is a declaration too, and all
    of it is also of the one around it; a module's parameters are mentioned by each after them. A field or a constructor is no word to go by: who uses it
    has a value of its type from a signature, which names the type."""
    found, around, module = [], [], set()
    for number, line in enumerate(text.splitlines(), 1):
        bare = re.sub(r"(^|\s)--.*", "", line)
        if not bare.strip() or bare.startswith(("use ", "pub use ", "mod ", "pub mod ")):
            continue
        indent, of_module = len(bare) - len(bare.lstrip()), bare.lstrip().startswith("module ")
        m = None if of_module else DECLARED.match(bare)
        if m or of_module:
            around = [d for d in around if d.indent < indent]
        if m:
            inner = Declaration(m.group(2), indent, module)
            if around:
                inner.mentioned = set()
            around.append(inner)
            found.append(inner)
        if of_module:
            module |= set(WORD.findall(bare))
        for d in around:
            if d.indent <= indent:
                d.lines.add(number)
                d.words |= set(WORD.findall(bare))
    return found


class Mentions:
    """What each function and each declaration of a crate mentions, as far as words tell; no proof that it rests on nothing else."""

    def __init__(self, crate):
        self.crate, self.known, self.words, self.named, self.places, self.by_file = crate, all_functions(), {}, {}, {}, set()
        folder = os.path.join(ROOT, "crates", crate)
        for path in sorted(p for part in ("specs", "proofs") for p in glob.glob(os.path.join(folder, part, "**/*.antt"), recursive=True)):
            file = os.path.relpath(path, folder)
            of_function = proved_in(file)
            self.by_file.update(of_function)
            for d in declarations(text_of(path)):
                key = ("fn", of_function[0]) if of_function else (file, d.name)
                self.words.setdefault(key, set()).update(d.words)
                self.places.setdefault(file, []).append((d.lines, key))
                for word in d.mentioned if not of_function else ():
                    self.named.setdefault(word, set()).add(key)
        for (owner, name), f in self.known.items():
            if owner == crate:
                asks = [f] + [self.known[k] for k in calls(f, self.known)]
                self.words.setdefault(("fn", name), set()).update(w for g in asks for w in WORD.findall(g.contract))

    def key(self, refuser):
        if (self.crate, refuser) in self.known:
            return ("fn", refuser)
        file, dot, name = refuser.rpartition(".")
        return (f"proofs/{file.replace('.', '/')}.antt", name)

    def closure(self, refuser):
        """What the refuser may rest on. A function that is proved without a file is tried only where those that it calls are proved."""
        start = self.key(refuser)
        seen, todo = set(), [start]
        if start[0] == "fn" and refuser not in self.by_file:
            todo += [("fn", name) for owner, name in reach([(self.crate, refuser)], self.known) if owner == self.crate]
        while todo:
            key = todo.pop()
            if key not in seen:
                seen.add(key)
                todo += [k for w in self.words.get(key, ()) for k in self.named.get(w, ())]
        return seen

    def declared_at(self, file, first, last):
        return {key for lines, key in self.places.get(file, []) if any(n in lines for n in range(first, last + 1))}

    def touched(self, edit):
        """The functions whose bodies it changes and the declarations that it changes; None where it changes more of the code than bodies."""
        bodies, more = touched_functions(edit)
        keys = {("fn", name) for name in bodies}
        for file, old, new in edit.changes:
            if not file.startswith("src/"):
                keys |= self.declared_at(file, *lines_of(text_of(os.path.join(ROOT, "crates", edit.crate, file)), old))
        return None if more else keys

    def place(self, edit):
        """The functions, bodies or contracts, and the declarations that it changes; what stands in none by its line."""
        keys = set()
        for file, old, new in edit.changes:
            text = text_of(os.path.join(ROOT, "crates", edit.crate, file))
            first, last = lines_of(text, old)
            if file.startswith("src/"):
                within = {("fn", f.name) for f in functions_of(edit.crate, text) if f.line <= first and last <= f.end}
            else:
                within = self.declared_at(file, first, last)
            keys |= within or {(file, first)}
        return keys


def independent(crate, some):
    """Groups of edits such that none touches what refuses another, bodies of different functions or what different theorems rest on, and all of a group
    can be applied one after the other."""
    mentions, groups = Mentions(crate), []
    for edit in some:
        touched = mentions.touched(edit)
        seen = set().union(*(mentions.closure(name) for name in edit.refused_by))
        for group, sources in groups:
            apart = touched is not None and all(t is not None and not t & seen and not touched & s for _, t, s in group)
            if apart and sources.take(edit) is None:
                group.append((edit, touched, seen))
                break
        else:
            sources = Sources(crate)
            sources.take(edit)
            groups.append(([(edit, touched, seen)], sources))
    return [[edit for edit, _, _ in group] for group, _ in groups]


# ---- what the prover said

def proved_in(file):
    """The functions that a file of proofs/ is the proof of: one, or those of a cycle of calls; by their names in their module."""
    parts = file.split("/")
    if parts[0] != "proofs" or len(parts) < 3 or parts[-1] not in ("Answers.antt", "Invariants.antt"):
        return []
    return ["::".join([p for p in parts[1:-2] if p[0].isupper()] + [name]) for name in parts[-2].split("+") if name]


ERROR = re.compile(r"^(?:\./)?((?:src|specs|proofs)/\S+?):\d+:\d+: error: (?:`([^`]*)`: )?(.*)")
SEARCHED = re.compile(r"^fn (\w+)::(?:[a-z]\w*::)*(\S+): no proof: .*`search` did not prove")
UNFIT = re.compile(r"is not in scope|has no field|has no `")
# what is no proof that fails, but a text that is none
UNREAD = re.compile(r"is no name|operand is missing|expected the end|cannot continue")


class Verdict:
    """What a log says: `proved`, or `refused` with what has errors of its own, the first of each; an error is not a declaration's own where it
    only rests on another that was not admitted."""

    def __init__(self, log):
        self.proved = re.search(r"^logic=proved", log, re.M) is not None
        self.refused = re.search(r"^logic=not-proved", log, re.M) is not None
        self.own, self.misread = {}, None
        for line in log.splitlines():
            if m := ERROR.match(line):
                file, name, said = m.groups()
                if "was not admitted" in said:
                    continue
                if not file.startswith("proofs/") or UNREAD.search(said):
                    self.misread = self.misread or f"{file}: {said}"
                for refuser in proved_in(file) or [f"{file[len('proofs/'):-len('.antt')].replace('/', '.')}.{name}"]:
                    self.own.setdefault(refuser, line)
            elif m := SEARCHED.match(line):
                self.own.setdefault(m.group(2), line)

    def fault(self, edit):
        """Why the edit is not refused as it must be; None where it is."""
        if not self.refused:
            return "NOT REFUSED" if self.proved else "NO VERDICT"
        if self.misread:
            return f"REFUSED FOR ITS TEXT, and not by a proof: {self.misread[:200]}"
        if any(UNFIT.search(self.own.get(n, "")) for n in list(self.own)[:1] + edit.refused_by):
            return "REFUSED FOR ITS SHAPE: the proof file does not fit the code any more, which shows nothing"
        missing = [n for n in edit.refused_by if n not in self.own]
        if missing or not edit.refused_by:
            return f"REFUSED BY ANOTHER: not by {', '.join(missing) or 'what it names'}, but by {', '.join(self.own) or 'nothing that is told'}"
        return None


# ---- trying edits over what rt has checked

class Workplace:
    """A copy of the repository, in which a crate is checked with edits over what its last check kept (out/)."""

    def __init__(self, folder):
        self.folder = folder
        os.makedirs(folder)
        shutil.copy(os.path.join(ROOT, "crates.txt"), folder)
        for crate in crates():
            self.take(crate, "src", "specs", "proofs", "out/rlib")

    def take(self, crate, *parts):
        """The parts of the crate become what they are in the repository. What was proved has a second name in the copy: a check puts others in the
        place of such files, and changes none."""
        for part in parts:
            here, copy = (os.path.join(folder, "crates", crate, part) for folder in (ROOT, self.folder))
            shutil.rmtree(copy, ignore_errors=True)
            if os.path.isdir(here):
                shutil.copytree(here, copy, copy_function=os.link if part == "out/rlib" else linked)

    def check(self, crate, some):
        """What `rt check` says of the crate with these edits: its log, or why one of them cannot be applied."""
        copy, sources = os.path.join(self.folder, "crates", crate), Sources(crate)
        for edit in some:
            if wrong := sources.take(edit):
                return f"{edit.label}: BAD EDIT: {wrong}"
        self.take(crate, "out/incremental")
        try:
            sources.write(copy)
            return subprocess.run(["rt", "check", "--jobs", "1"], cwd=copy, stdout=subprocess.PIPE, stderr=subprocess.STDOUT, text=True).stdout
        finally:
            self.take(crate, "src", "specs", "proofs")


def linked(one, other):
    return os.link(one, other) if one.endswith(".oantt") else shutil.copy2(one, other)


def below(crate, uses):
    """The crates that one uses, directly or not: the more, the longer it takes to load what they have."""
    return set(uses.get(crate, [])).union(*(below(c, uses) for c in uses.get(crate, [])))


def side_by_side(work, tasks, job):
    """Does job(workplace, task) for each (crate, ..) of the tasks, those that take long first, as many at a time as there are processors."""
    places, lock, uses = [], threading.Lock(), crates()

    def one(task):
        with lock:
            place = places.pop() if places else Workplace(os.path.join(work, f"place{threading.get_ident()}"))
        try:
            return job(place, task)
        finally:
            with lock:
                places.append(place)

    with ThreadPoolExecutor(len(os.sched_getaffinity(0))) as pool:
        list(pool.map(one, sorted(tasks, key=lambda t: -len(below(t[0], uses)))))


def proved_as_it_stands(some):
    """`rt check` of each crate that they are of, which proves only what has changed."""

    def said(crate):
        words = {"cwd": os.path.join(ROOT, "crates", crate), "stdout": subprocess.PIPE, "stderr": subprocess.STDOUT, "text": True}
        return subprocess.run(["rt", "check", "--jobs", "1"], **words)

    of = {e.crate for e in some}
    with ThreadPoolExecutor(len(os.sched_getaffinity(0))) as pool:
        for done in pool.map(said, [c for c in crates() if c in of]):
            if done.returncode:
                raise SystemExit("\n".join(done.stdout.splitlines()[-20:]) + "\nthe repository itself is not proved")
