#!/usr/bin/env python3
"""How much must be read: to trust the demands, and to know what every call and program answers.

The first number. It starts from the statements of crates/line/proofs/Demands.antt and crates/line/proofs/Ensures.antt, follows each
name that a statement or a definition says to its definition in specs/ (a declared type to its struct in src/, also of another
crate), and prints each file with the lines reached, comments and the two pages' own statements counted in.

A contract (`Meets..` in crates/line/specs/Calls.antt) is counted but not followed: the code is proved to meet the `ensures` of
each public function; Ensures proves that a call that meets the `ensures` meets the contract; the demands are proved of every call
that meets the contract.

The second number starts from the `ensures` of every C call, whose own lines up to the body are counted, and from what the programs
print (PRINTED), and follows everything.

It fails where a definition of the first number lies in a file of the code's words, where more lines are reached than MOST or MOST_ALL, or
where docs/PROMISES.md doesn't have a word of the kit that a definition uses in its legend. MOST was 750 for the base. A request raised
it by the lines that its own sentences need: request 1 by 51 (import and export of a frame), request 13 by 89 (export and reading of
data units), request 11 by 59 (the checker and the planner of circuits), request 5 by 47 (the count: its refusals, its place in demand
3, the sum over rows of calls), one walk through a log by 9 (`receiver::judged`), request 14 by 2, request 9 by 224 (where the salvage
gives 21 depends on what the receiver answers to each record of a log), request 7 by 10 (whether there is anything in a log), request 3
by 87 (19 speaks of totals over what the receiver hands out). Since then the pages' own statements and Ensures are counted. Answers by
`Result` raised it by 206: the refusals by name and their numbers, and for each call which of the paper's records its answer is.

    python3 tools/reading.py [-v]      -v prints each definition with its lines
"""

import pathlib
import re
import sys

ROOT = pathlib.Path(__file__).resolve().parent.parent / "crates"
TRUST = [ROOT / "line/proofs" / name for name in ("Demands.antt", "Ensures.antt")]
# what the programs print: of a log, of a log, of a log, of many logs and of many files
PRINTED = [
    ("listing", "List", "list_of"),
    ("presence", "Line", "line_of"),
    ("salvaging", "Said", "saved_of"),
    ("salvaging", "Said", "notes_of"),
    ("table", "Table", "printed_of"),
    ("table", "Table", "printed_of_files"),
]
LEGEND = ROOT.parent / "docs/PROMISES.md"
CODE = {"Adding", "Code", "Packing", "Unpacking", "Marks", "Settings", "Sound", "Steps", "Stretch", "Taken", "Taking"}
CONTRACTS = ("line", "Calls")
MOST = 1661
MOST_ALL = 3458

NAME = r"[^\s(){}\[\],;.:λ∷→«»\"]+"
DECLARES = re.compile(rf"^(?:unfoldable |abbrev )?(?:pub )?(?:record |data )?({NAME})\s*(?:[:({{]|$)")
# a name, a name of a module that was given another name (S.send), or a field (.state), which is passed over
TOKEN = re.compile(rf"(?<![^\s(){{}}\[\],;:λ∷→\"])(?:({NAME})\.)?({NAME})")


def blocks(path):
    """The declarations of a file: name, lines (those of the comment above too), text without comments."""
    found, comment, lines = [], [], []

    def close():
        if lines:
            name = DECLARES.match(lines[0]).group(1)
            body = [line for line in lines if not line.lstrip().startswith("--")]
            found.append((name, len(comment) + len(lines), "\n".join(body)))

    for line in path.read_text().splitlines():
        starts = line and not line[0].isspace() and line[0] not in "})"
        if not line.strip():
            close()
            comment, lines = [], []
        elif starts and line.startswith("--") and not lines:
            comment.append(line)
        elif starts and line.startswith(("use ", "pub mod ", "pub use ")):
            comment, lines = [], []
        elif lines or (starts and DECLARES.match(line)):
            lines.append(line)
    close()
    return found


def imports(path):
    """What a file's names stand for: name to (crate, module, name), and other names of modules to (crate, module)."""
    names, modules = {}, {}
    text = re.sub(r"\s+", " ", path.read_text())
    for crate, module, rest in re.findall(
        r"use Rattle\.(\w+)\.(?:specs|proofs)\.([\w.]+?)(\.\{[^}]*\}| as \w+)", text
    ):
        if rest.startswith(" as "):
            modules[rest[4:]] = (crate, module)
        else:
            for name in rest[2:-1].split(","):
                name, _, other = name.strip().partition(" as ")
                if name:
                    names[other or name] = (crate, module, name)
    return names, modules


def tokens(text):
    """The names in a text, fields and the text's strings passed over."""
    text = re.sub(r'"[^"]*"', " ", text)
    text = re.sub(r"[«»]", "", text)
    text = re.sub(rf"(?<=\s)\.{NAME}", " ", text)  # .field
    text = re.sub(rf"([{{;]\s*){NAME}(\s*=)", r"\1\2", text)  # record { field = ..
    for match in TOKEN.finditer(text):
        yield match.group(1), match.group(2)


class File:
    def __init__(self, crate, module):
        self.path = ROOT / crate / "specs" / (module.replace(".", "/") + ".antt")
        self.crate, self.module = crate, module
        self.names, self.modules = imports(self.path)
        self.blocks = {}
        for name, lines, text in blocks(self.path):
            self.blocks[name] = (lines, text)
            # a constructor of a data type stands for its type
            for inner in re.findall(rf"^  ({NAME}) :", text, re.M) if re.match(r"(pub )?data ", text) else []:
                self.names[inner] = (crate, module, name)


FILES = {}


def file_of(crate, module):
    if (crate, module) not in FILES:
        FILES[crate, module] = File(crate, module)
    return FILES[crate, module]


def struct(crate, name):
    """A declared type: its file in src/, its lines with the comment above it, and the types that its fields name with their crates."""
    for path in sorted((ROOT / crate / "src").glob("*.rt")):
        lines = [line for line in path.read_text().splitlines() if not line.startswith("#[")]
        elsewhere = {}
        for other, one, many in re.findall(r"^use (\w+)(?:::\w+)*::(?:(\w+)|\{([^}]*)\});", path.read_text(), re.M):
            for used in [one] if one else [word.strip() for word in many.split(",")]:
                elsewhere[used] = other if (ROOT / other).is_dir() else crate
        for at, line in enumerate(lines):
            if re.match(rf"(pub(\(crate\))? )?(struct|enum) {name}\b", line):
                first = at
                while first and lines[first - 1].startswith("//"):
                    first -= 1
                last = at
                while not lines[last].startswith("}") and not lines[last].endswith(";") and not (last == at and lines[last].endswith("}")):
                    last += 1
                inner = re.findall(r"[(:] ?([A-Z]\w*)", " ".join(lines[at + 1 : last]))
                return path, last - first + 1, [(elsewhere.get(other, crate), other) for other in inner]
    return None


def resolve(said, names, modules, here):
    """The definition that a name in a file stands for, or None for a word of the kit or a local name."""
    module, name = said
    if module in modules:
        return *modules[module], name
    name = module or name  # a field of what bears the name
    if name in names:
        return names[name]
    return (here.crate, here.module, name) if here and name in here.blocks else None


def statements(page):
    """The statements of a page: for each its name, its lines with the comment above it, and its text; headers of modules too."""
    lines = page.read_text().splitlines()
    at = 0
    while at < len(lines):
        line = lines[at]
        header = re.match(r"module _", line)
        begun = header or re.match(rf"( *)(?:abbrev |unfoldable )?(?:pub )?({NAME}) :(?: |$)", line)
        if not begun or line.lstrip().startswith(("--", "use ")):
            at += 1
            continue
        first = at
        while first and lines[first - 1].lstrip().startswith("--") and not lines[first - 1].startswith("-- Assumes"):
            first -= 1
        if header:
            last = at
            while not lines[last].rstrip().endswith("where"):
                last += 1
            end = last + 1
        else:
            ends = re.compile(rf"{begun.group(1)}(unfolding |{re.escape(begun.group(2))}( |$))|\s*$")
            end = at + 1
            while end < len(lines) and not ends.match(lines[end]):
                end += 1
        yield "module" if header else begun.group(2), end - first, "\n".join(lines[at:end])
        at = end


def promised():
    """The C calls: for each its file, its name, its lines up to the body with the comment above, and the names in its `ensures`. They are
    the library's own functions: those for C have the same clauses (tests/faces.py)."""
    for crate in ("rimesatchel", "management"):
        for path in sorted((ROOT / crate / "src").glob("*.rt")):
            names, modules = imports(path)
            for call in re.findall(r"((?:^//[^\n]*\n)*)(?:^#\[[^\n]*\n)*(^pub fn rime_.*?)\n\{", path.read_text(), re.S | re.M):
                name = re.search(r"fn (\w+)", call[1]).group(1)
                said = [resolve(said, names, modules, None) for said in tokens(call[1].partition("ensures")[2])]
                yield path, name, (call[0] + call[1]).count("\n") + 1, said


def kit_words(path, said, known):
    """Words of the kit among names that a file says: those that it brings in from modules that aren't the project's."""
    if path not in known:
        text = re.sub(r"\s+", " ", path.read_text())
        known[path] = {
            name.strip().split(" as ")[0]
            for module, names in re.findall(r"use ([\w.]+?)\.\{([^}]*)\}", text)
            if not (module.startswith("Rattle.") and (ROOT / module.split(".")[1]).is_dir()) and ".Prim" not in module
            for name in names.split(",")
        }
    return {module or name for module, name in said if (module or name) in known[path]}


def reach(pages, more, behind_contracts):
    """What pages' statements, and some names beside them, reach: each definition's file, lines and name; and the kit's words."""
    waiting, seen, reached, words, known = list(more), set(), set(), set(), {}
    for page in pages:
        names, modules = imports(page)
        for name, lines, text in statements(page):
            reached.add((page, lines, name + str(len(reached)) if name == "module" else name))
            said = list(tokens(text))
            words |= kit_words(page, said, known)
            waiting += [resolve(one, names, modules, None) for one in said]
    while waiting:
        what = waiting.pop()
        if what is None or what in seen:
            continue
        seen.add(what)
        crate, module, name = what
        if module.startswith("declared"):
            if module.endswith(".TheVariants"):
                name = module.split(".")[-2]  # a variant stands for its enum
            found = struct(crate, name)
            if found:
                path, lines, inner = found
                reached.add((path, lines, name))
                waiting += [(other, "declared", kind) for other, kind in inner]
            continue
        if not (ROOT / crate / "specs" / (module.replace(".", "/") + ".antt")).exists():
            continue  # a name of proofs/, as `Ensured`: counted with its page
        here = file_of(crate, module)
        if name not in here.blocks:
            if name not in here.names:
                raise SystemExit(f"reading: {here.path.relative_to(ROOT.parent)} doesn't define {name}")
            waiting.append(here.names[name])
            continue
        lines, text = here.blocks[name]
        reached.add((here.path, lines, name))
        if behind_contracts or (crate, module) != CONTRACTS or not name.startswith("Meets"):
            said = list(tokens(text))
            words |= kit_words(here.path, said, known)
            waiting += [resolve(one, here.names, here.modules, here) for one in said]
    return reached, words


def told(reached):
    """Prints each file with its lines."""
    by_file = {}
    for path, lines, name in reached:
        by_file.setdefault(path, []).append((name, lines))
    for path in sorted(by_file):
        print(f"{sum(lines for _, lines in by_file[path]):5}  {path.relative_to(ROOT.parent)}")
        if "-v" in sys.argv[1:]:
            for name, lines in sorted(by_file[path]):
                print(f"         {lines:3} {name}")
    return len(by_file)


def main():
    trusted, words = reach(TRUST, [], False)
    files = told(trusted)
    total = sum(lines for _, lines, _ in trusted)
    print(f"{total:5}  lines in {files} files to trust the demands, at most {MOST}")
    calls = list(promised())
    answers, all_words = reach([], PRINTED + [what for *_, said in calls for what in said], True)
    answers |= {(path, lines, name) for path, name, lines, _ in calls}
    more = sum(lines for _, lines, _ in answers)
    if "-v" in sys.argv[1:]:
        told(answers)
    print(f"{more:5}  lines to know what each of the {len(calls)} C calls and every program answers, at most {MOST_ALL}")
    legend = LEGEND.read_text(encoding="utf-8").partition("## What to read")[0]
    missing = sorted(word for word in words | all_words if not re.search(rf"(?<![\w-]){re.escape(word.strip('◌'))}(?![\w-])", legend))
    for word in missing:
        print(f"reading: the legend of docs/PROMISES.md doesn't have {word}", file=sys.stderr)
    wrong = sorted({path for path, _, _ in trusted if path.suffix == ".antt" and path.parent.name == "specs" and path.stem in CODE})
    for path in wrong:
        print(f"reading: {path.relative_to(ROOT.parent)} has the code's words", file=sys.stderr)
    if wrong or missing or total > MOST or more > MOST_ALL:
        raise SystemExit(1)


main()
