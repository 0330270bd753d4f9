#!/usr/bin/env python3
"""words.py: tells what parts from the words of docs/DEFINITIONS.md, and ends with status 1 where something does.
words.py all: tells also what is known to part from them (STANDING below), which should go.
words.py clauses: lists the clauses of more than 260 characters, the longest first.

- Each definition that a table of the document names stands in the file that is named before it.
- A type `XFault` is a named refusal and knows no want of memory; a type `XError` knows it, itself or through another one.
  Five names that the public interface fixed know it all the same (FIXED).
- A limit is a constant of the code once.
- A public type's name is that of one crate.
- A clause of more than 160 characters names parts of it by `let`; laws and examples aside, whose premises stand one behind another.
- A file of the repository that a document names is there, and so is the definition that it names behind a file.
- The tables of docs/ARCHITECTURE.md have the crates of crates.txt but those of tests, in order.
- No function, outside the crates of tests, has a name that nobody could guess (VAGUE, but for one
  that the public interface fixed, FIXED_NAMES), or is without its `///` line.
Each folder of answers is of a function that is there.
"""
import glob
import os
import re
import sys

TOP = os.path.join(os.path.dirname(os.path.abspath(__file__)), "..", "..")
FIXED = {"LoadFault", "TreeFault", "ProveFault", "TermFault", "OutsideFault"}
FIXED_NAMES = {("crates/kp_graph/src/tree.rt", "held")}
LIMITS = [("48", "levels of a term", ""), ("256", "nesting of a text", ""), ("10_000", "steps", "MOST_STEPS"), ("10_000", "nodes", "MOST_NODES"), ("4_194_304", "bytes of a frame", "")]
VAGUE = {"asked", "held", "right", "within", "put_in", "parts_read", "may_be"}
# what is known to part from the words, and should go
STANDING = set()
found, clauses = set(), []


def paths(pattern):
    return [os.path.relpath(it, TOP) for it in sorted(glob.glob(os.path.join(TOP, pattern), recursive=True))]


def text_of(path):
    return open(os.path.join(TOP, path)).read()


def sources():
    return [it for it in paths("crates/*/src/*.rt") if "_trials/" not in it]


def defines(path, name):
    return re.search(rf"(?m)^\s*(abbrev |unfoldable |pub |record |data )*{name}\b", text_of(path))


def definitions():
    """Each definition that a table names stands in its file."""
    folders = []
    for line in text_of("docs/DEFINITIONS.md").split("\n"):
        if line.startswith("## "):
            folders = re.findall(r"`crates/(\w+)/specs`", line)
        if not line.startswith("| `"):
            continue
        places = []
        for name in re.findall(r"`([^`]+)`", line.split(" | ")[0]):
            whole = re.fullmatch(r"(\w+)/specs/(\w+)", name)
            files = [f"crates/{whole[1]}/specs/{whole[2]}.antt"] if whole else []
            if not whole and re.fullmatch(r"[A-Z]\w*", name):
                own = [places[0].split("/")[1]] if places else []
                files = [f"crates/{it}/specs/{name}.antt" for it in folders + own]
            files = [it for it in files if os.path.exists(os.path.join(TOP, it))]
            if any(defines(it, name) for it in places):
                continue
            if files:
                places = files
            elif whole:
                found.add(f"docs/DEFINITIONS.md: there is no file {name}")
            elif folders or places:
                found.add(f"docs/DEFINITIONS.md: `{name}` isn't in {' or '.join(places) or 'a file'}")


def errors():
    """XFault without want of memory, XError with it."""
    for path in sources():
        for it in re.finditer(r"(?ms)^pub enum (\w+(?:Fault|Error))\b[^{]*\{(.*?)^\}", text_of(path)):
            has = re.search(r"(?m)^\s*(Memory|Alloc)\b", it[2])
            through = re.search(r"\(\s*\w+Error|AllocError", it[2])
            if it[1].endswith("Fault") and has and it[1] not in FIXED:
                found.add(f"{path}: `{it[1]}` is a named refusal, and knows want of memory")
            if it[1].endswith("Error") and not (has or through):
                found.add(f"{path}: `{it[1]}` knows no want of memory: it is a fault")


def limits():
    """A limit is a constant once."""
    for number, what, name in LIMITS:
        others = [it[2] for it in LIMITS if it[0] == number and it[1] != what]
        places = []
        for path in sources():
            places += [(path, it[1]) for it in re.finditer(rf"const (\w+): \w+ = {number};", text_of(path)) if it[1] not in others]
        for path, other in places[1:]:
            found.add(f"{path}: {number} ({what}) is {other} here, too")


def types():
    """A public type's name is that of one crate."""
    crates = {}
    for path in sources():
        for it in re.finditer(r"(?m)^pub (?:enum|struct|trait) (\w+)", text_of(path)):
            crates.setdefault(it[1], set()).add(path.split("/")[1])
    for name, stands in sorted(crates.items()):
        if len(stands) > 1:
            found.add(f"docs/DEFINITIONS.md: `{name}` is a type of {', '.join(sorted(stands))}")


def files():
    """The files that documents name are there."""
    for document in ["README.md"] + paths("docs/*.md"):
        for place, names in re.findall(r"`(kp_\w+/specs/\w+)`((?:,? `\w+`)+)", text_of(document)):
            path = f"crates/{place}.antt"
            for name in re.findall(r"\w+", names):
                beside = f"{os.path.dirname(path)}/{name}.antt"
                if os.path.exists(os.path.join(TOP, path)) and not defines(path, name):
                    if os.path.exists(os.path.join(TOP, beside)):
                        path = beside
                    else:
                        found.add(f"{document}: `{name}` isn't in {path}")
        for name in re.findall(r"(?<![\w/.])(?:\.\./\.\./)?((?:crates|examples|docs)/[\w./-]*\w|kp_\w+/specs/\w+)", text_of(document)):
            name = f"crates/{name}" if name.startswith("kp_") else name
            if "NAME" in name or "/out/" in name or any(os.path.exists(os.path.join(TOP, name + end)) for end in ("", ".antt")):
                continue
            found.add(f"{document}: there is no {name}")


def crates():
    """The tables of crates are those of crates.txt."""
    listed = [it for it in re.findall(r"(?m)^(\w+)(?: [^:#\n]*)?:", text_of("crates.txt")) if not it.endswith("_trials")]
    told = re.findall(r"(?m)^\| `(kp\w+)` \|", text_of("docs/ARCHITECTURE.md"))
    for name in sorted(set(listed) ^ set(told)):
        found.add(f"docs/ARCHITECTURE.md: `{name}` stands in one of crates.txt and the tables of crates")
    if set(listed) == set(told) and listed != told:
        found.add("docs/ARCHITECTURE.md: the tables of crates are in another order than crates.txt")


def functions():
    """No vague name, and a line above each function."""
    for path in sources():
        lines = text_of(path).split("\n")
        for i, line in enumerate(lines):
            it = re.match(r"\s*(?:pub(?:\(crate\))? )?fn (\w+)", line)
            if not it:
                continue
            if it[1] in VAGUE and (path, it[1]) not in FIXED_NAMES:
                found.add(f"{path}: `{it[1]}` is a name that nobody could guess")
            k = i - 1
            while k >= 0 and re.match(r"\s*(#\[|\)\]|[^/]*\)\]$)", lines[k]):
                k -= 1
            opened = [x for x in lines[max(0, i - 80) : i] if x.startswith("impl")]
            of_trait = line.startswith("    ") and opened and re.match(r"impl(<[^>]*>)? .* for ", opened[-1])
            if not lines[k].strip().startswith("///") and not of_trait:
                found.add(f"{path}: `{it[1]}` is without its line")


def lengths():
    """How long the clauses are, and whether the long ones name their parts."""
    for path in sources():
        text = text_of(path)
        for it in re.finditer(r"(?m)^ +(?:requires|ensures)\b[^{\n]*\{", text):
            end, depth = it.end(), 1
            while depth:
                depth += {"{": 1, "}": -1}.get(text[end], 0)
                end += 1
            clause = re.sub(r"\s+", " ", text[it.end() : end - 1]).strip()
            place = f"{path}:{text[: it.start()].count(chr(10)) + 1}"
            if len(clause) > 260:
                clauses.append((len(clause), place))
            if len(clause) > 160 and "let " not in clause and not re.search(r"laws|examples", path):
                found.add(f"{place}: a clause of {len(clause)} characters names none of its parts")


def answers():
    """A folder of answers has the name of a function of its crate; one of a cycle of calls begins with +."""
    for path in paths("crates/*/proofs/**/*.antt"):
        *_, folder, _ = parts = path.split("/")
        if len(parts) < 6 or folder.startswith("+"):
            continue
        if not any(re.search(rf"\bfn {folder}\b", text_of(it)) for it in paths(f"crates/{parts[1]}/src/**/*.rt")):
            found.add(f"{'/'.join(parts[:-1])}: no such function")


for rule in (definitions, errors, limits, types, files, crates, functions, answers, lengths):
    rule()
if sys.argv[1:] == ["clauses"]:
    print("\n".join(f"{size} {place}" for size, place in sorted(clauses, reverse=True)))
    sys.exit(0)
new, gone = sorted(found - STANDING), sorted(STANDING - found)
print("\n".join(new + [f"no longer so, to be taken out of STANDING: {it}" for it in gone] + (sorted(found & STANDING) if "all" in sys.argv else [])))
print(f"{len(new)} part from the words, {len(found & STANDING)} are known; {len(clauses)} clauses have more than 260 characters")
sys.exit(1 if new or gone else 0)
