#!/usr/bin/env python3
"""Places in src/ that older forms take: tools/places.py [ROOT] [POINT] lists them, one a line, and counts them.

It goes by text, so each place it lists is to be read. Crates that hold only tests are left out.

  1 kinds      own enums of the shape of Option or Result, refusals handed on by hand, functions that answer a refusal as a value, numbers for kinds
  2 twins      functions whose bodies are the same but for names, numbers and types
  3 counters   loops over an index or with a counter of their own
  4 by hand    equality, order, conversion and printing that a derive or a trait of the library gives
  5 facts      clauses that stand in three functions or more, parameters that travel together in three or more
  6 lengths    a buffer with a length beside it, a search by hand in an ordered list
  7 steps      hand-made function objects, a switch on which step to run
  8 proofs     answers, invariants and lemmas, by files and lines; lemmas that nothing cites
"""
import re
import sys
from collections import defaultdict
from pathlib import Path

ROOT = Path(sys.argv[1] if len(sys.argv) > 1 else ".")
ONLY = sys.argv[2] if len(sys.argv) > 2 else None
TESTS = {"vectors", "plays", "whole_runs"}


def crates():
    for line in (ROOT / "crates.txt").read_text().splitlines():
        name = line.split(":")[0].strip()
        if name and not name.startswith("#") and name not in TESTS:
            yield name


def sources():
    for name in crates():
        for path in sorted((ROOT / "crates" / name / "src").rglob("*.rt")):
            yield path, path.read_text()


def place(path, text, at):
    return f"{path.relative_to(ROOT)}:{text.count(chr(10), 0, at) + 1}"


def block(text, at):
    """The text from the brace at or behind `at` to the one that closes it."""
    start = text.index("{", at)
    depth = 0
    for i in range(start, len(text)):
        depth += {"{": 1, "}": -1}.get(text[i], 0)
        if depth == 0:
            return text[start : i + 1]
    return text[start:]


def functions():
    """Each function with a body: place, name, parameters, clauses, body."""
    for path, text in sources():
        for m in re.finditer(r"\bfn (\w+)(?:<(?:->|\([^()]*\)|<[^<>]*>|[^<>()])*>)?\(", text):
            depth, i = 1, m.end()
            while depth:
                depth += {"(": 1, ")": -1}.get(text[i], 0)
                i += 1
            params = text[m.end() : i - 1]
            rest = text[i:]
            body = re.search(r"\n *\{\n|\{\n", rest)
            end = rest.find(";\n")
            if body is None or (0 <= end < body.start()):
                yield path, text, m, params, rest[: max(end, 0)], ""
                continue
            yield path, text, m, params, rest[: body.start()], block(rest, body.start())


def search(*patterns):
    for path, text in sources():
        for pattern in patterns:
            for m in re.finditer(pattern, text):
                yield place(path, text, m.start()), " ".join(m.group(0).split())[:100]


def kinds():
    for path, text in sources():
        for m in re.finditer(r"\benum (\w+)[^{]*", text):
            body = re.sub(r"//[^\n]*", "", block(text, m.start()))
            variants = re.findall(r"\n    (\w+)(\(|,| \{)", body)
            bare = [v for v, kind in variants if kind == ","]
            full = [v for v, kind in variants if kind != ","]
            if bare and full:
                yield place(path, text, m.start()), f"enum {m.group(1)}: {', '.join(bare)} without a value, {', '.join(full)} with one"
    yield from search(
        r"let Some\([^\n]*else \{\n *return Err\(",
        r"None => (return )?Err\(",
        r"if let Err\((\w+)\)[^\n]*\{\n *return Err\(",
        r"Err\((\w+)\) => return [^\n]*\1",
        r"if let Some\((\w+)\)[^\n]*\{\n *return Err\(\1\)",
        r"-> Option<(Refusal|Defect|Fault)>",
        r"\bnumber: u8|fault: Option<u8>|fn number\(self\) -> u8|fn from_number\(",
        r"\bflags: u8",
    )


def skeleton(body):
    names, out = {}, []
    for token in re.findall(r"b'.'|\w+|[^\w\s]", body):
        if re.fullmatch(r"b'.'|\d\w*", token):
            out.append("0")
        elif re.fullmatch(r"u8|u16|u32|u64|usize", token):
            out.append("T")
        elif re.fullmatch(r"[A-Za-z_]\w*", token) and token not in {"match", "if", "else", "return", "let", "for", "in", "while", "loop", "Some", "None", "Ok", "Err", "self", "mut"}:
            out.append(f"n{names.setdefault(token, len(names))}")
        else:
            out.append(token)
    return " ".join(out)


def twins():
    same = defaultdict(list)
    for path, text, m, _, _, body in functions():
        shape = skeleton(body)
        if shape.count(" ") >= 12:
            same[shape].append((place(path, text, m.start()), f"fn {m.group(1)}"))
    for group in same.values():
        if len(group) > 1:
            for where, name in group:
                yield where, f"{name}: one of {len(group)} of a shape"


def counters():
    yield from search(
        r"for \w+ in 0\.\.[^\n]*",
        r"for \(\w+, \w+\) in [^\n]*enumerate\(\)[^\n]*",
        r"while \w+ < \w+[^\n]*",
        r"\b(\w+) \+= (1|4|SIZE)\b;?",
        r"\bat \+= [^\n]*",
    )


def by_hand():
    yield from search(
        r"\.ms\(\) (<|<=|>|>=|==) [\w.]*\.ms\(\)",
        r"fn (is_before|is|alike|of|from_number|checked)\([^\n]*",
        r"None => None,\n *Some\(\w+\) => Some\(",
        r"None => false,\n *Some\(",
        r"if [^\n{]*\{ Some\([^\n]*\} else \{ None \}",
        r"if [^\n{]*\{\n *Some\([^\n]*\n *\} else \{\n *None\n *\}",
        r"\bas (u8|u16|u32|u64|usize)\b",
        r"-> &'static str",
    )


def facts():
    clauses, groups = defaultdict(list), defaultdict(list)
    for path, text, m, params, heads, _ in functions():
        where = place(path, text, m.start())
        for clause in set(re.findall(r"\b(?:requires|ensures)(?: \w+)? (\{.*\})$", heads, re.M)):
            clauses[re.sub(r"\b(self|used|kept|bytes|all)\b", "x", clause)].append((where, m.group(1), clause))
        names = sorted(set(re.findall(r"\b(\w+): ", params)))
        for a in names:
            for b in names:
                if a < b:
                    groups[a, b].append((where, m.group(1), f"{a} and {b} together"))
    for group in list(clauses.values()) + list(groups.values()):
        if len(group) >= 3:
            for where, name, what in group:
                yield where, f"fn {name}, one of {len(group)}: {what[:90]}"


def lengths():
    for path, text in sources():
        for m in re.finditer(r"\bstruct (\w+)[^{;]*\{", text):
            body = block(text, m.start())
            if re.search(r"(&'a mut \[|: \[\w+; )", body) and re.search(r"\b(count|len): ", body):
                yield place(path, text, m.start()), f"struct {m.group(1)}: a buffer and how much of it is used"
    yield from search(r"while low < high", r"\w+: usize,\n\) -> Result<&'a \[u8\]")


def steps():
    yield from search(
        r"impl(<[^\n]*>)? (Test<\w+>|Pick) for \w+[^\n{]*",
        r"match self\.stage \{",
    )


def cited():
    text = "\n".join(p.read_text() for p in (ROOT / "crates").rglob("*.antt") if "/out/" not in str(p))
    text += "\n".join(p.read_text() for p in (ROOT / "crates").rglob("*.rt") if "/out/" not in str(p))
    return re.findall(r"[^\s(){}.,;]+", text)


def proofs():
    uses = defaultdict(int)
    for word in cited():
        uses[word] += 1
    for name in crates():
        folder = ROOT / "crates" / name / "proofs"
        for path in sorted(folder.rglob("*.antt")):
            text = path.read_text()
            kind = {"Answers.antt": "answers", "Invariants.antt": "invariants"}.get(path.name, "lemmas")
            if path.name != "Lib.antt":
                yield str(path.relative_to(ROOT)), f"{kind}, {text.count(chr(10))} lines"
            if path.parent == folder and path.name != "Lib.antt":
                for m in re.finditer(r"^ *(?:pub )?(?:abbrev )?(?:pub )?([^\s:(]+) : ", text, re.M):
                    word = m.group(1)
                    own = len(re.findall(rf"^ *(?:pub |abbrev )*{re.escape(word)} (?:: |[^\nλ=]*=(?:\s|$))", text, re.M))
                    if uses[word] <= own:
                        yield place(path, text, m.start()), f"{word}: nothing cites it"


POINTS = {"1": kinds, "2": twins, "3": counters, "4": by_hand, "5": facts, "6": lengths, "7": steps, "8": proofs}
for number, find in POINTS.items():
    if ONLY in (None, number):
        found = sorted(set(find()))
        for where, what in found:
            if ONLY:
                print(f"{where}  {what}")
        print(f"point {number}: {len(found)}")
