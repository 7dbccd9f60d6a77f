#!/usr/bin/env python3
"""Counts the places of src/ that docs/DESIGN-PASS.md speaks of, a point of its list at a time.

  tools/places.py [--list] [POINT...]      the points 1 to 8, all of them unless some are named

It reads crates/*/src/*.rt as text, with no compiler: it finds shapes, and a reader judges each. With --list it prints
every place. Point 8 counts the lines of the proofs.
"""
import re
import sys
from collections import defaultdict
from pathlib import Path

NUMBER = r"(?:u8|u16|u32|u64|usize|i64)"


def without_comments(text):
    return re.sub(r"//[^\n]*", lambda m: " " * len(m.group()), text)


def closing(text, at):
    """The place behind the bracket that closes the one at `at`."""
    pairs = {"{": "}", "(": ")", "[": "]"}
    depth = 0
    opened, closed = text[at], pairs[text[at]]
    while at < len(text):
        if text[at] == opened:
            depth += 1
        elif text[at] == closed:
            depth -= 1
            if depth == 0:
                return at + 1
        at += 1
    return len(text)


class Function:
    def __init__(self, file, line, name, params, clauses, body):
        self.file, self.line, self.name = file, line, name
        self.params, self.clauses, self.body = params, clauses, body

    def place(self):
        return f"{self.file}:{self.line} {self.name}"


def parted(text):
    """What commas part: the parameters of a signature, or the arms of a match that are expressions."""
    parts, depth, last = [], 0, ""
    for c in text.replace("=>", "\x01"):
        depth += c in "([{<"
        depth -= c in ")]}>"
        if c == "," and depth == 0:
            parts.append(last)
            last = ""
        else:
            last += c
    return [" ".join(p.split()).replace("\x01", "=>") for p in parts + [last] if p.strip()]


def functions_of(file, text):
    for m in re.finditer(r"\bfn\s+([a-z_0-9']+)\s*(<[^(]*>)?\s*\(", text):
        at = m.end() - 1
        end = closing(text, at)
        params = parted(text[at + 1 : end - 1])
        clauses = []
        body = None
        while end < len(text):
            clause = re.compile(r"\s*(requires|ensures)\b([^{;]*)\{").match(text, end)
            if clause:
                last = closing(text, clause.end() - 1)
                clauses.append((clause.group(1), " ".join(text[clause.end() : last - 1].split())))
                end = last
                continue
            rest = re.compile(r"[^{;]*?(?=\brequires\b|\bensures\b|[{;])").match(text, end)
            if rest and rest.end() > end and text[rest.end()] not in "{;":
                end = rest.end()
                continue
            brace = text.find("{", end)
            semi = text.find(";", end)
            if brace < 0 or (0 <= semi < brace):
                break
            body = text[brace : closing(text, brace)]
            break
        if body is not None:
            yield Function(file, text.count("\n", 0, m.start()) + 1, m.group(1), params, clauses, body)


def enums_of(file, text):
    for m in re.finditer(r"\benum\s+([A-Za-z0-9]+)[^{]*\{", text):
        inside = text[m.end() : closing(text, m.end() - 1) - 1]
        variants = []
        for part in parted(inside):
            name = re.match(r"(?:#\[[^]]*\]\s*)*([A-Za-z0-9]+)\s*(.*)", part, re.S)
            variants.append((name.group(1), name.group(2).strip()))
        yield file, text.count("\n", 0, m.start()) + 1, m.group(1), variants


def structs_of(file, text):
    for m in re.finditer(r"\bstruct\s+([A-Za-z0-9]+)[^{;(]*\{", text):
        inside = text[m.end() : closing(text, m.end() - 1) - 1]
        fields = [tuple(f.replace("pub ", "").split(":", 1)) for f in parted(inside) if ":" in f]
        yield file, text.count("\n", 0, m.start()) + 1, m.group(1), [(a.strip(), b.strip()) for a, b in fields]


def sources():
    for path in sorted(Path("crates").glob("*/src/**/*.rt")):
        yield "/".join(path.parts[1:]).replace("src/", ""), without_comments(path.read_text())


def tokens(text):
    return re.findall(r"[A-Za-z_][A-Za-z_0-9]*|\d[\d_]*|b?'[^']*'|b?\"[^\"]*\"|[^\sA-Za-z_0-9]", text)


KEYWORDS = set("if else match while for in let mut return loop true false as break".split())


def shape(function):
    words = []
    for t in tokens(function.body):
        if t in KEYWORDS or not re.match(r"[A-Za-z_0-9'\"b]", t):
            words.append(t)
        elif re.match(r"\d", t):
            words.append("N")
        elif re.match(r"b?['\"]", t):
            words.append("S")
        else:
            words.append("I")
    return tuple(words)


def point_1(found):
    for text in found["enums"]:
        file, line, name, variants = text
        bare = [v for v in variants if not v[1]]
        carrying = [v for v in variants if v[1]]
        if len(variants) == 2 and len(bare) == 1:
            yield f"{file}:{line} enum {name}: one variant carries, one does not"
        elif len(carrying) == 1 and len(bare) > 1:
            yield f"{file}:{line} enum {name}: one variant carries, {len(bare)} do not"
        elif len(variants) == 2 and len(carrying) == 2:
            yield f"{file}:{line} enum {name}: two variants, both carry"
        elif any(v[0] == "None" for v in bare):
            yield f"{file}:{line} enum {name}: a variant None"
    for file, line, name, fields in found["structs"]:
        if len(fields) < 2:
            continue
        flags = [f for f, t in fields if t == "Verdict" or (t == "bool" and f in FLAGS)]
        if flags:
            yield f"{file}:{line} struct {name}: {', '.join(flags)} beside values"
        kinds = [f for f, t in fields if f in KINDS and re.fullmatch(NUMBER, t)]
        if kinds:
            yield f"{file}:{line} struct {name}: {', '.join(kinds)} is a number for a kind"
    for file, line, name, fields in found["structs"]:
        if len(fields) == 1 and re.search(rf"impl {name} \{{\s*pub const [A-Z_0-9]+: {NUMBER} = ", found["text"][file]):
            if not re.search(rf"\b{name} \{{ ?[a-z]", found["all"].replace(f"struct {name} {{", "")):
                yield f"{file}:{line} struct {name}: constants alone, no value is made"
    for f in found["functions"]:
        kinds = [p for p in f.params if re.fullmatch(rf"({'|'.join(KINDS)}|no): {NUMBER}", p)]
        if kinds:
            yield f"{f.place()}: {', '.join(kinds)}"


FLAGS = {"ok", "known", "bad", "over", "ended", "replaced", "failed", "began"}
KINDS = ["kind", "level", "side", "which"]


def point_2(found):
    groups = defaultdict(list)
    for f in found["functions"]:
        words = shape(f)
        if len(words) >= 14:
            groups[words].append(f)
    for words, group in sorted(groups.items(), key=lambda g: (g[1][0].file, g[1][0].line)):
        if len(group) > 1:
            yield f"{len(group)} of {len(words)} words: " + ", ".join(f.place() for f in group)


def point_3(found):
    for file, text in found["text"].items():
        for m in re.finditer(r"^\s*(while|loop)\b[^\n]*", text, re.M):
            yield f"{file}:{text.count(chr(10), 0, m.end()) + 1} {m.group().strip()}"


LITERAL = r"(?:\d[\d_]*|true|false|b?'[^']*'|b?\"[^\"]*\"|[A-Z][A-Za-z]*::[A-Z][A-Za-z]*(?:\([a-z0-9]*\))?)"


def point_4(found):
    zeros = re.compile(r"\s*|\[?(?:0|false|None|\[\]|[a-z_:]*(?:none|no_[a-z]*|blank|unknown)\(?\)?)(?:; [A-Za-z_:]+\])?")
    for f in found["functions"]:
        inside = f.body[1:-1].strip()
        arms = re.fullmatch(r"(?:let [a-z]+ = self;\s*)?match [a-z.]+ \{(.*)\}", inside, re.S)
        if arms and all(re.fullmatch(rf"\s*[^=]+=> {LITERAL}\s*", a) for a in parted(arms.group(1))):
            yield f"{f.place()}: a match to literals"
        elif re.fullmatch(rf"if .* \{{ (-?{LITERAL}) \}} else \{{ (-?{LITERAL}) \}}", " ".join(inside.split())):
            yield f"{f.place()}: an if of literals"
        elif re.fullmatch(rf"[a-z]+ as {NUMBER}", inside):
            yield f"{f.place()}: a cast"
        elif re.fullmatch(r"[a-z]+\.[a-z]+\(?\)? == [a-z]+\.[a-z]+\(?\)?|\([^()]* == [^()]*\)( & \([^()]* == [^()]*\))+", inside):
            yield f"{f.place()}: an equality"
        elif re.fullmatch(r"if [a-z] <=? [a-z] \{ [a-z] \} else \{ [a-z] \}", " ".join(inside.split())):
            yield f"{f.place()}: an order"
        elif not f.params and re.search(r"\{", inside) and not re.search(r"[1-9]|Verdict", inside):
            values = re.findall(r":\s*([^,{}]+?)\s*[,}]", inside)
            if values and all(zeros.fullmatch(v) for v in values):
                yield f"{f.place()}: a value of zeros"


def point_5(found):
    facts = defaultdict(set)
    runs = defaultdict(set)
    for f in found["functions"]:
        crate = f.file.split("/")[0]
        for kind, text in f.clauses:
            if kind == "requires":
                for part in re.split(r" × ", text):
                    part = part.strip("() ")
                    facts[crate, part].add(f.place())
        for n in range(3, len(f.params) + 1):
            for i in range(len(f.params) - n + 1):
                runs[tuple(f.params[i : i + n])].add(f.place())
    for (crate, fact), places in sorted(facts.items()):
        if len(places) >= 3:
            yield f"{crate}: {len(places)} functions require {fact}"
    longer = defaultdict(set)
    for run, places in runs.items():
        for part in (run[1:], run[:-1]):
            if len(part) >= 3 and places == runs.get(part):
                longer[part].add(run)
    for run, places in runs.items():
        if len(places) >= 3 and run not in longer:
            yield f"{len(places)} functions take ({', '.join(run)})"


def point_6(found):
    places = re.compile(r"(len|at|from|to|i|n|count|have|start|end|waiting): usize")
    for f in found["functions"]:
        buffers = [p for p in f.params if re.fullmatch(r"[a-z_]+: &(?:'[a-z] )?(?:mut )?\[[^]]*\]", p)]
        numbers = [p for p in f.params if places.fullmatch(p)]
        if buffers and numbers:
            yield f"{f.place()}: {', '.join(buffers)} with {', '.join(numbers)}"
    for file, line, name, fields in found["structs"]:
        arrays = [f for f, t in fields if t.startswith("[")]
        counts = [f for f, t in fields if f in ("len", "count") and t == "usize"]
        if arrays and counts:
            yield f"{file}:{line} struct {name}: {', '.join(arrays)} with {', '.join(counts)}"
        elif len(arrays) > 1:
            yield f"{file}:{line} struct {name}: {', '.join(arrays)} beside one another"


def point_7(found):
    bare = {name for _, _, name, variants in found["enums"] if not any(v[1] for v in variants)}
    for f in found["functions"]:
        for m in re.finditer(r"match [a-z_.]+ \{", f.body):
            inside = f.body[m.end() : closing(f.body, m.end() - 1) - 1]
            arms = parted(inside)
            named = [a for a in arms if (a.split("::")[0].strip() in bare)]
            calls = [a for a in named if re.search(r"=> !?(?:[a-z_]+::)*[a-z_]+\(", a)]
            if len(calls) >= 2 and len(calls) == len(arms):
                yield f"{f.place()}: a step for each {named[0].split('::')[0].strip()}"
    for file, text in found["text"].items():
        for m in re.finditer(r"\bfn\(", text):
            yield f"{file}:{text.count(chr(10), 0, m.start()) + 1} a function pointer"


def point_8(found):
    for name in ("Answers", "Invariants", "Proof"):
        files = sorted(Path("crates").glob(f"*/proofs/**/{name}.antt"))
        lines = sum(len(p.read_text().splitlines()) for p in files)
        yield f"{name}.antt: {len(files)} files, {lines} lines"
    lemmas = [p for p in Path("crates").glob("*/proofs/*.antt") if p.name != "Lib.antt"]
    yield f"lemma files: {len(lemmas)}, {sum(len(p.read_text().splitlines()) for p in lemmas)} lines"


def main(words):
    listed = "--list" in words
    points = [w for w in words if w != "--list"] or [str(k) for k in range(1, 9)]
    found = {"text": dict(sources()), "enums": [], "structs": [], "functions": []}
    found["all"] = "\n".join(found["text"].values())
    for file, text in found["text"].items():
        found["enums"] += enums_of(file, text)
        found["structs"] += structs_of(file, text)
        found["functions"] += functions_of(file, text)
    for point in points:
        places = list(globals()[f"point_{point}"](found))
        print(f"point {point}: {len(places)}")
        if listed or point == "8":
            print("".join(f"  {p}\n" for p in places), end="")


main(sys.argv[1:])
