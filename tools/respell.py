#!/usr/bin/env python3
"""Spells the repository's own definitions and lemmas as today's Rattle does: words in snake case, types as they are.

usage: tools/respell.py [--check]    at the top of the repository, once, after the toolchain's port.py

A name that specs/ or proofs/ declare and that has a capital inside or a dash becomes words joined by underscores:
sumOn is sum_on, one-byte-tells is one_byte_tells. A word that begins with a capital is a type or a fact and stays, with
the dash behind it. What stays as it is: names of libraries where a file imports them, what the toolchain makes (the
goals, the steps behind a dot, modules), and all of src/ but its clauses. In comments and pages a name turns where it
stands in a code span, and one with a capital inside wherever it stands. Two names that would fall together are told,
and neither turns, but where TAKEN says what stands for one. --check tells and writes nothing.
"""
import collections
import glob
import os
import re
import sys

TOKEN = re.compile(r"[^\s(){}.;,@\"«»\[\]`]+")
DECLARED = re.compile(
    r"^ *((?:(?:abbrev|unfoldable|pub|private) +)*)((?:[^\s(){}.;,@\"«»:=]+ +)*?[^\s(){}.;,@\"«»:=]+)"
    r"((?: *[({][^(){}]*(?:\([^()]*\)[^(){}]*)*[)}])*) +:(?= |$)", re.M)
TYPE = re.compile(r"^ *(?:pub +)?(?:data|record) +(\S+)", re.M)
USE = re.compile(r"^ *(?:pub +|ghost +)*use +([^\s;{]+?)(?:\.\{([^}]*)\})?(?: +as +(\S+?))?;?$", re.M)
QUIET_ANTT = re.compile(r"(?m)(^|(?<=\s))--.*$")
WORDS_OF_ANTT = {"let", "in", "where", "elim", "as", "module", "use", "pub", "open", "mutual", "unfolding", "ruleset"}
# A name that would fall together with another one, and what it is called.
TAKEN = {
    "endFits": "end_fits_of",
    "inOrder": "is_in_order",
    "is-nan": "is_nan_lem",
    "keptAgain": "kept_again_of",
    "rangeMoved": "range_moved_by",
    "slotOf": "slot_found",
    "weightIs": "weight_given",
}


def snake(name):
    """The name in snake case; a part that begins with a capital is a type or a fact, and stays with its dash."""
    parts = name.split("-")
    spelled = ""
    for i, part in enumerate(parts):
        upper = part[:1].isupper()
        turned = part if upper else re.sub(r"(?<=[a-z0-9'])([A-Z]+)", lambda m: "_" + m.group(1).lower(), part)
        if i:
            before_upper = parts[i - 1][:1].isupper()
            spelled += "-" if upper or before_upper else "_"
        spelled += turned
    return spelled


def own(path, crates):
    words = path.split(".")
    return len(words) > 1 and words[0] == "Rattle" and words[1] in crates


def declared(text):
    """The names that a text declares, those of goals aside."""
    text = QUIET_ANTT.sub("", text)
    found = set()
    for m in DECLARED.finditer(text):
        names = m.group(2).split()
        if names[0] in WORDS_OF_ANTT:
            continue
        behind = text[m.end():m.end() + 60].lstrip()
        if re.match(r"(tie|goal)\.", behind):
            continue
        found.update(names)
    found.update(TYPE.findall(text))
    return found


def imported(text, crates):
    """The names that a text takes from libraries."""
    found = set()
    for m in USE.finditer(text):
        if not own(m.group(1), crates) and m.group(2):
            found.update(w.strip() for w in m.group(2).split(","))
    return found


def fields(text):
    """The fields of records that a text declares."""
    found = set()
    inside = None
    for line in QUIET_ANTT.sub("", text).split("\n"):
        if re.match(r" *(pub +)?record\b", line):
            inside = len(line) - len(line.lstrip())
            continue
        if inside is not None and line.strip():
            depth = len(line) - len(line.lstrip())
            if depth <= inside:
                inside = None
            else:
                m = DECLARED.match(line)
                if m:
                    found.update(m.group(2).split())
    return found


def turn_tokens(text, names, keep, behind_dot):
    def one(m):
        word = m.group(0)
        if word not in names or word in keep:
            return word
        if m.start() and text[m.start() - 1] == "." and not (m.start() > 1 and text[m.start() - 2] in " \n"):
            if word not in behind_dot:
                return word
        return names[word]
    return TOKEN.sub(one, text)


def turn_prose(text, names, keep):
    """A comment: names in code spans, and words with a capital inside wherever they stand."""
    text = re.sub(r"`([^`\n]+)`", lambda m: "`" + turn_tokens(m.group(1), names, keep, names) + "`", text)
    return re.sub(r"(?<![\w`/.-])[a-z][a-z0-9]*[A-Z]\w*(?![\w`-])", lambda m: names.get(m.group(0), m.group(0)) if m.group(0) not in keep else m.group(0), text)


def turn_antt(text, names, keep, behind_dot, prose_names):
    turned = []
    for line in text.split("\n"):
        m = QUIET_ANTT.search(line)
        code, prose = (line[:m.start()], line[m.start():]) if m else (line, "")
        turned.append(turn_tokens(code, names, keep, behind_dot) + turn_prose(prose, prose_names, keep))
    return "\n".join(turned)


RT_PARTS = re.compile(r"(//[^\n]*)|(b?\"(?:[^\"\\]|\\.)*\")|(b?'(?:[^'\\]|\\.)')")


def turn_rt(text, names, keep, behind_dot, prose_names):
    turned, at = "", 0
    for m in RT_PARTS.finditer(text):
        turned += turn_tokens(text[at:m.start()], names, keep, behind_dot)
        turned += turn_prose(m.group(0), prose_names, keep) if m.group(1) else m.group(0)
        at = m.end()
    return turned + turn_tokens(text[at:], names, keep, behind_dot)


def bare_words(text):
    """The words of an antt text that stand behind no dot, and in no path."""
    text = QUIET_ANTT.sub("", text)
    text = re.sub(r"(?m)^( *(?:pub +)?use +)[^\s{;]+(?=\.\{)", r"\1", text)
    text = re.sub(r"(?m)^ *(?:pub +)?use +[^\s{;]+( +as +\S+)?;?$", r"", text)
    return [m.group(0) for m in TOKEN.finditer(text) if not m.start() or text[m.start() - 1] != "."]


def clause_words(text):
    """The words of a source's clauses, ghost items and imports, and the names of its parameters and fields."""
    text = RT_PARTS.sub(" ", text)
    found = []
    for m in re.finditer(r"\b(?:requires|ensures|ghost(?! use))\*?(?: +\w+)?:? *=? *\{", text):
        depth, at = 1, m.end()
        while depth and at < len(text):
            depth += {"{": 1, "}": -1}.get(text[at], 0)
            at += 1
        found += bare_words(text[m.end():at])
    for m in re.finditer(r"ghost use [^{;]*\{([^}]*)\}", text):
        found += TOKEN.findall(m.group(1))
    return found + re.findall(r"\b(\w+): ", text)


class Prose(dict):
    """The names as comments and pages have them: also those that port.py spelled anew."""

    def __init__(self, names, turned):
        super().__init__(names)
        self.turned = turned

    def __contains__(self, word):
        return self.get(word, word) != word

    def __getitem__(self, word):
        return self.get(word, word)

    def get(self, word, other=None):
        if super().__contains__(word):
            return super().get(word)
        if word[:1].islower() and word not in self.turned and snake(word) in self.turned:
            return snake(word)
        return other


def read(path):
    with open(path, encoding="utf-8") as f:
        return f.read()


def main(words):
    check = words == ["--check"]
    crates = {os.path.basename(c) for c in glob.glob("crates/*") if os.path.isdir(c)}
    antt = sorted(f for f in glob.glob("crates/*/*/**/*.antt", recursive=True) if "/out/" not in f)
    rt = sorted(f for f in glob.glob("crates/*/src/**/*.rt", recursive=True))
    texts = {f: read(f) for f in antt + rt}
    all_declared, all_fields = collections.defaultdict(set), set()
    for f in antt:
        for n in declared(texts[f]):
            all_declared[n].add(f)
        all_fields |= fields(texts[f])
    names = {n: TAKEN.get(n, snake(n)) for n in all_declared if n[:1].islower() or n in TAKEN}
    names = {n: s for n, s in names.items() if n != s}
    # A lemma that would have its function's name gets _lem.
    of_spelling = collections.defaultdict(set)
    for n in all_declared:
        of_spelling[names.get(n, n)].add(n)
    for s, olds in of_spelling.items():
        lemmas = [n for n in olds if "-" in n]
        if len(olds) > 1 and len(lemmas) == 1:
            names[lemmas[0]] = s + "_lem"
    # Where the new spelling is another word of a file that has the old one, the two would fall together. A function of
    # src/ may share a definition's name, since no clause can name it; a parameter may not.
    tokens = {f: set(bare_words(t) if f.endswith(".antt") else clause_words(t)) for f, t in texts.items()}
    taken_from = {f: imported(t, crates) for f, t in texts.items()}
    met = collections.defaultdict(list)
    for f, words_of in tokens.items():
        spelled = collections.defaultdict(set)
        for w in words_of:
            spelled[names.get(w, w) if w not in taken_from[f] else w].add(w)
        for s, olds in spelled.items():
            if len(olds) > 1:
                for w in olds:
                    if w in names:
                        met[w].append((f, sorted(olds - {w})))
    for w in sorted(met):
        print(f"met: {w} -> {names[w]}: {len(met[w])} files, as {met[w][0][0]} beside {' '.join(met[w][0][1])}")
    for w in met:
        names.pop(w, None)
    # What port.py spelled anew in the code, pages and comments still call as it was.
    turned = {names.get(n, n) for n in all_declared}
    prose_names = Prose(names, turned)
    print(f"respell: {len(names)} names turn, {len(met)} stay, of {len(all_declared)}")
    if check:
        return 0
    behind_dot = {n for n in names if n in all_fields}
    changed = 0
    for f, t in texts.items():
        keep = taken_from[f]
        turn = turn_antt if f.endswith(".antt") else turn_rt
        new = turn(t, names, keep, behind_dot, prose_names)
        if new != t:
            changed += 1
            with open(f, "w", encoding="utf-8") as to:
                to.write(new)
    for p in glob.glob("crates/*/must-fail/*.edit"):
        # The pairs are turned where the file that they fit has the new text; here the sentences before them.
        head, mark, pairs = read(p).partition("\nfile:")
        new = re.sub(r"\(([^()]*)\)", lambda m: "(" + turn_tokens(m.group(1), prose_names, set(), set()) + ")", turn_prose(head, prose_names, set()))
        if new != head:
            changed += 1
            with open(p, "w", encoding="utf-8") as to:
                to.write(new + mark + pairs)
    pages = [p for p in glob.glob("docs/**/*.md", recursive=True) + glob.glob("*.md") if os.path.basename(p) not in ("PORT.md",)]
    for p in pages:
        t = read(p)
        new = turn_prose(t, prose_names, set())
        if new != t:
            changed += 1
            with open(p, "w", encoding="utf-8") as to:
                to.write(new)
    print(f"respell: {changed} files changed")
    return 0


if __name__ == "__main__":
    raise SystemExit(main(sys.argv[1:]))
