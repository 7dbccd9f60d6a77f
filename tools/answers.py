#!/usr/bin/env python3
"""Turns proofs that close a function's goals by its module Tie into files of invariants and answers.

usage: tools/answers.py NAMES [--crate NAME] [FOLDER..]   at the top of the repository

NAMES is names.json, as `rt check --generated DIR --old-names` writes it in a crate's folder: the old and the new name of each goal
and of each step. FOLDER is a function's folder of proofs; with none, all of the crate's. An answer that only searches is
left out, since the check searches by itself. The old file is kept beside as Proof.antt.old, for the hand to look at.
"""
import json
import os
import re
import sys

TOKEN = re.compile(r"[^\s(){}.;,@\"«»\[\]]+")
TRIVIAL = {"search rules", "search needs", "omega arith"}


def norm(name):
    name = re.sub(r"^(overflow|nonzero)[-_]", "", name)
    return re.sub(r"[-_]", "", name).lower()


def blocks_of(text):
    """The top-level blocks: comments stay with what follows them."""
    blocks, now = [], []
    for line in text.split("\n"):
        if not line.strip():
            now.append(line)
            continue
        starts = not line[0].isspace() and line[0] not in ")}]"
        if starts and now and any(l.strip() for l in now):
            last = [l for l in now if l.strip()]
            only_comments = all(l.startswith("--") for l in last)
            if line.startswith("--") and (not only_comments or not now[-1].strip()):
                blocks.append(now)
                now = [line]
                continue
            head = re.match(r"(?:(?:abbrev|unfoldable|pub) )*(\S+)", line).group(1)
            first = next((l for l in last if not l.startswith("--")), "")
            declared = re.match(r"(?:(?:abbrev|unfoldable|pub|data|record) )*(\S+)", first).group(1) if first else None
            same = declared and (head == declared or line.startswith("unfolding") or line.startswith("where"))
            if not only_comments and not same and not line.startswith(("→", "∙", "×")):
                blocks.append(now)
                now = [line]
                continue
        now.append(line)
    if any(l.strip() for l in now):
        blocks.append(now)
    return ["\n".join(b).strip("\n") for b in blocks]


def code_of(block):
    return "\n".join(l for l in block.split("\n") if not l.startswith("--"))


def chains(text, roots, steps, drop=True, arms={}):
    """Paths of a proof's context, without the way back to where a step was made, unless they lead through a record of it."""
    aliases = set(roots)
    while drop:
        m = re.search(r"let (\S+) = (\S+?)((?:\.before)*) in(?:[ \n]+|$)", text)
        found = None
        for m in re.finditer(r"let (\S+) = ([^\s.]+)((?:\.before)*) in(?:[ \n]+|$)", text):
            if m.group(2) in aliases:
                found = m
                break
        if not found:
            break
        alias, root = found.group(1), found.group(2)
        indent = ""
        if "\n" in found.group(0):
            line_start = text.rfind("\n", 0, found.start()) + 1
            before = text[line_start:found.start()]
            indent = "\n" + before if not before.strip() and line_start else " "
            rest = text[found.end():].lstrip()
            text = text[:found.start()] + rest
        else:
            text = text[:found.start()] + text[found.end():]
        text = re.sub(rf"(?<![^\s(){{}};,\[\]]){re.escape(alias)}(?=[.\s)}};,\]])", root, text)

    def one(m):
        root, path = m.group(1), m.group(2)
        parts = path.split(".")[1:]
        back = len(parts)
        while parts and parts[0] == "before":
            parts.pop(0)
        back -= len(parts)
        if not drop:
            root += ".before" * back
        if not parts:
            return root
        # What an arm says: of a variant, its parts, that the value is it, and what the call ensured of it.
        for n in range(len(parts), 1, -1) if drop else ():
            arm = arms.get((norm(parts[0]), tuple(parts[1:n])))
            if arm:
                return ".".join([root, arm, *parts[n:]])
        new = steps.get(norm(parts[0])) or steps.get(norm(re.sub("_lem$", "", parts[0])))
        if new and parts[0] not in ("args", "requires", "ranges"):
            parts[0] = new
        whole = root + "." + ".".join(parts)
        # The test of `!x` says what x is, and said what `not x` is.
        if parts[0].startswith("if-not-") and len(parts) == 2 and parts[1] in ("true", "false"):
            return f"(ap not {whole})"
        return whole

    if not drop:
        aliases.update(n for n, of in re.findall(r"\blet (\w+) = ([^\n]*)", text) if not re.search(r"\.args\b(?! *\.before)", of))
    names = "|".join(re.escape(a) for a in sorted(aliases, key=len, reverse=True))
    return re.sub(rf"(?<![^\s(){{}};,\[\]])({names})((?:\.[^\s(){{}}.;,@\"«»\[\]]+)+)", one, text)


def substitute(body, by):
    def one(m):
        if m.start() and body[m.start() - 1] == ".":
            return m.group(0)
        return by.get(m.group(0), m.group(0))
    return TOKEN.sub(one, body)


def used(imports, text):
    """The imports of which the text uses something."""
    if "(ap not " in text:
        imports = imports + [f"use {m}.{{{w}}}" for m, w in (("mathlib.Core.Path", "ap"), ("mathlib.Core.Bool", "not"))
                             if not any(re.search(rf"[{{, ]{w}[,}} ]", l) for l in imports)]
    if "search rules" in text and not any(re.search(r"[{, ]rules[,}]", l) for l in imports):
        imports = imports + ["use borrow.Author.Rules.{rules}"]
    words = set(TOKEN.findall(text))
    for w in list(words):
        words.update(re.findall(r"[^\w\s]+|\w+", w))
    kept = []
    for line in imports:
        m = re.match(r"use (\S+?)\.\{(.*)\}$", line.replace("\n", " "))
        if m:
            names = []
            for n in re.split(r",\s*", m.group(2)):
                bare = n.split(" as ")[-1].strip()
                op = bare.replace("◌", "")
                if bare in words or (op != bare and op and op in text) or (bare == "[]" and "[]" in text):
                    names.append(n.strip())
            if names:
                kept.append(f"use {m.group(1)}.{{{', '.join(names)}}}")
            continue
        m = re.match(r"use (\S+?)(?: as (\S+))?$", line)
        name = m.group(2) or m.group(1).split(".")[-1]
        if re.search(rf"(?<![^\s(){{}};,\[\]]){re.escape(name)}\.", text):
            kept.append(line)
    return kept


def clauses_of(crate):
    """The names of the clauses of each function, by its path, where a kind has several: {path: {kind: [name, ..]}}."""
    found = {}
    top = f"crates/{crate}/src"
    for folder, _, files in os.walk(top):
        for name in files:
            if not name.endswith(".rt"):
                continue
            with open(os.path.join(folder, name), encoding="utf-8") as f:
                text = re.sub(r"//[^\n]*", "", f.read())
            module = os.path.relpath(os.path.join(folder, name), top)[:-3].replace("/", "::")
            module = "" if module in ("lib", "main") else module + "::"
            owner = ""
            for m in re.finditer(r"(?m)^impl(?:<[^{]*?>)? (?:\w+ for )?(\w+)[^{\n]*\{|^\}|^ *(?:pub(?:\([^)]*\))? )?(?:const )?(?:extern \"C\" )?fn (\w+)", text):
                if m.group(1):
                    owner = m.group(1) + "::"
                elif m.group(0) == "}":
                    owner = "" if text[:m.start()].rstrip().endswith("}") or True else owner
                else:
                    head = text[m.end():]
                    stop = re.search(r"\n *\{\n|\n *\{ *\}|;\n", head)
                    head = head[:stop.start()] if stop else head
                    kinds = {}
                    for kind in ("requires", "ensures"):
                        names = re.findall(rf"\b{kind} (\w+) \{{", head)
                        if len(names) > 1:
                            kinds[kind] = names
                    if kinds:
                        found[f"{crate}::{module}{owner}{m.group(2)}"] = kinds
    return found


def parts_of_tuple(body):
    """Where a body ends in a tuple: where that begins, and its parts."""
    text = body.rstrip()
    if not text.endswith(")"):
        return None
    depth = 0
    for at in range(len(text) - 1, -1, -1):
        depth += {")": 1, "]": 1, "}": 1, "(": -1, "[": -1, "{": -1}.get(text[at], 0)
        if depth == 0:
            break
    before = text[:at].rstrip()
    if re.search(r"(?:^|[\s(])(?:rw|simp|omega|search|grind|cc)$", before):
        return None
    parts, now, depth = [], "", 0
    for ch in text[at + 1:-1]:
        depth += {"(": 1, "[": 1, "{": 1, ")": -1, "]": -1, "}": -1}.get(ch, 0)
        if ch == "," and depth == 0:
            parts.append(now)
            now = ""
        else:
            now += ch
    if now.strip():
        parts.append(now)
    return at, [p.strip() for p in parts]


def as_record(body, names):
    found = parts_of_tuple(body)
    if not found:
        return body
    at, parts = found
    while len(parts) < len(names) and parts[-1].startswith("("):
        inner = parts_of_tuple(parts[-1])
        if not inner or inner[0]:
            break
        parts = parts[:-1] + inner[1]
    if len(parts) != len(names):
        return body
    fields = "; ".join(f"{n} = {p}" for n, p in zip(names, parts))
    return body[:at] + "record { " + fields + " }"


def named(text, clauses, kind):
    """Places of clauses, by their names."""
    names = clauses.get(kind)
    if kind == "requires":
        text = re.sub(r"\.pre(?![\w-])", ".requires", text)
    if not names:
        return text
    return re.sub(rf"\.{kind}((?:\.\d)+)(?![\w])", lambda m: f".{kind}" + by_name(m.group(1), names), text)


def by_name(path, names):
    """A path into clauses, which were pairs in pairs, by the clause's name."""
    rest = path[1:].split(".")
    at = 0
    while rest and at < len(names) - 1:
        step = int(rest.pop(0))
        if step == 0:
            return "." + ".".join([names[at]] + rest)
        if step > 1:
            return "." + ".".join([names[step]] + rest) if step < len(names) else path
        at += 1
    return "." + ".".join([names[at]] + rest) if at == len(names) - 1 else path


def convert(path, key, made, crate, function_path):
    with open(path, encoding="utf-8") as f:
        text = f.read()
    if "tie." not in text:
        print(f"walk: {path}")
        return
    needs = {}
    for old, new in made["needs"]:
        needs.setdefault(norm(old), []).append(new)
        needs.setdefault(norm(new), []).append(new)
    steps = {}
    for _, _, (old, new), *_ in made["places"]:
        if old:
            steps.setdefault(norm(old), new)
    arms = {}
    for arm in made.get("arms", []):
        for field, old, path_in in arm[2] if arm else ():
            if path_in:
                arms.setdefault((norm(old), tuple(path_in)), f"{arm[0]}.{field}")
    loops = {}
    for i, ((old, new), variables) in enumerate(made["loops"]):
        loops[norm(old)] = (new, variables, made["changed"][i] if i < len(made["changed"]) else [])
        steps[norm(old)] = new
    known = CLAUSES
    own = known.get(crate + "::" + function_path.replace(".", "::"), {})
    of_callee = {}
    for _, _, (old, new), callee, *_ in made["places"]:
        if callee:
            of_callee[new] = known.get(callee, {})
    by_word = {callee.split("::")[-1]: known.get(callee, {}) for callee in made["params"]}
    head, imports, invariants, answers, helpers = "", [], [], [], []
    takes = {}
    places = {norm(entry[0]): new for entry, new in zip(made["places"], made["places_by_name"])}
    left = []
    blocks = blocks_of(text)
    for b in blocks:
        code = code_of(b).strip("\n")
        comment = "\n".join(l for l in b.split("\n") if l.startswith("--"))
        if not code.strip():
            head = head or b
            continue
        if code.startswith("use "):
            lines = re.findall(r"(?ms)^use .*?(?=^use |\Z)", code)
            imports += [l.strip() for l in lines]
            if comment and not head:
                head = comment
            continue
        m = re.match(r"(?:abbrev (?:pub )?)?(\S+) : tie\.(invariant|decreases)-(\S+)\s*\n(unfolding [^\n]*\n)?(\S+)([^=]*)= ?(.*)\Z", code, re.S)
        if m:
            kind, loop, params, body = m.group(2), m.group(3), m.group(6).split(), m.group(7)
            if norm(loop) not in loops:
                left.append(f"loop {loop}")
                continue
            new, variables, changed = loops[norm(loop)]
            by = {}
            changing = [v for v, c in zip(variables, changed) if c]
            if len(params) == len(variables) + len(changing):
                for p, v, c in zip(params, variables, changed):
                    by[p] = f"l.initial.{v}" if c else f"l.{v}"
                for p, v in zip(params[len(variables):], changing):
                    by[p] = f"l.{v}"
            else:
                left.append(f"loop {loop}: {len(params)} parameters, {len(variables)} variables, {len(changing)} change")
                for p in params:
                    v = p.rstrip("₀")
                    by[p] = f"l.initial.{v}" if p.endswith("₀") else f"l.{v}"
            name = f"{kind}-{new}"
            opened = m.group(4) or ""
            invariants.append(f"{comment + chr(10) if comment else ''}abbrev pub {name} : goal.{name}\n{opened}{name} l =" + (" " if not body.startswith("\n") else "") + substitute(body, by))
            continue
        m = re.match(r"(?:pub )?(\S+) :\s+tie\.Need-(\S+)[^\n]*((?:\n    [^\n]*)*?)\n(unfolding [^\n]*(?:\n    [^\n=]*)*\n)?(\S+)((?: [^\s=]+)*) =(.*)\Z", code, re.S)
        if m:
            old, opened, params, body = m.group(2), m.group(4) or "", m.group(6).split(), m.group(7)
            found = needs.get(norm(old))
            if not found:
                if not opened and body.strip() in TRIVIAL:
                    continue
                left.append(f"goal {old}")
                helpers.append("-- no goal now: " + old + "\n" + "\n".join("-- " + l for l in code.split("\n")))
                continue
            new = found[0]
            body = named(body, own, "requires")
            m_callee = re.match(r"(.*?)[-_]requires(?:[-_]\d+)?$", old)
            if m_callee:
                for word, kinds in by_word.items():
                    if norm(word) == norm(m_callee.group(1)) and "requires" in kinds:
                        body = as_record(body, kinds["requires"])
            if re.match(r"returns", old) and "ensures" in own:
                body = as_record(body, own["ensures"])
            if not opened and body.strip() in TRIVIAL:
                continue
            root = params[0] if params else "c"
            body = ensured(chains(body, [root], steps, arms=arms), of_callee)
            # That a number which an arm binds fits its type is no fact of its own now; the search finds it.
            body = re.sub(r"\(record \{\s*sfits\s*=\s*c\.known_told[^\s;}]*;?\s*\}\)", "(search rules)", body)
            answers.append((new, m.group(1), comment, opened, root, params[1:], body))
            continue
        if re.search(r": \{M : Type 1\}", code) and "tie.close" in code:
            continue
        for name, place in re.findall(r"(?m)^(?:abbrev |unfoldable |pub )*(\S+) :[^\n]*?\btie\.((?:After|At|In|Then|Else|Start|Untold)\S*?)(?=[ )]|$)", code):
            if norm(place) in places:
                takes[name] = places[norm(place)]
        code = re.sub(r"\btie\.((?:After|At|In|Then|Else|Start|Untold)[^\s()]*)((?: (?:invariant|decreases)-[^\s()]+)*)",
                      lambda m: places.get(norm(m.group(1)), "tie." + m.group(1)), code)
        code = named(code, own, "requires")
        helpers.append((comment + "\n" if comment else "") + chains(code, ["c", "c'"], steps, drop=False))
    # An answer that another one cites keeps its name as a helper would: the goal's own name stands for it.
    renamed = {old: new for new, old, *_ in answers if old != new}
    out = []
    for new, old, comment, opened, root, more, body in answers:
        extra = [p for p in more if re.search(rf"(?<![^\s(){{}};,.\[\]]){re.escape(p)}(?![^\s(){{}};,.\[\]])", body)]
        # What the goal itself takes, beside its context, it takes by a λ.
        if extra and not any(p.startswith("κ") for p in extra):
            body = f" λ {' '.join(p for p in more if not p.startswith('κ'))}." + body
        elif extra:
            left.append(f"goal {new}: cites {' '.join(extra)}")
        body = substitute(body, renamed)
        for helper, place in takes.items():
            body = re.sub(rf"(?<![^\s(){{}};,\[\]]){re.escape(helper)} {re.escape(root)}(?![^\s(){{}};,\[\]])", f"{helper} (goal.at.{new} {root}).{place}", body)
        out.append(f"{comment + chr(10) if comment else ''}pub {new} : goal.{new}\n{opened}{new} {root} ={body}")
    folder = os.path.dirname(path)
    base = f"Rattle.{crate}.proofs.{function_path}"
    gone = re.compile(rf"{re.escape(base)}\.(Tie|Statement|Lts|Reads)\b")
    imports = [l for l in imports if not gone.search(l)]
    if invariants:
        body = "\n\n".join(invariants)
        shared = [h for h in helpers if re.match(r"(?:--[^\n]*\n)*(?:abbrev|unfoldable)", h) and any(re.search(rf"(?<![^\s(){{}};,.]){re.escape(w)}(?![^\s(){{}};,.])", body) for w in re.findall(r"(?m)^(?:abbrev |unfoldable |pub )+(\S+) :", h))]
        helpers = [h for h in helpers if h not in shared]
        names = []
        for i, h in enumerate(shared):
            shared[i] = re.sub(r"(?m)^(abbrev|unfoldable) (?!pub)", r"\1 pub ", h)
            names += re.findall(r"(?m)^(?:abbrev |unfoldable |pub )+(\S+) :", shared[i])
        body = "\n\n".join(shared + invariants)
        kept = used(imports, body) + [f"use {base}.Given as goal"]
        with open(os.path.join(folder, "Invariants.antt"), "w", encoding="utf-8") as f:
            f.write((head + "\n" if head else "") + "\n".join(kept) + "\n\n" + body + "\n")
        if names:
            imports.append(f"use {base}.Invariants.{{{', '.join(names)}}}")
        head = ""
    if out:
        body = "\n\n".join(helpers + out)
        kept = used(imports, body) + [f"use {base}.Goals as goal"]
        of_goals = sorted({p for p in places.values() if re.search(rf"(?<![^\s(){{}};,\[\]]){re.escape(p)}(?![^\s(){{}};,\[\]])", body)})
        if of_goals:
            kept.append(f"use {base}.Goals.{{{', '.join(of_goals)}}}")
        with open(os.path.join(folder, "Answers.antt"), "w", encoding="utf-8") as f:
            f.write((head + "\n" if head else "") + "\n".join(kept) + "\n\n" + body + "\n")
    os.rename(path, path + ".old")
    for l in left:
        print(f"left: {path}: {l}")


CLAUSES = {}


def ensured(text, of_callee):
    """Places of what a call ensures, by the clauses' names."""
    for step, kinds in of_callee.items():
        names = kinds.get("ensures")
        if names:
            text = re.sub(rf"\.{re.escape(step)}\.ensures((?:\.\d)+)(?!\w)", lambda m: f".{step}.ensures" + by_name(m.group(1), names), text)
    return text


def main(words):
    for c in os.listdir("crates"):
        CLAUSES.update(clauses_of(c))
    names, folders, crate = None, [], None
    while words:
        w = words.pop(0)
        if w == "--crate":
            crate = words.pop(0)
        elif names is None:
            names = w
        else:
            folders.append(w.rstrip("/"))
    with open(names, encoding="utf-8") as f:
        made = json.load(f)
    for key, value in made.items():
        m = re.match(r"Rattle-(\w+)-proofs\.(.*)\.Lts$", key)
        if not m or not isinstance(value, dict) or (crate and m.group(1) != crate):
            continue
        folder = f"crates/{m.group(1)}/proofs/" + m.group(2).replace(".", "/")
        path = folder + "/Proof.antt"
        if folders and folder not in folders:
            continue
        if os.path.exists(path):
            convert(path, key, value, m.group(1), m.group(2))
    return 0


if __name__ == "__main__":
    raise SystemExit(main(sys.argv[1:]))
