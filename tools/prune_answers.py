#!/usr/bin/env python3
"""Takes answers that the check refuses out of a crate's files, as long as the check then finds the goals by itself.

usage: tools/prune_answers.py CRATE..   at the top of the repository

A refused answer goes to Answers.antt.dropped beside its file, so that a hand can look at what it was. What the check says at the
end is printed without its notes.
"""
import os
import re
import subprocess
import sys

sys.path.insert(0, os.path.dirname(os.path.abspath(__file__)))
import answers


def check(crate, *words):
    r = subprocess.run(["rt", "check", *words], cwd=f"crates/{crate}", capture_output=True, text=True)
    return r.stdout + r.stderr


def refused(said):
    found = {}
    for m in re.finditer(r"(?m)^\./(proofs/\S+/Answers\.antt):\d+:\d+: error: `([^`]+)`", said):
        found.setdefault(m.group(1), set()).add(m.group(2))
    return found


def drop(path, names):
    with open(path, encoding="utf-8") as f:
        blocks = answers.blocks_of(f.read())
    kept, gone = [], []
    for b in blocks:
        m = re.match(r"pub (\S+) : goal\.", answers.code_of(b))
        (gone if m and m.group(1) in names else kept).append(b)
    if not gone:
        return 0
    with open(path + ".dropped", "a", encoding="utf-8") as f:
        f.write("\n\n".join(gone) + "\n\n")
    if not any(re.match(r"pub \S+ : goal\.", answers.code_of(b)) for b in kept):
        with open(path + ".dropped", "a", encoding="utf-8") as f:
            f.write("-- and with them:\n" + "\n\n".join(kept) + "\n")
        os.remove(path)
    else:
        heads = [b for b in kept if answers.code_of(b).startswith("use ") or not answers.code_of(b).strip()]
        rest = [b for b in kept if b not in heads]
        body = "\n\n".join(rest)
        lines = []
        for h in heads:
            code = answers.code_of(h)
            comment = "\n".join(l for l in h.split("\n") if l.startswith("--"))
            if comment:
                lines.append(comment)
            uses = [l.strip() for l in re.findall(r"(?ms)^use .*?(?=^use |\Z)", code)]
            goal = [u for u in uses if u.endswith(" as goal")]
            lines += answers.used([u for u in uses if u not in goal], body) + goal
        with open(path, "w", encoding="utf-8") as f:
            f.write("\n".join(lines) + "\n\n" + body + "\n")
    return len(gone)


def main(crates):
    for c in crates:
        for _ in range(4):
            said = check(c)
            n = sum(drop(f"crates/{c}/{p}", names) for p, names in refused(said).items())
            if not n:
                break
            print(f"{c}: {n} answers dropped", flush=True)
        for l in said.split("\n"):
            if re.match(r"(statements|logic /|rt: note|checked |only=|rt: chose|\S+: note:|rt: rt )", l) or not l.strip():
                continue
            print(l[:1500])
    return 0


if __name__ == "__main__":
    raise SystemExit(main(sys.argv[1:]))
