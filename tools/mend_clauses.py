#!/usr/bin/env python3
"""Writes the clauses that a check asks for, `write the clause ..`, behind the last clause of their function.

usage: rt check 2>&1 | python3 ../../tools/mend_clauses.py    in a crate's folder
"""
import re
import sys

said = sys.stdin.read()
todo = {}
for m in re.finditer(r"(?m)^\./(\S+\.antt):(\d+):\d+: error: `([^`]+)`: write the clause `([^`]+)`(.*)$", said):
    clauses = [m.group(4)] + re.findall(r"`([^`]+ = [^`]+)`", m.group(5))
    todo.setdefault(m.group(1), []).append((int(m.group(2)), clauses))
for path, places in todo.items():
    with open(path, encoding="utf-8") as f:
        lines = f.read().split("\n")
    for at, clauses in sorted(places, reverse=True):
        name = clauses[0].split()[0]
        # The last clause of that name at or behind the place, in the block that the place stands in.
        depth = None
        last = None
        for i in range(at - 1, len(lines)):
            l = lines[i]
            m = re.match(rf"( *){re.escape(name)}(?= )", l)
            if m and " : " not in l.split("=")[0][: len(m.group(0)) + 4]:
                if depth is None:
                    depth = len(m.group(1))
                if len(m.group(1)) == depth:
                    last = i
            elif last is not None and l.strip() and len(l) - len(l.lstrip()) <= depth:
                break
        if last is None:
            for i in range(at - 1, max(0, at - 30), -1):
                m = re.match(rf"( *)(?:pub )?{re.escape(name)}(?= :| )", lines[i])
                if m:
                    depth, last = len(m.group(1)), i
                    break
        if last is None:
            print(f"no place: {path}:{at} {clauses}")
            continue
        end = last + 1
        while end < len(lines) and lines[end].strip() and len(lines[end]) - len(lines[end].lstrip()) > depth:
            end += 1
        lines[end:end] = [" " * depth + c for c in clauses]
        print(f"{path}:{end + 1}: {clauses}")
    with open(path, "w", encoding="utf-8") as f:
        f.write("\n".join(lines))
