#!/usr/bin/env python3
"""Respells, in proof files, the parts of made names that are names of functions: `as-slice-tasks` becomes
`as_slice-tasks`, as the source has them. Run once, at the top."""
import glob
import re

rust = set()
for path in glob.glob("crates/*/src/**/*.rt", recursive=True):
    text = open(path, encoding="utf-8").read()
    rust |= {w for w in re.findall(r"\b[a-z][a-z0-9]*(?:_[a-z0-9]+)+\b", re.sub(r"//[^\n]*", "", text))}
rust |= {"from_residual"}
dashed = {w.replace("_", "-"): w for w in rust}
words = sorted(dashed, key=len, reverse=True)
pattern = re.compile(r"(?<![A-Za-z0-9_])(" + "|".join(map(re.escape, words)) + r")(?![A-Za-z0-9_])")
for path in sorted(glob.glob("crates/*/proofs/**/*.antt", recursive=True)):
    if not path.endswith(("/Answers.antt", "/Choices.antt", "/Invariants.antt", "/Proof.antt")):
        continue
    old = open(path, encoding="utf-8").read()
    lines = []
    for line in old.split("\n"):
        if not line.startswith("--") and (not line.startswith("use ") or ".Goals.{" in line):
            line = pattern.sub(lambda m: dashed[m.group(1)], line)
            line = re.sub(r"(?<![A-Za-z0-9_])in-(ok|err|default)(?![A-Za-z0-9_])", r"in_\1", line)
        lines.append(line)
    new = "\n".join(lines)
    if new != old:
        open(path, "w", encoding="utf-8").write(new)
