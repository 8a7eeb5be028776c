#!/usr/bin/env python3
"""Brings the repository's own definitions and lemmas to snake case: `row-count` becomes `row_count`, `sumTo` becomes
`sum_to`, and a prime becomes an apostrophe. Names of the library, names that Rattle makes for a proof's goals, names of
types and modules, functions of src/, strings and comments stay as they are. Run once, at the top: tools/snake_case.py
With --dry it writes nothing and lists what it would do."""
import glob
import re
import sys

NAME = r"[^\s(){}\[\],;.:«»λ\"`@|]+"
TOKEN = re.compile(r"(?<![^\s(){}\[\],;.:«»λ\"`@|])" + NAME)
# Where the plain rule gives a name that something else has, or none that reads well.
CHOSEN = {
    "printed-++": "printed_append",
}


def own_files():
    found = []
    for part in ("specs", "proofs"):
        found += glob.glob(f"crates/*/{part}/**/*.antt", recursive=True)
    return sorted(found)


def is_goal_file(path):
    return path.endswith(("/Answers.antt", "/Choices.antt", "/Invariants.antt", "/Proof.antt")) and "/proofs/" in path


def blocks(text):
    """The text in pieces: (is code, piece). Comments (-- and //) and strings are no code."""
    at = 0
    for m in re.finditer(r"--(?=\s|$)[^\n]*|//[^\n]*|\"(?:[^\"\\\n]|\\.)*\"", text):
        yield True, text[at : m.start()]
        yield False, m.group(0)
        at = m.end()
    yield True, text[at:]


def code(text):
    return "".join(piece if is_code else " " * len(piece) for is_code, piece in blocks(text))


def library_names(text):
    names = set()
    for m in re.finditer(r"use Rattle\.std\.[\w.◌'-]*\.\{([^}]*)\}", text):
        names |= {n.strip().split(" as ")[-1].strip() for n in m.group(1).split(",")}
    return names


def snake(name):
    if name in CHOSEN:
        return CHOSEN[name]
    name = name.replace("′", "'").replace("-", "_")
    if not name[:1].isupper():
        name = re.sub(r"([a-z])([A-Z])(?=[a-z_']|$)", lambda m: m.group(1) + "_" + m.group(2).lower(), name)
    return name


def defined(path):
    """The names that a file gives: heads of definitions, fields, constructors, names of let and λ with a type."""
    text = code(open(path, encoding="utf-8").read())
    library = library_names(text)
    for m in re.finditer(r"(?:^|[\s({,])(" + NAME + r")((?: " + NAME + r")*)\s:\s", text):
        for n in [m.group(1)] + m.group(2).split():
            if n not in library:
                yield n
    for m in re.finditer(r"(?:\blet|\bin|;)\s+(" + NAME + r")\s+=\s", text):
        if m.group(1) not in library:
            yield m.group(1)
    for m in re.finditer(r"λ((?: " + NAME + r")+)\.", text):
        yield from m.group(1).split()


# Names that a pattern binds.
BOUND = {"is-after", "is-answer", "over-low", "over-mid", "no-ticks", "one-bound", "one-offset"}
MADE = re.compile(
    r"^(loop|invariant|returns|decreases|overflow|rounds|the|iff|case|index|div|if|cast|drop|assert)-"
    r"|-(requires|init|preserved|smaller|spec)(-|$)"
)


def table():
    names = {n: set() for n in BOUND}
    for path in own_files():
        for n in defined(path):
            if snake(n) == n or not re.match(r"[a-zA-Z]", n):
                continue
            if is_goal_file(path) and MADE.search(n):
                continue
            names.setdefault(n, set()).add(path)
    return names


def turned(text, names):
    library = library_names(code(text))
    out = []
    for is_code, piece in blocks(text):
        if is_code:
            piece = TOKEN.sub(
                lambda m: snake(m.group(0)) if m.group(0) in names and m.group(0) not in library else m.group(0), piece
            )
        out.append(piece)
    return "".join(out)


def main(argv):
    names = table()
    files = own_files() + sorted(glob.glob("crates/*/src/**/*.rt", recursive=True))
    edits = sorted(glob.glob("crates/*/must-fail/*.edit"))
    # Names that fall together: the new name stands already in a file where the old one is turned.
    for path in files:
        text = code(open(path, encoding="utf-8").read())
        tokens = set(TOKEN.findall(text))
        library = library_names(text)
        news = {}
        for n in tokens & set(names) - library:
            if snake(n) in tokens:
                print(f"falls together: {path}: {n} and {snake(n)}")
            news.setdefault(snake(n), []).append(n)
        for k, v in news.items():
            if len(v) > 1:
                print(f"falls together: {path}: {v} become {k}")
    if "--dry" in argv:
        for n in sorted(names):
            print(f"{n} -> {snake(n)}")
        left = {}
        for path in files:
            text = code(open(path, encoding="utf-8").read())
            for t in set(TOKEN.findall(text)) - library_names(text) - set(names):
                if re.search(r"[a-zA-Z]-[a-zA-Z]|′", t):
                    left.setdefault(t, []).append(path)
        for t in sorted(left):
            print(f"stays: {t}: {left[t][:3]}")
        return 0
    for path in files + edits:
        with open(path, encoding="utf-8") as f:
            old = f.read()
        new = turned(old, names)
        if new != old:
            with open(path, "w", encoding="utf-8") as f:
                f.write(new)
    return 0


if __name__ == "__main__":
    raise SystemExit(main(sys.argv[1:]))
