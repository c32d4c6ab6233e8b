#!/usr/bin/env python3
"""Brings the repository's own ghost names to the spelling of today's Rattle: definitions, fields and constructors in snake case, facts in
upper camel case, and in a lemma's name a dash only between two names of definitions.

usage: python3 tools/respell.py [--dry]     at the top of the repository, once, after the kit's port.py

It renames words of specs/, proofs/, of the ghost parts of src/, of must-fail/ and of the pages. Functions of src/, strings, inputs and
outputs keep their names. With --dry it changes nothing, and prints the names that fall together.
"""

import collections
import os
import re
import sys

WORD = re.compile(r"[^\s(){}\[\],;.|\"`λ:]+")
SIGNATURE = re.compile(r"^[ \t]*(?:(?:pub|unfoldable|abbrev|let)\s+)*((?:[^\s(){}\[\],;.|\"`λ:=]+[ \t]+)+):(?!=)", re.M)
SPEC = re.compile(r"^(?:(?:pub|unfoldable|abbrev)\s+)+([a-z][^\s:]*)\s+:(.*(?:\n[ \t]+.*)*)", re.M)
NEED = re.compile(r"^(?:pub )?(\S+)\s+:[^\n]*\.Need-", re.M)
CAMEL = re.compile(r"^[a-z][\w']*$")
DASHED = re.compile(r"^[\w'ℕ]+(?:-[\w'ℕ]+)+$")
USE = re.compile(r"use\s+([^\s{};]+?)\.\{([^}]*)\}")
# Names that would fall together with another one; each with what it becomes.
OTHERWISE = {"setOut": "setting_out", "oneMore": "one_more_note", "at-start": "at_start_lem"}
# The same of names that another folder has as well: the folder, the name and what it becomes there.
ONLY_IN = [
    ("crates/morning/proofs/", "row_put", "row_put_lem"),
    ("crates/positions/proofs/", "list_at", "list_at_lem"),
    ("crates/ring/proofs/", "going_on", "going_on_lem"),
    ("crates/onelock/proofs/State/", "count_left", "count_left_lem"),
]
# Words of the library that a lemma's name begins or goes on with.
LIBRARY = set("length append take drop map replicate get_or set sets reverse sum cons insert remove cond not eqb ltb leb min max".split())


def files(root, *endings):
    for folder, dirs, names in os.walk(root):
        dirs[:] = sorted(d for d in dirs if d not in ("out", ".git", "target", "tools"))
        for name in sorted(names):
            path = os.path.join(folder, name)
            if name.endswith(endings) and not os.path.islink(path):
                yield path


def read(path):
    with open(path, encoding="utf-8") as f:
        return f.read()


def bare(text):
    return re.sub(r"--[^\n]*", "", text)


def in_function(path):
    """Whether the file is part of the proof of a function: in a folder with a Proof.antt."""
    return os.path.exists(os.path.join(os.path.dirname(path), "Proof.antt"))


def snake(word):
    return re.sub(r"(?<=[a-z0-9'])([A-Z]+)", lambda m: "_" + m.group(1).lower(), word)


def has_camel(word):
    return bool(CAMEL.match(word) and re.search(r"[a-z0-9][A-Z]", word))


def own(path):
    return path.startswith("Rattle.") and not re.match(r"Rattle\.(std|core|io|libc|os|check)\b", path)


def survey(root):
    """The definitions of specs/, the names that some file declares, and the facts, which are types."""
    defined, declared, facts, seen = set(), set(), set(), collections.defaultdict(set)
    for path in files(os.path.join(root, "crates"), ".antt"):
        text = bare(read(path))
        needs = set(NEED.findall(text)) if in_function(path) else set()
        for m in SIGNATURE.finditer(text):
            declared |= set(m.group(1).split()) - needs
        for word in WORD.findall(text):
            seen[word].add(path)
        if "/specs/" in path:
            for m in SPEC.finditer(text):
                defined.add(m.group(1))
                if re.search(r"(?:→|:)?\s*Type 0\s*$", m.group(2).strip()):
                    facts.add(m.group(1))
    return defined, declared, facts, seen


def dashes(word, known):
    """A dash stays where a known name ends and another one begins; else it becomes an underscore."""
    parts = [snake(p) for p in word.split("-")]
    if parts[-1] == "spec":
        return "_".join(parts)
    starts = []
    for i in range(len(parts)):
        starts.append(any("_".join(parts[i:j]) in known for j in range(i + 1, len(parts) + 1)))
    out, begins = parts[0], starts[0]
    for i in range(1, len(parts)):
        if begins and starts[i]:
            out += "-" + parts[i]
        else:
            out += "_" + parts[i]
            begins = begins or False
    return out


def renaming(root):
    """Each word's new form, and that of the crate settled, whose names are those of the functions that it speaks of: elsewhere a lemma that would
    have its function's name gets _lem."""
    defined, declared, facts, seen = survey(root)
    known = {snake(d) for d in defined if not re.search(r"-", d)} | LIBRARY
    new = {}
    for word in seen:
        if has_camel(word):
            new[word] = word[0].upper() + word[1:] if word in facts else snake(word)
    definitions = set(new.values()) | {d for d in defined if "-" not in d}
    dashed = {}
    for word in seen:
        if DASHED.match(word) and word in declared and not word[0].isupper():
            to = dashes(word, known)
            dashed[word] = to + "_lem" if to in definitions else to
    new.update(dashed)
    new.update(OTHERWISE)
    inside = {p for ps in seen.values() for p in ps if "crates/settled/" in p}
    there = {new[w] for w in new if has_camel(w) and seen[w] & inside}
    settled = dict(new)
    for path in inside:
        text = bare(read(path))
        for m in re.finditer(r"\bas ([\w'-]+)|^\s*pub ([\w'-]+) :|^  *([\w'-]+) = |^([\w'-]+) :", text, re.M):
            word = next(g for g in m.groups() if g)
            if "-" in word:
                to = dashes(word, set())
                settled[word] = to + "_lem" if to in there else to
    return {w: t for w, t in new.items() if w != t}, {w: t for w, t in settled.items() if w != t}, seen, facts


def here(path, new, settled):
    path = os.path.relpath(path, ".")
    out = dict(settled if path.startswith("crates/settled/") else new)
    for folder, word, to in ONLY_IN:
        if path.startswith(folder):
            out[word] = to
    return out


def captures(root, every, settled):
    """Files in which a word that stays is one that another becomes."""
    for path in files(os.path.join(root, "crates"), ".antt", ".rt"):
        text = bare(read(path))
        new = here(path, every, settled)
        skip = taken(text)
        stays, comes = set(), {}
        for m in WORD.finditer(text):
            word = m.group(0)
            if m.start() and text[m.start() - 1] == "." or text[m.end() : m.end() + 1] == "." and not re.match(r"\.\s", text[m.end() : m.end() + 2]):
                continue
            if word in new and word not in skip:
                comes.setdefault(new[word], set()).add(word)
            else:
                stays.add(word)
        for to, words in comes.items():
            if to in stays or len(words) > 1:
                yield path, to, words


def taken(text):
    """The names that a file takes from a library."""
    out = set()
    for m in USE.finditer(text):
        if not own(m.group(1)):
            out |= {n.strip().split(" as ")[-1].strip() for n in m.group(2).split(",")} | {n.strip().split(" as ")[0].strip() for n in m.group(2).split(",")}
    return out


def respell(text, new, skip, dotted):
    """The text with each whole word renamed; where dotted is False a dashed word behind a dot stays, since it is Rattle's."""

    def to(m):
        word = m.group(0)
        if word not in new or word in skip:
            return word
        if not dotted and "-" in word and m.start() and text[m.start() - 1] == ".":
            return word
        return new[word]

    return WORD.sub(to, text)


def respell_antt(text, new, skip, dotted):
    """A file of antt: in comments camel case alone, and dashed words between backticks."""
    parts = re.split(r"(--[^\n]*)", text)
    return "".join(respell_page(p, new, skip) if i % 2 else respell(p, new, skip, dotted) for i, p in enumerate(parts))


def respell_page(text, new, skip):
    short = {k: v for k, v in new.items() if has_camel(k)}
    parts = re.split(r"(`[^`\n]+`)", text)
    return "".join(respell(p, new, skip, True) if i % 2 else respell(p, short, skip, True) for i, p in enumerate(parts))


def respell_source(text, new, skip):
    """A source file: camel case alone, and nothing in a string."""
    short = {k: v for k, v in new.items() if has_camel(k)}
    parts = re.split(r'(b?"(?:[^"\\\n]|\\.)*")', text)
    return "".join(p if i % 2 else respell(p, short, skip, True) for i, p in enumerate(parts))


def main(argv):
    root = "."
    new, settled, seen, facts = renaming(root)
    came = collections.defaultdict(list)
    for word, to in new.items():
        came[to].append(word)
    for to, words in sorted(came.items()):
        if len(words) > 1 or (to in seen and to not in new):
            print("together:", to, "from", ", ".join(words), "| stands already in", len(seen.get(to, ())), "files", sorted(seen.get(to, ()))[:3], "and", [sorted(seen[w])[:2] for w in words])
    for path, to, words in captures(root, new, settled):
        print("captured:", path, to, words)
    print("facts:", sorted(f for f in facts if has_camel(f) or f[0].islower()))
    print(len(new), "names")
    if "--dry" in argv:
        return 0
    for path in files(root, ".antt", ".rt", ".edit", ".md"):
        text = read(path)
        skip = taken(text)
        if path.endswith((".rt", ".edit")):
            out = respell_source(text, here(path, new, settled), skip)
        elif path.endswith(".md"):
            out = respell_page(text, here(path, new, settled), skip)
        else:
            out = respell_antt(text, here(path, new, settled), skip, not in_function(path))
        if out != text:
            with open(path, "w", encoding="utf-8") as f:
                f.write(out)
    return 0


if __name__ == "__main__":
    raise SystemExit(main(sys.argv[1:]))
