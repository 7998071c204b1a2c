#!/usr/bin/env python3
"""Brings the repository's own names of specs/ and proofs/ to snake case: someBelow and all-kept become some_below and all_kept.

usage: tools/respell.py [--list]      at the top of the repository

Definitions, lemmas, fields and local names turn, wherever they stand as whole words: in the .antt files, in the contracts and `ghost use` lines
of the .rt files, in comments, and in code spans of the pages. Types, modules and variants keep their camel case, and functions of src/ keep their
names. Names that a library gives stay as the library spells them, and so do names that Rattle makes of a function's code. Where a lemma and a
definition would get one name, the lemma's ends in _law. --list prints the table and changes nothing. A second run changes nothing.
"""

import glob
import os
import re
import sys

WORD = re.compile(r"[^\s(){}.;,@\"«»\[\]`|:]+")
NAME = re.compile(r"[a-z][\w'₀-₉-]*\Z")
QUIET = re.compile(r'"(?:[^"\\\n]|\\.)*"|--[^\n]*|//[^\n]*')
MADE = r"(?:Tie|Goals|Given|Statement|Lts|Code)\Z"
# A constructor of Call and a definition of edit would get one name.
CALLS = {"load-text": "LoadText", "put-in": "PutIn", "run": "RunEdge", "take-out-edge": "TakeOutEdge", "take-out-vertex": "TakeOutVertex"}
OTHERS = {**CALLS, "next-P": "next_at_p", "next-Q": "next_at_q", "edge-column": "edge_column"}
# A constructor, in the one crate where no definition has its name.
NO_LAWS = ("crates/examples/", "refused_line_law", "refused_line")
# Lemmas that begin with a capital.
LEMMAS = {"P-below": "p_is_below", "Q-below": "q_is_below", "P-vertex": "p_vertex", "Q-vertex": "q_vertex", "Rising-none": "rising_none"}
# Rattle makes a module specs.contracts of its own.
MOVED = ("Contracts", "Inner")
# Lemmas that have the snake case already, in files that cite the definition, still in camel case, which gets it now.
LAWS = {
    "crates/layout/proofs/Decimals.antt": {"digit_at": "digitAt"},
    "crates/load/proofs/Walking.antt": {"linked_on": "linkedOn"},
    "crates/replay/proofs/Parts.antt": {"pair_put": "pairPut"},
}


def read(path):
    with open(path, encoding="utf-8", newline="") as f:
        return f.read()


def crates():
    return sorted(c for c in os.listdir("crates") if os.path.isdir(f"crates/{c}/src"))


def snake(name):
    return re.sub(r"(?<=[a-z0-9])(?=[A-Z])", "_", name).replace("-", "_").lower()


def lemma_files():
    """The files that hold definitions and lemmas, not the proof of one function."""
    return sorted(glob.glob("crates/*/specs/**/*.antt", recursive=True) + glob.glob("crates/*/proofs/*.antt"))


def proof_files():
    return sorted(set(glob.glob("crates/*/proofs/**/*.antt", recursive=True)) - set(lemma_files()))


def sources():
    return sorted(glob.glob("crates/*/src/**/*.rt", recursive=True))


def pages():
    return sorted(["README.md"] + [it for it in glob.glob("**/*.md", recursive=True) if it != "README.md"])


def bare(text):
    """The text with strings and comments blanked."""
    return QUIET.sub(lambda it: " " * len(it[0]), text)


def library():
    """Names that files import from other modules than the repository's."""
    mine = re.compile(r"Rattle\.(?:%s)\." % "|".join(crates()))
    found = set()
    for path in lemma_files() + proof_files() + sources():
        for module, names in re.findall(r"(?m)^(?:pub |ghost )?use (\S+?)\.\{([^}]*)\}", read(path)):
            if not mine.match(module):
                found.update(it.split(" as ")[0].strip() for it in names.split(","))
    return found


def is_behind_a_dot(text, at):
    """Whether the word at this place is a field or stands in a path: a λ's dot has a space or a bracket behind it."""
    return at > 1 and text[at - 1] == "." and not text[at - 2].isspace()


def table():
    words, fields, made = set(), set(), set()
    for path in lemma_files():
        text = bare(read(path))
        fields.update(re.findall(r"(?m)^ +pub ([^\s:(){}]+) :", text))
        words.update(it[0] for it in WORD.finditer(text) if NAME.match(it[0]) and not is_behind_a_dot(text, it.start()))
    for path in proof_files():
        text = bare(read(path))
        words.update(re.findall(r"\blet ([a-z][\w'₀-₉-]*) [:=]", text))
        made.update(re.findall(r"(?m)^(?:abbrev )?(?:pub )?(\S+) : tie\.", text))
        made.update(re.sub("^Need-", "", it) for it in re.findall(r"tie\.([^\s(){}]+)", text))
    names = {it: snake(it) for it in words if snake(it) != it and it not in library() | made}
    camel = {snake(it) for it in words | {"edgeOf", "endAt"} if re.search("[A-Z]", it) and "-" not in it}
    for it in names:
        if it in OTHERS:
            names[it] = OTHERS[it]
        elif "-" in it and names[it] in camel:
            names[it] += "_law"
    return names, {it for it in fields if it in names}


def types():
    """Types of ours whose name has dashes: Sound-Law becomes SoundLaw, and Load-Answered, beside a LoadAnswered, LoadAnsweredLaw."""
    words = {it for path in lemma_files() for it in WORD.findall(bare(read(path)))}
    out = {it: new for it, new in LEMMAS.items() if it in words}
    for it in words:
        if re.match(r"[A-Z][A-Za-z]*(?:-[A-Z][A-Za-z]*)+\Z", it) and not it.startswith("Need-"):
            new = it.replace("-", "")
            out[it] = new + "Law" if new in words else new
    return out


def turned_types(text, names):
    return WORD.sub(lambda it: names.get(it[0], it[0]), text)


def turned_fields(text, fields):
    """Fields that stand in snake case where they are declared, and with dashes where they are read."""

    def one(it):
        word = it[0]
        if "-" not in word or not NAME.match(word) or snake(word) not in fields or word in fields or not is_behind_a_dot(text, it.start()):
            return word
        return snake(word)

    return WORD.sub(one, text)


def turned(text, names, fields):
    quiet = [(it.start(), it.end()) for it in QUIET.finditer(text)]
    aliases = {alias for path, alias in re.findall(r"(?m)^(?:pub )?use (Rattle\.\S+) as (\S+)", text) if not re.search(MADE, path)}
    calls = re.search(r"(?m)^use \S+\.Calls\.Call\.\{|^pub data Call ", text)

    def one(it):
        word, at = it[0], it.start()
        if word == "run" and calls and not is_behind_a_dot(text, at) and not any(a <= at < b for a, b in quiet):
            return CALLS[word]
        if word not in names:
            return word
        span = next(((a, b) for a, b in quiet if a <= at < b), None)
        if span:
            in_a_span = text[: at].rfind("`", span[0]) >= 0 and text.count("`", span[0], at) % 2 == 1
            is_camel = bool(re.search("[A-Z]", word))
            return names[word] if text[span[0]] != '"' and (in_a_span or is_camel) else word
        if is_behind_a_dot(text, at):
            head = re.search(r"([\w.]+)\.\Z", text[max(0, at - 120) : at])
            if word not in fields and not (head and (head[1] in aliases or head[1].startswith("Rattle."))):
                return word
        return names[word]

    return WORD.sub(one, text)


def turned_page(text, names, declared):
    """Names in code spans: those of the table, and those that stand in snake case in the code already."""

    def one(it):
        word = it[0]
        return names.get(word, snake(word) if NAME.match(word) and snake(word) in declared else word)

    def span(it):
        return WORD.sub(one, it[0])

    return re.sub(r"`[^`\n]+`", span, text)


def write(path, old, new):
    if old != new:
        with open(path, "w", encoding="utf-8", newline="") as f:
            f.write(new)


def move():
    """The definitions that inner contracts speak of get another module name."""
    old, new = MOVED
    paths = [f"Rattle.{c}.specs." for c in crates() if os.path.exists(f"crates/{c}/specs/{old}.antt")]
    at = re.compile("(" + "|".join(map(re.escape, paths)) + rf"){old}(?![\w'-])") if paths else None
    for path in (lemma_files() + proof_files() + sources()) if at else []:
        text = read(path)
        write(path, text, at.sub(rf"\g<1>{new}", text))
    for c in crates():
        if os.path.exists(f"crates/{c}/specs/{old}.antt"):
            os.rename(f"crates/{c}/specs/{old}.antt", f"crates/{c}/specs/{new}.antt")
            path = f"crates/{c}/specs/Lib.antt"
            text = read(path)
            write(path, text, re.sub(rf"(?m)^((?:pub )?mod ){old}$", rf"\g<1>{new}", text))


def main():
    names, fields = table()
    if "--list" in sys.argv:
        for it in sorted(names):
            print(f"{it}\t{names[it]}" + ("\tfield" if it in fields else ""))
        return
    capitals = types()
    for path in lemma_files() + proof_files() + sources() + pages() + sorted(glob.glob("crates/*/must-fail/*.edit")):
        old = read(path)
        write(path, old, turned_types(old, capitals))
    for path in lemma_files() + proof_files() + sources() if names else []:
        old = text = read(path)
        for it, definition in LAWS.get(path, {}).items():
            if re.search(rf"\b{definition}\b", text):
                text = re.sub(rf"(?<![\w-]){it}(?![\w'-])", it + "_law", text)
        text = turned(text, names, fields)
        if path.startswith(NO_LAWS[0]):
            text = text.replace(NO_LAWS[1], NO_LAWS[2])
        write(path, old, text)
    declared = {it for path in lemma_files() for it in WORD.findall(bare(read(path)))}
    for path in pages() if names else []:
        old = read(path)
        write(path, old, turned_page(old, names, declared))
    declared = {it for path in lemma_files() for it in re.findall(r"(?m)^ +(?:pub )?([^\s:(){}]+) :", bare(read(path)))}
    for path in lemma_files():
        old = read(path)
        write(path, old, turned_fields(old, declared))
    move()


if __name__ == "__main__":
    main()
