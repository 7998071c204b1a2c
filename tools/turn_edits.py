#!/usr/bin/env python3
"""Brings the must-fail edits to the words that the files they patch have now.

usage: tools/turn_edits.py OLDER [--show] [EDIT..]      at the top of the repository

OLDER is a tree of the repository from before the words changed, with the edits as they stood then. Each edit is made to the older file; the words of
its old text are found in today's file, by setting the two files side by side, and what the new text has in common with the old one is written with
the words that stand there now. Words that the new text brings along are turned by a table that is learnt from all files of the two trees. An edit
that can't be turned so is named and left as it is. --show prints the edits and writes nothing.
"""

import collections
import difflib
import glob
import os
import re
import sys

TOKEN = re.compile(r"[\w'′″‴](?:[\w'′″‴]|-(?=\w))*|::|->|=>|\|\||&&|[=<>!]=|\+\+|\S")
PROJECTION = re.compile(r"(?<=[\w'′)\]]) (?=\.[a-z])")
PROJECTED = re.compile(r"(?<=[\w'′)])\.[a-z][\w'′-]*(?=\))")
PAIR = re.compile(r"(file|old|new): (.*)\Z")
# Words that begin no application.
NO_HEADS = ("in", "let", "then", "else", "if", "not", "when", "return", "match")
# A pattern for anything, which is no operator's place.
WORDS = {"_": "_"}
# Files that have another name now.
MOVED = {"crates/load/src/rings.rt": "src/around.rt"}


class Refused(Exception):
    pass


def read(path):
    with open(path, encoding="utf-8", newline="") as f:
        return f.read()


def tokens(text):
    """The words and signs of a text, with their places."""
    return [(it[0], it.start(), it.end()) for it in TOKEN.finditer(text)]


def atom_before(text, end):
    """Where the word or the brackets begin that end here, with the projections of them."""
    at = end
    while at > 0 and re.match(r"[\w'′.)\]-]", text[at - 1]):
        depth = 0
        while at > 0:
            at -= 1
            depth += (text[at] in ")]") - (text[at] in "([")
            if depth == 0:
                break
    return at


def tight(text):
    """Projections as they are written now: `s .edges` is `s.edges`, and `f x .edges` is `(f x).edges`."""
    at = 0
    while it := PROJECTION.search(text, at):
        end = it.start()
        front = first = atom_before(text, end)
        while front > 1 and text[front - 1] == " " and re.match(r"[\w'′)\]]", text[front - 2]):
            before = atom_before(text, front - 1)
            if text[before : front - 1] in NO_HEADS:
                break
            front = before
        if front == first:
            text = text[:end] + text[end + 1 :]
        else:
            text = text[:front] + "(" + text[front:end] + ")" + text[end + 1 :]
        at = end
    # Brackets that a projection no longer needs.
    at = 0
    while it := PROJECTED.search(text, at):
        at = it.end()
        front = atom_before(text, at)
        if front and text[front - 1] == "(" and not re.search(r"[\w'′.)]\Z", text[: front - 1]):
            text = text[: front - 1] + text[front:at] + text[at + 1 :]
            at -= 1
    return text


def norm(word):
    """What a word and its other spelling have in common."""
    word = word.replace("′", "'")
    return re.sub("[-_]", "", word).lower() if len(word) > 1 else word


def side_by_side(old, new):
    """For each token of the old text the token of the new one that stands for it, if any: first by lines, then by words."""

    def lines(toks, text):
        found, at, end = [], 0, 0
        for line in text.splitlines(keepends=True):
            end += len(line)
            first = at
            while at < len(toks) and toks[at][1] < end:
                at += 1
            if at > first:
                found.append((first, at, " ".join(norm(it[0]) for it in toks[first:at])))
        return found

    a, b = tokens(old), tokens(new)
    la, lb = lines(a, old), lines(b, new)
    pairs = [None] * len(a)
    for _, i, i2, j, j2 in difflib.SequenceMatcher(None, [it[2] for it in la], [it[2] for it in lb], False).get_opcodes():
        if i == i2 or j == j2:
            continue
        p, p2, q, q2 = la[i][0], la[i2 - 1][1], lb[j][0], lb[j2 - 1][1]
        left, right = [norm(it[0]) for it in a[p:p2]], [norm(it[0]) for it in b[q:q2]]
        for kind, m, m2, n, n2 in difflib.SequenceMatcher(None, left, right, False).get_opcodes():
            if kind == "equal" or kind == "replace" and m2 - m == n2 - n:
                for k in range(m2 - m):
                    pairs[p + m + k] = q + n + k
    return a, b, pairs


def table(older):
    """How the words of the older tree are spelt now, most often."""
    seen = collections.defaultdict(collections.Counter)
    for path in sorted(glob.glob("crates/*/s[rp]*/**/*.rt", recursive=True) + glob.glob("crates/*/s[rp]*/**/*.antt", recursive=True)):
        if os.path.exists(f"{older}/{path}"):
            a, b, pairs = side_by_side(tight(read(f"{older}/{path}")), read(path))
            for it, k in zip(a, pairs):
                if k is not None:
                    seen[it[0]][b[k][0]] += 1
    return {word: counts.most_common(1)[0][0] for word, counts in seen.items()} | WORDS


def turned_words(text, words):
    """A text that stands nowhere in the files: each word by the table."""
    return TOKEN.sub(lambda it: words.get(it[0], it[0]), text)


def span_of(text, piece):
    """Where the piece stands."""
    if text.count(piece) != 1:
        raise Refused(f"stands {text.count(piece)} times in the older file: {piece}")
    at = text.index(piece)
    return at, at + len(piece)


def turned_pair(old_file, new_file, old, new, words):
    start, end = span_of(old_file, old)
    a, b, pairs = side_by_side(old_file, new_file)
    inside = [k for k, it in enumerate(a) if it[2] > start and it[1] < end]
    if not inside:
        raise Refused("no words in its old text")
    first, last = inside[0], inside[-1]
    # Whole words on both sides.
    if pairs[first] is None or pairs[last] is None:
        raise Refused("its ends have no words that stand for them")
    left, right = old_file[a[first][1] : start] if a[first][1] < start else "", old_file[end : a[last][2]] if a[last][2] > end else ""
    old, new = left + old + right, left + new + right
    front, back = re.match(r"\s*", old)[0], re.search(r"\s*\Z", old)[0]
    p, q = b[pairs[first]][1], b[pairs[last]][2]
    if p >= q:
        raise Refused("its words stand in another order now")
    now = new_file[p:q]
    if "\n" in now:
        raise Refused("its words stand on several lines now")
    # The new text: what it shares with the old one by its place, the rest by the table.
    mine, other = tokens(old), tokens(new)
    pieces = []
    opcodes = difflib.SequenceMatcher(None, [it[0] for it in mine], [it[0] for it in other], False).get_opcodes()
    for kind, i, i2, j, j2 in opcodes:
        if j == j2:
            continue
        lead = new[other[j - 1][2] : other[j][1]] if j else new[: other[j][1]]
        if kind == "equal":
            places = [pairs[first + k] for k in range(i, i2)]
            if places[0] is None or places[-1] is None:
                raise Refused("a word of its new text has none that stands for it")
            text = new_file[b[places[0]][1] : b[places[-1]][2]]
            if "\n" in text:
                raise Refused("its words stand on several lines now")
        else:
            text = turned_words(new[other[j][1] : other[j2 - 1][2]], words)
        pieces.append(lead + text)
    made = "".join(pieces).strip()
    return front + now + back, front + made + back


def turned_edit(older, path, words):
    crate = path.split("/must-fail/")[0]
    out, name, old = [], None, None
    olds, news = {}, {}
    for line in read(f"{older}/{path}").splitlines():
        it = PAIR.match(line)
        if not it:
            out.append(line)
        elif it[1] == "file":
            name = it[2]
            today = MOVED.get(f"{crate}/{name}", name)
            olds.setdefault(name, tight(read(f"{older}/{crate}/{name}")))
            news.setdefault(name, read(f"{crate}/{today}"))
            out.append(f"file: {today}")
        elif it[1] == "old":
            old = tight(it[2])
        else:
            new = tight(it[2])
            mine, made = turned_pair(olds[name], news[name], old, new, words)
            start, end = span_of(olds[name], old)
            olds[name] = olds[name][:start] + new + olds[name][end:]
            if news[name].count(mine) != 1:
                raise Refused(f"stands {news[name].count(mine)} times in today's file: {mine}")
            if mine == made:
                raise Refused("its two texts are the same now")
            news[name] = news[name].replace(mine, made)
            out += [f"old: {mine}", f"new: {made}"]
    return "\n".join(out) + "\n"


def main():
    args = [it for it in sys.argv[1:] if it != "--show"]
    older, some = args[0], args[1:]
    words = table(older)
    done = 0
    for path in some or sorted(glob.glob("crates/*/must-fail/*.edit")):
        try:
            text = turned_edit(older, path, words)
        except Refused as it:
            print(f"{path}: {it}")
            continue
        done += 1
        if "--show" in sys.argv:
            print(f"== {path}\n{text}", end="")
        else:
            with open(path, "w", encoding="utf-8", newline="") as f:
                f.write(text)
    print(f"{done} edits turned")


if __name__ == "__main__":
    main()
