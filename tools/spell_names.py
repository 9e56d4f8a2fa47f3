#!/usr/bin/env python3
"""Spells the names that the specs and proofs of this repository declare as today's Rattle does: words in snake case,
types in camel case. Run once, at the top, right after the kit's port.py.

A name stays where Rattle made it (the first name behind goal, c, g, l and w in an answer file), in strings, and in
comments but for code spans. Names that would fall together with one of src/ or std, or with another of ours, are listed
in OTHERS with the name they get instead.
"""

import glob
import re

OTHERS = {
    "bad-byte": "first_bad_byte",
    "bit-and": "bit_of_and",
    "bit-or": "bit_of_or",
    "columns-end": "columns_past",
    "entry-ok": "is_entry_ok",
    "groups-between": "groups_between_of",
    "groups-watched": "groups_watched_of",
    "hex-digit": "hex_digit_of",
    "lapsed-groups": "lapsed_groups_of",
    "layer-word": "word_of_layer",
    "new-groups": "new_groups_of",
    "note-place": "place_of_note",
    "read-is-written": "what_is_read_is_written",
    "some-held": "some_are_held",
    "with-body": "with_a_body",
    "written-is-read": "what_is_written_is_read",
}
DECLARATION = re.compile(
    r"\s*(?:(?:abbrev|unfoldable|pub|record|data|opaque)\s+)*([^\s(){}:.;,=λ@«»]+)\s*(?:\([^)]*\)\s*|\{[^}]*\}\s*)*:\s"
)
LET = re.compile(r"\blet\s+([^\s(){}:.;,=λ@«»]+)\s*[:=]")
QUIET = {
    ".antt": re.compile(r'"(?:[^"\\\n]|\\.)*"|(?<![^\s(){}.;,@"«»])--[^\n]*'),
    ".rt": re.compile(r'//[^\n]*|b?"(?:[^"\\]|\\.)*"|b?\'(?:\\.|[^\'\\])\''),
}
WORD = re.compile(r'[^\s(){}.;,@"«»]+')
SPAN = re.compile(r"`[^`\n]+`")
ANSWERS = re.compile(r"/proofs/.+/(?:Answers|Invariants|Given|Goals)\.antt$")
MADE = re.compile(r"(?:^|[^\w'.-])(?:goal|c|g|l|w)\.$")


def files():
    for kind in ("specs/**/*.antt", "proofs/**/*.antt", "src/**/*.rt"):
        yield from sorted(glob.glob("crates/*/" + kind, recursive=True))


def declared(path, text):
    for line in text.splitlines():
        if line.strip().startswith("--"):
            continue
        m = DECLARATION.match(line)
        if m and not re.search(r":\s+goal\.", line):
            yield m[1]
        yield from LET.findall(line)


def spelled(name):
    if name in OTHERS:
        return OTHERS[name]
    if name[0].isupper():
        return "".join(w[:1].upper() + w[1:] for w in name.split("-"))
    return name.replace("-", "_")


def words(text, table, kept, labels):
    def one(m):
        w = m[0]
        bare = w.rstrip("'")
        if bare not in table or bare in kept:
            return w
        if labels and MADE.search(text[: m.start()][-8:]):
            return w
        return table[bare] + w[len(bare) :]

    return WORD.sub(one, text)


def turned(path, text, table):
    labels = bool(ANSWERS.search(path))
    kept = set(re.findall(r"(?m)^\s*(?:abbrev\s+)?(?:pub\s+)?(\S+)\s*:\s*goal\.", text)) if labels else set()
    out, at = [], 0
    for m in QUIET[path[path.rindex(".") :]].finditer(text):
        out.append(words(text[at : m.start()], table, kept, labels))
        out.append(SPAN.sub(lambda s: "`" + words(s[0][1:-1], table, kept, labels) + "`", m[0]))
        at = m.end()
    out.append(words(text[at:], table, kept, labels))
    return "".join(out)


def main():
    texts = {}
    for path in files():
        with open(path, encoding="utf-8") as f:
            texts[path] = f.read()
    names = set()
    for path, text in texts.items():
        if path.endswith(".antt"):
            names.update(declared(path, text))
    table = {n: spelled(n) for n in names if re.fullmatch(r"[^\W\d][\w']*(?:-[\w']+)+", n)}
    turned_names = {}
    for old, new in sorted(table.items()):
        turned_names.setdefault(new, []).append(old)
    for new, olds in turned_names.items():
        if len(olds) > 1:
            print("fall together:", new, olds)
    for path, text in texts.items():
        new = turned(path, text, table)
        if new != text:
            with open(path, "w", encoding="utf-8") as f:
                f.write(new)
    print(len(table), "names spelled anew")


main()
