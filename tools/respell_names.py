#!/usr/bin/env python3
"""Gives the definitions and lemmas of this repository today's spelling of Rattle: words in snake case, types in camel case.

usage: tools/respell_names.py [--list]      at the top of the repository, once, after the toolchain's own port script

What turns is each name with a dash that an .antt file of crates/ declares or binds, and no library's: a type (a record, or what is signed as a Type) from
Has-step to HasStep, every other name from has-step to has_step. It turns in .antt files, in clauses and `ghost use` lines of .rt
files, in must-fail edits, and in the code spans of README, CONTRIBUTING and docs/. Rust names, strings, labels that Rattle makes
(behind `goal.`), inputs and outputs stay. Comments turn where the name is no word of prose. --list prints the table and what
falls together, and writes nothing.
"""

import collections
import os
import re
import sys

NAME = r"[^\s(){}.;,@\"«»`]+"
DECLARED = re.compile(
    r"^( *)((?:(?:abbrev|unfoldable|pub|private|opaque|record|data|module|field|constructor|ofe|\|) )*)"
    rf"({NAME}(?: {NAME})*?)((?:\s*[({{][^(){{}}]*(?:\([^()]*\)[^(){{}}]*)*[)}}])*)\s*:(?= |$)(.*)$"
)
# A word with a dash that is bound in a proof (a let, a binder, a pattern): it turns as the declared names do.
LOCAL = re.compile(r"(?<![^\s(){}.;,@\"«»`])[a-zα-ω][^\s(){}.;,@\"«»`:]*-[^\s(){}.;,@\"«»`:]*(?![^\s(){}.;,@\"«»`])")
USE = re.compile(r"^\s*(?:pub |ghost )*use ([^\s;{]+?)(?:\.\{([^}]*)\}| as \S+)?;?\s*$")
WORD = re.compile(NAME)
# Prose that is spelled like a name of a definition: in a comment these stay.
PROSE = set(
    "all-in call-site first-last in-edge in-edges in-list one-line out-edge out-edges must-fail well-formed last-slot".split()
)


def files(top, *ends):
    for root, folders, names in os.walk(top):
        folders[:] = sorted(f for f in folders if f not in ("out", "target", "data", "__pycache__"))
        for name in sorted(names):
            if name.endswith(ends):
                yield os.path.join(root, name)


def read(path):
    with open(path, encoding="utf-8") as f:
        return f.read()


def code_of(line):
    """Where the comment of an antt line begins."""
    m = re.search(r"(?:^|\s)--(?=\s|$)", line)
    return m.start() if m else len(line)


def own_crates():
    return set(os.listdir("crates"))


def code_lines(path):
    return [line[: code_of(line)] for line in read(path).split("\n")]


def is_function_proof(path):
    return os.path.basename(path) in ("Proof.antt", "Answers.antt", "Invariants.antt")


def declared():
    """Each name with a dash that the crates declare or bind, and whether it is a type; no name that a library has."""
    found, bound, lent = {}, set(), set()
    own = own_crates()
    for path in files("crates", ".antt"):
        lines = code_lines(path)
        for k, line in enumerate(lines):
            use = USE.match(line)
            if use:
                parts = use.group(1).split(".")
                if parts[0] != "Rattle" or parts[1] not in own:
                    lent |= {w.split()[0] for w in (use.group(2) or "").split(",") if w.strip()}
                continue
            if is_function_proof(path):
                continue
            # Behind a dot alone stands a library's name, as in Mem.not-nil.
            bound |= {m.group(0) for m in LOCAL.finditer(line) if line[: m.start()][-1:] != "."}
            m = DECLARED.match(line)
            if not m or "module" in m.group(2).split():
                continue
            kinds, names, sig = m.group(2).split(), m.group(3).split(), m.group(5)
            for after in lines[k + 1 :]:
                if not after.startswith(m.group(1) + " ") or not after.strip():
                    break
                sig += " " + after.strip()
            sig = re.split(r"\swhere(?:\s|$)", sig)[0]
            is_type = bool({"record", "data"} & set(kinds)) or bool(re.search(r"(?:^|\s)Type \d+\s*$", sig))
            for name in names:
                if "-" in name.strip("-") and re.match(r"[A-Za-zΑ-ω]", name):
                    found[name] = found.get(name, False) or is_type
    for name in bound - lent:
        found.setdefault(name, False)
    for name in sorted(lent & set(found)):
        print(f"look: {name} is a library's name too, and stays")
        del found[name]
    return found


def spelled(name, is_type):
    if is_type and not name.isupper():
        return "".join(part[:1].upper() + part[1:] for part in name.split("-"))
    return name.replace("-", "_")


def turn_code(text, table):
    """Every word that is a name, but for quoted text and what stands behind `goal.`."""
    out, at = [], 0
    for m in re.finditer(r'"(?:[^"\\\n]|\\.)*"|' + NAME, text):
        out.append(text[at : m.start()])
        w = m.group(0)
        behind = text[max(0, m.start() - 5) : m.start()]
        out.append(w if w.startswith('"') or behind == "goal." else table.get(w, w))
        at = m.end()
    return "".join(out) + text[at:]


def turn_comment(text, table):
    parts = re.split(r"(`[^`\n]+`)", text)
    for i, part in enumerate(parts):
        if i % 2:
            parts[i] = turn_code_words(part, table)
        else:
            parts[i] = WORD.sub(lambda m: m.group(0) if m.group(0) in PROSE else turn_prose_word(m.group(0), table), part)
    return "".join(parts)


def turn_prose_word(word, table):
    m = re.fullmatch(r"([\[|/:'’]*)(.*?)([\]|/:'’?!]*)", word)
    return m.group(1) + table.get(m.group(2), m.group(2)) + m.group(3) if m.group(2) else word


def turn_antt(text, table):
    lines = []
    for line in text.split("\n"):
        k = code_of(line)
        lines.append(turn_code(line[:k], table) + turn_comment(line[k:], table))
    return "\n".join(lines)


def turn_rt(text, table):
    lines = []
    for line in text.split("\n"):
        k = line.find("//")
        k = len(line) if k < 0 or line[:k].count('"') % 2 else k
        lines.append(turn_code(line[:k], table) + turn_comment(line[k:], table))
    return "\n".join(lines)


def turn_edit(text, table):
    lines = []
    for line in text.split("\n"):
        head, colon, rest = line.partition(":")
        lines.append(head + colon + turn_code(rest, table) if head in ("old", "new") else line)
    return "\n".join(lines)


def turn_page(text, table):
    """The code spans of a page, but for its fenced blocks."""
    parts = re.split(r"(?ms)^(```.*?^```[^\n]*$)", text)
    for i in range(0, len(parts), 2):
        parts[i] = re.sub(r"`[^`\n]+`", lambda m: turn_code_words(m.group(0), table), parts[i])
    return "".join(parts)


def turn_code_words(span, table):
    return re.sub(r"[^\s`(){}.;,/]+", lambda m: table.get(m.group(0), m.group(0)), span)


def turned_before(table):
    """For pages: with the names that the toolchain's script has respelled in the crates already."""
    whole, words = dict(table), set()
    for path in files("crates", ".antt"):
        words |= set(WORD.findall("\n".join(code_lines(path))))
    for word in words:
        if "_" in word and word.replace("_", "-") not in words:
            whole.setdefault(word.replace("_", "-"), word)
    return whole


def main():
    names = declared()
    table = {n: spelled(n, t) for n, t in names.items()}
    met = collections.defaultdict(set)
    for path in files("crates", ".antt", ".rt"):
        words = set(WORD.findall(read(path)))
        for old in words & set(table):
            if table[old] in words:
                met[(old, table[old])].add(path)
    both = collections.defaultdict(set)
    for old, new in table.items():
        both[new].add(old)
    if "--list" in sys.argv:
        for old, new in sorted(table.items()):
            print(f"{old}\t{new}")
    for new, olds in sorted(both.items()):
        if len(olds) > 1:
            print(f"look: {', '.join(sorted(olds))} fall together as {new}")
    for (old, new), paths in sorted(met.items()):
        print(f"look: {old} meets {new} in {', '.join(sorted(paths))}")
    if "--list" in sys.argv:
        return
    turns = [(turn_antt, list(files("crates", ".antt"))), (turn_rt, list(files("crates", ".rt")))]
    turns.append((turn_edit, list(files("crates", ".edit"))))
    pages = ["README.md", "CONTRIBUTING.md"] + [p for p in files("docs", ".md") if not p.endswith("PORT.md")]
    whole = turned_before(table)
    turns.append((lambda text, _: turn_page(text, whole), [p for p in pages if os.path.exists(p)]))
    changed = 0
    for turn, paths in turns:
        for path in paths:
            old = read(path)
            new = turn(old, table)
            if new != old:
                changed += 1
                with open(path, "w", encoding="utf-8") as f:
                    f.write(new)
    print(f"{len(table)} names, {changed} files changed")


main()
