#!/usr/bin/env python3
"""Brings the names of the repository's own definitions and lemmas to the spelling of today's Rattle: words in snake case, types in camel case.

usage: python3 tools/respell.py [FOLDER]     once, after /opt/rattle/port/port.py, at the top of a checkout

Names of the library, names that Rattle makes (of goals, of what a proof has of a call) and names of src/ stay. Where two names would fall
together, the one that is a lemma gets `_lem` at its end, as the library does it; each such name is printed. In comments and pages only names between backquotes are
turned. Of must-fail edits the texts are turned word by word, as far as the spelling of names and of clauses goes.
"""

import collections
import glob
import os
import re
import sys

ROOT = sys.argv[1] if len(sys.argv) > 1 else "."
WORD = r"[A-Za-zℕℓ_][A-Za-z0-9_'′ℕℓ₀-₉]*(?:-[A-Za-z0-9_'′ℕℓ₀-₉]+)*"
TOKEN = re.compile(r"(?<![A-Za-z0-9_'′\-·ℕℓ])(" + WORD + ")")
CODE_TOKEN = re.compile(r"(?<![A-Za-z0-9_'′ℕℓ])([A-Za-z_][A-Za-z0-9_'′]*)")
USE = re.compile(r"\s*(?:pub )?use ([^{;]+?)(?:\.\{(.*)\})?( as .*)?$")
DECLARED = re.compile(r"\s*(?:pub |abbrev |unfoldable |ruleset |data |record )*(" + WORD + r")(?: (?:\([^)]*\)|\{[^}]*\}))* : (.*)$")
COMMENT = re.compile(r"(^|\s)--(?=\s|-|$).*")

# Facts, which today are spelled as types, with the file that has each.
FACTS = {"accepts": ("Accepts", "rules/specs/Checked", "rules.specs.Checked"), "puts": ("Puts", "cards/specs/Meaning", "cards.specs.Meaning")}


def snake(w):
    w = w.replace("′", "'").replace("-", "_")
    w = re.sub(r"(?<=[a-z0-9])([A-Z])", r"_\1", w)
    return w.lower()


def odd(w):
    return w[0].islower() and ("-" in w or "′" in w or re.search("[A-Z]", w))


def antt_files():
    return sorted(glob.glob(ROOT + "/crates/*/specs/*.antt") + glob.glob(ROOT + "/crates/*/proofs/**/*.antt", recursive=True))


def of_function(path):
    """Whether the file is the proof of a function, whose names Rattle makes."""
    return os.path.basename(path) == "Proof.antt"


def code_of(line):
    return COMMENT.sub("", line)


def main():
    own_crates = set(os.listdir(ROOT + "/crates"))
    library, plain, lemma, definition = set(), collections.Counter(), set(), set()
    in_functions = collections.Counter()
    texts = {p: open(p, encoding="utf-8").read() for p in antt_files()}
    for p, text in texts.items():
        for line in text.split("\n"):
            line = code_of(line)
            m = USE.match(line)
            if m:
                top = m.group(1).split(".")
                if not (top[0] == "Rattle" and len(top) > 1 and top[1] in own_crates):
                    library.update(n.split(" as ")[0].strip() for n in re.split(r",\s*", m.group(2) or ""))
                continue
            for t in TOKEN.finditer(line):
                (in_functions if of_function(p) else plain)[t.group(1)] += 1
            m = DECLARED.match(line)
            if m and not of_function(p):
                (definition if "/specs/" in p else lemma).add(m.group(1))
    for p in glob.glob(ROOT + "/crates/*/src/*.rt"):
        for line in open(p, encoding="utf-8"):
            m = re.match(r"ghost use ([^{;]+?)\.\{(.*)\};", line)
            if m and not (m.group(1).split(".")[1:2] and m.group(1).split(".")[1] in own_crates):
                library.update(n.split(" as ")[0].strip() for n in re.split(r",\s*", m.group(2)))

    turned = sorted(w for w in plain if odd(w) and (w in lemma or w in definition or w not in library))
    new = {}
    by_new = collections.defaultdict(list)
    for w in turned:
        by_new[snake(w)].append(w)
    stays = set(plain) | library
    for n, words in by_new.items():
        # a camel-case word is a definition, and keeps the plain name; a word with dashes is a lemma
        words.sort(key=lambda w: ("-" in w, w))
        for k, w in enumerate(words):
            if k == 0 and (n not in stays or (w in definition and "-" not in w and n not in library)):
                new[w] = n
                if n in stays and n in lemma:
                    new[n] = n + "_lem"
                    print(f"{n} (a lemma) -> {n}_lem, beside {w} -> {n}")
                elif n in stays:
                    print(f"look: {w} -> {n}, which stands already")
            else:
                new[w] = n + "_lem"
                print(f"{w} -> {n}_lem, beside {n}")
    values = collections.Counter(new.values())
    for v, k in values.items():
        if k > 1:
            print(f"look: {k} names become {v}")

    files_with = {}
    for w, (to, home, module) in FACTS.items():
        files_with[w] = {p for p, t in texts.items() if home in p or re.search(r"use Rattle\." + re.escape(module) + r"\.\{[^}]*\b" + w + r"\b", t)}

    def word(w, path, before, after):
        # a module's path and a name of Rattle's making keep their spelling: they follow those of src/
        if w in new and not odd(w) and (before.endswith((".", "·")) or after.startswith(".")):
            return w
        return new.get(w, w)

    def code(text, path):
        out, last = [], 0
        for t in TOKEN.finditer(text):
            w = t.group(1)
            to = word(w, path, text[: t.start()], text[t.end():])
            if w in FACTS and path in files_with[w]:
                to = FACTS[w][0]
            out += [text[last: t.start()], to]
            last = t.end()
        return "".join(out) + text[last:]

    def quoted(text):
        return re.sub(r"`([^`\n]+)`", lambda m: "`" + TOKEN.sub(lambda t: new.get(t.group(1), t.group(1)) if odd(t.group(1)) else t.group(1), m.group(1)) + "`", text)

    for p, text in texts.items():
        lines = []
        for line in text.split("\n"):
            m = COMMENT.search(line)
            k = m.start() if m else len(line)
            head = line[:k]
            u = USE.match(head)
            if u:
                top = u.group(1).split(".")
                if top[0] == "Rattle" and len(top) > 1 and top[1] in own_crates and u.group(2) is not None:
                    at = head.index("{")
                    names = []
                    for n in re.split(r",\s*", u.group(2)):
                        parts = n.split(" as ")
                        first = new.get(parts[0], parts[0])
                        if parts[0] in FACTS and p in files_with[parts[0]]:
                            first = FACTS[parts[0]][0]
                        names.append(" as ".join([first] + [new.get(x, x) if odd(x) else x for x in parts[1:]]))
                    head = head[:at] + "{" + ", ".join(names) + "}" + (u.group(3) or "")
            else:
                head = code(head, p)
            lines.append(head + quoted(line[k:]))
        if "\n".join(lines) != text:
            open(p, "w", encoding="utf-8").write("\n".join(lines))

    # in the code: the names in clauses and imports, which have capitals; a word with dashes could be a difference
    for p in sorted(glob.glob(ROOT + "/crates/*/src/*.rt")):
        text = open(p, encoding="utf-8").read()
        facts = {w for w, (to, home, module) in FACTS.items() if re.search(r"ghost use Rattle\." + re.escape(module) + r"\.\{[^}]*\b" + w + r"\b", text)}
        turn = lambda t: FACTS[t.group(1)][0] if t.group(1) in facts else new.get(t.group(1), t.group(1)) if odd(t.group(1)) else t.group(1)
        lines = []
        for line in text.split("\n"):
            at = line.find("//")
            k = at if at >= 0 else len(line)
            lines.append(CODE_TOKEN.sub(turn, line[:k]) + quoted(line[k:]))
        if "\n".join(lines) != text:
            open(p, "w", encoding="utf-8").write("\n".join(lines))

    with open("/tmp/respelled.tsv", "w", encoding="utf-8") as f:
        for w in sorted(new):
            f.write(f"{w}\t{new[w]}\n")
    print(f"{len(new)} names turned; the list is in /tmp/respelled.tsv")


main()
