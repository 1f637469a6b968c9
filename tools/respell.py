#!/usr/bin/env python3
"""Spells the repository's own definitions and lemmas as today's Rattle does: words in snake case, types in camel case.

usage: python3 tools/respell.py        at the top, once, over files that port.py has turned

Only names that specs/ and proofs/ declare are turned: `bitValue` becomes `bit_value`, `an-event-changes-only-its-row`
becomes `an_event_changes_only_its_row`, `firstBad·at` becomes `first_bad_at`. A name that Rattle makes (a goal of a
function, its answer in that function's proof) stays. They are turned in specs/, proofs/, src/ and edits, comments too,
and in what pages have between backticks.
"""

import collections
import glob
import os
import re
import sys

TOKEN = re.compile(r"[^\s(){}\[\],;.`\"|]+")
DECLARED = re.compile(r"^ *(?:abbrev |unfoldable )?(?:pub )?(?:record |data )?([^\s(){}\[\],;.:]+)(?: [({].*?)? : *(.*)$")
# A lemma whose name would fall together with a definition's gets another word.
OTHER = {
    "all_keep": "kept_by_all",
    "answers_of": "answers_taken",
    "begin-of": "begin_owed",
    "by-write": "only_write",
    "device-before": "same_device_before",
    "event-of": "event_held",
    "first-refused": "refused_first",
    "highest-below": "highest_is_below",
    "in-range": "e_in_range",
    "passed_on": "nobody_passes_on",
    "record-bytes": "clock_record_bytes",
    "turn-of": "turn_owed",
}
GENERATED = re.compile(r"^(?:\{M : Type 1\} → )?(?:tie|stated|goal)\b|^\{M : Type 1\} → ")


def files(*patterns):
    return [p for pattern in patterns for p in sorted(glob.glob(pattern, recursive=True)) if os.path.isfile(p) and "/out/" not in p]


def snake(name):
    name = re.sub(r"(?<=[a-z0-9])([A-Z]+)", lambda m: "_" + m.group(1).lower(), name) if name[0].islower() else name
    name = re.sub(r"(?<=[\w₀-₉'≢≡≤])[-·](?=[\w])", "_", name)
    return name


def spelled(name, of_type):
    if of_type and name[0].islower():
        return "".join(w[:1].upper() + w[1:] for w in re.split(r"[-_·]", name))
    return snake(name)


def lines_of(path):
    with open(path, encoding="utf-8") as f:
        return f.read().split("\n")


def declared():
    """Each own name with its new spelling, and where it is declared; and the names that are Rattle's."""
    own, made, made_elsewhere = collections.defaultdict(set), set(), set()
    for path in files("crates/*/specs/**/*.antt", "crates/*/proofs/**/*.antt"):
        for line in lines_of(path):
            m = DECLARED.match(line)
            if not m or line.lstrip().startswith(("--", "use ", "module ", "let ")):
                continue
            name, of = m.groups()
            if GENERATED.match(of):
                made.add(name)
                continue
            own[name].add(path)
        # what a library gives keeps its name
        with open(path, encoding="utf-8") as f:
            for names in re.findall(r"^use (?!Rattle\.(?!std\.))\S+?\.\{([^}]*)\}", f.read(), re.M):
                made_elsewhere.update(n.strip() for n in names.split(","))
    return {n: p for n, p in own.items() if n not in made_elsewhere}, made


def main():
    # a second run would turn names that have their final words
    if os.path.exists("docs/PORT.md"):
        sys.exit("respell: docs/PORT.md says that the spelling was turned already")
    own, made = declared()
    turned = {}
    for name, paths in own.items():
        of_type = False
        for path in paths:
            for line in lines_of(path):
                m = DECLARED.match(line)
                if m and m.group(1) == name and re.search(r"(^|→ )Type [01]( where)?$", m.group(2)):
                    of_type = True
        new = OTHER.get(name) or spelled(name, of_type)
        if new != name and not (name in made and all("/Proof" in p for p in paths)):
            turned[name] = new
    back = collections.defaultdict(set)
    for name, new in turned.items():
        back[new].add(name)
        if new in own and new not in turned:
            back[new].add(new)
    for new, names in sorted(back.items()):
        if len(names) > 1:
            print(f"look: {' and '.join(sorted(names))} fall together as {new}: {sorted({p for n in names for p in own[n]})}")
    both = sorted(n for n in turned if n in made)
    for n in both:
        print(f"look: {n} is declared in {sorted(own[n])} and is a goal's name too")

    known = set(turned.values()) | set(own)

    def turn(text, allowed, page=False):
        def one(m):
            word = m.group(0)
            if word in turned and allowed(word, text, m.start()):
                return turned[word]
            # port.py turned some of these names itself, but no page and no edit
            if page and word not in own and re.search(r"[a-z][A-Z]|\w[-·]\w", word) and snake(word) in known:
                return snake(word)
            return word
        return TOKEN.sub(one, text)

    def in_antt(word, text, at):
        dotted = at > 0 and text[at - 1] == "."
        return not (dotted and "-" in word and not re.search(r"[A-Z]\w*\.$", text[:at]) and re.search(r"\bc(\.[\w-]+)*\.$|\bw\.$", text[:at]))

    def in_code(word, text, at):
        return "-" not in word

    n = 0
    for path in files("crates/*/specs/**/*.antt", "crates/*/proofs/**/*.antt", "crates/*/src/**/*.rt", "crates/*/must-fail/*.edit", "README.md", "docs/*.md", "docs/requests/*.md"):
        with open(path, encoding="utf-8") as f:
            text = f.read()
        if path.endswith(".antt"):
            goal_names = set()
            if re.search(r"/proofs/(?:[A-Z]\w*/)?\+?[a-z_0-9]+/", path):
                for line in text.split("\n"):
                    m = DECLARED.match(line)
                    if m and GENERATED.match(m.group(2)):
                        goal_names.add(m.group(1))
            new = turn(text, lambda w, t, a, g=goal_names: w not in g and in_antt(w, t, a))
            new = re.sub(r"(?<![^\s])\+?([a-z][\w-]*)-spec(?= [:=])", lambda m: m.group(1).replace("-", "_") + "_spec", new)
        elif path.endswith(".rt"):
            new = turn(text, in_code)
        elif path.endswith(".edit"):
            new = turn(text, in_code if "\nfile: src/" in "\n" + text else in_antt, page=True)
        else:
            if path == "docs/PORT.md":
                continue
            new = re.sub(r"`[^`\n]+`", lambda m: turn(m.group(0), in_antt, page=True), text)
        if new != text:
            n += 1
            with open(path, "w", encoding="utf-8") as f:
                f.write(new)
    print(f"respell: {len(turned)} names, {n} files")


if __name__ == "__main__":
    sys.exit(main())
