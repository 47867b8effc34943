#!/usr/bin/env python3
"""Spells the repository's own definitions, fields and lemmas as the language does today: words in snake case.

usage: respell.py [--check] [--table FILE] [TOP]

It runs once, right after the kit's port.py, at the top of the repository (or at TOP). It reads the names that the .antt files of
crates/*/specs and crates/*/proofs declare, and rewrites them in the .antt and .rt files and in the must-fail edits of all crates.

  numberWidth, first-no   ->  number_width, first_no
  value-digits            stays: a dash joins two names, here of two definitions
  a lemma whose new name a definition has already gets _lem

Types, modules, constants in capitals, names of the source and names that a file takes from a library stay as they are. A file in which
two names would fall together is named, and nothing is written. --table writes the rows old, tab, new. --check writes nothing else.
A second run changes nothing.
"""

import collections
import os
import re
import sys

WORD = re.compile(r"[^\s(){}.;,@\"«»]+")
DECLARED = re.compile(
    r"(?m)^( *)(?:abbrev |unfoldable |pub |private |data |record )*([^\s(){}.;,@\"«»:]+) ?(?:[({][^\n]*?[)}] ?)*:(?= |$)"
)
USED = re.compile(r"(?m)^ *(?:pub |ghost |unfoldable )*use ([^\s{};]+?)\.\{([^{}]*)\}")
SPAN = re.compile(r"`[^`\n]*`")
GENERATED = re.compile(r":\s*(?:\([^)]*\)\s*→\s*)*tie\.(?:Need|invariant|decreases|measure)")


def files_below(top, endings):
    for folder, folders, files in os.walk(os.path.join(top, "crates")):
        folders[:] = sorted(f for f in folders if f != "out")
        for name in sorted(files):
            if name.endswith(endings):
                yield os.path.join(folder, name)


def read(path):
    with open(path, encoding="utf-8") as f:
        return f.read()


def snake(word):
    word = re.sub(r"(?<=[a-z0-9'])(?=[A-Z])", "_", word)
    word = re.sub(r"(?<=[A-Z])(?=[A-Z][a-z])", "_", word)
    return word.lower()


def is_camel(name):
    return re.match(r"[a-z]", name) and re.search(r"[a-z0-9][A-Z]", name)


class Names:
    """The new name of each own name."""

    def __init__(self, top):
        self.texts = {p: read(p) for p in files_below(top, ".antt")}
        self.library = {p: self.of_libraries(t) for p, t in self.texts.items()}
        self.shared = collections.defaultdict(set)
        self.local = collections.defaultdict(set)
        self.fields = set()
        words = set()
        for path, text in self.texts.items():
            own = os.path.basename(path) == "Proof.antt"
            for line in re.sub(r"--[^\n]*", "", text).splitlines():
                m = DECLARED.match(line)
                if not m or GENERATED.search(line) or re.search(r":\s*\{M : Type 1\} → statement", line):
                    continue
                if m[2] in self.library[path]:
                    continue
                if m[1] and re.match(r" +pub ", line) and not re.search(r"\)\s*:| : .*→.*→", line):
                    self.fields.add(m[2])
                (self.local[path] if own else self.shared[m[2]]).add(m[2] if own else path)
                if "/specs/" in path:
                    words.add(m[2])
        for names in self.library.values():
            words |= {n for n in names if "-" not in n}
        self.words = {w if not is_camel(w) else snake(w) for w in words if "-" not in w} | words
        self.shared = dict(self.shared)
        self.table = {}
        libraries = {n for names in self.library.values() for n in names}
        have = set(self.shared) | libraries
        for name in sorted(self.shared, key=lambda n: ("-" in n, n)):
            new = self.spelled(name)
            if new == name or name in self.table:
                continue
            is_lemma = all("/proofs/" in p for p in self.shared[name])
            if new in self.shared and not is_lemma and new not in libraries and all("/proofs/" in p for p in self.shared[new]):
                # the definition takes the name, and the lemma that has it says that it is one
                self.table[new] = new + "_lem"
                have.add(new + "_lem")
            elif new in have:
                new += "_lem"
                if new in have:
                    raise SystemExit(f"respell: {name} has no new name")
            have.add(new)
            self.table[name] = new

    @staticmethod
    def of_libraries(text):
        found = set()
        for module, names in USED.findall(text):
            if not module.startswith("Rattle.") or module.startswith("Rattle.std."):
                found |= {it.split()[-1] for it in names.split(",") if it.strip()}
        return found

    def spelled(self, name):
        if re.match(r"[A-Z◌]", name) or not re.search(r"[a-z]", name):
            return name
        if "-" in name:
            parts = [snake(p) if is_camel(p) else p for p in name.split("-")]
            joins = len(parts) == 2 and parts[0] in self.words and parts[1] in self.words
            out = ("-" if joins else "_").join(parts)
            if not re.fullmatch(r"[A-Za-z0-9_'-]+", out):
                return name
            return out
        return snake(name) if is_camel(name) else name

    def of_field(self, name):
        """The new name of what stands behind the dot of a value: of a record's field alone, since others may be steps of the source."""
        return self.table.get(name, name) if name in self.fields else name

    def of_file(self, path):
        table = {old: new for old, new in self.table.items() if old not in self.library.get(path, ())}
        for old in self.local.get(path, ()):
            new = self.spelled(old)
            if new != old:
                table.setdefault(old, new)
        return table


def turned(text, table, comment, names):
    """The text with each word by the table; of a comment only its code spans."""
    modules = set(re.findall(r"(?m)^ *(?:pub )?use \S+ as (\S+)", text))

    def word(m):
        before = re.search(r"([^\s(){};,@\"«»]*)\.$", m.string[: m.start()])
        if before and before[1] and not (before[1] in modules or before[1].rsplit(".", 1)[-1][:1].isupper()) or m.string[: m.start()].endswith(")."):
            return names.of_field(m[0])
        if m.string[m.end() :].startswith(".") and before and before[1].startswith("Rattle."):
            return m[0]
        return table.get(m[0], m[0])

    out = []
    for line in text.split("\n"):
        m = re.search(comment, line)
        code, rest = (line[: m.start()], line[m.start() :]) if m else (line, "")
        rest = SPAN.sub(lambda s: "`" + WORD.sub(word, s[0][1:-1]) + "`", rest)
        out.append(WORD.sub(word, code) + rest)
    return "\n".join(out)


def fallen(text, table, is_code):
    """Pairs of words of one file that would read alike: bare words of antt, or in code the parameters beside the words of clauses."""
    text = re.sub(r"(?m)(?:^|(?<=\s))--(?=\s|$)[^\n]*|//[^\n]*", "", text)
    if is_code:
        words = set(re.findall(r"(?<=[(,\s])(\w+): ", "".join(re.findall(r"fn \w+[^{]*", text)))) | {w for w in WORD.findall(text) if w in table}
    else:
        words = set(WORD.findall(re.sub(r"[^\s(){},;@\"«»]*\.[^\s(){},;@\"«»]*", lambda m: m[0].split(".")[0] if m[0][0].islower() else "", text)))
    new = collections.defaultdict(set)
    for w in words:
        new[table.get(w, w)].add(w)
    return {k: v for k, v in new.items() if len(v) > 1}


def main(argv):
    check = "--check" in argv
    out = argv[argv.index("--table") + 1] if "--table" in argv else None
    rest = [a for a in argv if not a.startswith("--") and a != out]
    top = rest[0] if rest else "."
    names = Names(top)
    new, bad = {}, 0
    for path in files_below(top, (".antt", ".rt", ".edit")):
        text = read(path)
        table = names.of_file(path)
        if path.endswith(".edit"):
            m = re.search(r"(?m)^file: (\S+)", text)
            table = names.of_file(os.path.join(os.path.dirname(os.path.dirname(path)), m[1]))
            new[path] = "\n".join(l if not re.match(r"(old|new): ", l) else l[:5] + turned(l[5:], table, r"(?!x)x", names) for l in text.split("\n"))
        else:
            for word, olds in fallen(text, table, path.endswith(".rt")).items():
                print(f"{os.path.relpath(path, top)}: {', '.join(sorted(olds))} would all be {word}")
                bad += 1
            new[path] = turned(text, table, r"(?:^|(?<=\s))--(?=\s|$)" if path.endswith(".antt") else r"//", names)
    if out:
        with open(out, "w", encoding="utf-8") as f:
            f.writelines(f"{a}\t{b}\n" for a, b in sorted(names.table.items()))
    print(f"respell: {len(names.table)} shared names")
    if bad:
        print(f"respell: {bad} places where names fall together; nothing is written")
        return 1
    if not check:
        n = 0
        for path, text in new.items():
            if text != read(path):
                n += 1
                with open(path, "w", encoding="utf-8") as f:
                    f.write(text)
        print(f"respell: {n} files are rewritten")
    return 0


if __name__ == "__main__":
    raise SystemExit(main(sys.argv[1:]))
