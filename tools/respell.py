#!/usr/bin/env python3
"""Spells this repository's own definitions and lemmas as the library does: words in snake case, a lemma that would have its definition's name with _lem.

usage: tools/respell.py [TOP]

It ran once, on the tree that the kit's port.py had left; docs/PORT.md names the commit. It goes by whole words and reads each name's declaration, so names that
come from a library, from the source of a function or from the prover stay as they are. A dash stays where it joins names of which one has a capital (same_gate-P7).
Turned: .antt files, .rt files (where only clauses and five fields of a card have such names), must-fail edits, and code spans of pages. It prints what it turned on standard output.
"""

import collections
import os
import re
import sys

NAME = r'[^\s(){}.;,@"«»]+'
WORD = re.compile(NAME)
QUIET = re.compile(r'"(?:[^"\\\n]|\\.)*"|(?<![^\s(){}.;,@"«»])--[^\n]*|\{-.*?-\}', re.S)
DECLARED = re.compile(
    r"(?m)^( *)((?:(?:pub|abbrev|unfoldable|record|data|where|let) )*)(" + NAME + r")((?: [({][^\n]*?[)}])*) : ?(.*)$"
)
USE = re.compile(r"(?m)^(?:pub )?(?:ghost )?use (\S+?)\.?(\{[^}]*\})?(?: as (\S+?))?;?$")
MADE = re.compile(r"(tie|goal)\.|\{M : Type 1\} → statement|statement")
OF_FUNCTIONS = ("Proof.antt", "Invariants.antt", "Answers.antt")
SPAN = re.compile(r"(`+)[^`\n]*?\1")
SPANNED = re.compile(r"[^\s(){}.;,@\"«»`/]+")
RUST = re.compile(r'//[^\n]*|b?"(?:\\.|[^"\\])*"|[^/"]+|.', re.S)
CAMEL = re.compile(r"[a-z][A-Za-z0-9']*[A-Z][A-Za-z0-9']*")
# A constructor and a field may share a spelling: each is named behind its own type or value.
SHARED = {"by-step": "by_step"}


def folded(text):
    return re.sub(r"(?<=[a-z0-9])[A-Z]", lambda m: "_" + m[0].lower(), text)


def spelled(name):
    name = name.replace("getD", "get_or")
    if "-" in name and re.search("[A-Z]", name):
        return "-".join(folded(it) if it[:1].islower() else it for it in name.split("-"))
    return folded(name).replace("-", "_")


def files(top, *ends):
    for folder, folders, names in os.walk(top):
        folders[:] = sorted(it for it in folders if it not in ("out", ".git", "target"))
        yield from (os.path.join(folder, it) for it in sorted(names) if it.endswith(ends))


def read(path):
    with open(path, encoding="utf-8") as file:
        return file.read()


class Names:
    """What the proof files declare, and the spellings that follow."""

    def __init__(self, crates):
        own = set(os.listdir(crates))
        declared, words, self.lent = collections.defaultdict(list), set(), collections.defaultdict(set)
        for path in files(crates, ".antt"):
            text = QUIET.sub(" ", read(path))
            for at, items, _ in USE.findall(text):
                steps = at.split(".")
                if steps[0] != "Rattle" or steps[1] not in own:
                    self.lent[path].update(WORD.findall(items))
            for _, _, name, _, kind in DECLARED.findall(text):
                declared[name].append(bool(MADE.match(kind)) and os.path.basename(path) in OF_FUNCTIONS)
            words.update(WORD.findall(text))
        lent = set().union(*self.lent.values())
        self.declared = set(declared)
        self.table = {}
        for name, made in declared.items():
            if not all(made) and name[0].islower() and re.fullmatch(r"[A-Za-z0-9_'\-]+", name):
                self.table[name] = spelled(name)
        for name in words:
            if CAMEL.fullmatch(name) and name not in lent:
                self.table.setdefault(name, spelled(name))
        self.table = {old: new for old, new in self.table.items() if old != new}
        self.lemmas = {}  # names in snake case already that give way to a definition
        olds = collections.defaultdict(list)
        for old, new in self.table.items():
            olds[new].append(old)
        for new, of in olds.items():
            definition = [it for it in of if CAMEL.fullmatch(it)]
            others = [it for it in of if it not in definition]
            if definition and new in declared:
                self.lemmas[new] = new + "_lem"
            if others and (definition or new in declared):
                for it in others:
                    self.table[it] = SHARED.get(it, new + "_lem")
            assert len(definition) < 2 and len(others) < 2, of
        taken = collections.Counter([*self.table.values(), *self.lemmas.values()])
        assert all(it in SHARED.values() or taken[it] == 1 for it in taken), [it for it in taken if taken[it] > 1]

    def word(self, name, keep=()):
        return name if name in keep else self.table.get(name, name)

    def antt(self, text, path, keep):
        of_function = os.path.basename(path) in OF_FUNCTIONS
        aliases = {alias for _, _, alias in USE.findall(text) if alias}
        # A lemma of the file, or a name that it brings in: it may give way; a function's or a step's name may not.
        brought = {it for _, items, _ in USE.findall(text) for it in WORD.findall(items)}
        here = {name for _, _, name, _, kind in DECLARED.findall(text)}

        def turned(m):
            word, before, after = m[0], text[: m.start()], text[m.end() : m.end() + 1]
            head = re.search(r"(" + NAME + r")\.(?:" + NAME + r"\.)*$", before[-120:])
            near = re.search(r"(" + NAME + r")\.$", before[-80:])
            by_module = near and (near[1] in aliases or near[1][0].isupper())
            if word in self.lemmas and word not in keep:
                free = not near and after != "." and (word in brought or word in here)
                return self.lemmas[word] if free or (by_module and after != ".") else word
            if of_function and "-" in word and near and not by_module:
                return word
            return self.word(word, keep)

        def code(part, at):
            out, last = [], 0
            for m in WORD.finditer(text, at, at + len(part)):
                out += [text[at + last : m.start()], turned(m)]
                last = m.end() - at
            return "".join(out + [part[last:]])

        out, at = [], 0
        for m in QUIET.finditer(text):
            out += [code(text[at : m.start()], at), m[0] if m[0][0] == '"' else self.comment(m[0])]
            at = m.end()
        return "".join(out + [code(text[at:], at)])

    def comment(self, text):
        text = SPAN.sub(lambda m: SPANNED.sub(lambda w: self.word(w[0]), m[0]), text)
        return WORD.sub(lambda m: self.word(m[0]) if CAMEL.fullmatch(m[0]) else m[0], text)

    def rt(self, text):
        def turned(m):
            if m[0][:2] == "//":
                return self.comment(m[0])
            if m[0].lstrip("b")[:1] == '"':
                return m[0]
            return re.sub(r"(?<![\w-])[a-z][\w'-]*", lambda w: self.word(w[0]) if CAMEL.fullmatch(w[0]) or "-" in w[0] else w[0], m[0])

        return RUST.sub(turned, text)

    def edit(self, text):
        of_antt = re.search(r"(?m)^file: .*\.antt$", text)
        line = lambda m: m[1] + (self.antt(m[2], "", ()) if of_antt else self.rt(m[2]))
        return re.sub(r"(?m)^(old: |new: )(.*)$", line, text)

    def page(self, text):
        def one(m):
            # The kit's script turned some names of this repository too, but in no page.
            word, new = m[0], spelled(m[0])
            if word in self.table or new == word or new not in self.declared:
                return self.word(word)
            return self.lemmas.get(new, new)

        turned = lambda s: s[0] if ".edit" in s[0] else SPANNED.sub(one, s[0])
        return SPAN.sub(turned, text)


def main(top):
    crates = os.path.join(top, "crates")
    names, count = Names(crates), 0
    pages = [os.path.join(top, "README.md"), *files(os.path.join(top, "docs"), ".md")]
    for path in [*files(crates, ".antt", ".rt", ".edit"), *pages]:
        text = read(path)
        if path.endswith(".antt"):
            new = names.antt(text, path, names.lent[path])
        elif path.endswith(".rt"):
            new = names.rt(text)
        elif path.endswith(".edit"):
            new = names.edit(text)
        else:
            new = names.page(text)
        if new != text:
            count += 1
            with open(path, "w", encoding="utf-8") as file:
                file.write(new)
    for old, new in sorted([*names.table.items(), *names.lemmas.items()]):
        print(old, new)
    print(f"respell: {len(names.table) + len(names.lemmas)} names in {count} files", file=sys.stderr)


if __name__ == "__main__":
    main(os.path.abspath(sys.argv[1] if len(sys.argv) > 1 else "."))
