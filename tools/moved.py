#!/usr/bin/env python3
"""What a change moved, for a page of docs/orders: definitions, promises and proofs by name, and how many stayed.

    tools/moved.py BASE [HEAD]        two commits; HEAD is the last one if it is left out

Definitions are the names of crates/*/specs. Promises are the contracts of functions (signature, requires, ensures) and the statements of the theorems
that docs/STATEMENTS.md and docs/CONTRACTS.md name. Lemmas are the other public names of crates/*/proofs, proof files the files there; of both only the
crates are told. Comments and layout count for nothing. A crate with more than forty names of a kind is told by their number.
"""
import re
import subprocess
import sys
import textwrap

WIDTH = 150
MOST = 40
PAGES = ("docs/STATEMENTS.md", "docs/CONTRACTS.md")
ITEM = re.compile(r"^(?:unfoldable\s+|abbrev\s+|irreducible\s+)*(pub\s+)?(?:(?:record|data)\s+)?([^\s:({]+)")
FUNCTION = re.compile(r"(?:^|\n)[ \t]*((?:pub(?:\([a-z]+\))?\s+)?(?:extern \"C\"\s+)?fn\s+(\w+)\s*\((?:[^()]|\([^()]*\))*\)[^{;]*?)(?=requires|ensures|\{)")


def git(*arguments):
    return subprocess.run(["git", *arguments], check=True, capture_output=True, text=True).stdout


def squeezed(text):
    return " ".join(text.split())


class Names:
    """The names of a file of definitions or proofs: of each whether it is public, its statement and its whole text."""

    def __init__(self, source):
        self.found, self.name, self.public, self.lines, self.frame = {}, None, False, [], ""
        self.heading, self.depth = False, 0
        for line in source.splitlines():
            code = re.sub(r"(^|\s)--.*$", "", line).rstrip()
            if code.strip():
                self.take(code)
        self.keep()

    def keep(self):
        if self.name:
            ends = (k for k, line in enumerate(self.lines) if k and re.match(r"%s(\s|$)" % re.escape(self.name), line.strip()))
            statement = self.lines[: next(ends, len(self.lines))]
            self.found[self.name] = (self.public, squeezed(self.frame + " " + " ".join(statement)), squeezed(" ".join(self.lines)))
        self.name = None

    def take(self, code):
        indent = len(code) - len(code.lstrip())
        body = code.strip()
        if indent == 0 and body.startswith("module "):
            self.keep()
            self.frame, self.heading, self.depth = body, not body.endswith("where"), 0
            return
        if self.heading:
            self.frame, self.heading = self.frame + " " + body, not body.endswith("where")
            return
        if indent == 0 and self.frame and not body.startswith(("unfolding", "]", ")", "}")):
            self.keep()
            self.frame = ""
        if self.frame and self.depth == 0:
            self.depth = indent
        outer = indent == 0 or (self.frame and indent == self.depth)
        if body.startswith(("use ", "pub mod ", "mod ")) and outer:
            self.keep()
            return
        item = ITEM.match(body) if outer and not body.startswith(("unfolding", "]", ")", "}")) else None
        if item and item.group(2) != self.name:
            self.keep()
            self.name, self.public, self.lines = item.group(2), bool(item.group(1)), [code]
        elif self.name:
            self.lines.append(code)


def clauses(code):
    """The requires and ensures at the beginning of a text."""
    taken = ""
    while code.lstrip().startswith(("requires", "ensures")):
        depth = 0
        for end in range(code.index("{"), len(code)):
            depth += (code[end] == "{") - (code[end] == "}")
            if depth == 0:
                break
        taken, code = taken + code[: end + 1], code[end + 1:]
    return squeezed(taken)


def contracts(source):
    code = re.sub(r"//.*", "", source)
    return {m.group(2): squeezed(m.group(1)) + " " + clauses(code[m.end():]) for m in FUNCTION.finditer(code)}


def listing(commit):
    return git("ls-tree", "-r", "--name-only", commit).splitlines()


def pages(commit):
    listed = listing(commit)
    return "".join(git("show", f"{commit}:{page}") for page in PAGES if page in listed)


def gathered(commit, named):
    """Definitions, promises, lemmas and proof files of a commit, with the theorems that these pages name."""
    definitions, promises, lemmas, proofs = {}, {}, {}, {}
    for path in (path for path in listing(commit) if path.startswith("crates/")):
        crate = path.split("/")[1]
        if path.endswith(".rt"):
            promises.update({(crate, name + "()"): told for name, told in contracts(git("show", f"{commit}:{path}")).items()})
        elif path.endswith(".antt") and "/specs/" in path:
            definitions.update({(crate, name): whole for name, (_, _, whole) in Names(git("show", f"{commit}:{path}")).found.items()})
        elif path.endswith(".antt") and "/proofs/" in path:
            source = git("show", f"{commit}:{path}")
            proofs[crate, path] = squeezed(re.sub(r"--.*", "", source))
            for name, (public, statement, _) in Names(source).found.items():
                if public:
                    kind = promises if re.search(r"`(\w+: *)?%s`" % re.escape(name), named) else lemmas
                    kind[crate, name] = statement
    return definitions, promises, lemmas, proofs


def told(head, words):
    return textwrap.wrap(" ".join(words), WIDTH, initial_indent=head, subsequent_indent=" " * len(head), break_on_hyphens=False)


def compare(title, before, after, by_name):
    new = sorted(after.keys() - before.keys())
    gone = sorted(before.keys() - after.keys())
    changed = sorted(key for key in after.keys() & before.keys() if after[key] != before[key])
    stayed = len(after.keys() & before.keys()) - len(changed)
    print(f"{title}: {len(changed)} changed, {len(new)} new, {len(gone)} gone, {stayed} stayed")
    if not by_name:
        crates = sorted({crate for crate, _ in changed + new + gone})
        print("\n".join(told("  in ", crates)) if crates else "", end="\n" if crates else "")
        return
    for word, keys in (("changed", changed), ("new", new), ("gone", gone)):
        if keys:
            print(f"  {word}")
        crates = sorted({crate for crate, _ in keys})
        for crate in crates:
            names = [name for of, name in keys if of == crate]
            head = f"    {crate.ljust(max(map(len, crates)))}  "
            print("\n".join(told(head, names if len(names) <= MOST else [f"{len(names)} names"])))


def main(arguments):
    if len(arguments) not in (1, 2):
        sys.exit(__doc__)
    head = arguments[1] if len(arguments) == 2 else "HEAD"
    named = pages(head)
    before, after = gathered(arguments[0], named), gathered(head, named)
    print("```")
    for k, title in enumerate(("definitions", "promises", "lemmas", "proof files")):
        if k:
            print()
        compare(title, before[k], after[k], by_name=k < 2)
    print("```")


main(sys.argv[1:])
