#!/usr/bin/env python3
"""Only requests alter a card: no other public function of a library takes a card and gives one back.

    tests/surface/requests.py                reads crates.txt and the sources, and fails if there is such a function
    tests/surface/requests.py --self-test    tries the rule on small sources, some of which it must find

A type holds a card if it is `Card` or if it is declared with a part that holds one. A function gives a card back if its result holds one, or if it is lent
one to alter. A method's `self` and `Self` are the type that it is written for, and a method of a trait is public. Functions that are `pub(crate)` or not
public, and programs (src/main.rt), are left out: nobody outside can call them. A type parameter counts as a card, unless it has to have a trait that no type
that holds a card has (`fn swap<T: PartialEq + Copy>`: a card has no equality). What a function's clauses say (`ensures { b.new ≡ .. }`) is not looked at.
"""
import pathlib
import re
import sys

ROOT = pathlib.Path(__file__).resolve().parents[2]

# The requests; the session of the bench program and of a dump, whose card is that of `run` on its commands (theorems `session_run`, `left_more`); and the
# calls of a listing, whose card is that of `run` on one call for each process (its contract).
REQUESTS = {"card::call", "card::request_exit", "card::step", "tracing::trace", "card::read", "changing::change"}
SESSIONS = {"session::put_lines", "session::advance", "dump_writer::open", "dump_writer::put_commands"}
ALLOWED = REQUESTS | SESSIONS | {"listing::call_all"}

COMMENT = re.compile(r"//[^\n]*")
TYPE = re.compile(r"\b(?:struct|enum)\s+(\w+)[^{(;]*([{(])")
ALIAS = re.compile(r"\btype\s+(\w+)[^=;]*=([^;]*);")
FUNCTION = re.compile(r"(\bpub\s+)?(?:\b(?:const|unsafe|extern\s+\"C\")\s+)*\bfn\s+(\w+)\s*(?=[<(])")
IMPL = re.compile(r"\bimpl\b\s*(?=[<\w:])")
OF = re.compile(r"(?P<head>[^{]*)\{")
RESULT = re.compile(r"\s*->\s*(.*?)(?=\{|\bensures\b|\brequires\b|\bwhere\b|\Z)", re.DOTALL)
DERIVE = re.compile(r"#\[derive\(([^)]*)\)\]\s*(?:#\[[^\]]*\]\s*)*(?:pub(?:\([^)]*\))?\s+)?(?:struct|enum)\s+(\w+)")
WHERE = re.compile(r"\bwhere\b(.*?)(?=\{|\bensures\b|\brequires\b|\Z)", re.DOTALL)
# traits that a type may have whatever it holds
OPEN = {"Clone", "Copy", "Drop", "Sized", "Send", "Sync", "Unpin", "Any", "From", "Into", "TryFrom", "TryInto", "Borrow", "BorrowMut", "ToOwned"}
CLOSING = {"(": ")", "{": "}", "<": ">"}


def inside(text, start):
    """The text between the bracket at `start` and its closing one. The end of an arrow closes nothing."""
    opening, depth = text[start], 0
    for at in range(start, len(text)):
        if text[at] == opening:
            depth += 1
        elif text[at] == CLOSING[opening] and text[at - 1 : at + 1] not in ("->", "=>"):
            depth -= 1
            if depth == 0:
                return text[start + 1 : at]
    return text[start + 1 :]


def after_generics(text, at):
    """The place after the type parameters that stand at a place, if any do."""
    return at + len(inside(text, at)) + 2 if text[at] == "<" else at


def parts_at(text, mark):
    """The parts of a text between its marks, but for those within brackets."""
    parts, depth = [""], 0
    for at, letter in enumerate(text):
        if letter in "(<[{":
            depth += 1
        elif letter in ")]}" or (letter == ">" and text[at - 1 : at] not in ("-", "=")):
            depth -= 1
        if letter == mark and depth == 0:
            parts.append("")
        else:
            parts[-1] += letter
    return [part.strip() for part in parts if part.strip()]


def may_hold(text, at, traits):
    """The type parameters at a place of a text for which a type can stand that has no other traits than these; a `where` behind them says its part."""
    if text[at] != "<":
        return set()
    generics = inside(text, at)
    bounds = {}
    for part in parts_at(generics, ","):
        name, _, said = part.partition(":")
        if not name.startswith("'") and not name.startswith("const "):
            bounds[name.split("=")[0].strip()] = said
    where = WHERE.search(text[at + len(generics) + 2 :].partition("{")[0])
    for part in parts_at(where[1], ",") if where else []:
        name, _, said = part.partition(":")
        if name.strip() in bounds:
            bounds[name.strip()] += " + " + said
    named = {name: {re.split(r"[<(]", bound)[0].split("::")[-1].strip() for bound in parts_at(said, "+")} for name, said in bounds.items()}
    return {name for name, said in named.items() if not {bound for bound in said if not bound.startswith(("?", "'"))} - traits}


def traits_of(sources, names):
    """The traits that a type that holds a card may have: those of every type, and those that one derives or is given."""
    traits = set(OPEN)
    for (crate, _), text in sources.items():
        for match in DERIVE.finditer(text):
            if match[2] in names[crate]:
                traits.update(word.split("::")[-1].strip() for word in match[1].split(","))
        for match in IMPL.finditer(text):
            head = OF.match(text, after_generics(text, match.end()))
            trait, _, type_of = head["head"].rpartition(" for ") if head else ("", "", "")
            given = {part.partition(":")[0].strip() for part in parts_at(inside(text, match.end()), ",")} if text[match.end()] == "<" else set()
            if trait and names_any(type_of, names[crate] | given):
                traits.add(re.split(r"[<(]", trait)[0].split("::")[-1].strip())
    return traits


def impls(text, traits):
    """Each block of methods: where it begins and ends, the text that names its type, whether a trait's methods stand in it, and those of its type parameters
    that may hold a card."""
    for match in IMPL.finditer(text):
        head = OF.match(text, after_generics(text, match.end()))
        if head:
            trait, _, type_of = head["head"].rpartition(" for ")
            held = may_hold(text, match.end(), traits)
            yield match.start(), head.end() + len(inside(text, head.end() - 1)), type_of.split(" where ")[0], bool(trait), held


def holders(sources):
    """For each crate the names that stand for types that hold a card there: a name that a crate declares is its own type, any other may be another crate's."""
    parts = {}
    for (crate, _), text in sources.items():
        own = parts.setdefault(crate, {})
        for match in TYPE.finditer(text):
            own.setdefault(match[1], set()).update(re.findall(r"\w+", inside(text, match.end() - 1)))
        for match in ALIAS.finditer(text):
            own.setdefault(match[1], set()).update(re.findall(r"\w+", match[2]))
    held = {crate: {"Card"} for crate in parts}
    while True:
        anywhere = {name for crate in parts for name in held[crate] if name in parts[crate]} | {"Card"}
        more = {crate: {name for name, words in own.items() if words & held[crate]} | (anywhere - own.keys()) for crate, own in parts.items()}
        if all(more[crate] <= held[crate] for crate in parts):
            return held
        held = {crate: held[crate] | more[crate] for crate in parts}


def names_any(text, names):
    return any(word in names for word in re.findall(r"\w+", text))


def found(sources):
    """The public functions that take a card and give one back; sources are texts by (crate, file)."""
    sources = {key: COMMENT.sub("", text) for key, text in sources.items()}
    names = holders(sources)
    traits = traits_of(sources, names)
    functions = set()
    for (crate, _), text in sources.items():
        blocks = list(impls(text, traits))
        for match in FUNCTION.finditer(text):
            # the innermost block, since a function may have blocks of its own
            block = max((it for it in blocks if it[0] < match.start() < it[1]), default=None)
            if not match[1] and not (block and block[3]):
                continue
            opening = after_generics(text, match.end())
            parameters = inside(text, opening)
            result = RESULT.match(text, opening + len(parameters) + 2)
            given = result[1] if result else ""
            held = names[crate] | may_hold(text, match.end(), traits) | (block[4] if block else set())
            if block:
                parameters, given = (re.sub(r"\b[sS]elf\b", lambda _: block[2], part) for part in (parameters, given))
            returned = names_any(given, held)
            lent = any(names_any(part, held) for part in re.findall(r"&\s*(?:'\w+\s+)?mut\b([^,]*)", parameters))
            if lent or (returned and names_any(parameters, held)):
                functions.add(f"{crate}::{match[2]}")
    return functions


def libraries():
    """The sources of the crates of crates.txt that are libraries."""
    sources = {}
    for line in (ROOT / "crates.txt").read_text().splitlines():
        # a name may be followed by what is built of the crate: `NAME staticlib: ..`
        crate = line.split("#")[0].partition(":")[0].partition(" ")[0]
        folder = ROOT / "crates" / crate / "src"
        if crate and (folder / "lib.rt").is_file():
            for path in sorted(folder.rglob("*.rt")):
                sources[crate, str(path.relative_to(folder))] = path.read_text()
    return sources


def judge(functions):
    """Prints every function that should not be, and every one of the list that is missing; true if there is none."""
    for name in sorted(functions - ALLOWED):
        print(f"{name}: a public function that takes a card and gives one back, and is no request")
    for name in sorted(ALLOWED - functions):
        print(f"{name}: not found, though it is a request")
    return functions == ALLOWED


TYPES = "pub struct Card { pub gate: u8 }\npub struct Answered { pub card: Card }\npub struct State { answered: Answered }\n"
SAMPLES = [
    ("pub fn forge(card: Card) -> Card { card }", True),
    ("pub fn forge(n: u8, mut card: Card) -> Answered\n    ensures { x }\n{ 0 }", True),
    ("pub fn forge(state: State)\n    -> State { state }", True),
    ("pub fn forge(a: u8, card: &mut Card) { }", True),
    ("pub fn forge(cards: [Card; 2]) -> [State; 2] { cards }", True),
    ("pub fn show(card: Card, n: u8) { }", False),
    ("pub fn same(a: Card, b: Card) -> bool { true }", False),
    ("pub fn write(card: Card, buffer: &mut [u8]) -> usize { 0 }", False),
    ("pub fn open(text: &[u8]) -> Answered { 0 }", False),
    ("pub(crate) fn forge(card: Card) -> Card { card }", False),
    ("fn forge(card: Card) -> Card { card }", False),
    ("// pub fn forge(card: Card) -> Card\nfn f() { }", False),
    # clauses that name a card before and after, and clauses with names
    ("pub fn forge(card: &mut Card, n: u8) -> bool\n    ensures told { result ≡ true }\n    ensures { card.new ≡ changed card.old n }\n{ true }", True),
    ("pub fn forge(card: Card) -> Answer\n    ensures { result ≡ (forge card : Card) }\n{ 0 }", False),
    ("pub fn look(card: &Card) -> u32\n    requires { IsOpened card.now }\n    ensures { result ≡ value_of card.now }\n{ 0 }", False),
    # what allocates answers a result
    ("pub fn forge(alloc: Global, card: Card) -> Result<Card, AllocError>\n    ensures { OnOk result (Is card) }\n{ Ok(card) }", True),
    ("pub fn forge(cards: &mut Vec<Card>) -> Result<(), AllocError> { Ok(()) }", True),
    ("pub fn told(alloc: Global, card: &Card) -> Result<String, AllocError> { card.text(alloc) }", False),
    # type parameters
    ("pub fn forge<F: Fn(u8) -> u8>(rule: F, card: Card) -> Card { card }", True),
    ("pub fn forge<const N: usize>(cards: [Card; N]) -> [Card; N] { cards }", True),
    ("pub fn rule<F: Fn(Card) -> Card>(rule: F) -> u8 { 0 }", False),
    ("pub fn forge<T: Copy>(held: T) -> T { held }", True),
    ("pub fn forge<T>(held: &mut T, n: u8) { }", True),
    ("pub fn forge<'a, T: 'a + Copy, const N: usize>(held: [T; N]) -> T { held[0] }", True),
    ("pub fn forge<T>(held: Result<T, u8>) -> Option<T>\n    where T: Copy\n    ensures { x }\n{ None }", True),
    ("pub fn swap<T: PartialEq + Copy>(held: T, new: T) -> (T, bool) { (new, true) }", False),
    ("pub fn swap<T>(held: T) -> T\n    where T: Copy + PartialEq\n    ensures { x }\n{ held }", False),
    ("pub fn judge<T>(read: &Result<T, u8>) -> Result<(), u8> { Ok(()) }", False),
    ("#[derive(Clone, Copy, PartialEq)]\npub struct Held { card: Card }\npub fn forge<T: PartialEq + Copy>(held: T) -> T { held }", True),
    ("pub trait Part {}\nimpl Part for Other {}\npub fn part<P: Part>(held: P) -> P { held }", False),
    ("pub trait Part {}\nimpl Part for State {}\npub fn forge<P: Part>(held: P) -> P { held }", True),
    ("pub trait Part {}\nimpl<T> Part for T {}\npub fn forge<P: Part>(held: P) -> P { held }", True),
    ("impl<T: Copy> Kept<T> {\n    pub fn forge(self, held: T) -> T { held }\n}", True),
    ("impl<T: PartialEq> Kept<T> {\n    pub fn kept(self, held: T) -> T { held }\n}", False),
    ("pub unsafe fn forge(card: Card) -> Card { card }", True),
    ("pub extern \"C\" fn forge(card: &mut Card) { }", True),
    # methods, and types of other forms
    ("impl State {\n    pub fn forge(&mut self, n: u8) { }\n}", True),
    ("impl State {\n    pub fn forge(self) -> Self { self }\n}", True),
    ("impl<'a> State {\n    pub fn forge(mut self, n: u8) -> Answered\n        ensures { x }\n    { 0 }\n}", True),
    ("impl State {\n    fn forge(self) -> Self { self }\n    pub fn show(&self) -> u32 { 0 }\n}", False),
    ("impl Other {\n    pub fn next(&mut self) -> Self { 0 }\n}", False),
    ("impl Iterator for State {\n    fn next(&mut self) -> Option<u8> { None }\n}", True),
    ("impl fmt::Display for State {\n    fn fmt<W: fmt::Write>(&self, f: &mut fmt::Formatter<W>) -> fmt::Result { Ok(()) }\n}", False),
    ("pub struct Held(Card);\npub fn forge(held: Held) -> Held { held }", True),
    ("pub type Held = (Card, u8);\npub fn forge(held: Held) -> Held { held }", True),
]


def self_test():
    wrong = 0
    for text, expected in SAMPLES:
        if bool(found({("types", "lib.rt"): TYPES, ("sample", "lib.rt"): text})) != expected:
            print(f"requests.py --self-test: {'not found' if expected else 'found'}: {text}")
            wrong += 1
    forged = found({**libraries(), ("report", "forged.rt"): "pub fn show_cells(card: Card, variable: u32) -> Card { card }"})
    if "report::show_cells" not in forged - ALLOWED:
        print("requests.py --self-test: a forged function among the libraries is not found")
        wrong += 1
    return wrong == 0


def main(arguments):
    if arguments == ["--self-test"]:
        return self_test()
    if arguments:
        print(__doc__)
        return False
    sources = libraries()
    good = judge(found(sources))
    if good:
        print(f"{len({crate for crate, _ in sources})} libraries, in which only requests alter a card")
    return good


if __name__ == "__main__":
    sys.exit(0 if main(sys.argv[1:]) else 1)
