#!/usr/bin/env python3
"""Makes docs/HEADLINE.md: the definitions on which the headline rests, a field of the promises of `check` and of
`serve`, copied from the crates; and the counts in README.md.

    tools/headline.py             writes the page and the counts, and prints these
    tools/headline.py --check     writes nothing, and fails where the page or the counts are not what this script makes

A definition is found by its name in crates/*/specs. From it the script goes on to each definition that its text names,
until only words of the standard library are left. A type that is declared in the code (`specs.declared`) is shown as it
stands in src/; of one that contracts see as a plain value, that value is shown.
"""
from __future__ import annotations

import os
import re
import sys

import making

TYPE_CHECKING = False
if TYPE_CHECKING:
    from typing import Callable, Iterator, Sequence, TypeVar
    T = TypeVar("T")

PAGE = "docs/HEADLINE.md"
# The parts of the page: a title, what it has, and the definitions that it begins with.
Part = tuple[str, str, tuple[str, ...]]
PARTS: tuple[Part, ...] = (
    (
        "Runs and good traces",
        "What it means that an update by a plan is consistent: all that the sentence says of runs and packets.",
        ("IsConsistent",),
    ),
    (
        "The certified plan",
        "Which plans are accepted. That a certified plan is consistent is a proved law (`certified_consistent` in "
        "crates/certificates/src/laws.rt), so the sentence can be believed without this part.",
        ("IsCertified", "is_two_phase"),
    ),
    (
        "What the files mean",
        "Which network, configurations, demands and plan the bytes of five files stand for, and when `check` accepts "
        "them.",
        ("FilesAreCertified", "FilesMeanPlan"),
    ),
    (
        "Runs both ways",
        "What the second sentence says of runs in which the update is turned back, and onward again. What it says of "
        "packets, of plans and of files is in the parts above.",
        ("IsTwoWayConsistent",),
    ),
    (
        "The network on the wire",
        "What the second sentence says of messages and switches: what a controller's driver sends at each call, what "
        "switches do with it, and what comes back. What it says of packets, of plans and of files is in the parts "
        "above.",
        ("IsWireConsistent",),
    ),
)
HEAD = """# The definitions of the headline

> If `planner check` accepts a plan, then in every run that interleaves its single rule changes, in any order within a round, with single packet hops, no packet visits a switch twice, every packet that leaves has met its waypoints in their order, none that must arrive is dropped by a switch, and under a two-phase plan each packet's whole path is that of the old or of the new configuration.

> While `planner serve` answers for such a plan, the same holds of every packet in the network, however often the update is turned back and forward again. It holds in whichever order switches carry out messages between barriers, whatever they refuse, wherever their bytes are cut, and whichever connections and switches are lost. `back` is taken at any moment of a round that goes forward, and between two rounds where each switch of the last one has an open session or is dead.

This page has the definitions on which the sentences rest, from their words down to numbers and lists: of runs and good traces, of certified plans, of what the bytes of files mean, of runs both ways, and of the network on the wire. [THEOREMS.md](THEOREMS.md) leads from the words of the sentences to the first of them, and states the premises. Three things say nothing of packets, and aren't on the page:

- how the words of the command line name the files (`asked_command` in crates/planner_cli/specs/Commands.antt);
- the records of which the sentences are fields (`keeps` of `CheckPromise` in crates/check_command/specs/Promise.antt, `safe_on_the_wire` and `both_ways` of `ServePromise` in crates/law_serve_promise/specs/Promise.antt);
- which calls of the driver the lines of `serve` ask for, and how what it says is spelled (crates/serve_lines/specs, crates/serve_command/specs).

In each part a file stands before those that it rests on, and a definition before those of its file that it is made of. What an earlier part has isn't repeated. `tools/headline.py` copies the definitions from the crates and counts them, and the test command fails where the page is not what the script makes.
"""
NOTATION = """## How to read it

| Written | Read |
|---|---|
| `f x y` | f of x and y |
| `A → B` | from A to B; between statements: if A, then B |
| `(x : A) → B` | for every x of A: B |
| `(x : A) × B` | there is an x of A with B |
| `A × B`, `A ⊎ B`, `¬ A` | A and B; A or B; not A |
| `A ↔ B` | A exactly where B |
| `x ≡ y`, `x ≢ y` | x is y; x isn't y |
| `Unit {0}`, `⊥` | what always holds; what never holds |
| `Type 0` | a statement, or a type |
| `abbrev f : A → B` and lines `f pattern = ..` | f is a function from A to B; the first line whose pattern fits says what it gives |
| `record R (x : A) : Type 0 where` with lines `pub name : ..` | a statement (or a type) whose parts are these lines, all of which hold |
| `record { name = x; .. }`, `r.name` | a value of its parts; a part of it |
| `λ x. e` | the function that gives e for x |
| `ℕ`, `Bool`, `IsTrue b` | numbers from 0; true or false; b is true |
| `[]`, `x ∷ xs`, `xs ++ ys` | the empty list; x before the list xs; one list behind the other |
| `None`, `Some x` | nothing; x |
| `Ok x`, `Err e` | the value x; the refusal e |
| `p.0`, `p.1` | the number of a switch or a port; the parts of a pair |
| `let x : A = e in b` | b, where x stands for e |
| `do` with lines `x ← a` | each line's value has its name in the lines below; a line that refuses ends with its refusal |
| `{A : Type 0} →` | for every type A |
| `◌>>=◌` | the operator that is written `x >>= f` |

Texts and bytes are lists of numbers. A definition marked `unfoldable` reads as one marked `abbrev`. A type that is declared in the code stands as it does there: `u32` and the like are numbers below a bound, `Vec` is a list. Of a type whose parts are its crate's own, the page has the value that contracts see, behind "seen as".
"""
LIBRARY = """## Words of the libraries

These words are the standard library's (`std`), and for files the JSON tree that its `serde_json` reads. In a crate's folder `rt lemma WORD` prints the definition of each.
"""
NOTE = (
    "Lines are counted without the comments above a definition or a type. A file that has something of several parts "
    "is counted in each, and once in the last row."
)
# What the words of the libraries mean; those that NOTATION has are left out here.
WORDS = {
    "AllByRecursion": "`AllByRecursion P xs`: P holds of every item of the list",
    "AllZip": "`AllZip R xs ys`: the lists are equally long, and R holds of their items place by place",
    "Data": "a JSON value",
    "Items": "the items of a JSON list",
    "List": "`List A`: lists of A",
    "Option": "`Option A`: nothing, or an A",
    "Result": "`Result A E`: a value of A, or a refusal of E",
    "as_array": "the items of a JSON list",
    "as_bool": "the truth value, where the JSON value is one",
    "as_number": "the number, where the JSON value is one",
    "as_object": "the members, where the JSON value is an object",
    "as_str": "the text, where the JSON value is one",
    "as_u64": "the whole number below 2^64, where the number is one",
    "big_bytes": "`big_bytes n x`: the lowest n bytes of the number, the highest of them first",
    "big_from": "`big_from i n bytes`: the number in the n bytes from place i, the highest first",
    "bit_at": "`bit_at n i`: bit i of the number, the lowest is 0",
    "bytes_eq": "whether two texts are the same",
    "codes": "the bytes of a text",
    "cond": "`cond b x y`: x where b is true, otherwise y; also `if b then x else y`",
    "count_by": "how many items pass the test",
    "digits_value": "`digits_value 10 ds`: the number that the digits write",
    "drop": "`drop n xs`: the list without its first n items",
    "filter": "the items that pass the test, in their order",
    "filter_map": "`filter_map f xs`: the values that f gives for the items, where it gives one, in their order",
    "find": "the first item that passes the test, if there is one",
    "flat_map": "`flat_map f xs`: the lists that f gives for the items, one behind the other",
    "get": "`get name d`: the member of a JSON object, the last one of this name",
    "is_ascii_digit": "whether the byte is a digit",
    "is_none": "whether there is nothing",
    "is_some": "whether there is something",
    "is_utf8": "whether the bytes are text in UTF-8",
    "length": "how many items a list has",
    "list_all": "whether each item passes the test",
    "list_any": "whether some item passes the test",
    "map": "`map f xs`: f of each item",
    "max": "the greater of two numbers",
    "min": "the lesser of two numbers",
    "nat_eq": "whether two numbers are the same; also `==`",
    "nat_le": "whether the first number is at most the second",
    "nat_lt": "whether the first number is below the second",
    "not": "true for false, false for true",
    "option_eq": "`option_eq eq a b`: whether there is nothing in both, or something in both and eq is true of it",
    "option_and_then": "`option_and_then f o`: f of the value, where there is one",
    "option_map": "`option_map f o`: the value that f gives for the one that is there, if one is",
    "option_map_or": "`option_map_or f o d`: f of the value, where there is one, otherwise d",
    "option_or": "the first, where there is something, otherwise the second",
    "pointwise":
        "`pointwise eq xs ys`: whether the lists are equally long, and eq is true of their items place by place",
    "position": "the number of the first item that passes the test, from 0, if there is one",
    "position_or_len": "the number of the first item that passes the test, from 0; the length where there is none",
    "range_with_len": "`range_with_len a n`: n numbers from a on",
    "read": "the JSON value that the bytes are, if they are one",
    "replicate": "`replicate n x`: n times x",
    "slice_get": "`slice_get xs i`: item i of the list, from 0, if there is one",
    "slice_index": "`slice_index xs i`: item i of a list of numbers, from 0; 0 past its end",
    "slice_index_or": "`slice_index_or xs i d`: item i of the list, from 0; d past its end",
    "slice_set": "`slice_set xs i x`: the list with x as item i; the list itself where there is no item i",
    "suc": "the next number",
    "sum_by": "`sum_by f xs`: the sum of what f gives for the items",
    "take": "`take n xs`: the first n items of the list",
    "unwrap_or": "the value that is there, otherwise the second",
    "⊤": "what always holds",
    "◌&&◌": "both are true",
    "◌||◌": "one of them is true",
}
# Words that NOTATION explains, or that mean in the page what they mean everywhere.
PLAIN = {"Bool", "Err", "IsTrue", "None", "Ok", "Some", "false", "true", "ℕ", "tt"}


# Of each name what it stands for: the path of a module and the name in it, or none for the module itself.
Imports = dict[str, tuple[str, "str | None"]]
# Definitions and their lines, declared types and theirs, and files; a row has the title of the part besides.
Counts = tuple[int, int, int, int, int]
CountRow = tuple[str, int, int, int, int, int]


# ---- reading the sources

class Definition:
    """A definition: its name, the file it stands in, its comment, its text, and, of a type that is declared in the
    code, what tells the definitions that it rests on."""

    def __init__(self, name: str, file: str, comment: str, text: str, language: str) -> None:
        self.name, self.file, self.comment, self.text, self.language = name, file, comment, text, language
        self.cites: Callable[[], list[Definition]] | None = None

    def lines(self) -> int:
        return self.text.count("\n") + 1


def read(path: str) -> str:
    with open(path, encoding="utf-8") as it:
        return it.read()


START = re.compile(r"(?:infix[lr]? \d+ \S+\n)?(?:abbrev|unfoldable|def|pub record|pub data|record|data)(?: pub)? (\S+)")
# A name, an operator, or a sign that stands alone.
TOKEN = re.compile(r"\"[^\"]*\"|[^\s(){}\[\];,\"]+|[{}(;]")
USE = re.compile(r"^use (\S+?)(?:\.\{([^}]*)\}| as (\w+))$", re.M)


def blocks(text: str) -> Iterator[tuple[str, str]]:
    """Yields the pieces of a file that blank lines part, each as its comment lines and the rest."""
    for piece in re.split(r"\n\s*\n", text):
        lines = piece.strip("\n").split("\n")
        first = next((at for at, line in enumerate(lines) if not line.startswith("--")), len(lines))
        yield "\n".join(lines[:first]), "\n".join(lines[first:])


def definitions_in(file: str, text: str) -> dict[str, Definition]:
    """Returns the definitions of a file of specs/, by name."""
    found = {}
    for comment, rest in blocks(text):
        start = START.match(rest)
        if start:
            found[start[1]] = Definition(start[1], file, comment, rest, "text")
    return found


def imports_in(text: str) -> Imports:
    """Returns what each name of a file stands for: the path of a module and the name in it, or the path alone for a
    module under another name."""
    found: Imports = {}
    for path, names, alias in USE.findall(text):
        if alias:
            found[alias] = path, None
        for name in filter(None, map(str.strip, names.split(","))):
            found[name] = path, name
    return found


def bound_in(text: str) -> set[str]:
    """Returns the names that the text itself binds: variables and parameters."""
    found: set[str] = set()
    for names in re.findall(r"[({]([\w ]+) : |λ ([\w ]+)\.|(\w+) ←|let (\w+)", text):
        found.update(" ".join(names).split())
    for line in text.split("\n")[1:]:
        # (a clause: its left side has patterns, whose lower-case words are variables)
        left = re.match(r"\S+((?: [^=]*)?) =(?: |$)", line)
        if left and not line.startswith(" "):
            patterns = re.findall(r"[^\s(){}\[\];,∷]+", left[1])
            found.update(it for it in patterns if re.fullmatch(r"[a-z]\w*", it))
    return found


def without_words(line: str, words: set[str]) -> str:
    """Returns a line without these words, but for those behind a point."""
    return re.sub(r"(?<!\.)\b\w+", lambda it: "_" if it[0] in words else it[0], line)


def without_parts(text: str) -> str:
    """Returns the text of a record without the names of its parts: each stands for the part from the next line on."""
    parts: set[str] = set()
    lines = []
    for line in text.split("\n"):
        part = re.match(r"\s+pub (\S+) :", line)
        lines.append(without_words(line[part.end():] if part else line, parts))
        parts.update([part[1]] if part else [])
    return "\n".join(lines)


def words_of(text: str) -> list[str]:
    """Returns the words of a definition's text that can name another one, in order: no texts, no parts that are named
    or set."""
    tokens: list[str] = TOKEN.findall(text)
    found, depth = [], []
    for at, token in enumerate(tokens):
        after = tokens[at + 1] if at + 1 < len(tokens) else ""
        if token in "{(":
            depth.append(token == "{" and "record" in tokens[max(0, at - 2):at])
        is_part = after == "=" and depth and depth[-1] and tokens[at - 1] in "{;"
        if not token.startswith('"') and not is_part:
            found.append(token)
    return found


def first_word(token: str) -> str:
    """Returns the name that a word begins with: `p` of `p.switch`, `event` of `event.Start`."""
    return token if not re.match(r"\w", token) else token.partition(".")[0]


# ---- declared types

def source_of(crate: str, module: str, root: str) -> str:
    """Returns the file of src/ in which a module stands."""
    parts = module.split(".") if module else []
    places = ["/".join(parts) + ".rt", "/".join([*parts, "mod.rt"])] if parts else ["lib.rt", "main.rt"]
    return next(f"crates/{crate}/src/{it}" for it in places if os.path.isfile(f"{root}/crates/{crate}/src/{it}"))


def item_in(text: str, name: str) -> tuple[str, str] | None:
    """Returns the comment and the text of a struct, an enum or another name of a type in a source file, or None."""
    head = r"(?m)((?:^///.*\n|^#\[.*\]\n)*)"
    body = r"\([^)]*\);|[^{;]*;|[^{]*\{(?:\n[\s\S]*?^)?\}"
    found = re.search(rf"{head}^((?:pub(?:\(\w+\))? )?(?:struct|enum|type) {name}\b(?:{body}))", text)
    if not found:
        return None
    comment = "\n".join(it for it in found[1].splitlines() if it.startswith("///"))
    return comment, "\n".join(it for it in found[2].splitlines() if not it.lstrip().startswith("#["))


def model_in(text: str, name: str) -> tuple[str, Imports] | None:
    """Returns the value that contracts see in place of a type, and the imports beside it, or None where contracts see
    the type as it stands."""
    found = re.search(rf"(?m)^impl(?:<[^>]*>)? Model for {name}\b[^{{]*\{{\n([\s\S]*?)^\}}", text)
    if not found:
        return None
    value = re.search(r"ghost Value = \{\s*([\s\S]*?)\s*\};", found[1])
    if not value:
        raise LookupError(f"the Model of {name} has no value")
    return value[1], imports_in(re.sub(r"(?m)^\s*ghost use (.*);$", r"use \1", found[1]))


def rust_imports(text: str) -> dict[str, str]:
    """Returns the crate that each name of a source file comes from, as its `use` lines say."""
    found = {}
    for path, names, name in re.findall(r"(?m)^use (\w+)(?:::\w+)*::(?:\{([^}]*)\}|(\w+));", text):
        for it in [*map(str.strip, names.split(",")), name]:
            found[it] = path
    return found


# ---- the repository

class Specs:
    """All definitions of the repository, and what each cites."""

    def __init__(self, root: str) -> None:
        self.root = root
        # by file: its definitions, what its names stand for, and what its head says
        self.files: dict[str, dict[str, Definition]] = {}
        self.imports: dict[str, Imports] = {}
        self.heads: dict[str, str] = {}
        # by crate and name: the types that are declared in the code
        self.known: dict[tuple[str, str], Definition] = {}
        # the words of libraries that a definition cites, each with its module
        self.library: dict[Definition, set[tuple[str, str]]] = {}
        for _, file, text in making.files_of(("specs",), root):
            if file.endswith(".antt"):
                self.add(file, text)

    def add(self, file: str, text: str) -> None:
        """Takes in a file of definitions."""
        self.files[file], self.imports[file] = definitions_in(file, text), imports_in(text)
        head = re.match(r"((?:-- .*\n)*)use ", text)
        self.heads[file] = " ".join(it[3:] for it in head[1].splitlines()) if head else ""

    def named(self, name: str) -> Definition:
        """Returns the definition of the name, which stands once."""
        found = [it[name] for it in self.files.values() if name in it]
        if len(found) != 1:
            where = ", ".join(it.file for it in found) or "nowhere"
            raise LookupError(f"{name} is defined {len(found)} times in crates/*/specs: {where}")
        return found[0]

    def resolve(self, path: str, name: str | None, by: Definition) -> list[Definition]:
        """Returns the definitions behind a name of a module. A word of a library is noted."""
        parts = path.split(".")
        crate, inner = parts[1], parts[3:]
        if not os.path.isdir(f"{self.root}/crates/{crate}"):
            if name:
                self.library.setdefault(by, set()).add((path, name))
            return []
        if inner[:1] in (["declared"], ["contracts"]):
            # (its variants, and the name itself, lead to the type)
            names = [it for it in inner[1:] if it != "TheVariants"]
            return [self.declared(crate, ".".join(names[:-1]), names[-1])]
        file = f"crates/{crate}/specs/{'/'.join(inner)}.antt"
        if name is None:
            return []
        if name not in self.files[file]:
            # (a module may pass on what another one defines)
            return self.resolve(*self.imports[file][name], by) if name in self.imports[file] else []
        return [self.files[file][name]]

    def declared(self, crate: str, module: str, name: str) -> Definition:
        """Returns the declaration of a type in src/."""
        key = crate, name
        if key not in self.known:
            file = source_of(crate, module, self.root)
            self.known[key] = self.type_in(crate, file, name)
        return self.known[key]

    def type_in(self, crate: str, file: str, name: str) -> Definition:
        """Returns the declaration of a type in a source file."""
        text = read(f"{self.root}/{file}")
        found = item_in(text, name)
        if not found:
            raise LookupError(f"{file} declares no type {name}")
        comment, item = found
        model = model_in(text, name)
        if model is None:
            made = Definition(name, file, comment, item, "rust")
            made.cites = lambda: self.types_in(crate, text, item, name)
            return made
        value, brought = model
        head = re.match(rf"[^;]*?{name}(?:<[^>]*>)?", item)
        made = Definition(name, file, comment, f"{head[0] if head else name}, seen as {value}", "rust")
        made.cites = lambda: self.values_in(value, brought, made)
        return made

    def values_in(self, value: str, brought: Imports, by: Definition) -> list[Definition]:
        """Returns the definitions that the value names that contracts see in place of a type."""
        found = []
        for word in words_of(value):
            if word in brought:
                found += self.resolve(*brought[word], by)
        return found

    def types_in(self, crate: str, text: str, item: str, own: str) -> list[Definition]:
        """Returns the types of the repository that a declaration names."""
        brought = rust_imports(text)
        found: list[Definition] = []
        bare = re.sub(r"(?m)//.*$", "", item)
        # (in an enum a word that begins a line is a variant)
        inner = re.sub(r"(?m)^    (?:pub )?\w+(?=[,({:]|\s*$)", "", bare.partition("{")[2])
        bare = inner if "{" in bare else bare.partition(own)[2]
        for word in re.findall(r"\b[A-Z]\w*", bare):
            place = brought.get(word, crate)
            if word != own and os.path.isdir(f"{self.root}/crates/{place}/src"):
                found += self.search(place, word)
        return found

    def search(self, crate: str, name: str) -> list[Definition]:
        """Returns the declaration of a type, wherever in src/ of the crate it stands."""
        if (crate, name) in self.known:
            return [self.known[crate, name]]
        for _, file, text in making.files_of(("src",), self.root, [crate]):
            if item_in(text, name):
                self.known[crate, name] = self.type_in(crate, file, name)
                return [self.known[crate, name]]
        return []

    def cited(self, definition: Definition) -> list[Definition]:
        """Returns the definitions that a definition's text names, in the order of its text, each once."""
        found = definition.cites() if definition.cites else self.cited_in_text(definition)
        return [it for it in dict.fromkeys(found) if it is not definition]

    def cited_in_text(self, definition: Definition) -> list[Definition]:
        """Returns the definitions behind the words of a definition of specs/."""
        text, bound = definition.text, bound_in(definition.text)
        found = []
        for token in words_of(without_parts(text) if "record" in text.split("\n")[0] else text):
            for name in (first_word(token), f"◌{token}◌", f"◌{token}", *(("◌>>=◌",) if token == "do" else ())):
                # (a variable may have the name of a module, whose words have a capital)
                is_bound = name in bound and not re.match(r"\w+\.[A-Z]", token)
                if not is_bound and name != definition.name:
                    found += self.behind(name, token, definition)
        return found

    def behind(self, name: str, token: str, by: Definition) -> list[Definition]:
        """Returns the definitions behind a name, which a word of a definition of the same file begins with or is."""
        here, brought = self.files[by.file], self.imports[by.file]
        if name in here:
            return [here[name]]
        if name not in brought:
            return []
        path, inner = brought[name]
        # (of a module under another name the word behind the point is meant)
        return self.resolve(path, inner or token.partition(".")[2].partition(".")[0] or None, by)


# ---- the page

def in_order(starts: Sequence[T], follow: Callable[[T], Sequence[T]]) -> list[T]:
    """Returns all that is reached from the starts, each before what it leads to where there is no ring, and what is
    named first early."""
    done: set[T] = set()
    ended: list[T] = []

    def go(it: T) -> None:
        open_ = [(it, iter(reversed(follow(it))))]
        done.add(it)
        while open_:
            top, rest = open_[-1]
            for other in rest:
                if other not in done:
                    done.add(other)
                    open_.append((other, iter(reversed(follow(other)))))
                    break
            else:
                ended.append(open_.pop()[0])

    for it in reversed(starts):
        if it not in done:
            go(it)
    return ended[::-1]


def by_file(
    definitions: list[Definition], cited: Callable[[Definition], list[Definition]]
) -> list[tuple[str, list[Definition]]]:
    """Returns the definitions by file: files before those that they rest on, and in a file each definition before those
    that it is made of."""
    files: dict[str, list[Definition]] = {}
    for it in definitions:
        files.setdefault(it.file, []).append(it)

    def leads(file: str) -> list[str]:
        others = dict.fromkeys(other.file for it in files[file] for other in cited(it))
        return [it for it in others if it in files and it != file]

    return [(file, files[file]) for file in in_order(list(files), leads)]


def shown(definition: Definition) -> str:
    return f"{definition.comment}\n{definition.text}".lstrip("\n")


def file_text(specs: Specs, file: str, definitions: list[Definition]) -> str:
    """Returns the section of a file."""
    language = definitions[0].language
    head = specs.heads.get(file, "")
    body = "\n\n".join(map(shown, definitions))
    return f"### {file}\n\n" + (f"{head}\n\n" if head else "") + f"```{language}\n{body}\n```\n"


def counts(definitions: list[Definition]) -> Counts:
    """Returns how many definitions there are and their lines, how many declared types and theirs, and how many
    files."""
    types = [it for it in definitions if it.language == "rust"]
    others = [it for it in definitions if it.language != "rust"]
    lines, type_lines = sum(it.lines() for it in others), sum(it.lines() for it in types)
    return len(others), lines, len(types), type_lines, len({it.file for it in definitions})


def words_of_libraries(specs: Specs, definitions: list[Definition]) -> dict[str, list[str]]:
    """Returns the words of libraries that definitions cite, in order, each with the pages that define it."""
    found: dict[str, set[str]] = {}
    for path, name in (it for one in definitions for it in specs.library.get(one, ())):
        if name not in PLAIN and (name in WORDS or re.match(r"\w", name)):
            page_of = path.replace("Rattle.", "").replace(".specs.", ", ").replace("declared.", "")
            found.setdefault(name, set()).add(page_of)
    return {name: sorted(pages) for name, pages in sorted(found.items())}


def library_row(name: str, pages: list[str]) -> str:
    """Returns the row of a word of a library."""
    word, meaning = (it.replace("|", "\\|") for it in (name.replace("◌", ""), WORDS.get(name, "")))
    return f"| `{word}` | {meaning} | {'; '.join(pages)} |"


def library_text(specs: Specs, definitions: list[Definition]) -> tuple[str, list[str]]:
    """Returns the table of the words of libraries, and those of them whose meaning isn't told."""
    words = words_of_libraries(specs, definitions)
    rows = [library_row(*it) for it in words.items()]
    table = [LIBRARY, "| Word | Meaning | Library and page |", "|---|---|---|", *rows]
    return "\n".join(table) + "\n", sorted({*words} - {*WORDS})


def count_table(rows: list[CountRow]) -> str:
    """Returns the table of the counts of the parts."""
    heads = ("Part", "Definitions", "Their lines", "Declared types", "Their lines", "Files")
    lines = [f"| {' | '.join(heads)} |", "|---" * len(heads) + "|"]
    return "\n".join([*lines, *(f"| {' | '.join(map(str, it))} |" for it in rows)])


def page(specs: Specs) -> tuple[str, list[CountRow], list[str]]:
    """Returns the text of the page, the rows of its counts, and the words of libraries whose meaning isn't told."""
    cited: dict[Definition, list[Definition]] = {}
    rows: list[CountRow] = []
    every: list[Definition] = []
    parts = []

    def follow(it: Definition) -> list[Definition]:
        if it not in cited:
            cited[it] = specs.cited(it)
        return cited[it]

    for number, (title, about, names) in enumerate(PARTS, 1):
        before = {*every}
        own = [it for it in in_order([specs.named(name) for name in names], follow) if it not in before]
        every += own
        rows.append((title, *counts(own)))
        sections = [file_text(specs, *it) for it in by_file(own, follow)]
        parts.append("\n".join([f"## {number}. {title}\n\n{about}\n", *sections]))
    rows.append(("All", *counts(every)))
    words, untold = library_text(specs, every)
    return "\n".join([HEAD, count_table(rows), "", NOTE, "", NOTATION, words, *parts]), rows, untold


def with_counts(readme: str, rows: list[CountRow]) -> str:
    """Returns the text of README.md with the counts of the two claims between their marks: definitions, and their lines
    in brackets. The last two parts are those of the second claim alone."""
    first, second = rows[:-3], rows[-3:-1]
    counted = [(sum(it[1] for it in part), sum(it[2] for it in part)) for part in (first, second)]
    text = (
        f"The first claim has {counted[0][0]} ({counted[0][1]} lines), the second {counted[1][0]} more "
        f"({counted[1][1]} lines), which name {rows[-1][3]} types that the code declares."
    )
    return making.with_part(readme, "counts", text, "README.md")


def main(words: list[str]) -> int:
    if words not in ([], ["--check"]):
        print(__doc__, file=sys.stderr)
        return 2
    try:
        text, rows, untold = page(Specs(making.ROOT))
        wanted = {PAGE: text, "README.md": with_counts(making.read("README.md"), rows)}
    except LookupError as fault:
        print(f"headline: {fault}", file=sys.stderr)
        return 1
    others = making.settle("headline", wanted, bool(words))
    if words and others:
        return 1
    for it in untold if others else ():
        print(f"headline: WORDS in tools/headline.py doesn't say what {it} means", file=sys.stderr)
    for title, definitions, lines, types, type_lines, files in rows:
        print(f"headline: {title}: {definitions} definitions in {lines} lines, "
              f"{types} declared types in {type_lines} lines, {files} files")
    return 0


if __name__ == "__main__":
    sys.exit(main(sys.argv[1:]))
