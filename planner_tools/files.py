"""The reader of JSON files: a tree in which each value knows where it stands, and what is wrong with a text that is no
JSON.

What is JSON is what the program reads: RFC 8259, at most 127 levels open at once, no byte order mark, numbers within
the range of a float. Of members with one name the last counts.
"""
from __future__ import annotations

import bisect
import os
import re

TYPE_CHECKING = False
if TYPE_CHECKING:
    from typing import Any, NoReturn, Sequence

LEVELS = 127
WHITE = re.compile(r"[ \t\n\r]*")
STRING = re.compile(r'"((?:[^"\\\x00-\x1f]|\\(?:["\\/bfnrt]|u[0-9a-fA-F]{4}))*)"')
NUMBER = re.compile(r"-?(?:0|[1-9][0-9]*)(?:\.[0-9]+)?(?:[eE][+-]?[0-9]+)?")
WORD = re.compile(r"[A-Za-z_][A-Za-z_0-9]*")
# What begins like a number, for the words about one that isn't any.
NUMBERLIKE = re.compile(r"[-+.0-9][-+.0-9A-Za-z_]*")
ESCAPE = re.compile(r'\\(?:u([0-9a-fA-F]{4})|(.))')
ESCAPES = {"b": "\b", "f": "\f", "n": "\n", "r": "\r", "t": "\t"}
CONSTANTS = {"true": True, "false": False, "null": None}
CONSTANT = re.compile("true|false|null")
# Words for `true` and the like in other languages.
OTHER_CONSTANTS = {
    "True": "true", "False": "false", "None": "null", "TRUE": "true", "FALSE": "false", "NULL": "null", "nil": "null",
}
CURLY_QUOTES = "\u2018\u2019\u201c\u201d\u00ab\u00bb\u201e"
OPEN_WORDS = {"object": "the object", "list": "the list"}
# A whole number of more characters is beyond all that are taken.
LONGEST_WHOLE = 30
# How much of two names has to be the same for a guess.
LIKE = 0.7
# The longest piece of a text that is shown.
SHOWN = 40


class NotJson(Exception):
    """A text is no JSON: what is wrong, at which character, and what would be right."""

    def __init__(self, what: str, at: int, right: str = "") -> None:
        super().__init__(what)
        self.what, self.at, self.right = what, at, right


class Value:
    """A JSON value: its kind (object, list, text, number, truth, null), from which to which character it stands, and
    what it holds: of an object the members as (name, where the name stands, value), of a list the items, otherwise the
    value in Python."""

    __slots__ = ("kind", "start", "end", "held")

    def __init__(self, kind: str, start: int, end: int, held: Any) -> None:
        self.kind, self.start, self.end, self.held = kind, start, end, held

    def member(self, name: str) -> Value | None:
        """The value of a member, or None where it has none. Of several the last counts."""
        if self.kind == "object":
            for one, _, value in reversed(self.held):
                if one == name:
                    return value
        return None

    def items(self) -> list[Value]:
        return self.held if self.kind == "list" else []

    def whole(self) -> int | None:
        """The number where it is a whole one from 0 to 2^64 - 1, otherwise None."""
        return self.held if self.kind == "number" and isinstance(self.held, int) and 0 <= self.held < 1 << 64 else None


class Text:
    """A file as text, which knows its lines. `path` is the name as it was typed."""

    # where the answer is one for machines, the places that were put into words: the words, the text, the character
    told: list[tuple[str, Text, int]] | None = None

    def __init__(self, path: str, data: bytes) -> None:
        self.path = path
        self.data = data
        self.text = decoded(data)
        self.lines: list[int] | None = None

    def place(self, at: int) -> tuple[int, int]:
        """The line and the column, both from 1, of a character."""
        if self.lines is None:
            self.lines = [0] + [found.end() for found in re.finditer("\n", self.text)]
        line = bisect.bisect_right(self.lines, at) - 1
        return line + 1, at - self.lines[line] + 1

    def where(self, at: int) -> str:
        """Words for a place in the file."""
        line, column = self.place(at)
        words = f"{self.path}, line {line}, column {column}"
        if Text.told is not None:
            Text.told.append((words, self, at))
        return words

    def shown(self, value: Value) -> str:
        """The text of a value, on one line and not longer than some characters."""
        return short(self.text[value.start:value.end])


def short(text: str) -> str:
    """A text on one line, cut where it is long."""
    text = re.sub(
        r"\s+", " ",
        "".join(one if one.isprintable() or one.isspace() else f"\\x{ord(one):02x}" for one in text[: 4 * SHOWN]),
    )
    return text if len(text) <= SHOWN else text[:SHOWN - 2] + ".."


def decoded(data: bytes) -> str:
    """The text of some bytes. Bytes that are no UTF-8 stand in it as lone surrogates."""
    return data.decode("utf-8", "surrogateescape")


class Json(Text):
    """A file that holds JSON, read into values."""

    def __init__(self, path: str, data: bytes) -> None:
        super().__init__(path, data)
        self.root = Reading(self).whole()

    def at(self, way: Sequence[int | str]) -> Value:
        """The value at the end of a way of member names and item numbers, or the last one on it that is there."""
        value = self.root
        for step in way:
            held = (
                value.member(step)
                if isinstance(step, str)
                else value.held[step]
                if value.kind == "list" and step < len(value.held)
                else None
            )
            if held is None:
                return value
            value = held
        return value


def member_path(way: Sequence[int | str]) -> str:
    """A way of member names and item numbers as it is written, like links[4][1] or demands[0].from."""
    return "".join(f"[{step}]" if isinstance(step, int) else f".{step}" for step in way).lstrip(".")


def read_bytes(path: str, limit: int | None = None) -> bytes:
    with open(path, "rb") as file:
        return file.read() if limit is None else file.read(limit)


def read_json(path: str, shown: str | None = None) -> Json:
    """Reads a file into values. NotJson where it is none, OSError where it can't be read. `shown` is the name of the
    file as it was typed."""
    return Json(shown or path, read_bytes(path))


class Reading:
    """One reading of a text. The first fault ends it."""

    def __init__(self, text: Json) -> None:
        self.source, self.text = text, text.text
        self.open: list[tuple[str, int]] = []

    def whole(self) -> Value:
        self.look_at_bytes()
        at = self.skip(0)
        if at == len(self.text):
            raise NotJson(
                "the file is empty" if not self.text else "the file has nothing but white space", 0,
                "a JSON object: { .. }",
            )
        value = self.value(at)
        rest = self.skip(value.end)
        if rest < len(self.text):
            self.raise_behind(rest, value)
        return value

    def look_at_bytes(self) -> None:
        data = self.source.data
        for mark, name in (
            (b"\xef\xbb\xbf", "a byte order mark"), (b"\xff\xfe", "the byte order mark of UTF-16"),
            (b"\xfe\xff", "the byte order mark of UTF-16"),
        ):
            if data.startswith(mark):
                raise NotJson(f"the file begins with {name}", 0, "save it as UTF-8 without one")
        if b"\0" in data[:4] and len(data) > 1:
            raise NotJson("the file is in UTF-16 or UTF-32", 0, "save it as UTF-8")
        odd = re.search("[\udc80-\udcff]", self.text)
        if odd:
            raise NotJson(f"the byte {ord(odd[0]) - 0xDC00:02x} is no UTF-8", odd.start(), "save the file as UTF-8")

    def skip(self, at: int) -> int:
        found = WHITE.match(self.text, at)
        return found.end() if found else at

    def value(self, at: int) -> Value:
        """The value that begins at a character."""
        text = self.text
        one = text[at:at + 1]
        if one == '"':
            return self.string(at)
        if one in ("{", "["):
            if len(self.open) == LEVELS:
                raise NotJson(f"more than {LEVELS} levels are open", at, "fewer brackets in one another")
            self.open.append(("object" if one == "{" else "list", at))
            value = self.object(at) if one == "{" else self.list(at)
            self.open.pop()
            return value
        found = NUMBER.match(text, at)
        if found and not NUMBERLIKE.match(text, found.end()) and not WORD.match(text, found.end()):
            return self.number(found)
        found = CONSTANT.match(text, at)
        if found and not WORD.match(text, found.end()):
            return Value("null" if found[0] == "null" else "truth", at, found.end(), CONSTANTS[found[0]])
        return self.raise_no_value(at)

    def number(self, found: re.Match) -> Value:
        text = found[0]
        if text.lstrip("-").isdigit() and text != "-0" and len(text) <= LONGEST_WHOLE:
            return Value("number", found.start(), found.end(), int(text))
        held = float(text)
        if held in (float("inf"), float("-inf")):
            raise NotJson(f"the number {short(text)} is too great for a float", found.start(), "a smaller number")
        return Value("number", found.start(), found.end(), held)

    def string(self, at: int) -> Value:
        found = STRING.match(self.text, at)
        if not found:
            self.raise_bad_string(at)
        return Value("text", at, found.end(), self.unescaped(found[1], at + 1) if "\\" in found[1] else found[1])

    def unescaped(self, text: str, at: int) -> Any:
        """The text that an escaped one stands for."""
        units = [(int(found[1], 16), found.start()) for found in ESCAPE.finditer(text) if found[1]]
        held = ESCAPE.sub(lambda found: chr(int(found[1], 16)) if found[1] else ESCAPES.get(found[2], found[2]), text)
        held = re.sub(
            "[\ud800-\udbff][\udc00-\udfff]", lambda pair: pair[0].encode("utf-16", "surrogatepass").decode("utf-16"),
            held,
        )
        if re.search("[\ud800-\udfff]", held):
            where = next((start for unit, start in units if 0xD800 <= unit < 0xE000), 0)
            raise NotJson("half a surrogate pair stands alone", at + where, "both halves, or the character itself")
        return held

    def object(self, start: int) -> Value:
        at = self.skip(start + 1)
        members: list[tuple[str, int, Value]] = []
        if self.text[at:at + 1] == "}":
            return Value("object", start, at + 1, members)
        while True:
            if self.text[at:at + 1] != '"':
                self.raise_no_name(at, bool(members))
            name = self.string(at)
            at = self.skip(name.end)
            if self.text[at:at + 1] != ":":
                self.raise_no_colon(at, name)
            value = self.value(self.skip(at + 1))
            members.append((name.held, name.start, value))
            at = self.skip(value.end)
            if self.text[at:at + 1] == "}":
                return Value("object", start, at + 1, members)
            self.comma(at, value)
            at = self.skip(at + 1)

    def list(self, start: int) -> Value:
        at = self.skip(start + 1)
        items: list[Value] = []
        if self.text[at:at + 1] == "]":
            return Value("list", start, at + 1, items)
        while True:
            value = self.value(at)
            items.append(value)
            at = self.skip(value.end)
            if self.text[at:at + 1] == "]":
                return Value("list", start, at + 1, items)
            self.comma(at, value)
            at = self.skip(at + 1)

    # ---- what is wrong

    def comma(self, at: int, value: Value) -> None:
        """Sees that a comma stands at a character, behind a value."""
        if self.text[at:at + 1] == ",":
            return
        kind, start = self.open[-1]
        self.raise_at_end(at)
        one = self.text[at]
        if one in "}]":
            raise NotJson(
                (
                    f"{one} stands where {OPEN_WORDS[kind]} that begins in line {self.source.place(start)[0]} is to be"
                    " closed"
                ),
                at, "}" if kind == "object" else "]",
            )
        self.raise_comment(at)
        if one == ":" and kind == "list":
            raise NotJson(
                f"a colon stands in the list that begins in line {self.source.place(start)[0]}", at,
                "] before this member, or { } around it",
            )
        if value.kind == "text" and one.isalpha():
            raise NotJson(
                f"a quote is missing, or a comma: a text ends here, {short(self.text[value.start:value.end])}",
                value.end - 1, 'a quote " at the end of each text',
            )
        if one == '"' or one in "{[-" or one.isalnum():
            raise NotJson(f"a comma is missing behind {short(self.text[value.start:value.end])}", value.end, "a comma")
        raise NotJson(f"{short(self.text[at:at + 1])} stands where a comma or the end of {OPEN_WORDS[kind]} is due", at)

    def raise_at_end(self, at: int) -> None:
        """The text ends though something is open."""
        if at < len(self.text):
            return
        kind, start = self.open[-1]
        line, column = self.source.place(start)
        raise NotJson(
            (
                f"the file ends before {OPEN_WORDS[kind]} that begins in line {line}, column {column} is closed: it is"
                " cut off, or a bracket is missing"
            ),
            at, "}" if kind == "object" else "]",
        )

    def raise_comment(self, at: int) -> None:
        if self.text.startswith(("//", "/*"), at) or self.text[at] == "#":
            raise NotJson("a comment begins here, and JSON has none", at, "the file without it")

    def raise_no_value(self, at: int) -> NoReturn:
        """No value begins at a character."""
        if self.open:
            self.raise_at_end(at)
        elif at == len(self.text):
            raise NotJson("the file ends too early", at)
        self.raise_comment(at)
        one = self.text[at]
        if one in "]}," and self.text[:at].rstrip(" \t\n\r").endswith(","):
            before = len(self.text[:at].rstrip(" \t\n\r")) - 1
            raise NotJson(
                "two commas stand in a row" if one == "," else f"a comma stands before {one}", before,
                "the text without it",
            )
        if one in "]},:":
            raise NotJson(f"a value is missing before {one}", at)
        if one == "'" or one in CURLY_QUOTES:
            raise NotJson(f"{one} is no quote of JSON", at, 'the quote "')
        if one in "+-.0123456789":
            self.raise_bad_number(at)
        word = WORD.match(self.text, at)
        if word and word[0] in OTHER_CONSTANTS:
            raise NotJson(f"{word[0]} is no value of JSON", at, OTHER_CONSTANTS[word[0]])
        if word and word[0] in ("NaN", "Infinity", "inf", "nan"):
            raise NotJson(f"{word[0]} is no number of JSON", at, "a number in decimal digits")
        if word:
            raise NotJson(f"{short(word[0])} stands without quotes", at, f'"{short(word[0])}"')
        raise NotJson(f"{short(one)} begins no value", at)

    def raise_bad_number(self, at: int) -> NoReturn:
        found = NUMBERLIKE.match(self.text, at)
        text, right = found[0] if found else "", "a number in decimal digits"
        if re.match(r"-?0[0-9]", text):
            right = text.replace("0", "", 1) if text.strip("-0") else "0"
        elif text.startswith("+"):
            right = text[1:]
        elif re.match(r"0[xX][0-9a-fA-F]+$", text):
            right = str(int(text, 16))
        elif re.match(r"[0-9]{1,3}(\.[0-9]{1,3}){3}$", text):
            right = 'the quote " around it'
        raise NotJson(f"{short(text)} is no number of JSON", at, right)

    def raise_bad_string(self, at: int) -> NoReturn:
        """The text that begins at a quote isn't one."""
        end = at + 1
        while end < len(self.text):
            one = self.text[end]
            if one == '"':
                break
            if one == "\n":
                raise NotJson("the text that begins here isn't closed in its line", at, 'the quote " at its end')
            if one < " ":
                raise NotJson(
                    f"the character {ord(one):02x} stands in a text{', a tab' if one == chr(9) else ''}", end,
                    "\\t" if one == "\t" else "the text without it",
                )
            if one == "\\" and not ESCAPE.match(self.text, end):
                break
            if (
                one == "\\"
                and self.text[end + 1] not in '"\\/bfnrtu'
                or self.text.startswith("\\u", end)
                and not re.match(r"\\u[0-9a-fA-F]{4}", self.text[end : end + 6])
            ):
                raise NotJson(f"{short(self.text[end:end + 2])} is no escape of JSON", end, "\\\\ for the character \\")
            end += 2 if one == "\\" else 1
        raise NotJson(
            "the file ends in the text that begins here: it is cut off, or a quote is missing", at,
            'the quote " at its end',
        )

    def raise_no_name(self, at: int, has_members: bool) -> None:
        """No name of a member begins at a character."""
        self.raise_at_end(at)
        self.raise_comment(at)
        one = self.text[at]
        if one == "}" and has_members:
            raise NotJson("a comma stands before }", len(self.text[:at].rstrip(" \t\n\r")) - 1, "the text without it")
        if one == ",":
            raise NotJson(
                "two commas stand in a row" if has_members else "a comma stands before the first member", at,
                "the text without it",
            )
        if one == "'" or one in CURLY_QUOTES:
            raise NotJson(f"{one} is no quote of JSON", at, 'the quote "')
        word = WORD.match(self.text, at)
        if word:
            raise NotJson(f"the name {short(word[0])} of a member stands without quotes", at, f'"{short(word[0])}"')
        raise NotJson(f"{short(one)} stands where the name of a member is due", at, 'a name in quotes "')

    def raise_no_colon(self, at: int, name: Value) -> None:
        self.raise_at_end(at)
        if self.text[at] == "=":
            raise NotJson("= stands where a colon is due", at, "a colon")
        raise NotJson(f"a colon is missing behind {short(self.text[name.start:name.end])}", name.end, "a colon")

    def raise_behind(self, at: int, value: Value) -> None:
        """Something stands behind the value of the file."""
        self.raise_comment(at)
        if self.text[at] in "}]":
            raise NotJson(
                f"{self.text[at]} stands behind the end: a bracket is closed that isn't open", at, "the text without it"
            )
        raise NotJson(f"{short(self.text[at:at + 20])} stands behind the end of the first value", at, "one value alone")


# ---- names, numbers and words

def counted(number: int, word: str, words: str | None = None) -> str:
    """A number with its word, as in `1 change` and `2 changes`."""
    return f"{number} {word if number == 1 else words or word + 's'}"


def nearest(name: int | str, known: dict[str, Any] | Sequence[int | str]) -> str | None:
    """The known name that is most like a name, or None where none is."""
    import difflib

    text, names = str(name), [str(one) for one in known]
    folded = {one.casefold().replace("-", "_"): one for one in reversed(names)}
    same = folded.get(text.casefold().replace("-", "_"))
    if same is not None:
        return same
    found = difflib.get_close_matches(text, names, 1, LIKE)
    if found:
        return found[0]
    starts = [
        one for one in names if len(text) >= 3 and (one.startswith(text) or text.startswith(one) and len(one) >= 3)
    ]
    return starts[0] if len(starts) == 1 else None


def did_you_mean(name: int | str, known: Any) -> str:
    """The words of a guess, with a question mark, or none."""
    guess = nearest(name, known)
    return f"; did you mean `{guess}`?" if guess is not None else ""


def like(path: str, is_fixed: bool = False) -> str:
    """Words for a file beside a path that isn't there and has a similar name, or none. A name that is fixed is no
    likely one for another such name."""
    from planner_tools.words import IN_FOLDER
    folder, name = os.path.split(path)
    try:
        names = sorted(one for one in os.listdir(folder or ".") if not is_fixed or one not in IN_FOLDER.values())
    except OSError:
        return ""
    guess = nearest(name, names)
    return f"; did you mean {os.path.join(folder, guess)}?" if guess else ""


def like_folder(path: str) -> str:
    """The same words beside what has to be a folder; none where a file is in its place."""
    return "" if os.path.exists(path) else like(path)
