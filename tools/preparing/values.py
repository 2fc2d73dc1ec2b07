"""Numbers and expressions of SPICE files: `3u`, `{2*wn}`, `'max(a, b)'`. Python 3.8."""
from __future__ import annotations

import math
import re
from typing import Callable, Dict, List, NamedTuple, Optional

SCALES = {"t": 1e12, "g": 1e9, "meg": 1e6, "k": 1e3, "mil": 25.4e-6, "m": 1e-3, "u": 1e-6, "n": 1e-9, "p": 1e-12,
          "f": 1e-15}
TOKEN = re.compile(r"(?P<number>(?:\d+\.?\d*|\.\d+)(?:e[-+]?\d+)?)(?P<letters>[a-z]*)|(?P<name>[a-z_][\w.]*)"
                   r"|(?P<sign>\*\*|[-+*/^(),])")
LETTERS = re.compile(r"meg|mil|[tgkmunpf]")
FUNCTIONS: Dict[str, Callable[..., float]] = {
    "min": min, "max": max, "abs": abs, "sqrt": math.sqrt, "pow": pow, "int": lambda at: float(int(at)),
    "floor": math.floor, "ceil": math.ceil, "round": lambda at: math.floor(at + 0.5)}


class NoValue(Exception):
    """Why a word has no value."""


class Token(NamedTuple):
    kind: str
    text: str
    value: float = 0.0


def tokens(text: str) -> List[Token]:
    found, at = [], 0
    text = text.lower()
    while at < len(text):
        if text[at].isspace():
            at += 1
            continue
        match = TOKEN.match(text, at)
        if not match:
            raise NoValue(f"{text[at:]} is no expression")
        at = match.end()
        if match.group("number"):
            scale = LETTERS.match(match.group("letters"))
            value = float(match.group("number")) * (SCALES[scale.group()] if scale else 1.0)
            found.append(Token("number", match.group(), value))
        else:
            kind = "name" if match.group("name") else "sign"
            found.append(Token(kind, match.group()))
    return found


class Reader:
    """Reads one expression; names get their values from `look`."""

    def __init__(self, text: str, look: Callable[[str], float]) -> None:
        self.rest, self.look = tokens(text), look

    def has(self, *signs: str) -> Optional[str]:
        """The next sign where it is one of these; it is taken then."""
        if self.rest and self.rest[0].kind == "sign" and self.rest[0].text in signs:
            return self.rest.pop(0).text
        return None

    def whole(self) -> float:
        value = self.sum()
        if self.rest:
            raise NoValue(f"{self.rest[0].text} is where it may not be")
        return value

    def sum(self) -> float:
        value, sign = self.product(), self.has("+", "-")
        while sign:
            other = self.product()
            value, sign = (value + other if sign == "+" else value - other), self.has("+", "-")
        return value

    def product(self) -> float:
        value, sign = self.signed(), self.has("*", "/")
        while sign:
            other = self.signed()
            if sign == "/" and other == 0:
                raise NoValue("it divides by 0")
            value, sign = (value * other if sign == "*" else value / other), self.has("*", "/")
        return value

    def signed(self) -> float:
        sign = self.has("+", "-")
        if sign:
            return -self.signed() if sign == "-" else self.signed()
        base = self.atom()
        return base ** self.signed() if self.has("**", "^") else base

    def atom(self) -> float:
        if self.has("("):
            value = self.sum()
            self.close()
            return value
        if not self.rest or self.rest[0].kind == "sign":
            raise NoValue("the expression ends too early")
        token = self.rest.pop(0)
        if token.kind == "number":
            return token.value
        return self.call(token.text) if self.has("(") else self.look(token.text)

    def call(self, name: str) -> float:
        words = [self.sum()]
        while self.has(","):
            words.append(self.sum())
        self.close()
        if name not in FUNCTIONS:
            raise NoValue(f"the function {name} is not known")
        try:
            return float(FUNCTIONS[name](*words))
        except (TypeError, ValueError, OverflowError):
            raise NoValue(f"{name} does not take these values") from None

    def close(self) -> None:
        if not self.has(")"):
            raise NoValue("a parenthesis is not closed")


def is_plain(word: str) -> bool:
    """Whether a word is a number and no expression."""
    return bool(re.fullmatch(r"[-+]?(?:\d+\.?\d*|\.\d+)(?:e[-+]?\d+)?[a-z]*", word.lower()))


class Scope:
    """Parameters by name: a number, or an expression in this scope or those round it."""

    def __init__(self, around: Optional[Scope], given: Dict[str, object]) -> None:
        self.around, self.given = around, dict(given)
        self.busy: List[str] = []

    def look(self, name: str) -> float:
        if name not in self.given:
            if self.around is None:
                raise NoValue(f"{name} has no value here")
            return self.around.look(name)
        value = self.given[name]
        if isinstance(value, float):
            return value
        if name in self.busy:
            raise NoValue(f"{name} depends on itself")
        self.busy.append(name)
        try:
            self.given[name] = self.value(str(value))
        finally:
            self.busy.pop()
        return self.given[name]

    def value(self, word: str) -> float:
        """The value of a word: a number, or an expression with or without braces or quotes."""
        inside = word.strip()
        while len(inside) > 1 and inside[0] + inside[-1] in ("{}", "''", '""'):
            inside = inside[1:-1]
        try:
            found = float(Reader(inside, self.look).whole())
        except (OverflowError, ZeroDivisionError, TypeError):      # (a root of a number below 0 is no float)
            raise NoValue(f"{word} has no finite value") from None
        if not math.isfinite(found):
            raise NoValue(f"{word} has no finite value")
        return found
