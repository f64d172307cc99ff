"""The words, signs and texts in quotes of which questions and rules are made, and how both read a value."""

from __future__ import annotations

import re
from typing import Callable, NamedTuple, NoReturn

# The comparisons with the very texts that are given, which need only be composed alike
Words = tuple[str, ...]
WordsOf = Callable[[str], list[str]]  # reads a file of words
EXACT = (("is",), ("one", "of"), ("from",))
MOST_WORDS = 1_000_000  # of the texts that all rules, or a question, together allow
_SHOWN = 100  # characters that are shown before and after the start of a mistake
_TOKEN = re.compile(
    r'\s*(?:"((?:[^"]|"")*)"'  # a quote inside is doubled
    r"|(?<![^\s(=<>,])'([^']*)'(?![^\s),])"
    r"|(!=|<=|>=|[=<>(),]"
    r'|(?:[^\s()=<>!",]|!(?!=)|(?<=\d)")+))'  # as 46°12'7.8"
)


class Token(NamedTuple):
    """A part of a question or a rule: a word, a sign, or a text that was in quotes."""

    text: str
    start: int
    end: int
    is_quoted: bool = False

    @property
    def word(self) -> str:
        """The word in lower case; empty of a text in quotes, which is never a word of the language."""
        return "" if self.is_quoted else self.text.lower()


class Mistake(Exception):
    """What can't be understood, and where it stands."""

    def __init__(self, why: str, start: int, end: int) -> None:
        super().__init__(why)
        self.why, self.start, self.end = why, start, end

    def shown_in(self, text: str) -> tuple[str, str]:
        """The text with a mark below the mistake, or of a long text the part around it."""
        first, last = max(0, self.start - _SHOWN), self.start + _SHOWN
        part = " ".join(text[first:last].splitlines())
        before = ".. " * (first > 0)
        mark = " " * (len(before) + self.start - first)
        mark += "^" * max(1, min(self.end, last) - self.start)
        return f"  {before}{part}{' ..' * (last < len(text))}", f"  {mark}"


def tokens_of(text: str, has_comments: bool = False) -> list[Token]:
    """The tokens of a text, up to a comment. Raises `Mistake`.

    >>> [token.text for token in tokens_of("creator one of 'Ann Lee', Ben # or so", True)]
    ['creator', 'one', 'of', 'Ann Lee', ',', 'Ben']
    >>> tokens_of('"the ""big"" vase"')[0].text
    'the "big" vase'
    """
    tokens = []
    at, end = 0, len(text.rstrip())
    while at < end:
        match = _TOKEN.match(text, at)
        if not match:
            start = end - len(text[at:end].lstrip())
            if text[start] == '"':
                raise Mistake("the quotes have no end", start, end)
            raise Mistake("this can't be understood", start, start + 1)
        word = match[3] or ""
        if has_comments and word.startswith("#"):
            break
        at = match.end()
        start = at - len(match[0].lstrip())
        if word.startswith("'"):  # it would be taken for a part of the text
            why = "the quotes have no end; put a text that begins with an apostrophe, or has one,"
            raise Mistake(f"{why} in double quotes", start, at)
        quoted = match[2] if match[1] is None else match[1].replace('""', '"')
        tokens.append(Token(word or quoted, start, at, not word))
    return tokens


class Reader:
    """Reads tokens one after the other."""

    def __init__(self, text: str, tokens: list[Token], words_of: WordsOf) -> None:
        """`words_of` reads the file of words that follows `from`."""
        end = tokens[-1].end if tokens else 0
        self._text, self._words_of = text, words_of
        self._tokens = [*tokens, Token("", end, end)]
        self._at = 0

    @property
    def _next(self) -> Token:
        return self._tokens[self._at]

    @property
    def _is_at_end(self) -> bool:
        return self._at == len(self._tokens) - 1

    def _fail(self, why: str, *tokens: Token) -> NoReturn:
        first, last = (tokens[0], tokens[-1]) if tokens else (self._next, self._next)
        raise Mistake(why, first.start, last.end)

    def _follows(self, *words: str) -> bool:
        found = self._tokens[self._at : self._at + len(words)]
        return tuple(token.word for token in found) == words

    def _takes(self, *words: str) -> bool:
        """Whether these words are next, which are then passed."""
        follows = self._follows(*words)
        self._at += len(words) * follows
        return follows

    def _up_to(self, is_end: Callable[[], bool]) -> Token:
        """All before the token at which something ends, which may be nothing."""
        first = self._at
        while not (self._is_at_end or is_end()):
            self._at += 1
        tokens = self._tokens[first : self._at]
        if len(tokens) == 1:
            return tokens[0]
        start, end = (tokens[0].start, tokens[-1].end) if tokens else self._next[1:3]
        return Token(self._text[start:end], start, end)

    def _value(self, ends: Words, expected: str) -> Token:
        """A text in quotes, or all up to a word that ends it."""
        if self._next.is_quoted:
            self._at += 1
            return self._tokens[self._at - 1]
        value = self._up_to(lambda: self._next.word in ends or self._next.is_quoted)
        if value.start == value.end:
            self._fail(expected)
        return value

    def _texts(self, words: Words, ends: Words, expected: str) -> Words:
        """The texts after one of the exact comparisons."""
        ends = (*ends, ",") if words == ("one", "of") else ends
        first = self._value(ends, expected)
        values = [first.text]
        while words == ("one", "of") and self._takes(","):
            values.append(self._value(ends, expected).text)
        if words != ("from",):
            return tuple(values)
        try:
            return tuple(self._words_of(first.text)) or self._fail("it has no words", first)
        except OSError as error:
            self._fail(f"{first.text} can't be read: {error.strerror or error}", first)
