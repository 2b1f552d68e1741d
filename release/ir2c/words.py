"""Words: what a line of LLVM's text is cut into, and a place among them.

A line is read from left to right by a `Words`, and each reader takes what it knows. Whatever is
left, or is another word than the one that has to stand there, is a `Stop`: nothing is passed over
because it looks harmless.
"""

import contextlib
import re
from typing import NamedTuple

WORD = re.compile(
    r"""
    [@%]"[^"]*" | [@%][-\w.$]+    # a name: of the module, or of a function
  | c"[^"]*" | "[^"]*"            # bytes, a text (LLVM writes a quote in either as \22)
  | ![\w.]* | \#\d+               # metadata, a set of attributes
  | \.\.\.
  | -?\d+\.\d+(?:e[-+]\d+)? | 0x[0-9A-Fa-f]+ | -?\d+
  | [A-Za-z_][\w.]*
  | ;.*                           # a comment
  | \S
    """,
    re.VERBOSE,
)
INTEGER = re.compile(r"-?\d+\Z")


class Stop(Exception):
    """Something that the translator does not know. It then writes no C at all."""


class Line(NamedTuple):
    """A line of the module. A switch, which LLVM writes in several, is one."""

    number: int
    text: str


@contextlib.contextmanager
def at(line):
    """Whatever stops the reading or the translation of a line is told with it."""
    try:
        yield
    except Stop as it:
        raise Stop(f"line {line.number}: {it}\n    {line.text.strip()[:400]}") from None


class Words:
    """The words of a line, and a place among them."""

    def __init__(self, text):
        self.words = [it for it in WORD.findall(text) if it[0] != ";"]
        self.at = 0

    def peek(self):
        """The next word, or none at the end."""
        return self.words[self.at] if self.at < len(self.words) else ""

    def next(self):
        """Takes the next word."""
        word = self.peek()
        self.at += 1
        return word

    def eat(self, word):
        """Takes the next word if it is this one, and says whether it was."""
        is_it = self.peek() == word
        self.at += is_it
        return is_it

    def eat_any(self, words):
        """Takes as many words as are among these, and answers them."""
        taken = []
        while self.peek() in words:
            taken.append(self.next())
        return taken

    def want(self, *words):
        """Takes these words, one after another."""
        for word in words:
            if not self.eat(word):
                raise Stop(f"{word!r} was expected, and not {self.peek()!r}")

    def integer(self):
        """Takes a decimal number."""
        word = self.next()
        if not INTEGER.match(word):
            raise Stop(f"a number was expected, and not {word!r}")
        return int(word)

    def name(self, sign):
        """Takes a name, of the module if the sign is @, and of a function if it is %."""
        word = self.next()
        if word[:1] != sign or len(word) < 2:
            raise Stop(f"a name with {sign} was expected, and not {word!r}")
        return word[1:].strip('"')

    def listed(self, end, read):
        """Takes what stands between commas up to the end word, each by `read`."""
        found = []
        while not self.eat(end):
            if found:
                self.want(",")
            found.append(read())
        return found

    def end(self):
        """Holds the line to be over."""
        if self.peek():
            raise Stop(f"{self.peek()!r} was not expected")
