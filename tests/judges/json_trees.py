"""JSON texts, a second time: written anew from RFC 8259. `tree_of` reads a text as a tree in which each value and each
key has its place, or tells where the text is no JSON."""
import collections
import re

# How deep arrays and objects nest at most (docs/FORMATS.md section 5).
DEEPEST = 4096
SPACES = b" \t\n\r"
CLOSES = {"array": b"]", "object": b"}"}
# A number, and a word: what is between white space and the six structural characters (RFC 8259 sections 2 and 6).
NUMBER = re.compile(rb"-?(0|[1-9][0-9]*)(\.[0-9]+)?([eE][-+]?[0-9]+)?")
WORD = re.compile(rb"[^][{},: \t\n\r]*")
NAMES = {b"null": ("null", None), b"true": ("boolean", True), b"false": ("boolean", False)}
# What stands in a string (section 7). Half a surrogate pair is no character.
CHARACTERS = re.compile(
    rb'[^"\\\x00-\x1f]+'
    rb'|\\["\\/bfnrt]'
    rb"|\\u[dD][89abAB][0-9a-fA-F]{2}\\u[dD][c-fC-F][0-9a-fA-F]{2}"
    rb"|\\u(?![dD][89a-fA-F])[0-9a-fA-F]{4}"
)
LETTERS = {b"b": b"\b", b"f": b"\f", b"n": b"\n", b"r": b"\r", b"t": b"\t"}

# A value: its sort, what it holds, and how many bytes stand before it. A member is a key, its place, and a value.
Node = collections.namedtuple("Node", "sort content at")


class Refusal(Exception):
    """Why a text is refused, and how many bytes of it stand before that place."""

    def __init__(self, why, at):
        super().__init__(why, at)
        self.why, self.at = why, at


def characters(piece):
    """The bytes of characters as they stand in a string, or of one escape."""
    if piece[:1] != b"\\":
        return piece
    if piece[1:2] != b"u":
        return LETTERS.get(piece[1:], piece[1:])
    halves = b"".join(bytes.fromhex(half.decode()) for half in piece.split(b"\\u")[1:])
    return halves.decode("utf-16-be").encode()


class Parser:
    """A text that is read from the front. What is open stands in a list, so that no call recurses."""

    def __init__(self, text):
        self.text, self.at = text, 0
        # Of each array and object that is open: its sort, its place, what was read of it, and the key of a member.
        self.frames = []

    def ahead(self):
        """The byte with which the next token begins; none at the end."""
        while self.text[self.at : self.at + 1] and self.text[self.at] in SPACES:
            self.at += 1
        return self.text[self.at : self.at + 1]

    def string(self):
        begun, parts = self.at, []
        at = begun + 1
        while found := CHARACTERS.match(self.text, at):
            parts.append(characters(found[0]))
            at = found.end()
        if self.text[at : at + 1] != b'"':
            raise Refusal("NotJson", begun)
        self.at = at + 1
        return b"".join(parts)

    def key(self):
        """A key: a string with its colon, which are one token."""
        begun = self.at
        name = self.string() if self.ahead() == b'"' else None
        if name is None or self.ahead() != b":":
            raise Refusal("NotJson", begun)
        self.at += 1
        return name, begun

    def word(self):
        begun, word = self.at, WORD.match(self.text, self.at)[0]
        self.at += len(word)
        if word in NAMES:
            return Node(*NAMES[word], begun)
        if NUMBER.fullmatch(word):
            return Node("number", word, begun)
        raise Refusal("NotJson", begun)

    def value(self):
        """A value without parts; none where an array or an object is opened."""
        first = self.ahead()
        if first == b'"':
            at, content = self.at, self.string()
            if self.ahead() == b":":
                raise Refusal("NotJson", at)
            return Node("string", content, at)
        if first not in (b"[", b"{"):
            return self.word()
        if len(self.frames) == DEEPEST:
            _, _, _, key = self.frames[-1]
            raise Refusal("TooDeep", key[1] if key else self.at)
        self.frames.append(["array" if first == b"[" else "object", self.at, [], None])
        self.at += 1
        return None

    def step(self, done):
        """Goes on in what is open, behind a value that was read there, or at its front. Gives the next value."""
        sort, begun, parts, key = self.frames[-1]
        if done:
            parts.append(done if sort == "array" else (*key, done))
        first = self.ahead()
        if first == CLOSES[sort]:
            self.at += 1
            self.frames.pop()
            return Node(sort, parts, begun)
        if done:
            if first != b",":
                raise Refusal("NotJson", self.at)
            self.at += 1
            self.ahead()
        if sort == "object":
            self.frames[-1][3] = self.key()
        return self.value()

    def end(self):
        """The end of the text. A comma is passed over as behind any value."""
        if first := self.ahead():
            self.at += first == b","
            self.ahead()
            raise Refusal("NotJson", self.at)


def tree_of(text):
    """The tree of the value that a text is."""
    try:
        text.decode()
    except UnicodeDecodeError as fault:
        raise Refusal("NotJson", fault.start) from None
    parser = Parser(text)
    done = parser.value()
    while parser.frames:
        done = parser.step(done)
    parser.end()
    return done
