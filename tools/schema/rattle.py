"""The data in a Rattle source: its constants, as far as they are texts, numbers, lists, tuples and structs, with the macros that write them."""
import re

TOKEN = re.compile(
    r"""(?P<space>\s+|//[^\n]*|/\*.*?\*/)
    |(?P<raw>(?P<raw_bytes>b?)r(?P<hashes>\#*)"(?P<raw_text>.*?)"(?P=hashes))
    |(?P<quoted>(?P<bytes>b?)"(?P<text>(?:\\.|[^"\\])*)")
    |(?P<char>b?'(?:\\[^']+|[^'\\])')
    |(?P<lifetime>'\w+)
    |(?P<number>0x[0-9A-Fa-f_]+|[0-9][0-9_]*)(?:[iu](?:8|16|32|64|128|size))?
    |(?P<name>\w+)
    |(?P<mark>.)""",
    re.VERBOSE | re.DOTALL,
)
ESCAPE = re.compile(rb"\\(?:x([0-9A-Fa-f]{2})|u\{([0-9A-Fa-f_]+)\}|\n\s*|(.))", re.DOTALL)
ESCAPES = {b"n": b"\n", b"t": b"\t", b"r": b"\r", b"0": b"\0", b"\\": b"\\", b'"': b'"', b"'": b"'"}
PAIRS = {"(": ")", "[": "]", "{": "}"}


class NoData(Exception):
    """What stands there is no data, or none that is read here."""


class Struct(dict):
    """A struct: its fields by name."""


class Named(str):
    """The name of a constant of another crate."""


def unescaped(text):
    """The bytes of a quoted text."""
    def byte_of(match):
        if match[1]:
            return bytes([int(match[1], 16)])
        if match[2]:
            return chr(int(match[2], 16)).encode()
        return ESCAPES[match[3]] if match[3] else b""
    return ESCAPE.sub(byte_of, text.encode())


def tokens_of(source):
    """The tokens of a source, each a kind and a value: of a text what it says, else what is written."""
    tokens = []
    for match in TOKEN.finditer(source):
        kind = match.lastgroup
        if match["raw"]:
            tokens.append(("text", match["raw_text"].encode() if match["raw_bytes"] else match["raw_text"]))
        elif match["quoted"]:
            said = unescaped(match["text"])
            tokens.append(("text", said if match["bytes"] else said.decode()))
        elif match["number"]:
            tokens.append(("number", int(match["number"].replace("_", ""), 0)))
        elif not match["space"]:
            tokens.append((kind, match[0]))
    return tokens


def is_mark(tokens, at, mark):
    """A mark stands at a place."""
    return at < len(tokens) and tokens[at] == ("mark", mark)


def end_of(tokens, start):
    """The place of the bracket that closes the one at a place."""
    open_mark = tokens[start][1]
    depth = 0
    for at in range(start, len(tokens)):
        depth += is_mark(tokens, at, open_mark) - is_mark(tokens, at, PAIRS[open_mark])
        if depth == 0:
            return at
    raise NoData("a bracket is not closed")


def find(tokens, start, mark):
    """The first place from a start on of a mark that stands in no brackets."""
    at = start
    while at < len(tokens) and not is_mark(tokens, at, mark):
        at = end_of(tokens, at) + 1 if tokens[at][0] == "mark" and tokens[at][1] in PAIRS else at + 1
    return at


def split(tokens, mark):
    """The runs of tokens between the marks that stand in no brackets."""
    runs, start = [], 0
    while start < len(tokens):
        at = find(tokens, start, mark)
        runs.append(tokens[start:at])
        start = at + 1
    return runs


class Source:
    """A file: its tokens, its constants with their types, its macros, and from which crate, and which file there, each name comes that it uses."""

    def __init__(self, crates, crate, text):
        self.crates, self.crate = crates, crate
        self.tokens = tokens_of(text)
        self.constants, self.types, self.macros, self.imports = {}, {}, {}, {}
        for at, token in enumerate(self.tokens):
            if token == ("name", "const") and self.tokens[at + 1][0] == "name" and is_mark(self.tokens, at + 2, ":"):
                self._add_constant(at + 1)
            elif token == ("name", "macro_rules"):
                self._add_macro(at + 2)
            elif token == ("name", "use"):
                self._add_imports(at + 1)

    def _add_constant(self, at):
        equals = find(self.tokens, at, "=")
        self.types[self.tokens[at][1]] = self.tokens[at + 2:equals]
        self.constants[self.tokens[at][1]] = self.tokens[equals + 1:find(self.tokens, equals, ";")]

    def _add_macro(self, at):
        body = self.tokens[at + 2:end_of(self.tokens, at + 1)]
        arms = [arm for arm in split(body, ";") if arm]
        self.macros[self.tokens[at][1]] = [(arm[1:end_of(arm, 0)], arm[end_of(arm, 0) + 4:-1]) for arm in arms]

    def _add_imports(self, at):
        used = self.tokens[at:find(self.tokens, at, ";")]
        opening = next((place for place in range(len(used)) if is_mark(used, place, "{")), len(used) - 1)
        path = [value for kind, value in used[:opening] if kind == "name"]
        for kind, name in used[opening:]:
            if kind == "name":
                self.imports[name] = path

    def constant(self, name):
        """The value of a constant that the file has or uses."""
        owner = self if name in self.constants else self._owner(name, "constants")
        return owner.value(owner.constants[name])

    def macro(self, name):
        """The arms of a macro that the file has or uses, and the file that has it."""
        owner = self if name in self.macros else self._owner(name, "macros")
        return owner.macros[name], owner

    def _owner(self, name, kind):
        """The file that has a name that is used: the one of its path, or where that names a crate alone any of it."""
        crate, *modules = self.imports.get(name, [""])
        files = self.crates.get(self.crate if crate == "crate" else crate, {})
        for module, source in files.items():
            if name in getattr(source, kind) and (not modules or module == modules[0]):
                return source
        raise NoData(f"{name} is not here")

    def value(self, tokens, known=None):
        """The value of an expression that is data; `known` has the values of names of its surroundings."""
        return Reader(self, tokens, known or {}).whole()


class Reader:
    """Reads one expression."""

    def __init__(self, source, tokens, known):
        self.source, self.tokens, self.known = source, tokens, known

    def whole(self):
        tokens = self.tokens
        while is_mark(tokens, 0, "&"):
            tokens = tokens[1:]
        if not tokens:
            raise NoData("nothing stands there")
        kind, value = tokens[0]
        if len(tokens) == 1:
            return self._single(kind, value)
        closing = next((at for at, token in enumerate(tokens) if token[0] == "mark" and token[1] in PAIRS), len(tokens))
        if closing == len(tokens):
            return self._path(tokens)
        if end_of(tokens, closing) != len(tokens) - 1:
            raise NoData("more than one value")
        return self._bracket(tokens[:closing], tokens[closing][1], tokens[closing + 1:-1])

    def _single(self, kind, value):
        if kind in ("text", "number"):
            return value
        if kind != "name":
            raise NoData(f"{value} is no value")
        if value in ("true", "false"):
            return value == "true"
        if value == "None":
            return None
        if value in self.known:
            return self.known[value]
        try:
            return self.source.constant(value)
        except NoData:
            if value.isupper():
                return Named(value)
            raise

    def _path(self, tokens):
        if all(kind == "name" or value == ":" for kind, value in tokens):
            return "::".join(value for kind, value in tokens if kind == "name")
        raise NoData("an expression")

    def _bracket(self, head, mark, inside):
        if not head and mark in "([":
            values = [self._part(run) for run in split(inside, ",")]
            return tuple(values) if mark == "(" else values
        if head == [("name", "Some")] and mark == "(":
            return self._part(inside)
        if len(head) == 2 and is_mark(head, 1, "!"):
            return self._macro(head[0][1], inside)
        if len(head) == 1 and mark == "{":
            return Struct((run[0][1], self._part(run[2:])) for run in split(inside, ","))
        raise NoData("a call")

    def _part(self, tokens):
        return Reader(self.source, tokens, self.known).whole()

    def _macro(self, name, inside):
        if name == "concat":
            return "".join(shown(self._part(run)) for run in split(inside, ","))
        arms, owner = self.source.macro(name)
        for pattern, body in arms:
            bound = matched(pattern, inside)
            if bound is not None:
                return owner.value(written(body, bound), self.known)
        raise NoData(f"no arm of {name} takes this")


def shown(value):
    """A literal as `concat!` writes it."""
    return str(value).lower() if isinstance(value, bool) else str(value)


def repeated(tokens, at):
    """What stands in `$(..)` at a place, the mark between two of it, and the place behind its star; none where there is no such thing."""
    if not (is_mark(tokens, at, "$") and is_mark(tokens, at + 1, "(")):
        return None
    close = end_of(tokens, at + 1)
    if not is_mark(tokens, close + 2, "*"):
        raise NoData("a repetition without a mark between")
    return tokens[at + 2:close], tokens[close + 1][1], close + 3


def matched(pattern, tokens):
    """What the variables of a macro's pattern stand for, each a literal or for those of a repetition a list of such; none where it does
    not match."""
    bound, at, place = {}, 0, 0
    while at < len(pattern):
        again = repeated(pattern, at)
        if again:
            each, between, at = again
            rounds = [matched(each, run) for run in split(tokens[place:], between)]
            return None if at < len(pattern) or None in rounds else {**bound, "": rounds}
        if place == len(tokens):
            return None
        if is_mark(pattern, at, "$"):
            if tokens[place][0] not in ("text", "number") and tokens[place][1] not in ("true", "false"):
                return None
            bound[pattern[at + 1][1]] = tokens[place]
            at += 4
        elif pattern[at] == tokens[place]:
            at += 1
        else:
            return None
        place += 1
    return bound if place == len(tokens) else None


def written(body, bound):
    """The tokens that a macro writes."""
    tokens, at = [], 0
    while at < len(body):
        again = repeated(body, at)
        if again:
            each, between, at = again
            for number, values in enumerate(bound[""]):
                tokens += ([("mark", between)] if number else []) + written(each, {**bound, **values})
        elif is_mark(body, at, "$"):
            tokens.append(bound[body[at + 1][1]])
            at += 2
        else:
            tokens.append(body[at])
            at += 1
    return tokens
