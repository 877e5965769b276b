"""What a function's text calls its slots and its source expressions, by their numbers in a certificate.

It reads functions that away takes, and judges nothing: of another text the names may be wrong.
"""

import re

TOKEN = re.compile(r"""(?P<skip>\s+|--[^\n\r]*|/\*.*?\*/)|(?P<token>'(?:[^']|'')*'|\$\w*\$|\$\d+|[A-Za-z_]\w*|\d+
                       |:=|<>|!=|<=|>=|\|\||::|\.\.|<<|>>|.)""", re.VERBOSE | re.DOTALL)
LOOPS = ("loop", "while", "for")
# Behind a function's own expressions each certificate has these, over the slots a and b.
FIXED = ("NULL", "NULL", "NULL", "a IS NULL", "a IS NULL", "a IS NULL", "a <= 0", "a <= b", "a >= b", "greatest - a < b",
         "least + a > b", "a + b", "a - b", "1", "a", "NULL", "a IS NULL")


def tokens_of(text):
    return [found.group("token") for found in TOKEN.finditer(text) if found.group("token")]


def spelled(tokens):
    """The tokens as a text, with spaces as one writes them."""
    text = ""
    for token in tokens:
        tight = text.endswith(("(", ".", "::")) or token in ("(", ")", ",", ".", "::")
        if token == "(" and text and not re.search(r"\w$", text):
            tight = text.endswith("(")
        text += token if tight or not text else " " + token
    return text


class FunctionText:
    """The slots and the source expressions of a function, in the order of their numbers."""

    def __init__(self, text):
        body = re.search(r"\$(\w*)\$(.*?)\$\1\$", text, re.DOTALL)
        self.slots, self.expressions, self.hidden, self.rows = [], [], [], []
        head, self.tokens, self.place = tokens_of(text[:body.start()]), tokens_of(body.group(2)), 0
        parameters = head[head.index("(") + 1:head.index(")")]
        for parameter in spelled(parameters).split(","):
            words = [word for word in parameter.split() if word.lower() != "in"]
            self.slots += words[:1]
        self._statement()
        self.slots += self.hidden + self.rows

    def slot(self, number):
        """The slot's name, with its number where another one has that name too."""
        name = self.slots[number] if number < len(self.slots) else f"s{number}"
        return name if self.slots.count(name) == 1 else f"{name}#{number}"

    def expression(self, number, slots, names):
        """The expression's text, with names in the place of its slots; both are in the order in which it reads them."""
        fixed = number - len(self.expressions)
        if fixed >= len(FIXED):
            return f"e{number}({', '.join(names)})"
        text, read = (FIXED[fixed], "ab") if fixed >= 0 else (
            self.expressions[number], [self.slots[slot] for slot in slots if slot < len(self.slots)])
        new = dict(zip(read, names))
        pieces = re.split(r"('(?:[^']|'')*'|(?<![\w.])[A-Za-z_]\w*(?![\w(.]))", text)
        return "".join(new.get(piece, piece) for piece in pieces)

    # ---- the reader

    def _next(self):
        return self.tokens[self.place].lower() if self.place < len(self.tokens) else ""

    def _take(self):
        self.place += 1
        return self.tokens[self.place - 1]

    def _takes(self, *words):
        if self._next() in words:
            return self._take()
        return None

    def _until(self, *stops):
        """The tokens up to one of these words that stands in no brackets and in no CASE; the word is taken too."""
        taken, depth = [], 0
        while depth or self._next() not in stops:
            depth += {"(": 1, "case": 1, ")": -1, "end": -1}.get(self._next(), 0)
            taken.append(self._take())
        return taken, self._take().lower()

    def _close(self):
        """Goes past the next semicolon, or to the end."""
        while self._next() and self._take() != ";":
            pass

    def _source(self, *stops):
        taken, stop = self._until(*stops)
        self.expressions.append(spelled(taken))
        return stop

    def _statements(self):
        while self._next() not in ("end", "elsif", "elseif", "else", "when", ""):
            self._statement()

    def _statement(self):
        if self._takes("<<"):
            self._until(">>")
        word = self._take().lower()
        if word in ("declare", "begin"):
            self._block(word)
        elif word in ("if", "case"):
            self._arms(word)
        elif word in LOOPS:
            self._loop(word)
        elif word == "select":
            self._into()
        elif word == "return":
            self._source(";")
        elif word in ("exit", "continue"):
            if self._until("when", ";")[1] == "when":
                self._source(";")
        elif word in ("raise", "null"):
            self._close()
        else:
            self._take()
            self._source(";")

    def _block(self, word):
        while word == "declare" and not self._takes("begin"):
            self.slots.append(self._take())
            if self._until(":=", "=", "default", ";")[1] != ";":
                self._source(";")
        self._statements()
        self._close()

    def _arms(self, word):
        if word == "if" or self._takes("when"):
            self._source("then")
        self._statements()
        while self._next() != "end":
            if self._take().lower() != "else":
                self._source("then")
            self._statements()
        self._close()

    def _loop(self, word):
        if word == "while":
            self._source("loop")
        elif word == "for":
            name = self._take()
            self.slots.append(name)
            self.hidden += [f"{name} counter", f"{name} last", f"{name} step"]
            self._take()
            self._takes("reverse")
            self._source("..")
            if self._source("by", "loop") == "by":
                self._source("loop")
        self._statements()
        self._close()

    def _into(self):
        if self._takes("into"):
            strict, targets = self._takes("strict"), self._targets()
            items, _ = self._until("from", "where", "order", "limit", ";")
        else:
            items, _ = self._until("into")
            strict, targets = self._takes("strict"), self._targets()
        if self.tokens[self.place - 1] != ";":
            self._until(";")
        if strict:
            self.expressions += ["no row", "more rows"]
        columns = _parted(items)
        for place, target in enumerate(targets):
            self.rows.append(f"row {target}")
            self.expressions.append(f"first row: {columns[place] if place < len(columns) else place}")

    def _targets(self):
        targets = [self._take()]
        while self._takes(","):
            targets.append(self._take())
        return targets


def _parted(items):
    """The texts of a list's items."""
    parts, depth = [[]], 0
    for token in items:
        depth += {"(": 1, "case": 1, ")": -1, "end": -1}.get(token.lower(), 0)
        if token == "," and not depth:
            parts.append([])
        else:
            parts[-1].append(token)
    return [spelled(part) for part in parts]
