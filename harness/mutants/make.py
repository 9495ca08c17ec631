#!/usr/bin/env python3
"""Mutants of the reference program: a copy of reference/src in which each small change can be switched on.

make(source, target) writes the copy, a crate `mutated`, and answers the name of each mutant; number k of them is
switched on by mutated::set(k), and none by 0. Changed are comparisons, arithmetic, conditions, numbers, bytes and
texts, the entries of tables, constants at each use, arms of a match, statements; not the tests.
"""
import os
import re
import sys

TOKEN = re.compile(
    r"""(?P<space>\s+|//[^\n]*)
    |(?P<text>b?"(?:\\.|[^"\\])*")
    |(?P<byte>b?'(?:\\.|[^'\\])')
    |(?P<life>'\w+)
    |(?P<number>\d[\d_]*)
    |(?P<word>\w+)
    |(?P<sign>\.\.=|\.\.|::|->|=>|==|!=|<=|>=|&&|\|\||\+=|-=|[-+*/%<>=!&|.,;:?#(){}\[\]^~@])""",
    re.X,
)
OPEN, CLOSE = "([{", ")]}"
STRENGTH = {"||": 1, "&&": 2, "==": 3, "!=": 3, "<": 3, "<=": 3, ">": 3, ">=": 3, "+": 6, "-": 6, "*": 7, "/": 7, "%": 7}
OTHER_SIGN = {
    "<": ["<=", ">="], "<=": ["<", ">"], ">": [">=", "<="], ">=": [">", "<"], "==": ["!="], "!=": ["=="],
    "&&": ["||"], "||": ["&&"], "+": ["-"], "-": ["+"], "*": ["+"], "/": ["*"],
}
OTHER_CALL = {
    "any": "all", "all": "any", "is_some": "is_none", "is_none": "is_some", "first": "last", "starts_with": "ends_with",
    "strip_prefix": "strip_suffix", "strip_suffix": "strip_prefix", "to_le_bytes": "to_be_bytes", "position": "rposition",
    "eq_ignore_ascii_case": "eq", "is_ascii_digit": "is_ascii_hexdigit", "is_ascii_alphanumeric": "is_ascii_alphabetic",
    "is_some_and": "is_none_or",
}
OTHER_PATH = {"is_ascii_digit": "is_ascii_hexdigit"}
NEGATED_CALLS = {"is_empty", "contains", "is_multiple_of", "is_sorted_by"}
CHOSEN_BY = {"then", "then_some"}
KINDS = {"Kind": ["Text", "Number", "Category"], "Class": ["Inorganic", "MetalOrganic", "Organic"]}
NOT_BEFORE = {"return", "if", "match", "while", "in", "else", "let", "move"}
WHOLE = {"u8", "u16", "u64", "usize", "i64", "i128"}
PRINTING = {"format", "write", "writeln"}


class Token:
    def __init__(self, kind, text, start):
        self.kind, self.text, self.start, self.end = kind, text, start, start + len(text)


def tokens_of(source):
    """The tokens without spaces and comments, each with the place of its bracket's partner."""
    tokens, at = [], 0
    while at < len(source):
        match = TOKEN.match(source, at)
        if not match:
            sys.exit(f"no token: {source[at:at + 40]!r}")
        if match.lastgroup != "space":
            tokens.append(Token(match.lastgroup, match.group(), at))
        at = match.end()
    waiting = []
    for place, token in enumerate(tokens):
        token.partner = None
        if token.text in OPEN and token.kind == "sign":
            waiting.append(place)
        elif token.text in CLOSE and token.kind == "sign":
            token.partner = waiting.pop()
            tokens[token.partner].partner = place
    return tokens


def other_text(literal):
    """Texts like a literal, as long as it, each with one byte changed: the last of a text, each of a set of bytes."""
    begin = literal.index('"') + 1
    units = re.findall(r"\\.|[^\\]", literal[begin:-1])

    def changed(at):
        unit = units[at]
        other = chr(ord(unit) + 1) if len(unit) == 1 and chr(ord(unit) + 1) not in "\"'\\" else "q"
        return literal[:begin] + "".join(units[:at] + [other] + units[at + 1 :]) + '"'

    return [changed(at) for at in range(len(units))]


def other_literals(token):
    if token.kind == "number":
        value = int(token.text.replace("_", ""))
        return [str(value + 1)] + ([str(value - 1)] if value else [])
    if token.kind == "text":
        return other_text(token.text)[-1:]
    if token.kind == "byte" and "\\" not in token.text:
        begin = token.text.index("'") + 1
        return [token.text[:begin] + chr(ord(token.text[begin]) + 1) + "'"]
    return []


class Node:
    """A part of the source and what may stand in its place. A part may be an expression, a condition, a statement, or a
    place at which text is put (before an arm, or after its pattern)."""

    def __init__(self, kind, start, end):
        self.kind, self.start, self.end, self.others = kind, start, end, []


class File:
    def __init__(self, name, source, constants, tables):
        self.name, self.source, self.constants, self.tables = name, source, constants, tables
        self.tokens = tokens_of(source)
        self.nodes, self.mutants, self.function = {}, [], "-"
        self.no_expression = set()

    def text(self, first, last):
        """The source from one token to another."""
        return self.source[self.tokens[first].start : self.tokens[last].end]

    def add(self, kind, first, last, old, new, other=None):
        """A mutant of the tokens first to last: told as old and new, and written as the other text where that differs."""
        start, end = self.tokens[first].start, self.tokens[last].end
        self.put(kind, start, end, old, new, new if other is None else other)

    def put(self, kind, start, end, old, new, other):
        node = self.nodes.setdefault((start, end, kind), Node(kind, start, end))
        node.others.append((len(self.mutants), other))
        self.mutants.append((self.function, " ".join(old.split()), " ".join(new.split())))

    def is_spaced(self, place):
        token = self.tokens[place]
        return self.source[token.start - 1].isspace() and self.source[token.end].isspace()

    def is_operator(self, place):
        token = self.tokens[place]
        return token.kind == "sign" and token.text in STRENGTH and self.is_spaced(place)

    # Extents of expressions.

    def left(self, place, strength):
        """The first token of the operand that ends before a place."""
        at = place - 1
        while at >= 0:
            token = self.tokens[at]
            if token.kind == "sign" and token.text in ")]":
                at = token.partner - 1
                continue
            stops = token.kind == "sign" and token.text in {"(", "[", "{", "}", ",", ";", ":", "=", "=>", "+=", "-=", "..", "..=", "|"}
            stops = stops or (token.kind == "word" and token.text in NOT_BEFORE)
            stops = stops or (token.text == "||" and not self.is_operator(at))
            if stops or (self.is_operator(at) and STRENGTH[token.text] < strength):
                break
            at -= 1
        return at + 1

    def right(self, place, strength):
        """The last token of the operand that begins after a place."""
        at = place + 1
        while True:
            token = self.tokens[at]
            if token.kind == "sign" and token.text in "([":
                at = token.partner + 1
                continue
            stops = token.kind == "sign" and token.text in {")", "]", "}", "{", ",", ";", "=>", "..", "..="}
            stops = stops or token.text in {"else", "if"}
            if stops or (self.is_operator(at) and STRENGTH[token.text] <= strength):
                return at - 1
            at += 1

    def receiver(self, dot):
        """The first token of what a method is called on."""
        at = dot - 1
        while True:
            if self.tokens[at].text in {")", "]"}:
                at = self.tokens[at].partner
                if not self.is_called(at):
                    return at
                at -= 1
            before = self.tokens[at - 1]
            if self.tokens[at].text == "?":
                at -= 1
            elif before.text in {".", "::"}:
                at -= 2
            elif self.tokens[at].text not in {")", "]"}:
                return at

    def is_called(self, bracket):
        """A bracket that directly follows a name or another bracket: of a call, or of an index."""
        before = self.tokens[bracket - 1]
        named = before.kind == "word" and before.text not in NOT_BEFORE or before.text in {")", "]", "?"}
        return named and before.end == self.tokens[bracket].start

    def postfix_end(self, first):
        """The last token of an expression that begins with a name, a bracket or a literal."""
        at = first if self.tokens[first].partner is None else self.tokens[first].partner
        while True:
            after = self.tokens[at + 1]
            if after.text in {".", "::"}:
                at += 2
            elif after.text in {"(", "["} and after.start == self.tokens[at].end:
                at = after.partner
            elif after.text == "?":
                at += 1
            else:
                return at

    # What is mutated.

    def walk(self):
        at = 0
        while at < len(self.tokens):
            if self.tokens[at].text == "fn":
                self.function = self.tokens[at + 1].text
                body = next(place for place in range(at, len(self.tokens)) if self.tokens[place].text == "{")
                self.body(body, self.tokens[body].partner)
                at = self.tokens[body].partner
            at += 1

    def body(self, first, last):
        self.patterns(first, last)
        for at in range(first + 1, last):
            if at in self.no_expression:
                continue
            token = self.tokens[at]
            if self.is_operator(at):
                self.operator(at)
            elif token.text == "if" and self.tokens[at + 1].text != "let":
                self.condition(at)
            elif token.text == "!" and not self.source[token.start - 1].isalnum():
                end = self.postfix_end(at + 1)
                self.add("expression", at, end, self.text(at, end), self.text(at + 1, end))
            elif token.text == "." and self.tokens[at + 1].kind == "word" and self.tokens[at + 2].text == "(":
                self.call(at)
            elif token.kind == "word":
                self.word(at)
            elif token.kind in {"number", "text", "byte"} and self.tokens[at - 1].text != ".":
                self.literal(at)
            if token.text in {"{", "}", ";"} and at + 1 < last:
                self.statement(at + 1)

    def operator(self, at):
        sign = self.tokens[at].text
        first, last = self.left(at, STRENGTH[sign]), self.right(at, STRENGTH[sign])
        left, right = self.text(first, at - 1), self.text(at + 1, last)
        for other in OTHER_SIGN.get(sign, []):
            new = f"{left} {other} {right}"
            self.add("expression", first, last, f"{left} {sign} {right}", new)

    def condition(self, at):
        last = self.right(at, 0)
        old = self.text(at + 1, last)
        self.add("expression", at + 1, last, f"if {old}", f"if !({old})", f"!({old})")

    def call(self, dot):
        name, open_place = self.tokens[dot + 1].text, dot + 2
        first, last = self.receiver(dot), self.tokens[open_place].partner
        on, given = self.text(first, dot - 1), self.text(open_place, last)
        old = self.text(first, last)
        if name in OTHER_CALL:
            new = f"{on}.{OTHER_CALL[name]}{given}"
            self.add("expression", first, last, old, new)
        elif name in NEGATED_CALLS:
            self.add("expression", first, last, old, f"!{old}", f"!({old})")
        elif name in CHOSEN_BY:
            self.add("expression", first, dot - 1, f"({on}).{name}", f"(!{on}).{name}", f"!({on})")
        elif name == "abs":
            self.add("expression", first, last, old, on)

    def word(self, at):
        word, after = self.tokens[at].text, self.tokens[at + 1].text
        if self.tokens[at - 1].text == "::" and word in OTHER_PATH:
            owner = self.tokens[at - 2].text
            new = f"{owner}::{OTHER_PATH[word]}"
            self.add("expression", at - 2, at, f"{owner}::{word}", new)
        elif word in KINDS and after == "::":
            self.variant(at)
        elif word == "Some" and after == "(":
            last = self.tokens[at + 1].partner
            self.add("expression", at, last, self.text(at, last), "None")
        elif word in self.constants and self.tokens[at - 1].text not in {"::", "."}:
            value = self.constants[word]
            changes = ["+ 1"] * (value != "255") + ["- 1"] * (value != "0")
            for change in changes:
                self.add("expression", at, at, word, f"{word} {change}")
        elif word in self.tables and self.tokens[at - 1].text not in {"::", "."}:
            if (after, self.tokens[at + 2].text) != (".", "len"):
                token = self.tokens[at]
                node = self.nodes.setdefault((token.start, token.end, "table"), Node("table", token.start, token.end))
                node.others = [(None, f"(*crate::{self.tables[word]}::mutable_{word}())")]

    def variant(self, at):
        kinds = KINDS[self.tokens[at].text]
        name = self.tokens[at + 2].text
        other = kinds[(kinds.index(name) + 1) % len(kinds)]
        new = f"{self.tokens[at].text}::{other}"
        self.add("expression", at, at + 2, self.text(at, at + 2), new)

    def literal(self, at):
        lent = self.tokens[at - 1].text == "&"  # a literal that is lent lives on only if it is lent as a literal
        for other in other_literals(self.tokens[at]):
            self.add("expression", at - lent, at, self.tokens[at].text, other, "&" * lent + other)

    def statement(self, first):
        token = self.tokens[first]
        if token.text in {"let", "for", "if", "match", "return", "while", "}", ";", "_"} or first in self.no_expression:
            return
        last = first
        while self.tokens[last].text != ";":
            if self.tokens[last].text in {"=>", "}", ","}:
                return
            last = self.tokens[last].partner or last
            if self.tokens[last].text == "}":
                return
            last += 1
        self.add("statement", first, last, self.text(first, last), "nothing", "")

    # Patterns: nothing in them is an expression.

    def patterns(self, first, last):
        for at in range(first + 1, last):
            token = self.tokens[at]
            if token.text == "let":
                end = at
                while self.tokens[end].text != "=":
                    end += 1
                self.no_expression.update(range(at, end))
            elif token.text == "match" and token.kind == "word":
                self.arms(at)
            elif token.text == "matches":
                self.matches(at)
            elif token.text == "|" and self.tokens[at - 1].text in {"(", "=", ",", "move"}:
                end = at + 1
                while self.tokens[end].text != "|":
                    end += 1
                self.no_expression.update(range(at, end + 1))
            elif token.text == ";" and self.inside_bracket(at):
                self.no_expression.update(range(at, self.inside_bracket(at)))
            elif token.text in PRINTING and self.tokens[at + 1].text == "!":
                strings = range(at, self.tokens[at + 2].partner)
                self.no_expression.update(place for place in strings if self.tokens[place].kind == "text")
            elif token.text == "expect":
                self.no_expression.add(at + 2)
            elif token.text == "for" and token.kind == "word":
                end = at
                while self.tokens[end].text != "in":
                    end += 1
                self.no_expression.update(range(at, end))

    def inside_bracket(self, at):
        """The end of the square brackets in which a semicolon stands, of an array's length."""
        depth = at + 1
        while self.tokens[depth].text not in {"]", "}", ";", ")"}:
            depth = self.tokens[depth].partner + 1 if self.tokens[depth].text in OPEN else depth + 1
        return depth if self.tokens[depth].text == "]" else None

    def arms(self, at):
        block = at
        while self.tokens[block].text != "{":
            block = self.tokens[block].partner or block if self.tokens[block].text in "([" else block
            block += 1
        arms, first = [], block + 1
        while first < self.tokens[block].partner:
            arrow = first
            while self.tokens[arrow].text != "=>":
                arrow = self.tokens[arrow].partner if self.tokens[arrow].text in OPEN else arrow
                arrow += 1
            end = arrow + 1
            while self.tokens[end].text not in {",", "}"}:
                end = self.tokens[end].partner if self.tokens[end].text in OPEN else end
                if self.tokens[end].text == "}":
                    break
                end += 1
            if self.tokens[end].text == "}" and end == self.tokens[block].partner:
                end -= 1
            guard = next((place for place in range(first, arrow) if self.tokens[place].text == "if"), None)
            arms.append((first, guard, arrow, end))
            self.no_expression.update(range(first, guard or arrow))
            first = end + 1
            if self.tokens[first].text == ",":
                first += 1
        if self.tokens[arms[-1][0]].text == "_" and arms[-1][1] is None:
            for arm in arms[:-1]:
                self.arm(*arm)

    def arm(self, first, guard, arrow, end):
        """An arm is switched off, or has another pattern."""
        pattern = self.text(first, (guard or arrow) - 1)
        condition = f" && ({self.text(guard + 1, arrow - 1)})" if guard else ""
        body = self.source[self.tokens[arrow].start : self.tokens[end].end].rstrip(",")
        begin, after = self.tokens[first].start, self.tokens[(guard or arrow) - 1].end
        off = (after, after, "unless") if guard is None else (self.tokens[guard + 1].start, self.tokens[arrow - 1].end, "guard")
        self.put(off[2], off[0], off[1], f"{pattern} =>", "no such arm", "")
        for place in range(first, guard or arrow):
            token = self.tokens[place]
            for other in other_literals(token):
                changed = self.source[begin : token.start] + other + self.source[token.end : after]
                number = len(self.mutants)
                self.put(off[2], off[0], off[1], f"{pattern} =>", f"{changed} =>", "")
                node = self.nodes.setdefault((begin, begin, "before"), Node("before", begin, begin))
                node.others.append((number, f"{changed} if MUTANT{condition} {body},\n"))

    def matches(self, at):
        last = self.tokens[at + 2].partner
        comma = at + 3
        while self.tokens[comma].text != ",":
            comma = self.tokens[comma].partner + 1 if self.tokens[comma].text in OPEN else comma + 1
        self.no_expression.update(range(comma, last))
        for place in range(comma, last):
            token = self.tokens[place]
            for other in other_literals(token):
                new = self.source[self.tokens[at].start : token.start] + other + self.source[token.end : self.tokens[last].end]
                self.add("expression", at, last, self.text(at, last), new)

    # The copy.

    def written(self, start, end, offset, nodes):
        """The source from start to end, with the nodes in it; they lie in each other or apart."""
        out, at = [], start
        while nodes:
            node = nodes[0]
            inner = [other for other in nodes[1:] if other.start < node.end and node.start < node.end]
            nodes = [other for other in nodes[1:] if other not in inner]
            out.append(self.source[at : node.start])
            out.append(self.changed(node, offset, inner))
            at = node.end
        return "".join(out) + self.source[at:end]

    def changed(self, node, offset, inner):
        own = "" if node.start == node.end else self.written(node.start, node.end, offset, inner)
        tests = [(f"crate::mutant({offset + number})", other) for number, other in node.others if number is not None]
        if node.kind == "table":
            return node.others[0][1]
        if node.kind == "before":
            return "".join(other.replace("MUTANT", test, 1) for test, other in tests)
        none = " && ".join(f"!{test}" for test, _ in tests)
        if node.kind == "unless":
            return f" if {none}"
        if node.kind == "guard":
            return f"{none} && ({own})"
        if node.kind == "statement":
            return f"if {none} {{ {own} }}"
        return "(" + "".join(f"if {test} {{ {other} }} else " for test, other in tests) + f"{{ {own} }})"

    def copy(self, offset):
        order = {"before": 0, "unless": 0, "guard": 1, "statement": 1, "expression": 2, "table": 3}
        nodes = sorted(self.nodes.values(), key=lambda node: (node.start, -node.end, order[node.kind]))
        return self.written(0, len(self.source), offset, nodes)


def without_tests(source):
    return source.split("#[cfg(test)]")[0]


CONSTANT = re.compile(r"^(?:pub )?const (\w+): ([^=]+?) =\s*(.*?);$", re.M | re.S)


def table_of(name, kind, value, file, offset):
    """The function that holds a table, its entries mutable."""
    part = File(file.name, f"fn {name}() {{ {value} }}", file.constants, {})
    part.function = name
    first = next(place for place in range(len(part.tokens)) if part.tokens[place].text == "{")
    for at in range(first + 1, part.tokens[first].partner):
        token = part.tokens[at]
        if token.kind == "text" and kind == "&[u8]":
            for other in other_text(token.text):
                part.add("expression", at, at, token.text, other)
        elif token.kind in {"number", "text", "byte"}:
            part.literal(at)
        elif token.kind == "word":
            part.word(at)
    body = part.copy(offset).split("{", 1)[1].rsplit("}", 1)[0]
    kind = kind.replace("&", "&'static ")
    file.mutants += part.mutants
    return f"pub(crate) fn mutable_{name}() -> &'static {kind} {{\n    crate::table!({kind}, {body})\n}}\n"


LIBRARY = """
static MUTANT: std::sync::atomic::AtomicUsize = std::sync::atomic::AtomicUsize::new(0);

/// Switches a mutant on, and those before it off.
pub fn set(number: usize) {
    MUTANT.store(number, std::sync::atomic::Ordering::Relaxed);
}

pub(crate) fn now() -> usize {
    MUTANT.load(std::sync::atomic::Ordering::Relaxed)
}

pub(crate) fn mutant(number: usize) -> bool {
    now() == number
}

/// A table, made anew when another mutant is switched on.
macro_rules! table {
    ($kind:ty, $value:expr) => {{
        thread_local! {
            static HELD: std::cell::Cell<Option<(usize, &'static $kind)>> = const { std::cell::Cell::new(None) };
        }
        match HELD.get() {
            Some((number, table)) if number == crate::now() => table,
            _ => {
                let value: $kind = $value;
                let table: &'static $kind = Box::leak(Box::new(value));
                HELD.set(Some((crate::now(), table)));
                table
            }
        }
    }};
}
pub(crate) use table;
"""


def make(source, target):
    names = sorted(name for name in os.listdir(source) if name.endswith(".rs"))
    texts = {name: without_tests(open(os.path.join(source, name)).read()) for name in names}
    constants, tables = {}, {}
    for name, text in texts.items():
        for constant, kind, value in CONSTANT.findall(text):
            if kind in WHOLE:
                constants[constant] = value
            elif value[0] in "[b" or ".." in value:
                tables[constant] = name[:-3]
    os.makedirs(os.path.join(target, "src"), exist_ok=True)
    mutants = []
    for name, text in texts.items():
        file = File(name, text, constants, tables)
        file.walk()
        offset = len(mutants) + 1
        written = file.copy(offset)
        for constant, kind, value in CONSTANT.findall(text):
            if tables.get(constant) == name[:-3]:
                part = len(file.mutants)
                written += "\n" + table_of(constant, kind, value, file, offset + part)
        if name == "lib.rs":
            written = "#![allow(warnings)]\n" + re.sub(r"^//!.*\n", "", written, flags=re.M) + LIBRARY
        written = written.replace("pub const fn", "pub fn")
        path = os.path.join(target, "src", name)
        if not os.path.exists(path) or open(path).read() != written:
            open(path, "w").write(written)
        mutants += [f"{name} {function}: {old}  ->  {new}" for function, old, new in file.mutants]
    package = '[package]\nname = "mutated"\nversion = "0.1.0"\nedition = "2021"\npublish = false\n'
    path = os.path.join(target, "Cargo.toml")
    if not os.path.exists(path):
        open(path, "w").write(package)
    return numbered(mutants)


def numbered(names):
    """Equal names get their number among themselves."""
    seen, out = {}, []
    for name in names:
        seen[name] = seen.get(name, 0) + 1
        out.append(name if seen[name] == 1 else f"{name}  #{seen[name]}")
    return out


if __name__ == "__main__":
    print("\n".join(f"{at} {name}" for at, name in enumerate(make(sys.argv[1], sys.argv[2]), 1)))
