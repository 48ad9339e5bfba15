"""Expressions of the three languages as trees."""
from typing import Callable

from .tokens import NUSMV, OURS, RESERVED, Token, Unread
from .tree import PATH_OPERATORS, Node, copied

RELATIONS = {"=", "<", ">", "<=", ">="}
# Levels from the loosest to the tightest. A path operator takes what the level of relations gives.
OUR_LEVELS = [{"->", "<->"}, {"|"}, {"&"}, RELATIONS, {"in"}, {"union"}, {"mod"}, {"+", "-"}, {"*", "/"}]
CMU_LEVELS = [{"->", "<->"}, {"|", "xor", "xnor"}, {"&"}, RELATIONS | {"!="}, {"in"}, {"union"}, {"mod"}, {"+", "-"}, {"*", "/"}]
NUSMV_LEVELS = [
    {"->"}, {"<->"}, {"?"}, {"|", "xor", "xnor"}, {"&"}, RELATIONS | {"!="}, {"in"}, {"union"},
    {"<<", ">>"}, {"+", "-"}, {"*", "/", "mod"}, {"::"},
]
LINEAR = {"U", "V", "S", "T"}
LINEAR_PREFIXES = {"X", "F", "G", "Y", "Z", "H", "O"}
BOUNDED = {"ABF", "ABG", "EBF", "EBG"}
CALLS = {
    "max", "min", "abs", "count", "bool", "toint", "word1", "signed", "unsigned", "extend", "resize", "sizeof", "uwconst",
    "swconst",
}
MORE_WORDS = {"xor", "xnor"}


class Expressions:
    """A reader of the tokens of a text, from the first one on."""

    def __init__(self, tokens: list[Token], language: str):
        self.tokens, self.at, self.language = tokens, 0, language
        self.holes: list[Node] = []
        self.linear = False
        self.levels = {OURS: OUR_LEVELS, NUSMV: NUSMV_LEVELS}.get(language, CMU_LEVELS)
        self.relations = next(level for level, words in enumerate(self.levels) if "=" in words)
        self.declared = set() if language == OURS else declared_words(tokens)

    # ---- tokens

    def peek(self, ahead: int = 0) -> Token:
        return self.tokens[min(self.at + ahead, len(self.tokens) - 1)]

    def take(self, *wanted: str) -> Token:
        token = self.peek()
        if wanted and token.text not in wanted:
            self.fail()
        if token.kind != "end":
            self.at += 1
        elif wanted:
            self.fail()
        return token

    def fail(self):
        token = self.peek()
        shown = f"`{token.text}`" if token.kind != "end" else "the end of the text"
        raise Unread(token.line, f"{shown} can't stand here")

    def is_name(self, token: Token) -> bool:
        return token.kind == "name" and (token.text not in RESERVED or token.text in self.declared)

    def name(self) -> Token:
        if not self.is_name(self.peek()):
            self.fail()
        return self.take()

    def bracketed(self, part: Callable, closing: str, empty: bool = False) -> list:
        """A bracket, parts with commas between them, and the closing bracket."""
        parts = [self.take()]
        if not (empty and self.peek().text == closing):
            parts.append(part())
            while self.peek().text == ",":
                parts += [self.take(), part()]
        return [*parts, self.take(closing)]

    # ---- operators

    def expression(self) -> Node:
        return self.level(0)

    def arithmetic(self) -> Node:
        """What may stand at an end of a range."""
        return self.level(next(level for level, words in enumerate(self.levels) if "+" in words))

    def operator(self, level: int) -> bool:
        token = self.peek()
        return token.text in self.levels[level] and (token.kind == "sign" or token.text not in self.declared)

    def level(self, level: int) -> Node:
        if level == len(self.levels):
            return self.primary()
        words = self.levels[level]
        if level == self.relations and self.linear:
            return self.until_chain(level)
        below = self.span if words == {"union"} else self.level
        left = below(level + 1)
        while self.operator(level):
            operator = self.take()
            if operator.text == "?":
                return Node("ternary", [left, operator, self.level(level), self.take(":"), self.level(level)])
            right = below(level if words == {"->"} else level + 1)
            left = Node("binary", [left, operator, right], operator.text)
        return left

    def span(self, level: int) -> Node:
        """`low..high` as a set, which NuSMV has."""
        low = self.level(level)
        if self.language == OURS or self.peek().text != "..":
            return low
        return Node("span", [low, self.take(), self.level(level)])

    def until_chain(self, level: int) -> Node:
        left = self.relation(level)
        while self.peek().text in LINEAR:
            operator = self.take()
            left = Node("linear", [left, operator, self.relation(level)], operator.text)
        return left

    def relation(self, level: int) -> Node:
        left = self.level(level + 1)
        while self.operator(level):
            operator = self.take()
            left = Node("binary", [left, operator, self.level(level + 1)], operator.text)
        return left

    def prefixed(self) -> Node:
        operator = self.take()
        word = operator.text
        if self.linear and word in LINEAR_PREFIXES:
            return Node("linear", [operator, self.relation(self.relations)], word)
        if word in BOUNDED:
            low, dots, high = Node("number", [self.take()]), self.take(".."), Node("number", [self.take()])
            return Node("bounded", [operator, low, dots, high, self.level(self.relations)], word)
        tight = word == "-" or word == "!" and self.language == NUSMV and not self.at_path_operator()
        return Node("prefix", [operator, self.primary() if tight else self.level(self.relations)], word)

    def at_path_operator(self) -> bool:
        word = self.peek().text
        return word in PATH_OPERATORS | BOUNDED or self.linear and word in LINEAR_PREFIXES

    def at_prefix(self) -> bool:
        token = self.peek()
        if token.text == "!" or token.text in PATH_OPERATORS:
            return True
        if self.language == OURS or token.text in self.declared:
            return False
        return token.text in BOUNDED | {"-"} or self.linear and token.text in LINEAR_PREFIXES

    # ---- operands

    def primary(self) -> Node:
        token = self.peek()
        if token.kind == "hole":
            return self.hole()
        if self.at_prefix():
            return self.prefixed()
        if token.kind == "number":
            return Node("number", [self.take()])
        if token.kind == "word":
            return Node("word", [self.take()])
        found = self.bracket(token)
        if found is None:
            found = self.word(token)
        return self.bits(found)

    def bracket(self, token: Token) -> Node | None:
        if token.text == "(":
            return Node("paren", [self.take(), self.expression(), self.take(")")])
        if token.text == "{":
            return Node("set", self.bracketed(self.expression, "}"))
        if token.text == "[" and self.language != OURS:
            return Node("elements", self.bracketed(self.expression, "]"))
        return None

    def word(self, token: Token) -> Node:
        if token.text == "case":
            return self.case()
        if token.text == "next":
            return Node("next", [self.take(), self.take("("), self.expression(), self.take(")")])
        if token.text in ("TRUE", "FALSE", "running"):
            return Node("word-value", [self.take()])
        if token.text in ("A", "E") and self.peek(1).text == "[" and token.text not in self.declared:
            return self.until()
        if self.language == OURS:
            return self.path()
        if token.text == "self" and token.text not in self.declared:
            return self.path(self.take())
        if token.text in CALLS and self.peek(1).text == "(" and token.text not in self.declared:
            return Node("call", [self.take(), *self.bracketed(self.expression, ")")], token.text)
        return self.path()

    def hole(self) -> Node:
        token = self.take()
        node = copied(self.holes[int(token.text[1:])])
        lead = node.first()
        lead.before = lead.before if "--" in lead.before else token.before
        return node

    def bits(self, node: Node) -> Node:
        """Behind a path no bracket is left; `[h : l]` behind other operands and paths is a choice of bits."""
        while self.language != OURS and self.peek().text == "[" and node.kind in ("paren", "path"):
            opening, high = self.take(), self.expression()
            node = Node("bits", [node, opening, high, self.take(":"), self.expression(), self.take("]")])
        return node

    def case(self) -> Node:
        parts = [self.take(), self.arm()]
        while self.peek().text != "esac":
            parts.append(self.arm())
        return Node("case", [*parts, self.take()])

    def arm(self) -> Node:
        return Node("arm", [self.expression(), self.take(":"), self.expression(), self.take(";")])

    def until(self) -> Node:
        quantifier, opening, before = self.take(), self.take("["), self.expression()
        if self.language != OURS and self.peek().text == "BU":
            parts = [quantifier, opening, before, self.take(), Node("number", [self.take()]), self.take("..")]
            return Node("bounded", [*parts, Node("number", [self.take()]), self.expression(), self.take("]")], "BU")
        return Node("until", [quantifier, opening, before, self.take("U"), self.expression(), self.take("]")], quantifier.text)

    def path(self, first: Token | None = None) -> Node:
        parts = [first or self.name()]
        while self.peek().text in (".", "["):
            if self.peek().text == ".":
                parts += [self.take(), self.name()]
            elif self.language != OURS and self.has_colon():
                break
            else:
                parts += [self.take(), self.expression(), self.take("]")]
        return Node("path", parts)

    def has_colon(self) -> bool:
        """Whether the bracket that begins here holds a colon of its own, as a choice of bits does."""
        depth, at = 0, self.at
        while self.tokens[at].kind != "end":
            text = self.tokens[at].text
            depth += (text in ("[", "(", "case")) - (text in ("]", ")", "esac"))
            if depth == 0:
                return False
            if depth == 1 and text == ":":
                return not any(token.text == "?" for token in self.tokens[self.at:at])
            at += 1
        return False


def declared_words(tokens: list[Token]) -> set[str]:
    """The words that stand as names though a language reserves them: parameters of modules, and what a colon follows."""
    special = {"A", "E", "U", "INPUT", "OUTPUT", "OPAQUE", "IVAR", "LTLSPEC", "COMPUTE", "ISA"} | MORE_WORDS | CALLS
    found, formals = set(), False
    for before, token, behind in zip(tokens, tokens[1:], tokens[2:]):
        if before.text == "MODULE":
            formals = behind.text == "("
        elif token.text == ")":
            formals = False
        elif token.text in special and (formals or behind.text in (":", ":=") and before.text in (";", "VAR", "DEFINE", "ASSIGN")):
            found.add(token.text)
    return found
