"""Programs of the checker's language, of NuSMV's and of CMU SMV's as trees.

NuSMV's forms are read by its precedence, those of the other two by the checker's, which is that of CMU SMV. A word that only
one of the languages reserves is a name wherever it stands as one."""
from .expressions import Expressions
from .tokens import CMU, NUSMV, OURS, RESERVED, Token, Unread, tokens_of
from .tree import Node

LISTS = ("VAR", "ASSIGN", "DEFINE")
FOREIGN_LISTS = ("IVAR", "FROZENVAR")
SINGLE = ("INIT", "TRANS", "SPEC", "FAIRNESS", "INVAR")
FOREIGN_SINGLE = ("CTLSPEC", "INVARSPEC", "JUSTICE", "LTLSPEC")
OTHERS = ("COMPASSION", "CONSTANTS", "COMPUTE", "ISA", "PSLSPEC", "INPUT", "OUTPUT", "OPAQUE", "MIRROR", "PRED", "MDEFINE")
OUR_SECTIONS = frozenset(LISTS + SINGLE)
SECTIONS = OUR_SECTIONS | frozenset(FOREIGN_LISTS + FOREIGN_SINGLE + OTHERS)


class Programs(Expressions):
    """A reader of whole programs."""

    def sections(self) -> frozenset[str]:
        return OUR_SECTIONS if self.language == OURS else SECTIONS

    def at_section(self) -> bool:
        """Whether a section or a module begins here, or the text ends."""
        token = self.peek()
        if token.text in RESERVED and token.text not in self.declared:
            return token.text in self.sections() | {"MODULE"}
        return token.kind == "end" or token.text in self.sections() and self.peek(1).text not in (":", ":=", ".", "[", ",")

    def program(self) -> Node:
        modules = []
        while self.peek().kind != "end":
            modules.append(self.module())
        return Node("program", [*modules, self.take()])

    def module(self) -> Node:
        parts = [self.take("MODULE"), self.name()]
        if self.peek().text == "(":
            parts += self.bracketed(self.name, ")", empty=True)
        while self.at_section() and self.peek().text != "MODULE" and self.peek().kind != "end":
            parts.append(self.section())
        if not self.at_section():
            self.fail()
        return Node("module", parts)

    def section(self) -> Node:
        word = self.peek().text
        if word in LISTS + FOREIGN_LISTS:
            return self.members(word)
        if word in SINGLE + FOREIGN_SINGLE:
            return self.single(word)
        return self.other(word)

    def members(self, word: str) -> Node:
        read = {"ASSIGN": self.assignment, "DEFINE": self.definition}.get(word, self.declaration)
        parts = [self.take()]
        while not self.at_section():
            parts.append(read())
        return Node("section", parts, word)

    def single(self, word: str) -> Node:
        parts, named = [self.take()], []
        if self.language != OURS and self.peek().text == "NAME" and self.peek(2).text == ":=":
            named = [self.take(), self.name(), self.take(":=")]
        self.linear = word == "LTLSPEC"
        parts += [*named, self.expression()]
        self.linear = False
        if self.peek().text == ";":
            parts.append(self.take())
        return Node("section", parts, word)

    def other(self, word: str) -> Node:
        """A section of another language, as its tokens where its form isn't known."""
        parts = [self.take()]
        if word == "COMPASSION":
            parts += self.bracketed(self.expression, ")")
        elif word == "COMPUTE" and self.peek().text in ("MIN", "MAX"):
            parts += [self.take(), self.take("["), self.expression(), self.take(","), self.expression(), self.take("]")]
        elif word in ("CONSTANTS", "ISA"):
            while not self.at_section() and self.peek().text != ";":
                parts.append(self.take())
        else:
            while not self.at_section() and self.peek().text != ";":
                parts.append(self.take())
            word = f"{word}.."
        if self.peek().text == ";":
            parts.append(self.take())
        return Node("section", parts, word)

    def declaration(self) -> Node:
        return Node("declaration", [self.name(), self.take(":"), self.type(), self.take(";")])

    def definition(self) -> Node:
        return Node("definition", [self.name(), self.take(":="), self.expression(), self.take(";")])

    def assignment(self) -> Node:
        if self.peek().text in ("init", "next"):
            word = self.peek().text
            left = Node("left", [self.take(), self.take("("), self.path(), self.take(")")], word)
        else:
            left = Node("left", [self.path()], "")
        return Node("assignment", [left, self.take(":="), self.expression(), self.take(";")])

    def type(self) -> Node:
        token, foreign = self.peek(), self.language != OURS
        if token.text == "boolean" or foreign and token.text in ("integer", "real") and self.peek(1).text == ";":
            return Node("type", [self.take()], token.text)
        if token.text == "{":
            return Node("type", self.bracketed(self.constant, "}"), "enumeration")
        if token.text == "array":
            return self.array()
        if foreign and token.text in ("unsigned", "signed", "word") and self.peek(1).text in ("word", "["):
            parts = [self.take()] if token.text != "word" else []
            return Node("type", [*parts, self.take("word"), self.take("["), self.end(), self.take("]")], "word")
        if token.text == "process" or self.is_instance():
            return self.instance()
        low = self.end()
        return Node("type", [low, self.take(".."), self.end()], "range")

    def is_instance(self) -> bool:
        """Whether a module's name stands here, and no end of a range."""
        if self.peek().kind != "name":
            return False
        return self.peek(1).text in (";", "(") or self.language == OURS

    def instance(self) -> Node:
        parts = [self.take()] if self.peek().text == "process" else []
        parts.append(self.name())
        if self.peek().text == "(":
            parts += self.bracketed(self.expression, ")", empty=True)
        return Node("type", parts, "instance")

    def array(self) -> Node:
        parts = [self.take(), self.array_end(), self.take(".."), self.array_end(), self.take("of")]
        element = self.type()
        if self.language == OURS and element.word == "instance":
            self.fail()
        return Node("type", [*parts, element], "array")

    def array_end(self) -> Node:
        if self.language == OURS:
            return Node("number", [self.number()])
        return self.end()

    def end(self) -> Node:
        """An end of a range: a number here, any arithmetic in NuSMV."""
        if self.language != OURS:
            return self.arithmetic()
        if self.peek().text == "-":
            return Node("prefix", [self.take(), Node("number", [self.number()])], "-")
        return Node("number", [self.number()])

    def constant(self) -> Node:
        token = self.peek()
        if token.text in ("TRUE", "FALSE"):
            return Node("constant", [self.take()])
        if token.kind == "number":
            low = Node("constant", [self.take()])
        elif self.language != OURS and token.text == "-":
            low = Node("constant", [self.take(), self.number()])
        else:
            return Node("constant", [self.name()])
        if self.language != OURS and self.peek().text == "..":
            return Node("span", [low, self.take(), self.constant()])
        return low

    def number(self) -> Token:
        if self.peek().kind != "number":
            self.fail()
        return self.take()


def parse(text: str, language: str) -> Node:
    """The program's tree; Unread with the line of the first token that can't follow."""
    return Programs(tokens_of(text, language), language).program()


def our_expression(text: str, holes=()) -> Node:
    """An expression of the checker's language, with the nodes in place of $0, $1 and so on."""
    reader = Programs(tokens_of(text, OURS, holes=True), OURS)
    reader.holes = list(holes)
    found = reader.expression()
    if reader.peek().kind != "end":
        reader.fail()
    return found


__all__ = ["CMU", "NUSMV", "OURS", "Unread", "our_expression", "parse"]
