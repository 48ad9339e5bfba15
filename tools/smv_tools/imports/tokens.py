"""Tokens of a text in the checker's language or in NuSMV's, each with the white space and comments before it.

Joined again the tokens are the text, byte for byte, so what isn't rewritten stays as it was written."""
import re
from dataclasses import dataclass

OURS = "ours"
NUSMV = "NuSMV"
CMU = "CMU SMV"

WHITE = r"[ \t\r\n\f]+"
LINE_COMMENT = r"--[^\n]*"
BLOCK_COMMENT = r"/--.*?--/"
NAME = r"[A-Za-z_](?:[A-Za-z0-9_$#\\]|-(?=[A-Za-z0-9_$#]))*"
ATOM = r"[A-Za-z](?:[A-Za-z0-9_]|-(?=[A-Za-z0-9_]))*"
WORD_CONSTANT = r"0[us]?[bBoOdDhH][0-9]*_[0-9a-fA-F_]+"
SIGNS = r"<->|->|:=|\.\.|<=|>=|[:;,.()\[\]{}=<>+\-*/!&|]"
FOREIGN_SIGNS = r"<->|->|:=|\.\.|<=|>=|!=|<<|>>|::|[:;,.()\[\]{}=<>+\-*/!&|?]"

OUR_TOKEN = re.compile(
    rf"(?P<trivia>(?:[ \t\r\n]+|{LINE_COMMENT})*)(?:(?P<name>{ATOM})|(?P<number>[0-9]+)|(?P<sign>{SIGNS})|(?P<hole>\$[0-9])|\Z)",
    re.S | re.A,
)
FOREIGN_TOKEN = re.compile(
    rf"(?P<trivia>(?:{WHITE}|{BLOCK_COMMENT}|{LINE_COMMENT})*)"
    rf"(?:(?P<word>{WORD_CONSTANT})|(?P<name>{NAME})|(?P<number>[0-9]+)|(?P<sign>{FOREIGN_SIGNS})|\Z)",
    re.S | re.A,
)

RESERVED = frozenset(
    "MODULE VAR ASSIGN DEFINE INIT TRANS SPEC FAIRNESS init next case esac process array of boolean mod union in running "
    "TRUE FALSE A E U EX AX EF AF EG AG INVAR ISA COMPUTE INPUT OUTPUT OPAQUE self LTLSPEC IVAR".split()
)


class Unread(Exception):
    """The text can't be read from this line on."""

    def __init__(self, line: int, text: str):
        super().__init__(f"line {line}: {text}")
        self.line = line


@dataclass
class Token:
    """A token. `kind` is name, number, word (a constant of NuSMV's words), sign, hole (in a template) or end."""

    kind: str
    text: str
    line: int
    before: str = ""


def tokens_of(text: str, language: str, holes: bool = False) -> list[Token]:
    """The tokens; the last one is the end, which holds what stands behind the others."""
    pattern = OUR_TOKEN if language == OURS else FOREIGN_TOKEN
    tokens, at, line = [], 0, 1
    while True:
        found = pattern.match(text, at)
        if not found:
            raise Unread(line + leading_lines(text, at), "no token begins here")
        kind = found.lastgroup if found.lastgroup != "trivia" else "end"
        if kind == "hole" and not holes:
            raise Unread(line + found["trivia"].count("\n"), "no token begins here")
        line += found["trivia"].count("\n")
        word = found[kind] if kind != "end" else ""
        tokens.append(Token(kind, word, line, found["trivia"]))
        line += word.count("\n")
        at = found.end()
        if kind == "end":
            return tokens


def leading_lines(text: str, at: int) -> int:
    """The line feeds of the white space and comments at this place."""
    return re.compile(rf"(?:{WHITE}|{BLOCK_COMMENT}|{LINE_COMMENT})*", re.S).match(text, at)[0].count("\n")


def joined(tokens) -> str:
    return "".join(token.before + token.text for token in tokens)
