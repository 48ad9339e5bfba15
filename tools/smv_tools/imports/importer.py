"""An import: the text rewritten, with what was changed, what means something else, and what was left out."""
from dataclasses import dataclass

from .changes import KEPT, LEFT_OUT, OTHER_MEANING, REWRITTEN, Change, Changes, short
from .grammar import CMU, NUSMV, OURS, Unread, our_expression, parse
from .names import rename, replace_self
from .scope import Module, Scope
from .sections import Sections
from .tree import Node, grouped, name_of, plain, render, rewritten, shape
from .types import Types
from .values import Values

LANGUAGES = {"nusmv": NUSMV, "cmu": CMU}
# What holds an expression, and where in its parts.
HOLDERS = {"assignment": (2,), "definition": (2,)}


@dataclass
class Imported:
    text: str
    changes: list[Change]

    def some(self, *kinds: str) -> bool:
        return any(change.kind in kinds for change in self.changes)


def imported(text: str, language: str | None = None) -> Imported:
    """The text in the checker's language. Where none is named, a text that has only the checker's forms is in its language."""
    ours = tree_of(text, OURS)
    if ours and not language:
        return Import(ours, OURS).run(text)
    if not language:
        language = NUSMV
    return Import(parse(text, language), language).run(text)


def tree_of(text: str, language: str) -> Node | None:
    try:
        return parse(text, language)
    except Unread:
        return None


class Import:
    def __init__(self, program: Node, language: str):
        self.program, self.language, self.changes = program, language, Changes()
        self.scope = Scope(program)
        self.asked: list = []
        self.unrolled: dict = {}

    def run(self, text: str) -> Imported:
        if self.language == OURS:
            self.compare(text)
        else:
            rename(self.program, self.scope, self.changes)
            self.scope = Scope(self.program)
            replace_self(self.program, self.scope, self.changes)
            self.each(lambda module: Sections(self.scope, module, self.changes, self.asked).rewrite())
        self.scope = Scope(self.program)
        has_words = any(kind.word == "word" for module in self.scope.modules.values() for node in [module.node]
                        for kind in node.walk() if kind.kind in ("type", "word"))
        self.each(lambda module: self.expressions(module, has_words))
        if self.language != OURS:
            self.each(lambda module: Types(self.scope, module, self.changes, self.unrolled).rewrite())
            self.each(self.unrolled_paths)
        self.note()
        self.ask()
        return Imported(finished(self.program), self.changes.listed())

    def each(self, change) -> None:
        for module in list(self.scope.modules.values()):
            change(module)

    # ---- expressions

    def expressions(self, module: Module, has_words: bool) -> None:
        values = Values(self.scope, module, self.changes, has_words or self.has_constants(module))
        for holder, place in holders(module.node):
            old = holder.parts[place]
            meant = None if self.language == OURS else self.other_reading(old)
            new = values.expression(old)
            if self.language != OURS:
                new = self.regrouped(new, meant, old.line)
            holder.parts[place] = new

    def has_constants(self, module: Module) -> bool:
        return any(node.kind == "word" for node in module.node.walk())

    def other_reading(self, node: Node) -> str | None:
        """The text, where the checker takes it as it is with another grouping."""
        try:
            return plain(node) if shape(our_expression(render(node))) != shape(node) else None
        except Unread:
            return None

    def regrouped(self, node: Node, meant: str | None, line: int) -> Node:
        """The expression with parentheses where the checker would group it in another way."""
        try:
            if shape(our_expression(render(node))) == shape(node):
                return node
        except Unread:
            pass
        old = plain(node)
        node = grouped(node)
        if plain(node) != old:
            self.changes.tell(line, f"`{short(meant or old)}` is `{short(plain(node))}`: grouped as {self.language} groups it")
        return node

    def unrolled_paths(self, module: Module) -> None:
        if not self.unrolled:
            return
        types = Types(self.scope, module, self.changes, self.unrolled)
        for holder, place in holders(module.node):
            holder.parts[place] = rewritten(holder.parts[place], types.path)
        for node in module.node.walk():
            if node.kind == "left":
                node.parts = [types.path(part) if isinstance(part, Node) else part for part in node.parts]

    # ---- what means something else

    def compare(self, text: str) -> None:
        """Tells where NuSMV would group a text of the checker's forms in another way."""
        other = tree_of(text, NUSMV)
        if not other:
            return
        for (ours, place), (theirs, other_place) in zip(holders(self.program), holders(other)):
            mine, foreign = ours.parts[place], theirs.parts[other_place]
            if shape(mine) != shape(foreign):
                foreign_text = plain(grouped(foreign))
                self.changes.tell(mine.line, f"`{short(plain(mine))}` is grouped as {self.language_name()}; NuSMV reads "
                                  f"`{short(foreign_text)}`", OTHER_MEANING)

    def language_name(self) -> str:
        return "in docs/LANGUAGE.md"

    def note(self) -> None:
        for module in self.scope.modules.values():
            for node in module.node.walk():
                if node.kind == "case" and not has_default(node):
                    self.changes.tell(node.line, "a `case` without a last condition 1: where no condition is 1 its value is the "
                                      "number 1 here, and an error in NuSMV", OTHER_MEANING)
                elif node.kind == "section" and node.word in ("TRANS", "INVAR"):
                    self.changes.tell(node.line, f"`{node.word}` can leave states without a next one: they lie on no path, and "
                                      "no specification speaks of them; `./smv probe` looks for them", OTHER_MEANING)
                elif node.kind == "type" and node.word == "instance" and node.parts[0].text == "process":
                    self.changes.tell(node.line, "with processes each state has a variable `running`, which says before the step "
                                      "who makes it: `EX` doesn't choose the process", OTHER_MEANING)

    # ---- specifications that name sets

    def ask(self) -> None:
        """Writes the numbers of specifications into the commands that name them."""
        numbers, count = {}, 0
        for module in self.scope.tree():
            for section in module.node.nodes("section"):
                if section.word in ("SPEC", "CTLSPEC"):
                    count += 1
                    numbers.setdefault(id(section), []).append(count)
        for module, comment, specs, command, pattern in self.asked:
            pairs = zip(*(numbers.get(id(spec), []) for spec in specs))
            commands = [f"{command} {pattern.format(*pair)}" for pair in pairs]
            token = comment.parts[0]
            token.text = token.text.replace(command, ", ".join(commands) or f"no instance of {module.name}")
            self.changes.tell(token.line, f"ask {', '.join(f'`{it}`' for it in commands)}")


def holders(node: Node):
    """The nodes that hold a whole expression, with its place: in assignments, definitions, sections and actuals."""
    for part in node.walk():
        if part.kind in HOLDERS:
            yield part, HOLDERS[part.kind][0]
        elif part.kind == "section" or part.kind == "type" and part.word == "instance":
            for place, child in enumerate(part.parts):
                if isinstance(child, Node) and child.kind not in ("declaration", "assignment", "definition"):
                    yield part, place


def has_default(node: Node) -> bool:
    condition = node.nodes()[-1].nodes()[0]
    while condition.kind == "paren":
        condition = condition.parts[1]
    return plain(condition) in ("1", "TRUE") and not name_of(condition)


def finished(program: Node) -> str:
    """The text; behind a comment that is written here a line ends, and block comments are comments of lines."""
    parts, comment = [], False
    for token in program.tokens():
        before = line_comments(token.before)
        if comment and not before.lstrip(" \t").startswith("\n"):
            before = "\n" + before
        parts += [before, token.text]
        comment = token.kind == "comment"
    return "".join(parts)


def line_comments(before: str) -> str:
    at = before.find("/--")
    while at >= 0:
        end = before.index("--/", at + 3) if "--/" in before[at + 3:] else None
        if end is None or "--" in before[:at].rpartition("\n")[2]:
            return before
        inside = before[at + 3:end].split("\n")
        behind = before[end + 3:]
        lines = "\n".join(f"--{line if line.startswith(' ') or not line else ' ' + line}".rstrip() for line in inside)
        if not behind.lstrip(" \t").startswith("\n"):
            lines += "\n"
        before = before[:at] + lines + behind
        at = before.find("/--", at + len(lines))
    return before


__all__ = ["KEPT", "LEFT_OUT", "REWRITTEN", "imported"]
