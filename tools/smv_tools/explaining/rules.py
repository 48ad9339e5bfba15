"""Of each refusal: its title in docs/REFUSALS.md, the rule that is broken, and what to write instead."""
from __future__ import annotations

from typing import NamedTuple

from ..tokens import LARGEST


class Rule(NamedTuple):
    title: str
    broken: str
    instead: str


RULES = {
    "E1": Rule("a byte that begins no token", "A byte stands where a token would begin, and begins none.",
               "Put text that is no part of the model behind `--`. Names hold letters, digits, `_` and `-`, and begin with a "
               "letter."),
    "E2": Rule("a number that is too large", f"A number is above {LARGEST:,}.",
               "Count in larger units, or model the difference to a base."),
    "E3": Rule("a file that is too long", "The file has more than 1,048,576 bytes.",
               "Write modules with parameters in place of copies."),
    "E4": Rule("no program", "No program begins with the tokens up to this one.",
               "Often the mistake stands just before it. docs/COMING_FROM_NUSMV.md has a table of other tools' forms, and "
               "docs/LANGUAGE.md the grammar."),
    "E5": Rule("an expression that is too deep", "An expression, a path or a type is deeper than 256 as it is written.",
               "Give its parts names under DEFINE: a name has depth 1."),
    "E6": Rule("no main", "There is no module `main`, or it has parameters.",
               "Call the module `main`, or write a `main` with an instance of it."),
    "E7": Rule("a name that is declared twice", "A name, or a module, is declared a second time.",
               "Rename one of the two. A process of `main` isn't called `main` either."),
    "E8": Rule("an unknown name", "A name denotes nothing, or an instance or a whole array where a value is wanted.",
               "Declare it, or write the whole path: `p.x` for a variable of an instance, `x[0]` for an element of an array. "
               "A type that is a name is that of a module."),
    "E9": Rule("a module that contains itself", "The module of this instance is among those that it is declared in.",
               "Use two modules, or an array of variables."),
    "E10": Rule("another number of arguments", "This instance has more or fewer parameters than its module.",
                "Hand over one for each name in the parentheses of the module."),
    "E11": Rule("a circular definition", "A definition or a parameter comes back to itself.",
                "A value that depends on itself over time is a variable with a `next`; one that is chosen is a variable tied "
                "by TRANS."),
    "E12": Rule("a name that is a constant", "This name of `main` is a value of some enumeration too.",
                "Rename the variable or the value."),
    "E13": Rule("a bad index", "An index isn't arithmetic on numbers, faults, or is outside the bounds of the array.",
                "An index can't vary from state to state: choose by `case i = 0 : x[0]; 1 : x[1]; esac`."),
    "E14": Rule("a range without values", "The low end of a range or of an array is above its high end.", "Exchange the two."),
    "E15": Rule("a left side that cannot be assigned", "The left side of this assignment isn't one variable.",
                "Assign the variable itself, and an array element by element."),
    "E16": Rule("a limit", "A limit is passed: the word says which, and the number is the limit and one more (of `values`, all "
                "values).", "Make the model coarser. docs/LANGUAGE.md has the limits."),
    "E17": Rule("assigned twice", "This is a second assignment of one variable: in one process for `next`, else in the program.",
                "Leave one out, or declare the instances as processes where one moves at a time. Plain instances move at once."),
    "E18": Rule("a current value beside another", "A variable with a current value (`x := ..`) has an `init` or a `next` too.",
                "A current value holds in every state, the initial ones too: leave out the other assignment."),
    "E19": Rule("a circular assignment", "By their assignments, variables depend on one another in a circle.",
                "Let one of them take its value a step later, by `next`. What only restricts them is a TRANS."),
    "E20": Rule("`next` where no next state is meant",
                "`next` stands in INIT, INVAR, FAIRNESS or SPEC, in an initial or a current value, or within another `next`.",
                "A condition on steps is a TRANS. In a specification write `AX`."),
    "E21": Rule("a path operator where no formula is meant",
                "A path operator stands in an assignment, INIT, INVAR or TRANS, or below an operator that isn't one of logic.",
                "Path operators belong into SPEC and FAIRNESS, below `!`, `&`, `|`, `->`, `<->` and one another."),
    "E22": Rule("too many bits", "A state has more than 128 bits: those that number the values of each variable, and the "
                "processes.", "Leave out what no specification depends on, or give types fewer values."),
    "E23": Rule("a fault", "The item has no value, or a wrong one, at the state whose values are told. It makes no difference "
                "whether a path comes to that state.",
                "Say what the value is there too, by a `case`. Where no condition of a `case` is met its value is 1, so end it "
                "with a condition `1`."),
    "E24": Rule("no set of states", "The specification that the words name isn't there, or holds a path operator, and so it "
                "isn't a set of states by itself.",
                "Name another one by its number in the order of the file, or add one without path operators, as `SPEC n = 2`."),
}

# Of files beside the model: what is wrong with the line, and what to do.
FILE_RULES = {
    "P1": Rule("a line that isn't allowed here", "The line of the proof file isn't one that is allowed in its place.",
               "Make the file anew by `smv check MODEL --proof FILE`. docs/PROOF_FORMAT.md has each line."),
    "P2": Rule("a line that isn't whole", "The proof file ends here, though more is asked for, or its last line has no line feed.",
               "The file was cut off: make it anew by `smv check MODEL --proof FILE`."),
    "P3": Rule("other variables", "Line 2 of the proof file doesn't name each variable of the model once.",
               "The file belongs to another model, or the model was changed since: make it anew by `smv check MODEL --proof FILE`."),
    "P4": Rule("a bad node", "The line has a node that breaks the rules of nodes: its level is a place of a bit, its two sides "
               "differ and stand before it, and no node stands twice.",
               "docs/PROOF_FORMAT.md has the rules of nodes."),
    "P5": Rule("a proof file that is too long", "The proof file has more than 67,108,864 bytes.",
               "`smv check --proof` leaves out what would make it longer: the file is another one's."),
    "Q1": Rule("a line that isn't allowed here", "The line of the trace file isn't one that is allowed in its place: `trace J`, "
               "then each state with all variables in declared order, then `loop I`.",
               "Take the lines from `state 0` to `loop I` of a report, behind a line `trace J`."),
    "Q2": Rule("a line that isn't whole", "The trace file ends here, though more is asked for, or its last line has no line feed.",
               "A trace file ends with `loop I` and a line feed."),
    "Q3": Rule("a trace file that is too long", "The trace file has more than 67,108,864 bytes.", "Show a shorter path."),
}

# What `replay` finds, by the word behind `rejected`.
REJECTED = {
    "shape": "No path can show this specification to be false: it hasn't the shape that docs/FORMATS.md has (\"The report of "
             "check\"), as `EF q` hasn't.",
    "initial": "State 0 isn't initial: some `init`, current value, `INIT` or `INVAR` doesn't hold there.",
    "step": "The state doesn't step to the next one (the last one to that of `loop`): some `next`, current value, `TRANS` or "
            "`INVAR` doesn't hold, or a variable changes that keeps its value while another process moves.",
    "fair": "The constraint of this number is true at no state from `loop` on, so the path isn't fair.",
    "property": "The specification holds on this path.",
}

# Answers on the outside, by the words of the line.
FAULTS = {
    "load missing": "There is no file of this name. A name is sought in the folder of the call.",
    "load failed": "The file is there, and can't be opened or read: a folder, a file without leave to read it, or a name below a "
                   "file.",
    "save failed": "The file of --proof can't be made or written whole, and no report was put. It may be missing, empty or cut "
                   "off now.",
}
MEMORY = ("Memory ran out, nothing was put and no file was changed. Allow more (`ulimit -v`), or ask for a lower --nodes: then "
          "what finds no room is `unknown`, and the rest is decided.")
UNKNOWN = ("The node limit was met, so the specification may be true or false. From some limit on nothing is unknown, unless "
           "memory runs out.")
UNKNOWN_MODEL = ("The limit was met while the diagrams of the steps were made, before any specification was tried. Whether an item "
                 "faults (E23) isn't known either.")
