"""What each kind of result says, in a sentence: of refusals as docs/FORMATS.md has it."""
from __future__ import annotations

FALSE = "false"
UNEXPECTED = "unexpected"
UNKNOWN = "unknown"
REJECTED = "rejected"

REFUSALS = {
    "E1": "a byte begins no token",
    "E2": "a number is above 2,147,483,647",
    "E3": "the file has more than 1,048,576 bytes",
    "E4": "no program begins with the tokens up to this one",
    "E5": "an expression or a type is deeper than 256",
    "E6": "there is no module `main`, or it has parameters",
    "E7": "a name is declared twice",
    "E8": "a name denotes nothing, or no value where one is wanted",
    "E9": "a module contains itself",
    "E10": "an instance has more or fewer actuals than its module has parameters",
    "E11": "a definition or an actual comes back to itself",
    "E12": "a name declared in `main` is a symbolic constant",
    "E13": "an index is not constant, faults, or is outside the bounds",
    "E14": "a range or an array has its low end above its high end",
    "E15": "a left side does not denote one variable",
    "E16": "a limit is passed",
    "E17": "a variable is assigned twice",
    "E18": "a variable has a current-value assignment beside an `init` or a `next`",
    "E19": "assignments depend on one another in a circle",
    "E20": "`next` stands where it may not",
    "E21": "a path operator stands where it may not",
    "E22": "a state has more than 128 bits",
    "E23": "an item faults",
}
VERDICTS = {
    FALSE: "a specification is false: it fails at an initial state",
    UNEXPECTED: "a specification has another verdict than is expected",
    UNKNOWN: "a specification has no verdict: the node limit was met",
    REJECTED: "a proof or a path was rejected",
}
RULES = {**VERDICTS, **REFUSALS}
