"""The command `explain` for the table of commands."""
from ..words import NODES, Command, Operand

COMMANDS = (
    Command(
        "explain", "check a model, and explain its refusal: the place, the rule, what to write",
        (Operand("MODEL", "model"), Operand("WORD", "word", optional=True, many=True)), (NODES,),
        "Puts what `check` puts. Where the model is refused, the line of the file follows with a mark below the very place, the "
        "rule that it breaks and the line to write instead; the mistakes behind it are told too, where the rest can be read. An "
        "answer `unknown` is explained as well. `explain recheck MODEL PROOF`, and so `replay`, `delay` and `strong` with their "
        "words, explain what these answer.",
        "smv explain examples/refused/e8_unknown_name.smv", "explaining.command", needs=("click",),
    ),
)
