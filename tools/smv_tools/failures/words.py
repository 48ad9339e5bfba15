"""The commands that show failures, for the table of commands."""
from ..words import MODEL, NODES, Command, Operand, Option

REPORT = Option("--report", "REPORT", "take this saved report of check, path of strong or trace file; nothing is checked", "file")
COMMANDS = (
    Command(
        "trace", "show a path on which a specification fails, or a true one is seen to hold",
        (MODEL, Operand("J", "number", optional=True)),
        (NODES, REPORT,
         Option("--whole", "", "show what follows behind the state that decides"),
         Option("--changed", "", "show the rows alone that change"),
         Option("--only", "NAMES", "show these rows alone: names with commas, an instance for all in it"),
         Option("--csv", "OUT", "write the states as comma-separated values", "file"),
         Option("--vcd", "OUT", "write a waveform for GTKWave and the like", "file"),
         Option("--svg", "OUT", "write a timing diagram", "file"),
         Option("--path", "OUT", "write a trace file for replay", "file")),
        "J is the number of the specification; without it the first false one is shown. Where the report has no path, one is "
        "sought over copies of the model: for any formula that a path has something to show of. One line says what the path "
        "shows; `!` marks the states and the rows that decide, and `*` a value that the step changed. `replay` judges each path "
        "before it is shown.",
        "smv trace examples/peterson.smv 3", "failures.tracing",
    ),
    Command(
        "replay", "judge a path that is to show a specification false, or the paths of a saved report",
        (MODEL, Operand("TRACE", "file"), Operand("J", "number", optional=True)), (NODES,),
        "TRACE is a path as reports have it, behind a line `trace J` with the number of the specification; or a saved report, of "
        "which the path of specification J is judged, or each one where J isn't given.",
        "smv replay examples/peterson.smv path", "failures.replaying",
    ),
    Command(
        "simulate", "walk through a model: initial states, next states, at a terminal or at random", (MODEL,),
        (NODES, Option("--random", "", "walk at random and put the states"),
         Option("--steps", "N", "so many steps at random; 10 where none is given", "number"),
         Option("--seed", "N", "begin the random choices with this number", "number"),
         Option("--path", "OUT", "write the walk as a trace file of specification 1, with a fair loop behind it", "file")),
        "Shows the initial states, then the next ones of the state that is shown, to be chosen by number, at random, or by the "
        "process to move. A dead end is told. States are listed one by one, by the tools' own evaluation.",
        "smv simulate examples/peterson.smv --random --steps 5 --seed 1", "failures.simulating",
    ),
)
