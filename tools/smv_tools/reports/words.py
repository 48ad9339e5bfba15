"""The command `report` for the table of commands."""
from ..words import NODES, Command, Operand, Option

ONLY = Option("--only", "J", "only this specification, by its number or its name", many=True)
NO_PROOF = Option("--no-proof", "", "make and test no proofs, and judge no paths")
SECONDS = Option("--seconds", "N", "end each run of the program after so many seconds", "number")
MEMORY = Option("--memory", "MB", "end each run of the program that takes more memory", "number")

COMMANDS = (
    Command(
        "report", "the record of a check: verdicts, places, paths, and what was said of proofs",
        (Operand("FILE", "model", many=True),),
        (Option("--json", "", "put the whole record (docs/REPORTS.md has its schema)"),
         Option("--junit", "", "put JUnit's XML, with a test case for each specification"),
         Option("--sarif", "", "put SARIF 2.1.0, with the place of each false specification and each refusal"),
         Option("--html", "", "write a page that shows verdicts and paths"),
         Option("--out", "OUT", "write it there; without another option its ending says what: json, xml, sarif, html", "file",
                short="-o"),
         ONLY, NODES, NO_PROOF, SECONDS, MEMORY),
        "Checks each model, has `recheck` test the proof of each verdict and `replay` judge each path, and puts what was found; "
        "without an option a line for each specification. What a comment EXPECT says is compared; a specification with LABEL "
        "counts for nothing. The status is the greatest that `check` has of the models, and at least 1 where a proof or a path "
        "was rejected.",
        "smv report examples/peterson.smv --sarif -o peterson.sarif", "reports.command",
    ),
)
