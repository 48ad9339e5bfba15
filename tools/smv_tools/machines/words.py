"""The command `test` for the table of commands."""
from ..words import JOBS, NODES, Command, Operand, Option

COMMANDS = (
    Command(
        "test", "decide all specifications of models, and compare with what their comments expect",
        (Operand("FILE", "model", many=True),),
        (JOBS, NODES,
         Option("--seconds", "N", "end a task after so many seconds", "number"),
         Option("--memory", "MB", "end a task that takes more memory", "number"),
         Option("--retries", "N", "try a task that is killed or unknown so often again, with more; 2 where nothing is said",
                choices=tuple("0123456789")),
         Option("--room", "FOLDER", "keep tasks and results there; a call that was stopped goes on where it was", "file"),
         Option("--engine", "ENGINE", "who runs the tasks: local, parallel or slurm", choices=("local", "parallel", "slurm")),
         Option("--sshlogin", "LOGIN", "a machine for GNU parallel, as it takes them", many=True),
         Option("--partition", "NAME", "the partition for Slurm"),
         Option("--quiet", "", "only what isn't as expected, and the total", short="-q")),
        "A line for each specification says whether its verdict is the one of its comment EXPECT; without one `true` is expected, "
        "and one with LABEL isn't tried. A folder stands for its files NAME.smv. With an engine other machines run the tasks and "
        "send back proofs, which are tested here: nothing else is believed (docs/MANY_MACHINES.md). The status is 0 where all is "
        "as expected, 1 where it isn't, 3 where a comment is wrong, 4 where a file can't be read.",
        "smv test examples --jobs 4", "machines.command",
    ),
)
