"""The client's commands where it is installed without the repository: `python3 -m hitchseason WORD ..`, or `hitchseason-client WORD ..`."""
import sys

from .commands import askparts, forecast, left, plot
from .shell import shell

COMMANDS = {
    "shell": (shell, "A prompt for asks of an owner's tables: `\\h` there says what there is."),
    "askparts": (askparts, "Asks the program in FILE of each part of a partition, each key once: a line a key with its interval."),
    "forecast": (forecast, "Says what the program in FILE would be charged at EPS, and by how much its answer would be off at most, without asking it."),
    "left": (left, "Says what is spent of the budget of an owner, and what is left. It costs nothing."),
    "plot": (plot, "Draws a histogram with its error bars, a cross table, or a budget over time: SVG on standard output, or text."),
}


def main():
    word, *words = sys.argv[1:] or ["--help"]
    if word in COMMANDS:
        call, said = COMMANDS[word]
        return call(words, said)
    lines = [f"  {name.ljust(9)} {said}" for name, (_, said) in COMMANDS.items()]
    print("\n".join(["usage: hitchseason-client WORD ..    (each has --help)", *lines]), file=sys.stdout if word in ("--help", "-h") else sys.stderr)
    return 0 if word in ("--help", "-h") else 2


if __name__ == "__main__":
    sys.exit(main())
