"""Runs one of the tools: the first word is its name, the others are its own."""
import importlib
import os
import signal
import sys

from command import Failure
from words import PARSERS

MODULES = {"import": "import_map", "where": "tell_fault", "export": "export_slice", "steps": "list_steps", "loss": "measure_loss",
           "publish": "publish", "journal": "journal"}


def end(number, _):
    """Ends the tool as Ctrl-C does: what is half done is taken away first."""
    raise Ended(number)


class Ended(BaseException):
    """A signal that ends the tool."""


def main():
    for number in (signal.SIGINT, signal.SIGTERM):
        if signal.getsignal(number) != signal.SIG_IGN:
            signal.signal(number, end)
    tool, words = sys.argv[1], sys.argv[2:]
    try:
        # The words first: help and words that are wrong want none of what the tool does.
        chosen = PARSERS[tool](words)
        importlib.import_module(MODULES[tool]).main(chosen)
        sys.stdout.flush()
    except Failure as failure:
        print(f"{tool}: {failure}", file=sys.stderr)
        sys.exit(failure.status)
    except Ended as ended:
        # Whoever waits for the tool is told by which signal it ended, and needs no word.
        number, = ended.args
        signal.signal(number, signal.SIG_DFL)
        os.kill(os.getpid(), number)
    except BrokenPipeError:
        # Who reads the answer has seen enough; what is still in the buffer has nowhere to go.
        os.dup2(os.open(os.devnull, os.O_WRONLY), sys.stdout.fileno())


main()
