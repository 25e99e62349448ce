"""The frame of the commands that write an ask as a model."""
import sys

from ask_model import AskModel
from ask_set import SetFault, find
from ask_state import AskState


def model_of(ask):
    return AskModel(AskState(ask.snapshot(), ask.line()))


def write_model(name, usage, text_of):
    """Writes the model of the ask that the command line names, and returns the status."""
    if len(sys.argv) != 2:
        print(usage.splitlines()[0], file=sys.stderr)
        return 2
    try:
        ask = find(sys.argv[1])
    except SetFault as fault:
        print(f"{name}: {fault}", file=sys.stderr)
        return 1
    sys.stdout.write(text_of(model_of(ask)))
    return 0
