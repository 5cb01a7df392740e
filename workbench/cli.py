"""The command line: which verb is meant, and the status where it cannot be carried out."""

from collections.abc import Callable, Sequence

from workbench.ask_verb import ask_verb
from workbench.check_verb import check_verb
from workbench.coding_verbs import decode_verb, encode_verb
from workbench.draw_verb import draw_verb
from workbench.mistake import Mistake
from workbench.output import complain, flush, say, say_wrong
from workbench.status import FAULT, YES
from workbench.wording import nearest

USAGE = """usage: ./shapes VERB ...

  ask     whether a pool or a part of it fits a shape, and why or where to look
  check   whether an unfolding that came with an answer holds
  draw    the pool as a picture
  encode  text to the bytes that the engine and the bench program take
  decode  such bytes to text

Example:
  ./shapes ask house examples/queue.pool 'queue_and_free(0x10, 0x40)'

./shapes VERB --help says more about a verb, docs/WORKBENCH.md about all.
"""

VERBS: dict[str, Callable[[list[str]], int]] = {
    "ask": ask_verb,
    "check": check_verb,
    "draw": draw_verb,
    "encode": encode_verb,
    "decode": decode_verb,
}


def main(arguments: Sequence[str]) -> int:
    """Runs one command. Whatever happens there is a status, and no traceback for what a user does."""
    try:
        return _run(list(arguments))
    except Mistake as mistake:
        complain(mistake)
    except KeyboardInterrupt:
        complain("stopped")
    except OSError as fault:
        complain(f"{fault.filename or 'the system'}: {fault.strerror or fault}")
    finally:
        flush()
    return FAULT


def _run(arguments: list[str]) -> int:
    if not arguments:
        say_wrong(USAGE)
        return FAULT
    verb, rest = arguments[0], arguments[1:]
    if verb in ("-h", "--help", "help"):
        say(USAGE)
        return YES
    if verb not in VERBS:
        near = nearest(verb, list(VERBS))
        advice = f"did you mean {near}?" if near else f"the verbs are {', '.join(VERBS)}, and ./shapes --help says more"
        raise Mistake(f"there is no verb {verb!r}: {advice}")
    return VERBS[verb](rest)
