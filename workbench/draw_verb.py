"""The verb `draw`: the picture of an answer, written to a file."""

from dataclasses import replace

from workbench.asking import REFUSED, ask
from workbench.draw import dot_text, format_of, picture
from workbench.operands import parsed, parser, read_asked
from workbench.output import say, write_file
from workbench.render import answer_text, short_text
from workbench.status import FAULT, YES


def draw_verb(arguments: list[str]) -> int:
    made = parser(
        "draw",
        "BOOK POOL QUESTION [--part] -o FILE",
        "Draws the pool: on fits which predicate takes which record, else where to look. FILE ends in .svg, .png or .dot;\n"
        "the first two need Graphviz. Status 0 where the picture was drawn, fits or not; else 2.",
        "./shapes draw house examples/queue.pool 'queue_and_free(0x10, 0x40)' -o queue.svg",
    )
    made.add_argument("-o", metavar="FILE", required=True, help="the picture's file")
    made.add_argument("--part", action="store_true", help="ask about some part of the records, and draw which are left out")
    options = parsed(made, arguments, 3, 3)
    format_name = format_of(options.o)
    answer = ask(replace(read_asked(*options.operands), some_part=options.part))
    if answer.kind == REFUSED:
        say(answer_text(answer))
        return FAULT
    write_file(options.o, picture(dot_text(answer), format_name))
    say(f"{short_text(answer)}\n")
    return YES
