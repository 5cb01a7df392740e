"""Questions as text, such as `segment(10, nil)`."""

from workbench.lexer import TERMS, Token, Tokens, shorten, shown
from workbench.model import Book, Question
from workbench.wording import count, suggestion
from workbench.values import base_sixteen, read_value, spellings_of, write_value


def parse_question(text: str, book: Book, source: str = "question") -> Question:
    tokens = Tokens(text, source)
    name = tokens.next()
    if name.kind != "name":
        raise tokens.mistake(f"a question begins with a predicate: write one such as {_example(book)}", name)
    names = [predicate.name for predicate in book.predicates]
    if name.text not in names:
        raise tokens.mistake(f"there is no predicate {shown(name)} in this book: {suggestion(name.text, names)}", name)
    predicate = names.index(name.text)
    read = _values(tokens, name, book.predicates[predicate].arguments)
    if tokens.peek().kind != "end":
        raise tokens.mistake(f"{shown(tokens.peek())} follows the question: ask one question, and write nothing after it", tokens.peek())
    return Question(predicate, tuple(value for value, _ in read), spellings_of(read))


def _values(tokens: Tokens, name: Token, due: int) -> list[tuple[int, Token]]:
    if not tokens.take("("):
        raise tokens.mistake(f"( is missing after {shown(name)}: write {_form(name.text, due)}", tokens.peek())
    read: list[tuple[int, Token]] = []
    closed = tokens.take(")")
    while not closed:
        token = tokens.next()
        if token.kind == "name" and token.text != "nil":
            raise tokens.mistake(f"{shown(token)} is no value: a question has numbers and nil only{base_sixteen(token)}", token)
        if token.kind not in TERMS:
            raise tokens.mistake(f"a value is missing before {shown(token)}: write a number or nil", token)
        read.append((read_value(tokens, token), token))
        closed = tokens.take(")")
        if not closed and not tokens.take(","):
            raise tokens.unseparated("values")
    if len(read) != due:
        message = f"{shown(name)} has {count(due, 'argument')}, and this question has {count(len(read), 'value')}"
        given = [shown(token) for _, token in read]
        form = _call(name.text, given + [".."] * (due - len(given))) if 0 < len(given) < due else _form(name.text, due)
        raise tokens.mistake(f"{message}: write {form}", name)
    return read


def _form(name: str, arguments: int) -> str:
    return _call(name, ["10", "20", "30", "40"][:arguments])


def _call(name: str, values: list[str]) -> str:
    return f"{shorten(name)}({', '.join(values)})"


def _example(book: Book) -> str:
    return _form(book.predicates[0].name, book.predicates[0].arguments)


def write_question(question: Question, book: Book) -> str:
    values = ", ".join(write_value(value, question.spellings) for value in question.values)
    return f"{book.predicates[question.predicate].name}({values})"
