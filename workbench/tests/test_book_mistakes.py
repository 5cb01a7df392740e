"""What is said about each mistake in a book."""

import unittest

from workbench.book_text import parse_book
from workbench.tests.marked import check_rows

SLIPS_OF_HABIT = [
    ("p { a ‸≠ b => p(a, b) }", "≠ is not used here: write != for unequal"),
    ("p { a ‸→ b => p(a) }", "→ is not used here: write -> for a cell"),
    ("p { a = b ‸& c = d => p(a) }", "& is not used here: write * between atoms"),
    ("p { a ‸:= b => p(a) }", ":= is not used here: write = in a condition, => before a head, and : after an address"),
    ("p { a = b‸, c = d => p(a) }", "write * and not , between atoms"),
    ("p { a ‸<> b => p(a) }", "<> is not used here: write != for unequal"),
    ("p { emp => p(a) } ‸// no", "// is not used here: a comment begins with #"),
    ("p { a‸.b = b => p(a) }", ". is not used here: write : after the names of exists"),
    ("p { a -> ‸[b] => p(a) }", "[ is not used here: write ( and not ["),
    ("p { a = b => p‸[a] }", "[ is not used here: write ( and not ["),
    ("p { a ‸== b => p(a) }", "== is not used here: write = for equal"),
    ("p { a ‸==> p(a) }", "==> is not used here: write => before the head"),
    ("p { a ‸|-> b => p(a) }", "|-> is not used here: write -> for a cell"),
    ("p { a ‸↦ b => p(a) }", "↦ is not used here: write -> for a cell"),
    ("p { a = b ‸&& a = c => p(a) }", "&& is not used here: write * between atoms"),
    ("p { a = b ‸∧ a = c => p(a) }", "∧ is not used here: write * between atoms"),
    ("p { a = b ‸∗ a = c => p(a) }", "∗ is not used here: write * between atoms"),
    ("p { a = b ‸⇒ p(a) }", "⇒ is not used here: write => before the head"),
    ("p { emp => p() ‸|| emp => p() }", "|| is not used here: write | between cases"),
    ("p { ‸∃ c: a = c => p(a) }", "∃ is not used here: write exists, the names, and :"),
    ("p { exists c‸. a = c => p(a) }", ". is not used here: write : after the names of exists"),
    ("p { a ‸/= b => p(a) }", "/= is not used here: write != for unequal"),
    ("p { a ‸! b => p(a) }", "! is not used here: write != for unequal"),
    ("p(a) ‸<= a = b", "<= is not used here: write the head last, after =>"),
    ("p { p(a) ‸<- a = b }", "<- is not used here: write the head last, after =>, and a cell as address -> fields"),
    ("p { p(a)‸, p(b) => p(a) }", "write * and not , between atoms"),
    ("p { a -> b‸, a = b => p(a) }", "write * and not , between atoms"),
    ("p { a -> b‸, b -> a => p(a) }", "write * and not , between atoms"),
    ("p { emp => p() } ‸/* no */", "/* is not used here: a comment begins with # and goes to the end of the line"),
    ("p { emp => p() } ‸-- no", "-- is not used here: a comment begins with #"),
    ("p { a -> (b)‸, c => p(a) }", "write * and not , between atoms"),
    ("p { a -> b‸, nil -> c => p(a) }", "write * and not , between atoms"),
    ("p { a=‸-1 => p(a) }", "- is not used here: write a whole number of 0 or more, without sign or point"),
]

LIMITS = [
    ("p { a -> b, c, d, e, ‸f => p(a) }", "this cell has a fifth field: a cell has at most 4 fields"),
    ("p { a -> (b, c, d, e, ‸f) => p(a) }", "this cell has a fifth field: a cell has at most 4 fields"),
    (
        "p { a = b * c = d * e = f * g = h * ‸i = a => p(a) }",
        "this case has a ninth name, i: a case has at most 8 names, its arguments included",
    ),
    ("p { a=b*a=b*a=b*a=b*a=b*a=b*a=b*a=b*‸a=b => p(a) }", "this case has a ninth condition: a case has at most 8 conditions"),
    ("p { a->b*a->b*a->b*a->b*‸a->b => p(a) }", "this case has a fifth cell: a case has at most 4 cells"),
    ("p { p(a)*p(a)*p(a)*‸p(a) => p(a) }", "this case has a fourth call: a case has at most 3 calls"),
    ("p { emp => p(a, b, c, d, ‸e) }", "this predicate has a fifth argument: a predicate has at most 4 arguments"),
    ("p { p(a, b, c, d, ‸e) => p(a) }", "this predicate has a fifth argument: a predicate has at most 4 arguments"),
    (
        "a() { } ; b() { } ; c() { } ; d() { } ; e() { } ; f() { } ; g() { } ; h() { } ; ‸i() { }",
        "this book has a ninth predicate, i: a book has at most 8 predicates",
    ),
    ("p { a = b * c = d * e = f * g = h => p(‸i) }", "this case has a ninth name, i: a case has at most 8 names, its arguments included"),
    (
        "p { exists a, b, c, d, e, f, g, h, ‸i: emp => p() }",
        "this case has a ninth name, i: a case has at most 8 names, its arguments included",
    ),
]

NAMES = [
    ("‸nil { emp => nil() }", "nil is a reserved word and no name of a predicate: write another name"),
    ("p { exists ‸a: a = b => p(a) }", "a is an argument of the head, and no name of exists: take it off the list"),
    ("p { exists c, ‸c: a = b => p(a) }", "c is listed twice: take one of them away"),
    ("p { exists ‸nil: a = b => p(a) }", "nil is a reserved word and no name of a variable: write another name"),
    ("p { ‸emp() => p(a) }", "emp is a reserved word and no name of a predicate: write another name"),
    ("p { ‸emp -> a => p(a) }", "emp is a reserved word and no name of a variable: write another name"),
    ("p { ‸nil -> x => p(x) }", "nil is no address: the address of a cell must be a name"),
    ("p { ‸segmnt(a) => p(a) } ; segment(a) { }", "there is no predicate segmnt in this book: did you mean segment?"),
    ("p { emp => p(a) } ; ‸@", "@ is followed by a place in a book's list of constants, as in @1"),
    ("p { a‸² = b => p(a) }", "the character ² (U+00B2) has no meaning here: take it away; names have letters, digits, _ and '"),
    ("p { ‸2a = b => p(a) }", "2a is no number and no name: write base sixteen after 0x; a name begins with a letter"),
    ("‸exists { emp => p() }", "exists is a reserved word and no name of a predicate: write another name"),
    ("p { ‸P(a) => p(a) }", "there is no predicate P in this book: did you mean p?"),
    ("p { emp => ‸nil(a) }", "nil is a reserved word and no name of a predicate: write another name"),
    ("p { emp => p(‸emp) }", "emp is a reserved word and no name of a variable: write another name"),
    ("p { p(‸exists) => p(a) }", "exists is a reserved word and no name of a variable: write another name"),
    ("p { a -> ‸emp => p(a) }", "emp is a reserved word and no name of a variable: write another name"),
    ("p { a -> b * ‸emp = b => p(a) }", "emp is a reserved word and no name of a variable: write another name"),
    ("p { a ‸\u200b= b => p(a) }", "the character U+200B has no meaning here: take it away; names have letters, digits, _ and '"),
    ("p { ‸007 = a => p(a) }", "007 begins with 0: write 7, or 0x and the digits for base sixteen"),
    ("p { ‸1_0 = a => p(a) }", "1_0 has _ in it: write a number without _; a name begins with a letter"),
    ("p { ‸0x = a => p(a) }", "0x is no number and no name: write base sixteen after 0x; a name begins with a letter"),
    ("p { a -> ‸NULL => p(a) }", "NULL is no variable: write nil, or another name"),
    ("p { a -> ‸Nil => p(a) }", "Nil is no variable: write nil, or another name"),
    ("p { a -> ‸FFFFFFFF => p(a) }", "FFFFFFFF is no variable: write nil or 0xFFFFFFFF for the end mark, or another name"),
    ("p { a = ‸ffffffff => p(a) }", "ffffffff is no variable: write nil or 0xffffffff for the end mark, or another name"),
    ("p { a -> ‸_ => p(a) }", "_ alone is no name: write a name of its own for each value that may be any"),
    ("p { emp => p(‸_) }", "_ alone is no name: write a name of its own for each value that may be any"),
    ("p { exists ‸_: emp => p() }", "_ alone is no name: write a name of its own for each value that may be any"),
]

NINE = " * ".join(f"a != {number}" for number in range(1, 9))
WAY_OUT = "make it an argument of the predicate, which the question then gives"
LISTED = "a book has at most 8, and each of the list counts, equal ones and 0 too; shorten the list, or make 8 an argument of the predicate"
SECOND = "there is a list of constants already: write one list with the constants of both, ahead of all blocks"
FIELDS = "write , between fields, * between atoms, and => before the head"
NUMBERS = [
    ("p { ‸7 -> x => p(x) }", "7 is a number, and the address of a cell must be a name: write a name a there, and the condition a = 7"),
    ("p { a = b *\n  ‸0x07 -> () => p(a) }", "0x07 is a number, and the address of a cell must be a name: write a name c there, and the condition c = 0x07"),
    ("p { a -> c => p(a) | c = d * ‸7 -> b => p(a) }", "7 is a number, and the address of a cell must be a name: write a name e there, and the condition e = 7"),
    ("p { a(b) => p(b) |\n  ‸7 -> x => p(x) | a = b => p(a) }", "7 is a number, and the address of a cell must be a name: write a name a there, and the condition a = 7"),
    ("p { ‸0 -> x => p(x) }", "0 is no address: the address of a cell must be a name"),
    ("p { ‸0x00 -> x => p(x) }", "0x00 is no address: the address of a cell must be a name"),
    ("p { ‸0xFFFFFFFF -> x => p(x) }", "0xFFFFFFFF is no address: the address of a cell must be a name"),
    ("p { a = b => p(‸1) }", "1 cannot be an argument of a head: write a name c there, and the condition c = 1"),
    ("p { emp => p(‸1, a, b) }", "1 cannot be an argument of a head: write a name c there, and the condition c = 1"),
    ("p(a, ‸10) { }", "10 cannot be an argument of a head: write a name b there, and the condition b = 10"),
    ("q() { } ; p(‸10) {", "10 cannot be an argument of a head: write a name a there, and the condition a = 10"),
    ("p { a -> b * ‸7 => p(a) }", "7 alone is no atom: write emp for nothing, or a condition such as a = 7"),
    ("p { ‸7(a) => p(a) }", "7 is a number and no name of a predicate: write another name"),
    ("p { emp => ‸7(a) }", "the head is missing before 7: write p(a, b) with the arguments of p"),
    ("p { exists ‸7: emp => p() }", "7 is a number, which needs no exists: list names only"),
    ("p { exists c, ‸0x51: a -> c => p(a) }", "0x51 is a number, which needs no exists: list names only"),
    ("p { a = ‸4294967296 => p(a) }", "4294967296 is too large: a value is at most 4,294,967,294 (0xFFFFFFFE), and 0xFFFFFFFF is nil"),
    ("p { a -> (b, ‸0x100000000) => p(a) }", "0x100000000 is too large: a value is at most 4,294,967,294 (0xFFFFFFFE), and 0xFFFFFFFF is nil"),
    ("p { p(‸007) => p(a) }", "007 begins with 0: write 7, or 0x and the digits for base sixteen"),
    ("p { a -> 7 ‸8 => p(a) }", f", * or => is missing before 8: {FIELDS}"),
    ("p { a -> 0x51 ‸next * p(next) => p(a) }", f", * or => is missing before next: {FIELDS}"),
    ("p { a -> b, 7 ‸nil => p(a) }", f", * or => is missing before nil: {FIELDS}"),
    ("constants 7 ; p { a -> b ‸@1 => p(a) }", f", * or => is missing before @1: {FIELDS}"),
    ("p { a -> 7 ‸8 != a => p(a) }", "* or => is missing before 8: write * between atoms, and => before the head"),
    ("p { a -> 7 ‸b -> 8 => p(a) }", "* or => is missing before b: write * between atoms, and => before the head"),
    ("p { a -> 7 ‸p(a) }", "* or => is missing before p: write * between atoms, and => before the head"),
    ("p { a -> 7 ‸emp => p(a) }", "* or => is missing before emp: write * between atoms, and => before the head"),
    ("p { a -> (7) ‸8 => p(a) }", "* or => is missing before 8: write * between atoms, and => before the head"),
    ("p { a -> 7‸, 8 = a => p(a) }", "write * and not , between atoms"),
    ("p { p(7 ‸8) => p(a) }", ", is missing before 8: write , between arguments and ) after the last"),
    (f"p {{ {NINE} * a -> 8, 1, 0, ‸0x09 => p(a) }}", f"this book has a ninth number, 0x09: a book has at most 8 different ones; {WAY_OUT}"),
    (f"p {{ {NINE} => p(a) | p(1, ‸9) => p(a) }}", f"this book has a ninth number, 9: a book has at most 8 different ones; {WAY_OUT}"),
    (f"p {{ {NINE} => p(a) }} ; q {{ p(0x01) * p(0) => q() |\n  p(‸10) => q() }}", f"this book has a ninth number, 10: a book has at most 8 different ones; {WAY_OUT}"),
    ("constants 1, 1, 2, 3, 4, 5, 6 ; p { a = 7 * a = ‸8 => p(a) }", f"8 would be a ninth constant: {LISTED}"),
    ("constants 7,7,7,7,7,7,7,7 ; p { a -> ‸8 => p(a) }", f"8 would be a ninth constant: {LISTED}"),
    ("constants 7, 0, nil, 0, 0, 0, 0, 0 ; p { a -> 7, ‸8 => p(a) }", f"8 would be a ninth constant: {LISTED}"),
    ("constants 1, 1, 1, 1, 1, 1, 1, 1, ‸1 ; p() { }", "this book has a ninth constant: a book has at most 8 constants"),
    ("constants ‸; p() { }", "a number is missing before \";\": write constants 7, 8 ; and then the blocks"),
    ("constants 7, ‸a ; p() { }", "constants have no names: write the number in the cases"),
    ("constants ‸queue ; p() { }", "constants have no names: write the number in the cases"),
    ("constants ‸FFFFFFFF ; p() { }", "constants have no names: write the number in the cases; for base sixteen write 0xFFFFFFFF"),
    ("constants ‸a = 7 ; p() { }", "constants have no names: write the number in the cases"),
    ("constants ‸(7, 8) ; p() { }", "a list of constants has no parentheses: write constants 7, 8 ; and then the blocks"),
    ("constants 7, ‸p { emp => p() }", "a number is missing before p: write constants 7, 8 ; and then the blocks"),
    ("‸constant 7 ; p() { }", "constant begins no list of constants: write constants, as in constants 7 ;"),
    ("‸Constants 0x51, 8 ; p() { }", "Constants begins no list of constants: write constants, as in constants 0x51 ;"),
    ("constant(a) ‸7 { }", "{ is missing after constant: write constant { atoms => constant(a, b) }"),
    ("desk ‸7 ; p() { }", "{ is missing after desk: write desk { atoms => desk(a, b) }"),
    ("constants‸", "a number is missing before the end: write constants 7, 8 ; and then the blocks"),
    ("constants 7 ‸8 ; p() { }", ", is missing before 8: write constants 7, 8 ; and then the blocks"),
    ("constants 7, 8\n‸p() { }", "; is missing before p: write constants 7, 8 ; and then the blocks"),
    ("constants 7, ‸4294967296 ; p() { }", "4294967296 is too large: a value is at most 4,294,967,294 (0xFFFFFFFE), and 0xFFFFFFFF is nil"),
    ("constants 7 ;‸", "there is no block here: a book has at least one, such as p { emp => p() }"),
    ("p() { } ; ‸constants 7 ;", "a list of constants stands once and ahead of all blocks: move it there"),
    ("constants 7 ; ‸constants 8 ; p() { }", SECOND),
    ("constants 7 ; p() { } ; ‸constants 8 ;", SECOND),
    ("p { a = ‸@1 => p(a) }", "@1 names no constant, since no constants are listed ahead of the blocks: write a number"),
    ("p { a = 7 * a = ‸@1 => p(a) }", "@1 names no constant, since no constants are listed ahead of the blocks: write a number"),
    ("constants 7 ; p { a = ‸@2 => p(a) }", "@2 names no constant, since 1 constant is listed ahead of the blocks: write @1"),
    ("constants 7, 7 ; p { a = 8 * a -> ‸@3 => p(a) }", "@3 names no constant, since 2 constants are listed ahead of the blocks: write @1 to @2"),
    ("constants 7, 7 ; p { p(‸@0) => p(a) }", "@0 names no constant, since 2 constants are listed ahead of the blocks: write @1 to @2"),
    ("constants 7, 7 ; p { p(‸@01) => p(a) }", "write the place in base ten without a 0 in front: @1"),
    ("constants 7, 7 ; p { p(‸@0x2) => p(a) }", "write the place in base ten without a 0 in front: @2"),
    ("constants 7, 7 ; p { p(‸@0X3) => p(a) }", "@0X3 names no constant, since 2 constants are listed ahead of the blocks: write @1 to @2"),
    ("constants 7, 7 ; p { p(‸@00) => p(a) }", "@00 names no constant, since 2 constants are listed ahead of the blocks: write @1 to @2"),
    ("p { p(‸@01) => p(a) }", "@01 names no constant, since no constants are listed ahead of the blocks: write a number"),
    ("constants 7 ; p { ‸@1 -> a => p(a) }", "@1 is a number, and the address of a cell must be a name: write a name b there, and the condition b = @1"),
    ("constants 7 ; p { emp => p(‸@1) }", "@1 cannot be an argument of a head: write a name a there, and the condition a = @1"),
    ("p { a = ‸@ => p(a) }", "@ is followed by a place in a book's list of constants, as in @1"),
    ("constants 7 ; p { a = ‸@ 1 => p(a) }", "@ is followed by a place in a book's list of constants, as in @1"),
    ("constants 7 ; p { a = ‸@a => p(a) }", "@ is followed by a place in a book's list of constants, as in @1"),
    ("constants 7 ; p { a = ‸@-1 => p(a) }", "@ is followed by a place in a book's list of constants, as in @1"),
]

HEADS = [
    ("p { a = b ‸}", "=> is missing before }: write => and the head, such as p(a), after the atoms of a case"),
    ("p { a = b ‸| a = b => p(a) }", "=> is missing before |: write => and the head, such as p(a), after the atoms of a case"),
    ("p { a = b => ‸q(a) }", "a case in the block of p has p as its head: write p, or begin a block q { .. }"),
    ("p { a = b => p(a, ‸a) }", "a stands twice in the head: write another name c there, and the condition a = c"),
    ("p { emp => p(b, ‸b) }", "b stands twice in the head: write another name a there, and the condition b = a"),
    ("p { a = b => p(‸nil) }", "nil cannot be an argument of a head: write a name c there, and the condition c = nil"),
    ("p { a = b => p ‸}", "the arguments of p are missing: write p() where there are none"),
    ("p { a = b => ‸}", "the head is missing before }: write p(a, b) with the arguments of p"),
    ("p { a = b => p(a) ‸* a = c }", "nothing is joined to a head: write all atoms of the case before => p(..)"),
    ("p { a = b => p(a, b) | a = b => p(‸a) }", "p has 2 arguments (line 1), and 1 here: write the same number everywhere"),
    ("p(a) { a = b => p(‸a, b) }", "p has 1 argument (line 1), and 2 here: write the same number everywhere"),
    ("p { a -> b ‸| c => p(a) }", "=> is missing before |: write => and the head, such as p(a), after the atoms of a case"),
    ("p(a, ‸a) { }", "a stands twice in the head: write another name b there, and the condition a = b"),
    ("p { emp => p(a,‸) }", "a name is missing before ): the arguments of a head are different names"),
    ("p { emp => p(a) } ; p { emp => ‸P(a) }", "a case in the block of p has p as its head: write p, or begin a block P { .. }"),
    ("p { a -> b => p(a) | a -> c => p(‸c, d) }", "p has 1 argument (line 1), and 2 here: write the same number everywhere"),
    ("p { emp => p() | emp => p(‸a) }", "p has no arguments, and 1 here: write the same number everywhere"),
]

CALLS = [
    ("p { ‸p(a, b) => p(a) }", "p has 1 argument, and this call has 2: write 1"),
    ("p { ‸p() => p(a) }", "p has 1 argument, and this call has none: write 1"),
    ("p {\n  a = b => p(a, b)\n} ;\nq { ‸p(a) => q(a) }", "p has 2 arguments, and this call has 1: write 2"),
    ("p() { } ; q { ‸p(a) => q(a) }", "p has no arguments, and this call has 1: write none"),
]

OTHER_TEXTS = [
    ("‸7 { a -> 7 => p(a) }", "7 is a number and no name of a predicate: write another name"),
    ("‸7(a) { }", "7 is a number and no name of a predicate: write another name"),
    ("p() { } ; ‸7: 8", "7 is a number and no name of a predicate: write another name"),
    ("‸@1 { emp => p() }", "@1 is a number and no name of a predicate: write another name"),
    ("‸10: 20", "this is a pool and no book: a book has blocks such as p { emp => p() }"),
    ("‸emp", "this is a pool and no book: a book has blocks such as p { emp => p() }"),
    ("‸p(10, 20)", "this is a question and no book: a book has blocks such as p { emp => p() }"),
    ("‸", "there is no block here: a book has at least one, such as p { emp => p() }"),
]

FORM = [
    ("p { a -> (b ‸=> p(a) }", ") is missing before =>: write , between fields and ) after the last"),
    ("p { a -> b ‸c => p(a) }", f", * or => is missing before c: {FIELDS}"),
    ("p { a -> ‸=> p(a) }", "a field is missing before =>: write a name, a number or nil; a cell without fields is a -> ()"),
    ("p { a -> ‸q(b) => p(a) }", "q begins another atom where a field is due: write a -> c * and then that atom"),
    ("p { a = ‸=> p(a) }", "a term is missing before =>: write a name, a number or nil"),
    ("p { ‸= b => p(a) }", "an atom is missing before =: write one, or emp where there is none"),
    ("p { ‸(a = b) => p(a) }", "( begins no atom: write atoms without parentheses around them"),
    ("p { ‸=> p(a) }", "an atom is missing before =>: write one, or emp where there is none"),
    ("p { ‸a => p(a) }", "a alone is no atom: write a() for a predicate without arguments, or =, != or -> after it"),
    (
        "p { ‸empty => p() }",
        "empty alone is no atom: write empty() for a predicate without arguments, or =, != or -> after it; the empty part is emp",
    ),
    ("p { a = b ‸p(a, b) }", "* or => is missing before p: write * between atoms, and => before the head"),
    ("p { a = b => p(a) | ‸}", "a case is missing before }: write one, or take away the | before it"),
    ("p { ‸| a = b => p(a) }", "a case is missing before |: write one, such as emp => p()"),
    ("‸p { }", "this block has no case: write a case, or p(a, b) { } with the arguments that p has"),
    ("p‸", "{ is missing after p: write p { atoms => p(a, b) }"),
    ("p ‸a = b => p(a) }", "{ is missing after p: write p { atoms => p(a, b) }"),
    ("p() { } ‸q() { }", "; is missing: write ; between two blocks, before q"),
    ("‸{ a = b => p(a) }", "{ begins no block: write the name of a predicate, as in p { emp => p() }"),
    ("‸; p() { }", "\";\" begins no block: write the name of a predicate, as in p { emp => p() }"),
    ("p() { } ; ‸;", "\";\" begins no block: write the name of a predicate, as in p { emp => p() }"),
    ("p { a = b => p(a) } ‸}", "} closes nothing: take it away"),
    ("p { exists‸: a = b => p(a) }", "a name is missing before \":\": write exists c, d: and then the atoms"),
    ("p { exists c ‸a = b => p(a) }", ": is missing before a: write exists c, d: and then the atoms"),
    ("p { a = b * ‸exists c: c = a => p(a) }", "exists stands at the beginning of a case only: list all names there"),
    ("p { ‸nil => p(a) }", "nil alone is no atom: write emp for nothing, or a condition such as a = nil"),
    ("p { a = b => p(a, b) ‸; q { emp => q() }", "} is missing: write } before ; to close the block of p"),
    ("p { a = b => p(a, b) ‸q { emp => q() }", "} and ; are missing: write } ; before the block of q"),
    ("p(a, b) ‸= { emp }", "{ is missing after p: write p { atoms => p(a, b) }"),
    ("p { ‸a => b => p(a) }", "a alone is no atom: write a() for a predicate without arguments, or =, != or -> after it"),
    ("p { a = b ‸= c => p(a) }", "= cannot follow an atom: write * and another atom, or => and the head"),
    ("p { p(a ‸=> p(a) }", ") is missing before =>: write , between arguments and ) after the last"),
    ("p { p(a, ‸) => p(a) }", "a term is missing before ): write a name, a number or nil"),
    ("p { p(‸, a) => p(a) }", "a term is missing before \",\": write a name, a number or nil"),
    ("p { a -> b, ‸=> p(a) }", "a field is missing before =>: write a name, a number or nil; a cell without fields is a -> ()"),
    ("p { emp => p(a ‸b) }", ", is missing before b: write , between arguments and ) after the last"),
    ("p {\n  a = b => p(a)\n  ‸a -> b => p(a)\n}", "| is missing: write | between two cases, before a"),
    ("p { emp => p()‸ ", "} is missing: write } after the last case of p, whose block begins on line 1"),
    ("p {\n  emp => p()‸\n  # the end is missing\n", "} is missing: write } after the last case of p, whose block begins on line 1"),
    ("p { emp * ‸=> p() }", "an atom is missing before =>: write one, or emp where there is none"),
    ("p { ‸* emp => p() }", "an atom is missing before *: write one, or emp where there is none"),
    ("p { emp * emp ‸emp => p() }", "* or => is missing before emp: write * between atoms, and => before the head"),
    ("p { emp => p(a) ‸: }", "\":\" cannot follow a head: write | and another case, or } to close the block of p"),
    ("p { emp ‸: p(a) => p(a) }", "\":\" cannot follow an atom: write * and another atom, or => and the head"),
    ("p { exists ‸=> p() }", "a name is missing before =>: write exists c, d: and then the atoms"),
    ("p { exists c, ‸=> p() }", "a name is missing before =>: write exists c, d: and then the atoms"),
    ("p(a) { emp => p(a) } ‸)", ") closes nothing: take it away"),
    ("p { a -> b, c, d, ‸(e) => p(a) }", "a field is missing before (: write a name, a number or nil; a cell without fields is a -> ()"),
    ("p { a -> (b, c) ‸d => p(a) }", "* or => is missing before d: write * between atoms, and => before the head"),
]


class BookMistakes(unittest.TestCase):
    def test_slips_of_habit(self) -> None:
        check_rows(self, SLIPS_OF_HABIT, parse_book)

    def test_limits(self) -> None:
        check_rows(self, LIMITS, parse_book)

    def test_names(self) -> None:
        check_rows(self, NAMES, parse_book)

    def test_numbers(self) -> None:
        check_rows(self, NUMBERS, parse_book)

    def test_heads(self) -> None:
        check_rows(self, HEADS, parse_book)

    def test_calls(self) -> None:
        check_rows(self, CALLS, parse_book)

    def test_other_texts(self) -> None:
        check_rows(self, OTHER_TEXTS, parse_book)

    def test_form(self) -> None:
        check_rows(self, FORM, parse_book)

    def test_a_seventeenth_case(self) -> None:
        lines = "p {\n" + " |\n".join(["emp => p()"] * 15) + "\n} ;\nq {\n  emp => q() |\n"
        parse_book(lines.rstrip("|\n ") + "}", "file")
        rows = [(lines + "  ‸emp => q()\n}", "this is the seventeenth case of the book: a book has at most 16 cases")]
        check_rows(self, rows, parse_book)

    def test_a_name_where_all_letters_are_taken(self) -> None:
        message = "7 is a number, and the address of a cell must be a name: write a name a' there, and the condition a' = 7"
        check_rows(self, [(f"p {{ ‸7 -> {', '.join('abcdefghijklmnopqrstuvwxyz')}", message)], parse_book)

    def test_the_line_of_other_arguments(self) -> None:
        text = "# two\n\np(a, b) { } ;\n\np {\n  emp =>\n p(‸x) }"
        check_rows(self, [(text, "p has 2 arguments (line 3), and 1 here: write the same number everywhere")], parse_book)

    def test_a_long_name_is_cut_in_the_message(self) -> None:
        text = "p { ‸" + "x" * 5000 + "(a) => p(a) }"
        check_rows(self, [(text, f"there is no predicate {'x' * 37}... in this book: write one of p")], parse_book)


if __name__ == "__main__":
    unittest.main()
