"""Derivations that are worked out by hand, and what a judge says of each.

    FORMS       a program, its least derivation, what is said of it, and what is said where one of its numbers after another is doubled (of inf nothing: -). Where one
                is halved (of inf: 4294967295) its own line is the least at fault
    ROWS        what is tried, a program, a derivation, and what is said of it
    BYTES       the same, the derivation being bytes as they are
    UNREAD      programs that aren't read, and the line of each
Lines are parted by ` ; `. The tables are people, of one column of numbers, and stays, of a text and a number.
"""

FORMS = [
    ("size people", "num | people 1 ; bag num | people 1", "yes 1", "yes 2, no 0"),
    ("7", "num", "yes 0", ""),
    ('let t = "a" in 1', "num ; text ; num", "yes 0", ""),
    ("let u = () in 1", "num ; unit ; num", "yes 0", ""),
    ("let (a, b) = (size people, 1) in a + b",
     "num | people 1 ; (num * num) | people 1 ; num | people 1 ; bag num | people 1 ; num ; num | a 1 | b 1 ; num | a 1 ; num | b 1",
     "yes 1", "yes 2, no 0, no 1, no 2, no 0, no 0, no 5, no 5"),
    ("let (x, x) = (size people, 2 * size people) in x",
     "num | people 3 ; (num * num) | people 3 ; num | people 1 ; bag num | people 1 ; num | people 2 ; num | people 1 ; bag num | people 1 ; num | x 1",
     "yes 3", "yes 6, no 0, no 1, no 2, no 1, no 4, no 5, no 0"),
    ("fst <size people, 2 * size people>",
     "num | people 2 ; (num & num) | people 2 ; num | people 1 ; bag num | people 1 ; num | people 2 ; num | people 1 ; bag num | people 1",
     "yes 2", "yes 4, no 0, yes 2, no 2, no 1, no 4, no 5"),
    ('snd <"a", size people>', "num | people 1 ; (text & num) | people 1 ; text ; num | people 1 ; bag num | people 1", "yes 1", "yes 2, no 0, no 1, no 3"),
    ("case inl[unit] (size people) of inl x => x | inr y => 7",
     "num | people 1 ; (num + unit) | people 1 ; num | people 1 ; bag num | people 1 ; num | x 1 ; num", "yes 1", "yes 2, no 0, no 1, no 2, no 0"),
    ("case inr[text] (size people) of inl x => 7 | inr y => 2 * y + 3 * size stays",
     "num | people 2 | stays 3 ; (text + num) | people 1 ; num | people 1 ; bag num | people 1 ; num ; num | stays 3 | y 2 ; num | y 2 ; num | y 1 ;"
     " num | stays 3 ; num | stays 1 ; bag (text * num) | stays 1",
     "yes 3", "yes 4, yes 6, no 0, no 1, no 2, no 0, no 0, no 5, no 6, no 5, no 8, no 9"),
    ("case inl[unit] (size people) of inl x => 5 | inr y => 7",
     "num | people 1 ; (num + unit) | people 1 ; num | people 1 ; bag num | people 1 ; num ; num", "yes 1", "yes 2, no 0, no 1, no 2"),
    ("case inl[unit] (![2] (size people)) of inl x => let ! z = x in z | inr y => 7",
     "num | people 1 ; (![2] num + unit) | people 2 ; ![2] num | people 2 ; num | people 1 ; bag num | people 1 ; num | x 1/2 ; ![2] num | x 1 ; num | z 1 ;"
     " num", "yes 1", "yes 2, no 0, no 1, no 2, no 3, no 0, no 5, no 5"),
    ("if true then size people else 0", "num | people 1 ; (unit + unit) ; unit ; num | people 1 ; bag num | people 1 ; num", "yes 1", "yes 2, no 0, no 3"),
    ("let z = fn (x : num) => if x == 3 then 1 else 2 in 7",
     "num ; (![inf] num -o num) ; num | x inf ; (unit + unit) | x inf ; num | x 1 ; num ; num ; num ; num", "yes 0", "-, -, yes 0"),
    ("let y = 3 in case inl[unit] 1 of inl x => y | inr y => 7", "num ; num ; num | y 1 ; (num + unit) ; num ; num | y 1 ; num", "yes 0", "yes 0, no 2"),
    ("size (filter (fn (x : num) => x <= 30) people)",
     "num | people 1 ; bag num | people 1 ; (![inf] num -o (unit + unit)) ; (unit + unit) | x inf ; num | x 1 ; num ; bag num | people 1",
     "yes 1", "yes 2, no 0, -, yes 1, no 1"),
    ("size (filter (fn (x : num) => 30 == x) people)",
     "num | people 1 ; bag num | people 1 ; (![inf] num -o (unit + unit)) ; (unit + unit) | x inf ; num ; num | x 1 ; bag num | people 1",
     "yes 1", "yes 2, no 0, -, yes 1, no 1"),
    ('size (filter (fn (r : text * num) => let (w, n) = r in w == "A") stays)',
     "num | stays 1 ; bag (text * num) | stays 1 ; (![inf] (text * num) -o (unit + unit)) ; (unit + unit) | r 1 ; (text * num) | r 1 ; (unit + unit) | w 1 ;"
     " text | w 1 ; text ; bag (text * num) | stays 1", "yes 1", "yes 2, no 0, yes 1, no 3, no 3, no 5, no 1"),
    ("(fun (x : num) => x) (size people)",
     "num | people 1 ; (num -o num) ; num | x 1 ; num | people 1 ; bag num | people 1", "yes 1", "yes 2, no 1, no 0, no 3"),
    ("(fn (x : num) => x + x) (![inf] 3)", "num ; (![inf] num -o num) ; num | x 2 ; num | x 1 ; num | x 1 ; ![inf] num ; num", "yes 0", "yes 0, no 2, no 2"),
    ("let ! y = ![3/2] (size people) in y",
     "num | people 1 ; ![3/2] num | people 3/2 ; num | people 1 ; bag num | people 1 ; num | y 1", "yes 1", "yes 2, no 0, no 1, no 2, no 0"),
    ("let ! y = ![inf] 3 in y + size people",
     "num | people 1 ; ![inf] num ; num ; num | people 1 | y 1 ; num | y 1 ; num | people 1 ; bag num | people 1",
     "yes 1", "yes 2, no 0, yes 1, no 3, no 3, no 5"),
    ("let z = fn (x : ![inf] num) => let ! y = x in y + y in 7",
     "num ; (![inf] ![inf] num -o num) ; num | x 1 ; ![inf] num | x 1 ; num | y 2 ; num | y 1 ; num | y 1 ; num", "yes 0", "yes 0, no 2, yes 0, no 4, no 4"),
    ("let ! y = ![inf] (size people) in 7", "num ; ![inf] num | people inf ; num | people 1 ; bag num | people 1 ; num", "yes 0", "-, yes 0, no 2"),
    ("let x = size people in x + x", "num | people 2 ; num | people 1 ; bag num | people 1 ; num | x 2 ; num | x 1 ; num | x 1", "yes 2",
     "yes 4, no 0, no 1, no 0, no 3, no 3"),
    ("let x = size people in let x = x in x", "num | people 1 ; num | people 1 ; bag num | people 1 ; num | x 1 ; num | x 1 ; num | x 1", "yes 1",
     "yes 2, no 0, no 1, no 0, no 3, no 3"),
    ("let x = size people in let x = 2 in x", "num ; num | people 1 ; bag num | people 1 ; num ; num ; num | x 1", "yes 0", "yes 0, no 1, yes 0"),
    ("let people = 3 in people + 1", "num ; num ; num | people 1 ; num | people 1 ; num", "yes 0", "yes 0, no 2"),
    ("size people - sum[0,3] people", "num | people 4 ; num | people 1 ; bag num | people 1 ; num | people 3 ; bag num | people 1", "yes 4",
     "yes 8, no 0, no 1, no 0, no 3"),
    ("size people + size stays", "num | people 1 | stays 1 ; num | people 1 ; bag num | people 1 ; num | stays 1 ; bag (text * num) | stays 1", "yes 1",
     "yes 2, yes 2, no 0, no 1, no 0, no 3"),
    ("sum[- 5,3] people", "num | people 5 ; bag num | people 1", "yes 5", "yes 10, no 0"),
    ("- 3 * size people", "num | people 3 ; num | people 1 ; bag num | people 1", "yes 3", "yes 6, no 0, no 1"),
    ("0 * size people", "num ; num | people 1 ; bag num | people 1", "yes 0", "yes 0, no 1"),
    ("clip[0,10] (size people)", "num | people 1 ; num | people 1 ; bag num | people 1", "yes 1", "yes 2, no 0, no 1"),
    ("least <size people, 7>", "num | people 1 ; (num & num) | people 1 ; num | people 1 ; bag num | people 1 ; num", "yes 1", "yes 2, no 0, no 1, no 2"),
    ("greatest <7, size people>", "num | people 1 ; (num & num) | people 1 ; num ; num | people 1 ; bag num | people 1", "yes 1", "yes 2, no 0, no 1, no 3"),
    ("size (union people people)", "num | people 2 ; bag num | people 2 ; bag num | people 1 ; bag num | people 1", "yes 2", "yes 4, no 0, no 1, no 1"),
    ("sum[0,9] (map (fn (x : num) => 2 * x) people)",
     "num | people 9 ; bag num | people 1 ; (![inf] num -o num) ; num | x 2 ; num | x 1 ; bag num | people 1", "yes 9", "yes 18, no 0, yes 9, no 3, no 1"),
    ("let y = 3 in size (map (fn (x : num) => x + y) people)",
     "num | people 1 ; num ; num | people 1 | y inf ; bag num | people 1 | y inf ; (![inf] num -o num) | y 1 ; num | x 1 | y 1 ; num | x 1 ; num | y 1 ;"
     " bag num | people 1", "yes 1", "yes 2, no 0, -, no 2, -, yes 1, yes 1, no 4, no 5, no 5, no 3"),
    ("let (a, b) = split (fn (x : num) => x <= 30) people in size a + size b",
     "num | people 1 ; (bag num * bag num) | people 1 ; (![inf] num -o (unit + unit)) ; (unit + unit) | x inf ; num | x 1 ; num ; bag num | people 1 ;"
     " num | a 1 | b 1 ; num | a 1 ; bag num | a 1 ; num | b 1 ; bag num | b 1",
     "yes 1", "yes 2, no 0, -, yes 1, no 1, no 0, no 0, no 7, no 8, no 7, no 10"),
]  # fmt: skip

SIZE, UNUSED = "size people", "case inl[unit] (2 * size people) of inl x => 5 | inr y => 7"
TEST = "size (filter (fn (x : num) => x <= 30) people)"
LET, SCALED = "let x = size people in x + x", "case inl[unit] (![2] (size people)) of inl x => let ! z = x in z | inr y => 7"


def inside(body):
    """A function that nobody calls: what it uses its argument at is no table's."""
    return f"let z = fn (x : num) => {body} in 7"


ROWS = [
    # The rows of the wording.
    ("one table", SIZE, "num | people 1 ; bag num | people 1", "yes 1"),
    ("more than the rule", SIZE, "num | people 2 ; bag num | people 1", "yes 2"),
    ("a number left out", SIZE, "num ; bag num | people 1", "no 0"),
    ("the second line is gone", SIZE, "num | people 1", "no 1"),
    ("a case whose names aren't used, at 0", "case inl[unit] (size people) of inl x => 5 | inr y => 7",
     "num ; (num + unit) | people 1 ; num | people 1 ; bag num | people 1 ; num ; num", "no 0"),
    # Names.
    ("a name out of scope", SIZE, "num | nobody 1 | people 1 ; bag num | people 1", "no 0"),
    ("a name out of scope in a part", SIZE, "num | people 1 ; bag num | nobody 1 | people 1", "no 1"),
    ("a name of 32 bytes out of scope", SIZE, f"num | {'n' * 32} 1 | people 1 ; bag num | people 1", "no 0"),
    ("a name of 33 bytes", SIZE, f"num | people 1 ; bag num | {'n' * 33} 1 | people 1", "no 1"),
    ("a name that is a word", SIZE, "num | people 1 ; bag num | of 1 | people 1", "no 1"),
    ("a name out of its scope, above", LET, "num | people 2 | x 1 ; num | people 1 ; bag num | people 1 ; num | x 2 ; num | x 1 ; num | x 1", "no 0"),
    ("a name out of its scope, beside", LET, "num | people 2 ; num | people 1 | x 1 ; bag num | people 1 ; num | x 2 ; num | x 1 ; num | x 1", "no 1"),
    ("a name twice", SIZE, "num | people 1 | people 1 ; bag num | people 1", "no 0"),
    ("a name twice, another amount", SIZE, "num | people 1 | people 2 ; bag num | people 1", "no 0"),
    ("names in order", SIZE, "num | people 1 | stays 3/2 ; bag num | people 1", "yes 3/2"),
    ("names out of order", SIZE, "num | stays 1 | people 1 ; bag num | people 1", "no 0"),
    ("the first table alone isn't R", SIZE, "num | people 1 | stays 2 ; bag num | people 1", "yes 2"),
    ("at 0", SIZE, "num | people 1 | stays 0 ; bag num | people 1", "no 0"),
    ("at 0, behind a rule that fails", SIZE, "num ; bag num | people 1 | stays 0", "no 1"),
    ("an outer name that an inner one hides", "let x = size people in let x = 2 in x",
     "num ; num | people 1 ; bag num | people 1 ; num | x 1 ; num ; num | x 1", "no 0"),
    ("the same, which the outer let says", "let x = size people in let x = 2 in x",
     "num | people 1 ; num | people 1 ; bag num | people 1 ; num | x 1 ; num ; num | x 1", "yes 1"),
    ("a name in its own scope, unused", LET, "num | people 2 ; num | people 1 ; bag num | people 1 ; num | people 1 | x 2 ; num | x 1 ; num | x 1", "no 0"),
    ("the same, which the let says", LET, "num | people 3 ; num | people 1 ; bag num | people 1 ; num | people 1 | x 2 ; num | x 1 ; num | x 1", "yes 3"),
    # Less than what `check` says, since a case's 1 isn't the least.
    ("a branch says more, and all is less", UNUSED,
     "num | people 1 ; (num + unit) | people 2 ; num | people 2 ; num | people 1 ; bag num | people 1 ; num | x 1/2 ; num", "yes 1"),
    ("a branch says nothing, and all is more", UNUSED,
     "num | people 1 ; (num + unit) | people 2 ; num | people 2 ; num | people 1 ; bag num | people 1 ; num ; num", "no 0"),
    ("a branch says too little", SCALED, "num | people 1 ; (![2] num + unit) | people 2 ; ![2] num | people 2 ; num | people 1 ; bag num | people 1 ; num | x 1/4 ;"
     " ![2] num | x 1 ; num | z 1 ; num", "no 5"),
    ("a branch says nothing, which counts as 1", SCALED, "num | people 1 ; (![2] num + unit) | people 2 ; ![2] num | people 2 ; num | people 1 ; bag num | people 1 ;"
     " num ; ![2] num | x 1 ; num | z 1 ; num", "no 0"),
    ("the same, which the case says", SCALED, "num | people 2 ; (![2] num + unit) | people 2 ; ![2] num | people 2 ; num | people 1 ; bag num | people 1 ;"
     " num ; ![2] num | x 1 ; num | z 1 ; num", "no 5"),
    ("a quotient is left out", "let ! y = ![3/2] (size people) in y", "num | people 1/2 ; ![3/2] num | people 3/2 ; num | people 1 ; bag num | people 1 ; num | y 1",
     "no 0"),
    ("an unlimited bang whose content is used at a half", "let z = fn (x : ![inf] ![2] num) => let ! y = x in let ! w = y in w in 7",
     "num ; (![inf] ![inf] ![2] num -o num) ; num | x 1 ; ![inf] ![2] num | x 1 ; num | y 1/2 ; ![2] num | y 1 ; num | w 1 ; num", "yes 0"),
    ("the same at a half", "let z = fn (x : ![inf] ![2] num) => let ! y = x in let ! w = y in w in 7",
     "num ; (![inf] ![inf] ![2] num -o num) ; num | x 1/2 ; ![inf] ![2] num | x 1 ; num | y 1/2 ; ![2] num | y 1 ; num | w 1 ; num", "no 2"),
    ("a map at its function's own number", "let y = 3 in size (map (fn (x : num) => x + y) people)",
     "num | people 1 ; num ; num | people 1 | y 1 ; bag num | people 1 | y 1 ; (![inf] num -o num) | y 1 ; num | x 1 | y 1 ; num | x 1 ; num | y 1 ;"
     " bag num | people 1", "no 3"),
    # Inf.
    ("inf on a table", SIZE, "num | people inf ; bag num | people 1", "no 0"),
    ("inf on a table that isn't used", SIZE, "num | people 1 | stays inf ; bag num | people 1", "no 0"),
    ("inf on a table, below", SIZE, "num | people 1 ; bag num | people inf", "no 0"),
    ("a comparison of a table", "if size people <= 3 then 0 else 1",
     "num | people inf ; (unit + unit) | people inf ; num | people 1 ; bag num | people 1 ; num ; num ; num", "no 0"),
    ("the same, said to be less", "if size people <= 3 then 0 else 1",
     "num | people 1 ; (unit + unit) | people 1 ; num | people 1 ; bag num | people 1 ; num ; num ; num", "no 1"),
    # Fractions.
    ("the greatest number", SIZE, "num | people 4294967295 ; bag num | people 1", "yes 4294967295"),
    ("over the greatest number", SIZE, "num | people 4294967296 ; bag num | people 1", "no 0"),
    ("over the greatest half", SIZE, "num | people 1 ; bag num | people 1 | stays 1/4294967296", "no 1"),
    ("the least number", SIZE, "num | people 1 | stays 1/4294967295 ; bag num | people 1", "yes 1"),
    ("not in lowest terms", SIZE, "num | people 6/4 ; bag num | people 2/2", "yes 3/2"),
    ("halves over the greatest, though not in lowest terms", SIZE, "num | people 8589934590/2 ; bag num | people 1", "no 0"),
    ("0 below the line", SIZE, "num | people 1/0 ; bag num | people 1", "no 0"),
    ("0 above the line", SIZE, "num | people 1 | stays 0/1 ; bag num | people 1", "no 0"),
    ("zeros before a number", SIZE, "num | people 000000000000000000000000000001 ; bag num | people 1/0001", "yes 1"),
    ("a minus", SIZE, "num | people 1 | stays - 1 ; bag num | people 1", "no 0"),
    ("inf below the line", SIZE, "num | people 1 | stays 1/inf ; bag num | people 1", "no 0"),
    ("a product in range", inside("65535 * (65536 * x)"), "num ; (![inf] num -o num) ; num | x 4294901760 ; num | x 65536 ; num | x 1 ; num", "yes 0"),
    ("a product out of range", inside("65536 * (65536 * x)"), "num ; (![inf] num -o num) ; num | x inf ; num | x 65536 ; num | x 1 ; num", "no 2"),
    ("the same of inf", inside("65536 * (65536 * x)"), "num ; (![inf] num -o num) ; num | x inf ; num | x inf ; num | x 1 ; num", "yes 0"),
    ("a sum in range", inside("x + 4294967294 * x"), "num ; (![inf] num -o num) ; num | x 4294967295 ; num | x 1 ; num | x 4294967294 ; num | x 1 ; num", "yes 0"),
    ("a sum out of range", inside("x + 4294967295 * x"), "num ; (![inf] num -o num) ; num | x inf ; num | x 1 ; num | x 4294967295 ; num | x 1 ; num", "no 2"),
    ("a quotient out of range", "let ! y = ![1/4294967295] 1 in 2 * y", "num ; ![1/4294967295] num ; num ; num | y 2 ; num | y 1", "no 0"),
    ("a quotient in range", "let ! y = ![2/4294967295] 1 in 2 * y", "num ; ![2/4294967295] num ; num ; num | y 2 ; num | y 1", "yes 0"),
    ("a product out of range whose sum is inf", "let z = fn (x : num) => let y = 65536 * x in (x <= 3, 65536 * y) in 7",
     "num ; (![inf] num -o ((unit + unit) * num)) ; ((unit + unit) * num) | x inf ; num | x 65536 ; num | x 1 ; ((unit + unit) * num) | x inf | y 65536 ;"
     " (unit + unit) | x inf ; num | x 1 ; num ; num | y 65536 ; num | y 1 ; num", "no 2"),
    ("a factor out of range", "4294967296 * 1", "num ; num", "no 0"),
    ("a factor in range", "- 4294967295 * 1", "num ; num", "yes 0"),
    ("a bound of a sum out of range", "sum[0,4294967296] people", "num | people 4294967295 ; bag num | people 1", "no 0"),
    ("a bound of a sum out of range, below 0", "sum[- 4294967296,0] people", "num | people 4294967295 ; bag num | people 1", "no 0"),
    ("a bound of a sum in range", "sum[- 4294967295,0] people", "num | people 4294967295 ; bag num | people 1", "yes 4294967295"),
    ("a bound of a sum out of range, of inf", inside("sum[0,4294967296] b").replace("x : num", "b : bag num"),
     "num ; (![inf] bag num -o num) ; num | b inf ; bag num | b inf ; num", "no 2"),
    ("the same in range", inside("sum[0,4294967295] b").replace("x : num", "b : bag num"),
     "num ; (![inf] bag num -o num) ; num | b inf ; bag num | b inf ; num", "yes 0"),
    ("bounds of a clip have no range", "clip[- 1125899906842624,1125899906842624] 1", "num ; num", "yes 0"),
    ("a name out of scope isn't scaled", "65536 * (65536 * 1)", "num ; num | z 65536 ; num", "no 1"),
    # Types in other words.
    ("bool", TEST, "num | people 1 ; bag num | people 1 ; (![inf] num -o bool) ; bool | x inf ; num | x 1 ; num ; bag num | people 1", "yes 1"),
    ("an arrow of functions that may use much", TEST,
     "num | people 1 ; bag num | people 1 ; num -> unit + unit ; unit + unit | x inf ; num | x 1 ; num ; bag num | people 1", "yes 1"),
    ("an arrow of functions that may use little", TEST,
     "num | people 1 ; bag num | people 1 ; num -o bool ; bool | x inf ; num | x 1 ; num ; bag num | people 1", "no 1"),
    ("parentheses", SIZE, "(((num))) | people 1 ; ((bag (num))) | people 1", "yes 1"),
    ("blanks", SIZE, " \t num\r |\tpeople \r 1 / 1\t ; bag\tnum|people\t1 ", "yes 1"),
    ("no blanks", SIZE, "num|people 1/1 ; bag(num)|people 1", "yes 1"),
    ("another type", SIZE, "num | people 1 ; bag text | people 1", "no 1"),
    ("another type, of another form", SIZE, "num | people 1 ; num | people 1", "no 0"),
    ("signs group to the right", "let (a, b) = (1, (2, 3)) in a", "num ; num * num * num ; num ; num * num ; num ; num ; num | a 1", "yes 0"),
    ("signs don't group to the left", "let (a, b) = (1, (2, 3)) in a", "num ; (num * num) * num ; num ; num * num ; num ; num ; num | a 1", "no 1"),
    ("pairs bind stronger than sums", "case inl[num * num] 1 of inl x => x | inr y => 2", "num ; num + num * num ; num ; num | x 1 ; num", "yes 0"),
    ("an amount that isn't in lowest terms", "let ! y = ![3/2] 1 in y", "num ; ![6/4] num ; num ; num | y 1", "yes 0"),
    ("another amount", "let ! y = ![3/2] 1 in y", "num ; ![3/4] num ; num ; num | y 1", "no 1"),
    ("an amount of 0", "let ! y = ![3/2] 1 in y", "num ; ![0] num ; num ; num | y 1", "no 1"),
    ("a type that goes on", SIZE, "num num | people 1 ; bag num | people 1", "no 0"),
    ("a type that ends too early", SIZE, "num | people 1 ; bag | people 1", "no 1"),
    ("no type", SIZE, "num | people 1 ;  | people 1", "no 1"),
    ("a term", SIZE, "1 | people 1 ; bag num | people 1", "no 0"),
    ("a parenthesis that isn't closed", SIZE, "num | people 1 ; (bag num | people 1)", "no 1"),
    # Lines.
    ("no name behind a bar", SIZE, "num | people 1 | ; bag num | people 1", "no 0"),
    ("no amount", SIZE, "num | people 1 ; bag num | people", "no 1"),
    ("two amounts", SIZE, "num | people 1 ; bag num | people 1 1", "no 1"),
    ("half of a fraction", SIZE, "num | people 1 ; bag num | people 1/", "no 1"),
    ("a text", SIZE, 'num | people 1 ; bag num | people 1 "a"', "no 1"),
    ("a text with a bar", SIZE, 'num | people 1 ; bag num "|" | people 1', "no 1"),
    ("a line too many", SIZE, "num | people 1 ; bag num | people 1 ; num", "no 2"),
    ("a line too many, behind a rule that fails", SIZE, "num ; bag num | people 1 ; num", "no 2"),
    ("lines exchanged", SIZE, "bag num | people 1 ; num | people 1", "no 0"),
    ("a part's line is skipped", "- 3 * size people", "num | people 3 ; bag num | people 1 ; num | people 1", "no 0"),
    # Conditions.
    ("a text isn't wanted", '"a"', "text", "no 0"),
    ("a bag isn't wanted", "people", "bag num | people 1", "no 0"),
    ("a name that nobody binds", "x", "num", "no 0"),
    ("an argument of another type", "(fun (x : num) => 1) ()", "num ; (num -o num) ; num ; unit", "no 0"),
    ("a number is wanted of a text", '1 + "a"', "num ; num ; text", "no 0"),
    ("a number is wanted of a text, on the left", '"a" - 1', "num ; text ; num", "no 0"),
    ("a number is wanted of a text, subtracted", '1 - "a"', "num ; num ; text", "no 0"),
    ("a text is clipped", 'clip[0,1] "a"', "num ; text", "no 0"),
    ("a text is multiplied", '2 * "a"', "num ; text", "no 0"),
    ("a text that is said to be a number", '1 + "a"', "num ; num ; num", "no 2"),
    ("a text isn't compared by size", inside('"a" <= "b"'), "num ; (![inf] num -o (unit + unit)) ; (unit + unit) ; text ; text ; num", "no 2"),
    ("a unit isn't compared", inside("() == ()"), "num ; (![inf] num -o (unit + unit)) ; (unit + unit) ; unit ; unit ; num", "no 2"),
    ("a sum of a function", inside("inl[num -o num] 1"), "num ; (![inf] num -o (num + (num -o num))) ; (num + (num -o num)) ; num ; num", "no 2"),
    ("a sum of a function, inside", inside("inr[num] (fun (y : num) => y)"),
     "num ; (![inf] num -o (num + (num -o num))) ; (num + (num -o num)) ; (num -o num) ; num | y 1 ; num", "no 2"),
    ("a sum of bags of bags", inside("inl[bag (bag num)] 1"), "num ; (![inf] num -o (num + bag bag num)) ; (num + bag bag num) ; num ; num", "no 2"),
    ("a sum of bags of bags, on the left", inside("inr[bag (bag num)] 1"), "num ; (![inf] num -o (bag bag num + num)) ; (bag bag num + num) ; num ; num", "no 2"),
    ("branches of functions, of a case", "(case inl[unit] 1 of inl x => fun (y : num) => y | inr z => fun (y : num) => y) 1",
     "num ; (num -o num) ; (num + unit) ; num ; (num -o num) ; num | y 1 ; (num -o num) ; num | y 1 ; num", "no 1"),
    ("branches of functions", "(if true then fun (x : num) => x else fun (x : num) => x) 1",
     "num ; (num -o num) ; (unit + unit) ; unit ; (num -o num) ; num | x 1 ; (num -o num) ; num | x 1 ; num", "no 1"),
    ("branches of two types", "(if true then 1 else ())", "num ; (unit + unit) ; unit ; num ; unit", "no 0"),
    ("a condition that is no bool", "if 1 then 2 else 3", "num ; num ; num ; num", "no 0"),
    ("a bag of bags", inside("fn (y : bag (bag num)) => 1"),
     "num ; (![inf] num -o (![inf] bag bag num -o num)) ; (![inf] bag bag num -o num) ; num ; num", "no 2"),
    ("a bag of bags, used once", inside("fun (y : bag (bag num)) => 1"),
     "num ; (![inf] num -o (bag bag num -o num)) ; (bag bag num -o num) ; num ; num", "no 2"),
    ("a map to bags", "size (map (fn (x : num) => people) people)",
     "num | people inf ; bag bag num | people inf ; (![inf] num -o bag num) | people 1 ; bag num | people 1 ; bag num | people 1", "no 0"),
    ("a map to bags, of no table", "let z = fn (b : bag num) => map (fn (x : num) => b) b in 7",
     "num ; (![inf] bag num -o bag bag num) ; bag bag num | b inf ; (![inf] num -o bag num) | b 1 ; bag num | b 1 ; bag num | b 1 ; num", "no 2"),
    ("a map by a function that may use little", "size (map (fun (x : num) => x) people)",
     "num | people 1 ; bag num | people 1 ; (num -o num) ; num | x 1 ; bag num | people 1", "no 1"),
    ("a map over another bag", "size (map (fn (x : text) => x) people)",
     "num | people 1 ; bag text | people 1 ; (![inf] text -o text) ; text | x 1 ; bag num | people 1", "no 1"),
    ("a filter by a number", "size (filter (fn (x : num) => x) people)",
     "num | people 1 ; bag num | people 1 ; (![inf] num -o num) ; num | x 1 ; bag num | people 1", "no 1"),
    ("a split by a number", "let (a, b) = split (fn (x : num) => x) people in 1",
     "num ; (bag num * bag num) | people 1 ; (![inf] num -o num) ; num | x 1 ; bag num | people 1 ; num", "no 1"),
    ("a union of numbers", inside("union 1 2"), "num ; (![inf] num -o num) ; num ; num ; num ; num", "no 2"),
    ("a union of two types", "size (union people stays)",
     "num | people 1 | stays 1 ; bag num | people 1 | stays 1 ; bag num | people 1 ; bag (text * num) | stays 1", "no 1"),
    ("a pair that is taken for one of both", "fst (1, 2)", "num ; (num * num) ; num ; num", "no 0"),
    ("a bang that is taken for a pair", "let (x, y) = ![2] 1 in x", "num ; ![2] num ; num ; num | x 1", "no 0"),
    ("a let of a bang whose part isn't one", "let ! x = 1 in x", "num ; num ; num | x 1", "no 0"),
    ("a case of no sum", "case 1 of inl x => x | inr y => y", "num ; num ; num | x 1 ; num | y 1", "no 0"),
    ("a size of a number", "size 1", "num ; num", "no 0"),
    ("the least of no pair of both", "least (1, 2)", "num ; (num * num) ; num ; num", "no 0"),
    ("the greatest of no pair of both", "greatest (1, 2)", "num ; (num * num) ; num ; num", "no 0"),
    ("the least of a number and a text", 'least <1, "a">', "num ; (num & text) ; num ; text", "no 0"),
    ("a sum of texts", "sum[0,1] (map (fn (x : num) => \"a\") people)",
     "num | people 1 ; bag text | people 1 ; (![inf] num -o text) ; text ; bag num | people 1", "no 0"),
    ("a function that uses its argument twice", "(fun (x : num) => x + x) 1", "num ; (num -o num) ; num | x 2 ; num | x 1 ; num | x 1 ; num", "no 1"),
    ("the same, which says less", "(fun (x : num) => x + x) 1", "num ; (num -o num) ; num | x 1 ; num | x 1 ; num | x 1 ; num", "no 2"),
    ("a scope by a line's type, which is right", "let x = (1, 2) in let (a, b) = x in a",
     "num ; (num * num) ; num ; num ; num | x 1 ; (num * num) | x 1 ; num | a 1", "yes 0"),
    ("a scope by a line's type, which is wrong", "let x = (1, 2) in let (a, b) = x in a",
     "num ; (num * text) ; num ; num ; num | x 1 ; (num * text) | x 1 ; num | a 1", "no 1"),
]  # fmt: skip

TWO = b"num | people 1\nbag num | people 1\n"
BYTES = [
    ("a file of no byte", SIZE, b"", "no 0"),
    ("a line that isn't ended", SIZE, TWO[:-1], "no 1"),
    ("a first line that isn't ended", SIZE, b"num | people 1", "no 0"),
    ("a line of no byte", SIZE, b"\n" + TWO, "no 0"),
    ("a line end alone", SIZE, b"\n", "no 0"),
    ("a byte behind the last line end", SIZE, TWO + b"x", "no 2"),
    ("a blank behind the last line end", SIZE, TWO + b" ", "no 2"),
    ("a line end behind the last line end", SIZE, TWO + b"\n", "no 2"),
    ("bytes behind the last line end, and a line not of the form", SIZE, b"num | people 1\nbag nom | people 1\nx", "no 1"),
    ("CR before the line ends", SIZE, TWO.replace(b"\n", b"\r\n"), "yes 1"),
    ("a byte of 0", SIZE, TWO.replace(b"bag", b"bag\0"), "no 1"),
    ("a byte that is none of a token", SIZE, b"num\xff | people 1\nbag num | people 1\n", "no 0"),
    ("another blank", SIZE, b"num\x0b| people 1\nbag num | people 1\n", "no 0"),
    ("a million bags", SIZE, b"num | people 1\n" + b"bag " * 10**6 + b"num | people 1\n", "no 1"),
    ("a million bags, and a line too many", SIZE, TWO + b"bag " * 10**6 + b"num\n", "no 2"),
    ("a million parentheses", SIZE, b"(" * 500_000 + b"num" + b")" * 500_000 + b" | people 1\nbag num | people 1\n", "yes 1"),
    ("a million line ends", SIZE, TWO + b"\n" * 10**6, "no 2"),
    ("a million names", SIZE, b"num | people 1\nbag num" + b"".join(b" | n%06d 1" % number for number in range(10**6)) + b" | people 1\n", "no 1"),
    ("a number of a million digits", SIZE, TWO.replace(b"bag num | people 1", b"bag num | people 1" + b"0" * 10**6), "no 1"),
    ("a million zeros before a number", SIZE, TWO.replace(b"bag num | people 1", b"bag num | people " + b"0" * 10**6 + b"1"), "yes 1"),
]

UNREAD = [
    (b"", "no 21 0"), (b"size", "no 21 1"), (b"size people $", "no 20 12"), (b"do x = release size people at 1 in x", "no 21 0"),
    (b"release size people at 1", "no 21 0"), (b"size people people", "no 21 2"), (b" " * 16001, "no 20 16000"), (b"(" * 4097, "no 20 4096"),
    (b" + ".join([b"1"] * 65), "no 22 65"), (b"(" * 2047 + b"1" + b")" * 2047, "yes 0"), (b" + ".join([b"1"] * 64), "no 1"),
    (b'"\n"', "no 20 0"), (b'"%s"' % (65 * b"t"), "no 20 0"), (b'"%s"' % (64 * b"t"), "no 0"), (b"n" + b"a" * 32, "no 20 0"), (b"1125899906842625", "no 20 0"), (b"![0] 1", "no 21 2"), (b"![1/4294967296] 1", "no 21 4"),
    (b"let x = 1 of x", "no 21 4"), (b"case 1 of inl x => 1 inr y => 2", "no 21 7"), (b"1 -o 2", "no 21 1"), (b"fn (x : (num) => x", "no 21 7"),
]  # fmt: skip


def typed(text, expression):
    return f"let z = {expression} in 7".encode(), text


# The type in line 1, of a name that isn't used.
TEXTS = [
    typed("num", "1"), typed("text", '"a"'), typed("unit", "()"), typed("(unit + unit)", "true"), typed("(num * text)", '(1, "a")'),
    typed("(num & text)", '<1, "a">'), typed("(num + unit)", "inl[unit] 1"), typed("(num * (num * num))", "(1, (2, 3))"),
    typed("((num * num) * num)", "((1, 2), 3)"), typed("(num -o (num -o num))", "fun (x : num) => fun (y : num) => x + y"),
    typed("(![inf] num -o num)", "fn (x : num) => x"), typed("((![inf] num -o num) -o num)", "fun (f : num -> num) => f (![inf] 1)"),
    typed("(![inf] bag num -o num)", "fn (x : bag num) => size x"), typed("bag (text * num) | people 1", 'map (fn (x : num) => ("a", x)) people'),
    typed("![2] num", "![2] 1"), typed("![3/2] ![inf] (num * num)", "![6/4] (![inf] (1, 2))"), typed("(![2] num -o num)", "fun (x : ![2] num) => let ! y = x in y + y"),
    typed("![2] (num -o num)", "![2] (fun (x : num) => x)"), typed("((unit + unit) * (unit + unit))", "(true, false)"),
    typed("((num * num) + bag num)", "inl[bag num] (1, 2)"), typed("![4294967295] text", '![4294967295] "a"'), typed("![1/4294967295] text", '![1/4294967295] "a"'),
]  # fmt: skip


def doubling(names, last=""):
    """Lets of pairs, each of twice the one before: of the last one the type's text has 8 * 2^NAMES - 5 bytes."""
    pairs = "".join(f"let a{name} = (a{name - 1}, a{name - 1}) in " for name in range(1, names + 1))
    return f"let a0 = 1 in {pairs}{last}1".encode()


# Programs, and whether their derivations are over 2^26 bytes. That of 58 names has as many as no machine holds.
TOO_LONG = [(doubling(16), False), (doubling(22), True), (doubling(58), True)]

def of_size(size, measured):
    """A program whose derivation has so many bytes, some millions, by what MEASURED says of programs: pairs, then names of pairs, the greatest first, which are as
    many bytes as they fit, and then units and ones: each of these is 9 bytes more, and each one with its sum 8."""
    pairs = next(names for names in range(1, 99) if measured(doubling(names + 1)) > size - 10_000)
    more = ""
    for name in range(pairs, -1, -1):
        while measured(doubling(pairs, f"{more}let b = a{name} in ")) <= size - 100:
            more += f"let b = a{name} in "
    lacking = size - measured(doubling(pairs, more))
    units = lacking % 8
    return doubling(pairs, more + "let u = () in " * units + "1 + " * ((lacking - 9 * units) // 8))


USAGE, YES = "usage\n", "yes 1\n"
ENDS = [
    (["cat.json", "census", "p", "d"], 0, YES),
    ([], 2, USAGE), (["cat.json", "census", "p"], 2, USAGE), (["cat.json", "census", "p", "d", "d"], 2, USAGE),
    (["cat.json", "census", "p", b"d\xff"], 2, USAGE),
    (["absent", "nobody", "absent", "absent"], 3, "refused absent\n"),
    (["no.json", "nobody", "absent", "absent"], 3, "refused no.json\n"),
    (["cat.json", "nobody", "absent", "absent"], 3, "refused nobody\n"),
    (["cat.json", "census", "gone", "absent"], 3, "refused gone\n"),
    (["cat.json", "census", "p", "absent"], 3, "refused absent\n"),
    (["cat.json", "census", "p/x", "d"], 3, "refused p/x\n"),
    (["cat.json", "census", "p", "long"], 3, "refused long\n"),
    (["cat.json", "census", "long", "d"], 3, "refused long\n"),
    (["long", "census", "p", "d"], 3, "refused long\n"),
    (["cat.json", "census", "zeros", "d"], 1, "no 20 16000\n"),
    (["cat.json", "census", "p", "zeros"], 1, "no 0\n"),
    (["cat.json", "census", "p", "p"], 1, "no 0\n"),
    (["cat.json", "census", "d", "d"], 1, "no 21 0\n"),
    (["cat.json", "census", "folder", "d"], 5, ""),
    # Tables of one column to four, of which no file is there; and those of another owner.
    *[(["wide.json", "wide", f"p{columns}", f"d{columns}"], 0, YES) for columns in range(1, 5)],
    (["wide.json", "wide", "p3", "d4"], 1, "no 1\n"), (["wide.json", "narrow", "p1", "d1"], 0, YES), (["wide.json", "narrow", "p2", "d2"], 1, "no 0\n"),
]  # fmt: skip
