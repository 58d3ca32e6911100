#!/usr/bin/env python3
"""Tries tools/explain on refused programs of every code: the refusal, the part that is marked, and what is said of it; and on other lines.

usage: tests/tools/explain.py [--alone]    (PROGRAM=FILE tries another build than tools/build's; --alone tries none)
The tables are those of examples/survey, and for parts those of an owner with both of them. Each refusal is compared with a second
implementation's, and with what the program's `check` says; a script's replies with the program's, which is also made to say that its memory
or its disk failed (where there is a C compiler; 50, which takes a noise of over 4,096 draws, never came). It ends with status 1 where one
differs, or where a code or a status is in no row.
"""
import contextlib
import importlib.machinery
import importlib.util
import io
import json
import os
import re
import shutil
import subprocess
import sys
import tempfile

sys.path.insert(0, f"{os.path.dirname(os.path.abspath(__file__))}/../lib")
from places import TOP  # noqa: E402

PROGRAM = os.path.abspath(os.environ.get("PROGRAM", f"{TOP}/out/hitchseason"))
CATALOG = "examples/survey/catalog.json"
from catalog import read  # noqa: E402
from runs import chain, judgement, unions  # noqa: E402
from tables import signature  # noqa: E402

CODES = "20 21 22 30 31 32 33 34 35 36 37 90".split()
ROW = "text * num * text * num"
AGES = f"let ages = map (fn (p : {ROW}) => let (region, p) = p in let (age, p) = p in age) persons in\n"
AGE = f"let age = fun (p : {ROW}) => let (region, p) = p in let (age, p) = p in age in\n"
REGION = f"let region = fun (p : {ROW}) => let (region, p) = p in region in\n"
PEOPLE = "let people = persons in "
TOTAL = "a total can't be: ask for it"
# A type that is written out by `..`, since it has 2^30 numbers, each pair of it being one part.
PAIRS = "let a0 = (0, 0) in " + "".join(f"let a{number} = (a{number - 1}, a{number - 1}) in " for number in range(1, 30))
NAMED = "It names rows or columns, which `tools/hs check`, `tools/ask` and the client write out before it is sent; here it was asked as it stands."


def chosen(condition, word="filter"):
    """Rows that are chosen by a condition."""
    return f"size ({word} (fn (p : {ROW}) => {condition}) persons)"


def chosen_ages(condition):
    return f"{AGES}size (filter (fn (x : num) => {condition}) ages)"



# A program, its refusal, what is marked, and words that stand in the explanation.
CASES = [
    ("size persons $", "20 13", "$", ["stands in texts alone"]),
    ("size 'x'", "20 5", "'", ["stands in `\"`"]),
    ("1.5", "20 1", ".", ["whole"]),
    ("1125899906842625", "20 0", "1", ["at most 1125899906842624"]),
    ("size " + 33 * "n", "20 5", "n", ["32 letters"]),
    ('if "ab == "c" then 1 else 0', "20 12", '"', ["isn't closed"]),
    ('if "ab', "20 3", '"', ["isn't closed"]),
    ('"' + 65 * "a" + '"', "20 0", '"', ["at most 64 bytes"]),
    ('"a\tb"', "20 0", '"', ["no line ends"]),
    ("size é", "20 5", "é", ["outside ASCII"]),
    (" " * 16001, "20 16000", " ", ["at most 16000 bytes, and this one has 16001"]),
    (4097 * "(", "20 4096", "(", ["at most 4096 tokens"]),
    (17_000 * "(", "20 16000", "(", ["at most 16000 bytes, and this one has 17000"]),
    ("$" + 16_000 * " ", "20 16000", " ", ["at most 16000 bytes, and this one has 16001"]),
    ("size persons * 2", "21 2", "*", ["write `2 * size persons`"]),
    ("let n = size persons in 1 + n * 3", "21 9", "*", ["write `3 * n`"]),
    ("(size persons + 1) * 2", "21 6", "*", ["write `2 * (size persons + 1)`"]),
    ("size persons * size persons", "21 2", "*", ["One factor must be a number"]),
    (AGES + "size (filter (fn (x : num) => x < 30) ages)", "21 54", ")", ["`x < 30` is `x <= 29`"]),
    (AGES + "size (filter (fn (x : num) => x > 30) ages)", "21 52", ">", ["`x > 30` is `31 <= x`"]),
    (AGES + "size (filter (fn (x : num) => x >= 30) ages)", "21 52", ">", ["`x >= 30` is `30 <= x`"]),
    (AGES + "size (filter (fn (x : num) => x <> 30) ages)", "21 53", ">", ["`<>` is none"]),
    (AGES + "size (filter (fn (x : num) => x != 30) ages)", "21 52", "!", ["no `!=`"]),
    (AGES + "size (filter (fn (x : num) => x = 30) ages)", "21 52", "=", ["`==` compares"]),
    (AGES + "size (filter (fn (x : num) => 15 <= x <= 64) ages)", "21 54", "<=", ["One comparison stands alone"]),
    ("size persons / 2", "21 2", "/", ["no division"]),
    ("size", "21 1", " ", ["ends, too early", "missing after `size`"]),
    ("", "21 0", " ", ["empty"]),
    ("size (persons", "21 3", " ", ["`(` of token 1 isn't closed"]),
    ("let n = size persons", "21 5", " ", ["its `in`"]),
    ("if true then 1", "21 4", " ", ["its `else`"]),
    ("size filter (fn (x : num) => true) persons", "21 1", "filter", ["`(filter ..)`"]),
    ("clip[0,9] -5", "21 6", "-", ["in parentheses"]),
    ("sum persons", "21 1", "persons", ["`sum[0,100] ..`"]),
    ("inl 1", "21 1", "1", ["`inl[unit] ..`"]),
    ("let !x = ! 2 in x", "21 5", "2", ["`![2] ..`"]),
    ("let !x = ![0] 2 in x", "21 6", "0", ["from 1 to 4294967295"]),
    ("size (map (fn x => x) persons)", "21 5", "x", ["`fn (x : num) => ..`"]),
    ("(fun (x) => x) 1", "21 4", ")", ["`fun (x : num) => ..`"]),
    ("let sum = 1 in sum", "21 1", "sum", ["a word of the language"]),
    ("release 1", "21 0", "release", ["kept for later"]),
    (" + ".join(65 * ["1"]), "22 65", None, ["in halves"]),
    ("count persons", "30 unbound 0 5", "count", ["`size ..`"]),
    ("size Persons", "30 unbound 5 12", "Persons", ["Is `persons` meant"]),
    ("size stays", "30 unbound 5 10", "stays", ["a table of the owner `health`"]),
    ("size income", "30 unbound 5 11", "income", ["a column of `persons`", "let (work, income) = p in income"]),
    ("size nobody", "30 unbound 5 11", "nobody", ["tables are `persons`"]),
    ("if true and false then 1 else 0", "30 unbound 8 11", "and", ["`if a then b else false`"]),
    ("let agees = 1 in ages", "30 unbound 17 21", "ages", ["Is `agees` meant"]),
    (f"size (filter (fun (p : {ROW}) => true) persons)", "30 mismatch 14 55", f"fun (p : {ROW}) => true", ["write `fn`", "a row of persons"]),
    ("size (filter (fn (x : num) => x) persons)", "30 mismatch 14 31", "fn (x : num) => x", ["must say true or false", "wanted: a function made by `fn`"]),
    ("size (filter (fn (x : num) => x <= 30) persons)", "30 mismatch 39 46", "persons", [f"`fn (p : {ROW}) => ..`"]),
    ("least (1, 2)", "30 mismatch 6 12", "(1, 2)", ["`least <a, b>`", "wanted: a pair `<a, b>`"]),
    ("fst (1, 2)", "30 mismatch 4 10", "(1, 2)", ["let (x, y) = .. in .."]),
    ("let (x, y) = <1, 2> in x", "30 mismatch 13 19", "<1, 2>", ["`fst` or `snd`"]),
    ("1 + persons", "30 mismatch 4 11", "persons", ["found:  a bag, each element of it a row", "wanted: a number: `num`", "`size ..`"]),
    ("size (size persons)", "30 mismatch 6 18", "size persons", ["isn't a bag"]),
    ("sum[0,9] persons", "30 mismatch 9 16", "persons", ["Take a column"]),
    ('if 1 == "1" then 1 else 0', "30 mismatch 8 11", '"1"', ["with: `30`, `\"30\"`"]),
    ("if () == () then 1 else 0", "30 mismatch 3 5", "()", ["wanted: a number or a text"]),
    ("if 1 then 2 else 3", "30 mismatch 3 4", "1", ["Truth values"]),
    ("if true then 2 else ()", "30 mismatch 20 22", "()", ["Both branches"]),
    ("(fn (x : num) => x) 4", "30 mismatch 20 21", "4", ["`![inf] (..)`"]),
    ("let !x = 4 in x", "30 mismatch 9 10", "4", ["let x = .. in .."]),
    ("1 + ![2] 3", "30 mismatch 4 10", "![2] 3", ["Open it first"]),
    ("2 persons", "30 mismatch 0 1", "2", ["Is a sign missing"]),
    ("let f = inl[num -o num] 1 in 2", "30 notground 12 22", "num -o num", ["in each branch"]),
    ("size (map (fn (x : num) => persons) persons)", "30 notflat 11 34", "fn (x : num) => persons", ["A bag inside"]),
    ("(fun (x : num) => x + x) (size persons)", "31 1 23 2", "fun (x : num) => x + x", ["`fun (x : ![2] num) => let !x = x in ..`"]),
    ("(fun (x : num) => if x <= 3 then 0 else 1) (size persons)", "31 1 41 inf", None, ["`fn (x : num) => ..`"]),
    (AGES + "size (filter (fun (x : num) => x <= 3) ages)", "31 125 148 inf", None, ["`filter` takes"]),
    ("4294967296 * size persons", "32 0 25", None, ["A factor is at most 4294967295"]),
    (AGES + "sum[0,4294967296] ages", "32 111 133", None, ["The bounds of a `sum`"]),
    ("4294967295 * (2 * size persons)", "32 0 31", None, ["smaller factors"]),
    ("if size persons <= 3 then 0 else 100", "33 persons", "size persons <= 3", ["could turn the comparison"]),
    ("let n = size persons in let m = n + 1 in if 3 <= m then 0 else 1", "33 persons", "3 <= m", ["`m` hangs on the table"]),
    (AGES + "let n = size ages in sum[0,9] (map (fn (x : num) => x + n) ages)", "33 persons", "map (fn (x : num) => x + n) ages", ["run for each element"]),
    ("(fn (x : num) => x) (![inf] (size persons))", "33 persons", "![inf] (size persons)", ["handed over for any use"]),
    ("let (a, b) = (size persons, 1) in if a == b then 0 else 1", "33 persons", "a == b", ["`a` hangs on"]),
    ("persons", "34", None, ["found:  a bag", "`size ..`"]),
    ("(1, 2)", "34", None, ["ask twice"]),
    ("1 <= 2", "34", None, ["if .. then 1 else 0"]),
    ("fun (x : num) => x", "34", None, ["by its argument"]),
    ('"text"', "34", None, ["found:  a text"]),
    (chain(43, "0 + x", "0 + @ x", 1).decode(), "35 65 67", "f0", ["in halves"]),
    (chain(16, "x", "@ (@ x)", 1).decode(), "36 61 63", "f0", ["twice its turns"]),
    (chosen("let (a, b, c, d) = p in b <= 3"), "21 22", ",", ["A `let` takes two names: `let (a, p) = p in let (b, p) = p in ..`"]),
    (chosen("let (a, (b, c)) = p in b <= 3"), "21 21", "(", ["A `let` takes two names"]),
    ("size (filter (fn (a, b) => a <= 3) persons)", "21 7", ",", ["a `let` takes two names", f"`fn (p : {ROW}) =>"]),
    (chosen_ages("15 <= x and x <= 64"), "21 56", "<=", ["`a AND b` is `if a then b else false`"]),
    (AGE + REGION + chosen('region p == "north" OR age p <= 64'), "21 87", "<=", ["`a OR b` is `if a then true else b`"]),
    (chosen("p.age <= 29"), "20 51", ".", ["Columns have no names", "let (age, p) = p in age`",
        "It has a name that is none: `p` is no row here"]),
    ("size (filter (fn (p : row persons) => p . age <= 29) persons)", "20 40", ".", [NAMED]),
    ("size (filter (fn (p : row persons) => true) persons)", "21 8", "row", [NAMED]),
    ("size (filter (fn (p : row persons) => p.aeg <= 29) persons)", "20 39", ".", ["`persons` has no column `aeg`: is `age` meant?"]),
    ("size persons.region", "20 12", ".", ["Columns have no names", "let (region, p) = p in region`", "!client"]),
    (chosen("p.wages <= 29"), "20 51", ".", ["Columns have no names", "takes the first one off a row", "!client"]),
    ('size persons * "p.age : row persons"', "21 2", "*", ["!client"]),
    (REGION + chosen('region p <= "m"'), "30 mismatch 133 141", "region p", ["Texts have no order"]),
    (AGES + 'size (filter (fn (x : num) => x <= "30") ages)', "30 mismatch 146 150", '"30"', ["with: `30`, `\"30\"`"]),
    ("COUNT(*)", "21 2", "*", ["Counting is `size persons`"]),
    ("SELECT COUNT(*) FROM persons", "21 3", "*", ["Counting is `size persons`"]),
    ("size persons group by region", "21 2", "group", ["no `GROUP BY`", "`askpart`"]),
    ("size (persons group by region)", "30 unbound 14 19", "group", ["no `GROUP BY`"]),
    ("let group = size persons in group group group", "30 mismatch 28 33", "group", ["Is a sign missing between the two", "!GROUP BY"]),
    ("let order = 1 in size persons order", "21 7", "order", ["!no order of rows"]),
    ("size persons order by age", "21 2", "order", ["no order of rows"]),
    ("size persons limit 10", "21 2", "limit", ["no `LIMIT`"]),
    ("size persons having age", "21 2", "having", ["no `HAVING`"]),
    ("size persons join stays", "21 2", "join", ["no joins"]),
    ("median persons", "30 unbound 0 6", "median", ["no median", "halve the range"]),
    ("MEDIAN(income)", "30 unbound 0 6", "MEDIAN", ["no median"]),
    ("histogram persons", "30 unbound 0 9", "histogram", ["a count a band", "`askpart`"]),
    ("histogram[0,10] persons", "21 1", "[", ["a count a band"]),
    (chosen('let (r, p) = p in r like "n%"'), "30 unbound 70 74", "like", ["no patterns"]),
    (chosen('let (r, p) = p in like r "n%"'), "30 unbound 68 72", "like", ["no patterns"]),
    (chosen("let (r, p) = p in r is null"), "30 unbound 70 72", "is", ["no missing values"]),
    ("CASE WHEN a THEN 1 ELSE 2 END", "30 unbound 0 4", "CASE", ["`if a then 1 else 5`"]),
    ("case when true then 1 else 2 end", "21 3", "then", ["`if a then 1 else 5`"]),
    ("size (filter (fn (p : persons) => true) persons)", "21 8", "persons", ["is a table, and here stands a type", f"`fn (p : {ROW}) => ..`"]),
    ("size (filter (fn (a : age) => true) persons)", "21 8", "age", ["is a column, and here stands a type: that of this column is `num`"]),
    ("size (filter (fn (a : int) => true) persons)", "21 8", "int", ["write `num`"]),
    ("size (filter (fn (p : text * string) => true) persons)", "21 10", "string", ["write `text`"]),
    ("size (filter (fn (p : row) => true) persons)", "21 8", "row", ["`row` is no type", ROW]),
    ("let f = fun (b : bag persons) => size b in 1", "21 8", "persons", ["A row of it is written"]),
    (AGES + "size (filter (fn (x : num) => x <= size ages) ages)", "33 persons", "x <= size ages", ["The function of `filter` looks at the whole table", "A "
        "`let` outside doesn't help"]),
    (AGES + "let n = size ages in size (filter (fn (x : num) => x <= n) ages)", "33 persons", "x <= n", ["The function of `filter` looks at the whole "
        "table", "write what you get"]),
    ("size (map (fn (p : text * num * text * num) => size persons) persons)", "33 persons", None, ["is run for each element", "A `let` outside doesn't help"]),
    ("select * from persons", "21 1", "*", ["shows no row"]),
    ("size persons > 10", "21 2", ">", ["`x > 10` is `11 <= x`", TOTAL]),
    ("size persons >= 10", "21 2", ">", ["no `>=`", TOTAL]),
    ("size persons < 10", "21 2", "<", ["`x < 10` is `x <= 9`", TOTAL]),
    ("size persons = 10", "21 2", "=", ["`==` compares", TOTAL]),
    ("let (x, y = (1, 2) in x", "21 5", "=", ["`=` stands in `let` alone.\n"]),
    ("let x y = 3 in x", "21 2", "y", None),
    ("size persons <> 10", "21 2", "<", ["`<>` is none", TOTAL]),
    ("size persons != 10", "21 2", "!", ["no `!=`", TOTAL]),
    ("let n = size persons in if n < 10 then 1 else 0", "21 10", "then", ["`x < 10` is `x <= 9`", TOTAL]),
    (chosen_ages("x BETWEEN 15 AND 64"), "30 unbound 143 150", "BETWEEN", ["`if 15 <= x then x <= 64 else false`"]),
    ("greatest <size persons>", "21 4", ">", ["`greatest <a, b>`", "no greatest element of a bag"]),
    ("fst <size persons>", "21 4", ">", ["A pair has two halves: `fst <a, b>`"]),
    ("least persons", "30 mismatch 6 13", "persons", ["no least element of a bag"]),
    (AGES + "size (filter (age <= 29) ages)", "30 unbound 125 128", "age", ["`filter` takes a function", "`fn (age : num) => age <= 29`"]),
    (AGES + "size (filter age ages)", "30 unbound 124 127", "age", ["`fn (age : num) => ..`"]),
    ("size (filter (age <= 29) persons)", "30 unbound 14 17", "age", ["`filter` takes a function", "let (age, p) = p in age <= 29`"]),
    ("size (filter true persons)", "30 mismatch 13 17", "true", ["`filter` takes a function", f"`fn (x : {ROW}) => ..`"]),
    (AGE + "size (filter (age <= 29) persons)", "30 mismatch 111 114", "age", [f"`filter (fn (p : {ROW}) => age p <= 29) ..`"]),
    (REGION + chosen('region p in ("north", "south")'), "21 46", "in", ['`if x == "a" then true else x == "b"`']),
    (chosen_ages("15 <= x && x <= 64"), "21 54", "&", ["`a && b` is `if a then b else false`"]),
    (chosen_ages("x <= 15 || 64 <= x"), "21 54", "|", ["`a || b` is `if a then true else b`"]),
    ("size persons where age <= 29", "21 2", "where", ["Rows are chosen by `filter"]),
    ("size (distinct persons)", "30 unbound 6 14", "distinct", ["no `DISTINCT`"]),
    ("size distinct persons", "21 2", "persons", ["no `DISTINCT`"]),
    ("size persons -- all", "21 4", "all", ["no comments"]),
    ("-- all\nsize persons", "21 1", "-", ["no comments"]),
    ("size persons // all", "21 2", "/", ["no comments"]),
    ("size persons -- that's all", "20 20", "'", ["no comments"]),
    ('size persons "--" $', "20 18", "$", ["stands in texts alone"]),
    (AGE + chosen("age == 30"), "30 mismatch 147 150", "age", ["`age` is a function: call it, as in `age p`"]),
    (AGE + chosen("30 <= age"), "30 mismatch 153 156", "age", ["`age` is a function: call it, as in `age p`"]),
    (AGE + chosen("age", "map"), "30 notflat 108 147", None, ["`age` is a function: call it, as in `age p`"]),
    (AGES + "let old = fn (x : num) => 65 <= x in size (filter (fn (x : num) => if old then true else false) ages)", "30 mismatch 181 184", "old", ["`old "
        "(![inf] x)`"]),
    ("let n = size persons\nsize persons + n", "21 5", "size", ["its `in`: is it missing before this"]),
    ("let n = size persons\nn + 1", "21 5", "n", ["its `in`: is it missing before this"]),
    (chosen("let (region, p) = p let (age, p) = p in age <= 29"), "21 25", "let", ["its `in`: is it missing before this"]),
    ("let n = size persons size persons in n", "21 5", "size", ["`(size ..)`. Or is the `in`"]),
    ("sum[5000] persons", "21 3", "]", ["The bounds of `sum` are two whole numbers"]),
    ("sum[-inf,inf] persons", "21 3", "inf", ["The bounds of `sum` are two whole numbers"]),
    ("SUM(income)", "30 unbound 0 3", "SUM", ["small letters, has bounds"]),
    ("SELECT SUM(income) FROM persons", "30 unbound 0 6", "SELECT", ["small letters, has bounds", "!Columns are chosen"]),
    ("SELECT AVG(income) FROM persons WHERE age = 30", "21 9", "=", ["no mean", "Rows are chosen by `filter", f"!{TOTAL}"]),
    ("SELECT AVG(income) FROM persons WHERE region = 'north'", "20 47", "'", ["stands in `\"`", "no mean", "Rows are chosen by `filter"]),
    ("SELECT region, COUNT(*) FROM persons GROUP BY region HAVING COUNT(*) > 20", "21 2", ",", ["Counting is `size persons`", "no `GROUP BY`", "no `HAVING`"]),
    ("SELECT CORR(age, income) FROM persons", "30 unbound 0 6", "SELECT", ["no correlation", '"Correlation"']),
    ("SELECT COUNT(DISTINCT region) FROM persons", "30 unbound 0 6", "SELECT", ["no `DISTINCT`", "!Counting is"]),
    ("SELECT region FROM persons", "30 unbound 0 6", "SELECT", ["Columns are chosen by `map"]),
    ("covariance(age, income)", "30 unbound 0 10", "covariance", ["no correlation"]),
    ("stddev(income)", "30 unbound 0 6", "stddev", ["a sum of squares gives it"]),
    ("percentile(income, 0.9)", "20 20", ".", ["whole", "no quantiles", "the share of all rows"]),
    ("crosstab region work", "30 unbound 0 8", "crosstab", ["Each cell of a cross table is a count"]),
    (chosen_ages("x * x <= 30"), "21 52", "*", ["One factor must be a number", "multiplied by halvings"]),
    (chosen_ages("x / 10 <= 3"), "21 52", "/", ["no division", "divided by halvings"]),
    (chosen_ages("x % 10 <= 3"), "20 143", "%", ["no remainder"]),
    ("size (filter (age >= 30) persons)", "21 5", ">", ["no `>=`", "`age` is a column", "let (age, p) = p in ..`", f"!{TOTAL}"]),
    ("size (filter (age < 30) persons)", "21 7", ")", ["`x < 30` is `x <= 29`", "`age` is a column", f"!{TOTAL}"]),
    ("size (filter (30 > age) persons)", "21 5", ">", ["no `>`", "`age` is a column", f"!{TOTAL}"]),
    ("SELECT COUNT(*) FROM stays", "21 3", "*", ["Counting is `size ..`"]),
    (chosen("let (region, p) = p in region == north"), "30 unbound 83 88", "north", ['A text stands in `"`, as in `"north"`']),
    (chosen_ages("agees == ages"), "30 unbound 141 146", "agees", ["Is `ages` meant"]),
    ("size (filter (p => true) persons)", "21 5", "=>", [f"`fn (p : {ROW}) => ..`"]),
    ("size (filter (lambda p: true) persons)", "21 6", ":", [f"`fn (p : {ROW}) => ..`"]),
    ('"size persons"', "34", None, ["without `\"` around it"]),
    (PEOPLE + unions(7).decode(), "37 185 196 128", "union a5 a5", ["would be 128 tables wide", "`2 * size ..`"]),
    ("size \x1b[31m persons", "20 5", "\\x1b", ["`\\x1b` stands in texts alone", "!\x1b"]),
    (PAIRS + "a29 + 1", "30 mismatch 686 689", "a29", ["found:  a pair `(a, b)` of a pair `(a, b)` of", " ..: `(((", " ..`\nwanted: a number: `num`"]),
    ("let double = fn (x : num) => x + x in double (size persons)", "30 mismatch 46 58", "size persons",
        ["`fun (x : ![2] num) => let !x = x in ..`, called with `![2] (..)`", "!`![inf] (..)`"]),
    ("let double = fn (x : num) => x + x in double (![inf] (size persons))", "33 persons", "![inf] (size persons)", ["called with `![2] (..)`"]),
    ("(fn (x : num) => 3 * x) (size persons)", "30 mismatch 25 37", "size persons", ["`fun (x : ![3] num) => let !x = x in ..`"]),
    ("let same = fn (x : num) => x in let n = size persons in same n", "30 mismatch 61 62", "n", ["Write `fun (x : num) => ..`"]),
    ("let f = fn (x : num) => if x <= 3 then 1 else 0 in f (size persons)", "30 mismatch 54 66", "size persons", ["`x` is compared", "Ask for that number first"]),
    ("let f = fn (x : num) => x + x in let n = 3 in f n", "30 mismatch 48 49", "n", ["`![inf] (..)`", "!total"]),
    ("case 3 of inl x => 1 | inr y => 2", "30 mismatch 5 6", "3", ["`if x == 3 then .. else ..`", "!Both branches"]),
    ("case 3 of 4 => 1", "21 3", "4", ["`if x == 4 then .. else ..`"]),
    ("case 1 <= 2 of true => 1", "21 5", "true", ["`if .. then .. else ..`"]),
    (f"size (union persons (map (fn (p : {ROW}) => 1) persons))", "30 mismatch 21 72", f"map (fn (p : {ROW}) => 1) persons",
        ["one type", f"`size persons + size (map (fn (p : {ROW}) => 1) persons)`"]),
    ("size (union persons)", "21 4", ")", ["`union` takes two bags: `(union persons persons)`"]),
    ("sum[0..100] persons", "20 5", ".", ["`sum[0,100] ..`", "!whole"]),
    ("clip[-5 ... 7] 3", "20 8", ".", ["`clip[-5,7] ..`"]),
    (chosen("let (r, p) = p in r == 'south'"), "20 73", "'", ['`"`, as in `"south"`', "!north"]),
    ("size '", "20 5", "'", ['`"`, as in `"north"`']),
    ("-(size persons)", "21 1", "(", ["`-1 * (size persons)`"]),
    ("let n = size persons in 3 - -n", "21 9", "n", ["`-1 * n`"]),
    ("(1, 2, 3)", "21 4", ",", ["`(1, (2, 3))`"]),
    ("<1, 2, (3, 4), 5>", "21 4", ",", ["`<1, <2, <(3, 4), 5>>>`"]),
    ("least <1, 2, size persons>", "21 5", ",", ["`least <1, least <2, size persons>>`"]),
    ("let f (x : num) = x + 1 in f 3", "21 2", "(", ["`let f = fun (x : num) => .. in ..`"]),
    ("let f x = x + 1 in f 3", "21 2", "x", ["`let f = fun (x : num) => .. in ..`"]),
    (f"size (map (fn (p : {ROW}) => 1)) persons", "21 19", ")", ["`map` takes a function and a bag", "ends it before the second: `(map (fn ..) persons)`"]),
    (f"size (filter (fn (p : {ROW}) => true))", "21 19", ")", ["`(filter (fn ..) persons)`", "!before the second"]),
    ('size "persons"', "30 mismatch 5 14", '"persons"', ['without `"`: `persons`']),
    ('size "people"', "30 mismatch 5 13", '"people"', ["A text isn't a bag", "tables are `persons`"]),
    (PAIRS + "if true then a29 else 0 + 1", "30 mismatch 708 713", "0 + 1", ["found:  a number: `num`", " ..`\nhint: Both branches"]),
]  # fmt: skip

# Programs that are refused of a part, and what is said, over an owner with two tables and a partition of each.
PARTS = [
    ("size stays", "30 unbound 5 10", "areas", ["Asked of a part. A part of `areas` shows the table `persons` alone.", "What is made of `stays` is asked by "
        "`ask`"]),
    ("size persons", "30 unbound 5 12", "wards", ["A part of `wards` shows the table `stays` alone.", "What is made of `persons` is asked by `ask`"]),
    ("size persons + size stays", "30 unbound 20 25", "areas", ["A part of `areas` shows"]),
    ("size nobody", "30 unbound 5 11", "areas", ["!Asked of a part"]),
]
STATUS_WORDS = "all was done|refuses the program|no command|absent|journal|standard output|disk|memory|2^24|over 10^18|no room for a grant|of over 67108864 bytes"
# Lines that the program writes, and words that are said of them: every code, every status, and what is no line.
LINES = [
    ("no 10 2", "malformed at its word 2"), ("no 11", "over 16384 bytes"), ("no 12 1", "the owner isn't in the catalog"), ("no 12 2", "no partition of this "
        "name"),
    ("no 12 3", "no key of this name"), ("no 13", "write 0.5 and 0.001"), ("no 14", "nobody has said hello"), ("no 20 3", "at byte 3"), ("no 21 2", "up to "
        "token 2"),
    ("no 22 65", "65 deep"), ("no 30 unbound 1 2", "neither bound nor a table"), ("no 30 mismatch 1 2", "another type"), ("no 30 notground 1 2", "hold a "
        "function"),
    ("no 30 notflat 1 2", "a function or a bag"), ("no 31 1 2 3/2", "uses its argument at 3/2"), ("no 31 1 2 inf", "at inf"), ("no 32 1 2", "out of range"),
    ("no 33 persons", "a row of persons"), ("no 34", "no number"), ("no 35 1 2", "depth 129"), ("no 36 1 2", "turn 20001"), ("no 37 1 2 65", "65 tables wide"),
    ("no 40 1000000 1001000000 20000000 4", "of 20000000 millionths 1000000 are spent, and with this ask it would be 1001000000"),
    ("no 41 100 0 100", "no room for its two records: 100 of 100"), ("no 42 1", "closed for the rest of this run"), ("no 50 7", "over 4096 draws"),
    ("no 43 1000000 2000000 1000000 2", "of 1000000 millionths that this analyst may spend 1000000 are spent"),
    ("no 51 7", "memory ran out while the program of reservation 7 was run: it is charged"), ("no 52", "it may be charged, and has no answer"),
    ("no 60 7 20", "no number 7 was ever reserved"), ("no 61 7 20", "another analyst made reservation 7"), ("no 90", "nothing is charged"),
    ("usage", "no command"), ("refused key", "'key' is the file, or the owner"), ("journal labour uninitialised 0", "it has 0 bytes"),
    ("journal labour damaged 3", "slot 3"), ("journal labour changed", "the entry of labour"), ("journal labour exists 12", "a file of 12 bytes"),
    ("journal labour forked 4", "different records in slot 4"),
    ("disk labour", "disk of the journal of labour"), ("memory", "memory ran out"), ("script too long", "over 2^24 bytes"), ("bye", "ended"),
    ("granted labour 1500000 3", "the budget of labour is 1500000 millionths now; its journal has 3 records"), ("too large 7", "would be over 10^18"),
    ("full 2 2", "2 of 2 are taken"), ("refused", "'' is the file, or the owner"),
    ("owner labour budget 20000000 capacity 1000", "its budget is 20000000 millionths, and it has room for 1000 records"),
    ("labour reservations 4 answered 2 exhausted 0 lost 1 spent 7 budget 8", "of 4 reservations in the journal of labour 2 are answered"),
    ("distance 3", "are 3 rows apart"), ("sensitivity 3/2", "the sensitivity of the program is 3/2"), ("gap 1", "differ by 1"),
    ("values 2 -3", "is 2 on the first dataset and -3 on the second"), ("asks 2 answered 1 exhausted 0 over 1 spent 5 sum -2", "of 2 generated asks 1"),
    ("ok 3/2", "a sensitivity of 3/2"), ("yes 3/2", "moves by at most 3/2 for each row"), ("no 0", "line 0 of the derivation"), ("no 100", "line 100 of the "
        "derivation"), ("derivation too long", "of over 67108864 bytes"), ("answer 3 -7 0", "the noisy value -7"), ("recall 1 open 4", "no answer yet"), ("recall 1 lost 4", "charged and has "
        "no answer"),
    ("recall 1 exhausted 4", "4096 draws"), ("recall 1 answer 5 4", "answered with 5"), ("left 1 2 3", "1 of 2 millionths"), ("mine 1 2 3", "has spent 1 of the 2"), ("mine 1 none 3", "no limit of its own"), ("hello mia", "mia speaks"),
    *[(f"status {status}", words) for status, words in enumerate(STATUS_WORDS.split("|"))],
    ("124", "timeout"), ("126", "may not be run"), ("127", "no such program"), ("137", "signal 9"), ("99", "never ends so"),
]  # fmt: skip
NO_LINES = ["no", "no 40 1", "no 15 1", "answer 1 2", "no 33 a b", "journal labour", "foo", "no 010", "granted labour 1", "granted 1 2 3",
    "too large", "full 2", "no 43 1 2 3", "mine 1 2", "mine none 1 2", "owner labour budget 1", "labour reservations 1", "distance -3", "values 1", "gap", "hello", "\x1b[31m"]  # fmt: skip
# A program next to a line that isn't the program's refusal: what is said of the line.
OTHERS = [
    ("no 13", "write 0.5"), ("answer 0 1 2", "noisy value 1"),
    ("no 40 1000000 21000000 20000000 4", "an EPS of 19 is the greatest that fits now. (That is so where it was asked of the whole"),
    ("no 43 1000000 21000000 20000000 4", "an EPS of 19 is the greatest that fits now. (That is so where it was asked of the whole"),
]  # fmt: skip
# The lines of a script over examples/survey, each with its reply and, where that is a refusal, words that are said of it.
SCRIPT = [
    ("left labour", "left 0 20000000 0", None),
    ("ask labour 0.5 size persons", "no 14", "nobody has said hello"),
    ("hello maia", "no 12 1", "no analyst `maia`: is `mia` meant?"),
    ("recall labour 0", "no 14", "(that of line 3 was refused)"),
    ("hello mia", "hello mia", None),
    ("", "no 10 0", "the line is empty"),
    (" ask labour 1 1", "no 10 0", "begins with a blank"),
    ("size persons", "no 10 0", "there are hello, ask, askpart, recall, left, mine, bye. A program stands in one line"),
    ("check labour size persons", "no 10 0", "`check` is a command of the program"),
    ("ask labour areas north 0.5 size persons", "no 13", "a part is asked by `askpart labour areas KEY EPS PROGRAM`"),
    ("ask labour north 0.5 size persons", "no 13", "a part is asked by `askpart labour areas KEY EPS PROGRAM`"),
    ("askpart labour region north 0.5 size persons", "no 12 2", "no partition `region`: is `areas` meant?"),
    ("askpart labour areas 0.5 size persons", "no 12 3", "KEY is missing before EPS: it has `north`"),
    ("askpart labour areas north,south 0.5 size persons", "no 12 3", "one key stands in a line"),
    ("asks labour 1 1", "no 10 0", "`asks` is no kind of line: is `ask` meant?"),
    ("select 1", "no 10 0", "`select` is no kind of line"),
    ("ask labour 0.5", "no 10 3", "PROGRAM is missing: `ask OWNER EPS PROGRAM`"),
    ("left  labour", "no 10 1", "where OWNER belongs stands nothing"),
    ("mine", "no 10 1", "OWNER is missing: `mine OWNER`"),
    ("mine labour x", "no 10 2", "`x` is one word too many: `mine OWNER`"),
    ("mine nobody", "no 12 1", "no owner `nobody`"),
    ("bye now", "no 10 1", "`now` is one word too many: `bye`"),
    ("recall labour x", "no 10 2", "`x` is no number"),
    ("left " + 16_400 * "a", "no 11", "16405 bytes"),
    ("ask labor 0.5 size persons", "no 12 1", "no owner `labor`: is `labour` meant?"),
    ("askpart labour area north 0.5 size persons", "no 12 2", "no partition `area`: is `areas` meant?"),
    ("askpart health areas north 0.5 size stays", "no 12 2", "it has none"),
    ("askpart labour areas North 0.5 size persons", "no 12 3", "no key `North`: is `north` meant?"),
    ("ask labour .5 size persons", "no 13", "write 0.5"),
    ("ask labour 1e-3 size persons", "no 13", "write 0.001"),
    ("ask labour 0,5 size persons", "no 13", "write 0.5"),
    ("ask labour 2000 size persons", "no 13", "over 1000"),
    ("ask labour 1e400 size persons", "no 13", "`1e400` is over 1000"),
    ("ask labour 1e999999999 size persons", "no 13", "`1e999999999` is over 1000"),
    ("ask labour 1e-999999999 size persons", "no 13", "under 0.000001"),
    (f"ask labour {310 * '9'} size persons", "no 13", "..` is over 1000"),
    (f"ask labour {5000 * '9'} size persons", "no 13", "..` has too many digits"),
    ("ask labour \x1b[2J size persons", "no 13", "`\\x1b[2J` is no number"),
    ("ask labour 0.5 size \x1b[2J", "no 20 5", "`\\x1b` stands in texts alone"),
    ("ask labour 0 size persons", "no 13", "under 0.000001"),
    ("ask labour 0.1234567 size persons", "no 13", "too many digits"),
    ("ask labour much size persons", "no 13", "is no number"),
    ("ask labour 0.5 size persons $", "no 20 13", "stands in texts alone"),
    ("ask labour 0.5 size persons * 2", "no 21 2", "`*`. The factor stands on the left: write `2 * size persons`"),
    ("ask labour 0.5 size nobody", "no 30 unbound 5 11", "(`nobody`). The owner's tables are `persons`"),
    ("ask labour 0.5 1 + persons", "no 30 mismatch 4 11", "found: a bag, each element"),
    ("ask labour 0.5 persons", "no 34", "no number; found: a bag"),
    ("ask labour 0.5 if size persons <= 3 then 0 else 1", "no 33 persons", "(`size persons <= 3`). A number is compared"),
    ("askpart labour areas north 0.5 size stays", "no 30 unbound 5 10", "a table of the owner `health`"),
    ("ask labour 15 size persons", "answer 0 1000 15000000", None),
    ("ask labour 10 size persons", "no 40 15000000 25000000 20000000 2", "At its sensitivity of 1 an EPS of 5 is the greatest that fits now"),
    ("ask labour 1 3 * (2 * size persons)", "no 40 15000000 21000000 20000000 2", "At its sensitivity of 6 an EPS of 0.833333 is the greatest that fits now"),
    ("ask labour 1000 5000001 * size persons", "no 40 15000000 5000001015000000 20000000 2", "No EPS is small enough for it now"),
    ("ask labour 1000 5000000 * size persons", "no 40 15000000 5000000015000000 20000000 2", "an EPS of 0.000001 is the greatest"),
    ("mine labour", "mine 15000000 none 2", None),
    ("recall labour 7", "no 60 7 2", "no number 7"),
    ("hello tom", "hello tom", None),
    ("recall labour 0", "no 61 0 2", "another analyst made reservation 0"),
    ("bye", "bye", None),
    ("recall labour 0", "no 14", "nobody has said hello"),
    ("mine labour", "no 14", "nobody has said hello"),
]  # fmt: skip


def tool():
    """The tool as a module."""
    found = importlib.util.module_from_spec(importlib.util.spec_from_loader("explain", importlib.machinery.SourceFileLoader("explain", f"{TOP}/tools/explain")))
    found.__spec__.loader.exec_module(found)
    return found


def two_tables():
    """The catalog of an owner with both tables of examples/survey, and a partition of each."""
    whole = json.loads(bytes_of(f"{TOP}/{CATALOG}"))
    first, second = whole["owners"]
    first["tables"] += second["tables"]
    first["partitions"].append({"name": "wards", "table": "stays", "column": "ward", "keys": ["surgery"]})
    return {**whole, "owners": [first]}


def bytes_of(name):
    with open(name, "rb") as file:
        return file.read()


class Ended:
    """What a call of the tool wrote, and its status."""

    def __init__(self, call):
        out, err = io.StringIO(), io.StringIO()
        with contextlib.redirect_stdout(out), contextlib.redirect_stderr(err):
            try:
                self.returncode = call()
            except SystemExit as end:
                self.returncode = end.code
        self.stdout, self.stderr = out.getvalue(), err.getvalue()


class Trial:
    def __init__(self, room):
        self.room, self.file, self.differences, self.codes, self.tool = room, f"{room}/program", 0, set(), tool()
        self.tables = signature(read(bytes_of(f"{TOP}/{CATALOG}"))["owners"][0])
        os.chdir(TOP)

    def differ(self, by, program, found, want):
        self.differences += 1
        print(f"{by}: {found}, and not {want}, of {program[:200]}")

    def called(self, *words, given=""):
        sys.argv, sys.stdin = ["explain", *words], io.StringIO(given)
        return Ended(self.tool.main)

    def explain(self, refusal, catalog=CATALOG):
        return self.called(catalog, "labour", self.file, given=f"{refusal}\n")

    def one(self, program, refusal, marked, said):
        with open(self.file, "w") as file:
            file.write(program)
        found = judgement(program.encode(), self.tables)
        if found != f"no {refusal}":
            self.differ("the second implementation", program, found, f"no {refusal}")
            return
        ran = self.explain(found)
        if ran.returncode != 0 or not ran.stdout.startswith(f"no {refusal}: "):
            self.differ("status", program, f"{ran.returncode} {ran.stderr}", 0)
        mark = re.search(r"\n    (.*)\n    ( *)(\^+)", ran.stdout)
        part = mark and mark[1][len(mark[2]) :][: len(mark[3])]
        if marked is not None and (part or " ") != marked:
            self.differ("mark", program, part, marked)
        for words in said or []:
            if (words not in ran.stdout) if not words.startswith("!") else (words[1:] in ran.stdout):
                self.differ("words", program, ran.stdout, words)
        self.codes.add(refusal.split()[0])

    def by_program(self, program, refusal):
        with open(self.file, "w") as file:
            file.write(program)
        ran = subprocess.run([PROGRAM, "check", CATALOG, "labour", self.file], capture_output=True, cwd=TOP, text=True)
        if ran.stdout != f"no {refusal}\n":
            self.differ("check", program, ran.stdout, refusal)

    def walked(self):
        """A program whose bags' functions would take 64 walks, which is told 90 whatever memory there is; and with a walk less, where memory ran out."""
        for count, said in ((7, "no 90: this program walks bags too often"), (6, "no 90: memory ran out before anything was reserved")):
            program = AGES.replace("ages", "a", 1) + count * "let a = map (fn (x : num) => x + sum[0,1] a) a in\n" + "0 * size a"
            with open(self.file, "w") as file:
                file.write(program)
            ran = self.explain("no 90")
            if ran.returncode != 0 or not ran.stdout.startswith(said) or ("Ask for that number first" in ran.stdout) != (count == 7):
                self.differ("walks", program, f"{ran.returncode} {ran.stdout}{ran.stderr}", said)
            line = f"ask labour 0.5 {' '.join(program.split())}"
            for name, lines in (("script", f"hello mia\n{line}\n"), ("replies", "hello mia\nno 90\n")):
                with open(f"{self.room}/{name}", "w") as file:
                    file.write(lines)
            ran = self.called("--script", CATALOG, f"{self.room}/script", f"{self.room}/replies")
            if ran.returncode != 0 or said.removeprefix("no 90: ") not in ran.stdout:
                self.differ("walks of a script", line, f"{ran.returncode} {ran.stdout}{ran.stderr}", said)
        self.codes.add("90")

    def by_client(self):
        """A program with rows and columns by name, next to what is said of it as it is sent: it is marked as it is written, and hints have its names."""
        for program, line, first, part, said in (
            ("p.age < 30", "no 21 20", "no 21 20: no term begins with the program's tokens up to here, `)`; its place", ")", "`x <= 29`"),
            ("p.age == p.work", "no 30 mismatch 116 120", "no 30 mismatch 116 120: this part has another type", "p.work", "with: `30`"),
            ("age <= 30", "no 30 unbound 50 53", "no 30 unbound 50 53: this name is neither bound", "age", "write `p.age`"),
            ("p.age <= 30", "ok 1", "The program is accepted.\nIt walks rows 1 deep", None, ""),
        ):
            with open(self.file, "w") as file:
                file.write(f"size (filter (fn (p : row persons) => {program}) persons)")
            ran = self.explain(line)
            mark = re.search(r"\n    (.*)\n    ( *)(\^+)", ran.stdout)
            marked = mark and mark[1][len(mark[2]) :][: len(mark[3])]
            if ran.returncode != 0 or not ran.stdout.startswith(first) or marked != part or said not in ran.stdout:
                self.differ("a program with names", program, f"{ran.returncode} {ran.stdout}{ran.stderr}", f"{first} {part}")
        for line in ("no 21 2", "ok 2"):
            if self.explain(line).returncode != 1:
                self.differ("a program with names", line, self.explain(line).stdout, 1)

    def piped(self):
        """Replies of a script, of which the first refusal counts."""
        with open(self.file, "w") as file:
            file.write("size persons * 2")
        replies = "hello mia\nanswer 0 1004 500000\nno 21 2\nno 13\nbye"
        ran = self.explain(replies)
        if ran.returncode != 0 or not ran.stdout.startswith("no 21 2: "):
            self.differ("replies", replies, f"{ran.returncode} {ran.stdout}{ran.stderr}", "no 21 2")

    def asked(self):
        """What tools/ask says of a refused program, and the command that it names; and of what is no file."""
        with open(self.file, "w") as file:
            file.write("size persons * 2")
        said = f"tools/ask: tools/explain {CATALOG} labour {self.file} 'no 21 2' says why\n"
        for name, wanted in (
            (self.file, (1, "hello mia\nno 21 2\nbye\n", said)),
            (self.room, (2, "", f"tools/ask: {self.room} is a folder\n")),
            ("/nowhere", (2, "", "tools/ask: there is no /nowhere\n")),
        ):
            words = [f"{TOP}/tools/ask", CATALOG, "examples/survey/key", "mia", "labour", "0.5", name]
            ran = subprocess.run(words, cwd=TOP, capture_output=True, text=True, env={**os.environ, "PROGRAM": PROGRAM})
            if (ran.returncode, ran.stdout, ran.stderr) != wanted:
                self.differ("tools/ask", name, f"{ran.returncode} {ran.stdout}{ran.stderr}", wanted)

    def parts(self):
        """Refusals of a part, of which the whole knows nothing."""
        catalog = f"{self.room}/two.json"
        with open(catalog, "w") as file:
            json.dump(two_tables(), file)
        owner = read(bytes_of(catalog))["owners"][0]
        for program, refusal, name, said in PARTS:
            with open(self.file, "w") as file:
                file.write(program)
            of = next(partition["table"] for partition in owner["partitions"] if partition["name"] == name)
            found = judgement(program.encode(), [table for table in signature(owner) if table[0] == of])
            ran = self.explain(found, catalog)
            wrong = [words for words in said if (words[1:] in ran.stdout) == words.startswith("!")]
            if found != f"no {refusal}" or ran.returncode != 0 or wrong:
                self.differ("a part", program, f"{found} {ran.returncode} {ran.stdout}{ran.stderr}", said)
        with open(self.file, "w") as file:
            file.write("size persons")
        for line, status in (("ok 1", 0), ("ok 2", 1), ("no 21 2", 1)):
            if self.explain(line, catalog).returncode != status:
                self.differ("a part", program, self.explain(line, catalog).stdout, status)

    def others(self):
        """Lines that aren't the program's refusal, and words that are said of each line, with a program and without."""
        with open(self.file, "w") as file:
            file.write("size persons")
        for line, words in LINES:
            ran = self.called(line)
            if ran.returncode != 0 or not ran.stdout.startswith(f"{line}: ") or words not in ran.stdout or ran.stdout.count("\n") != 1:
                self.differ("words", line, f"{ran.returncode} {ran.stdout}{ran.stderr}", words)
        for line in NO_LINES:
            if self.called(line).returncode != 2 or "no line that the program writes" not in self.called(line).stderr:
                self.differ("words", line, self.called(line).stdout, "none")
        for line, words in OTHERS:
            ran = self.explain(line)
            if ran.returncode != 0 or words not in ran.stdout:
                self.differ("words", line, f"{ran.returncode} {ran.stdout}{ran.stderr}", words)
        for line, status in (("ok 1", 0), ("ok", 0), ("ok 2", 1), ("no 21 2", 1), ("no 40 1 2 3", 2), ("", 2)):
            if self.explain(line).returncode != status:
                self.differ("status", line, self.explain(line).returncode, status)
        if self.called("--help").returncode != 0 or self.called().returncode != 2 or self.called("a", "b").returncode != 2:
            self.differ("words", "", "statuses of --help and of too few words", "0 and 2")

    def script(self, lines, said, name="script"):
        """What is said of a script's replies, a line a refusal."""
        script, replies = f"{self.room}/{name}", f"{self.room}/replies"
        for path, texts in ((script, [line for line, _, _ in lines]), (replies, [reply for _, reply, _ in lines])):
            with open(path, "w") as file:
                file.write("".join(f"{text}\n" for text in texts))
        ran = self.called("--script", CATALOG, script, replies)
        for number, (line, reply, words) in enumerate(lines, 1):
            told = [one for one in ran.stdout.splitlines() if one.startswith(f"line {number}: ")]
            if words is None and told or words is not None and (len(told) != 1 or words not in told[0] or not told[0].startswith(f"line {number}: {reply}: ")):
                self.differ("script", line, f"{told} {ran.stderr}", words)
        if "\x1b" in ran.stdout:
            self.differ("script", name, "what a terminal takes for a command", "none")
        if ran.returncode != said:
            self.differ("script", name, f"{ran.returncode} {ran.stdout}", said)

    def scripts(self):
        self.script(SCRIPT, 0)
        self.script([("hello mia", "hello mia", None), ("ask labour 1 size persons", "no 21 2", "the rules accept the program of this line")], 1, "other")
        self.script([("hello mia", "hello mia", None), ("ask labour 1 size", "answer 0 1 2", "the rules say `no 21 1` of this line")], 1, "other")
        self.script([("hello mia", "no 13", "the rules answer it by `hello ..` of this line")], 1, "other")
        self.script([("hello mia", "hello", "the rules answer it by `hello ..` of this line")], 1, "other")
        self.script([("ask labour 1 1", "no 99", "the rules give no such reply of this line")], 1, "other")
        # What the machine may say in the place of any other reply.
        words = [("no 42 1", "closed"), ("no 50 0", "4096 draws"), ("no 51 0", "it is charged"), ("no 52", "may be charged"), ("no 90", "nothing is charged")]
        words.append(("no 41 9 0 10", "no room"))
        asked = [("ask labour 1 size persons", reply, said) for reply, said in words] + [("ask labour 1 size", "no 90", "nothing")]
        self.script([("hello mia", "hello mia", None), *asked], 0, "machine")
        with open(f"{self.room}/script", "w") as file:
            file.write("hello mia\nbye\n")
        for replies, status, words in (("refused key\n", 0, "'key' is the file"), ("hello mia\n", 1, "2 lines, and there are 1 replies"), ("", 1, "0 replies")):
            with open(f"{self.room}/replies", "w") as file:
                file.write(replies)
            ran = self.called("--script", CATALOG, f"{self.room}/script", f"{self.room}/replies")
            if ran.returncode != status or words not in ran.stdout:
                self.differ("replies", replies, f"{ran.returncode} {ran.stdout}", words)

    def script_by_program(self):
        given = "".join(f"{line}\n" for line, _, _ in SCRIPT)
        key, env = "examples/survey/key", {**os.environ, "PROGRAM": PROGRAM}
        ran = subprocess.run([f"{TOP}/tools/afresh", CATALOG, key], input=given, capture_output=True, text=True, cwd=TOP, env=env)
        for (line, reply, _), said in zip(SCRIPT, ran.stdout.splitlines()):
            if said != reply and not (said.startswith("answer ") and reply.startswith("answer ")):
                self.differ("the program", line, said, reply)

    def by_failures(self):
        """Replies of a program whose memory or disk is made to fail: 42, 52, 51 and 90 are said in words."""
        for name in ("refuse_allocation", "fail_disk"):
            subprocess.run(["cc", "-O1", "-shared", "-fPIC", "-o", f"{self.room}/{name}.so", f"{TOP}/tests/faults/{name}.c", "-ldl"], check=True)
        script = "hello mia\nask labour 0.5 size persons\nask labour 0.5 size (union persons persons)\nbye\n"
        came, wanted = set(), {"fail_disk": {"42", "52"}, "refuse_allocation": {"51", "90"}}
        for library, faults in (("fail_disk", "FAIL"), ("refuse_allocation", "REFUSE")):
            # Each call, the last ones first: a run writes its records, and runs its programs, after all that it opens.
            for number in range(int(self.run_failing(script, library, {"TELL": "1"}).stderr), 0, -1):
                if came >= wanted[library]:
                    break
                came |= self.said_of(script, library, {faults: str(number)}, came)
            if not came >= wanted[library]:
                self.differ("failures", "", sorted(came), sorted(wanted[library]))

    def said_of(self, script, library, faults, came):
        """The codes that came for the first time, each of which must be said in words."""
        ran = self.run_failing(script, library, faults)
        codes = {reply.split()[1] for reply in ran.stdout.splitlines() if reply.startswith("no ")} - came
        if ran.returncode == 0 and codes:
            with open(f"{self.room}/replies", "w") as file:
                file.write(ran.stdout)
            told = self.called("--script", CATALOG, f"{self.room}/script", f"{self.room}/replies")
            if told.returncode != 0 or any(f": no {code}" not in told.stdout for code in codes):
                self.differ("a failure", ran.stdout, told.stdout + told.stderr, codes)
            return codes
        return set()

    def run_failing(self, script, library, faults):
        with open(f"{self.room}/script", "w") as file:
            file.write(script)
        shutil.rmtree(f"{self.room}/journals", ignore_errors=True)
        if not os.path.islink(f"{self.room}/examples"):
            os.symlink(f"{TOP}/examples", f"{self.room}/examples")
        words = [CATALOG, "examples/survey/key"]
        subprocess.run([PROGRAM, "init", *words], cwd=self.room, capture_output=True, check=True)
        env = {**os.environ, "LD_PRELOAD": f"{self.room}/{library}.so", **faults}
        return subprocess.run([PROGRAM, "run", *words], input=script, capture_output=True, text=True, cwd=self.room, env=env)


def main():
    alone = sys.argv[1:] == ["--alone"]
    if not alone and "PROGRAM" not in os.environ:
        subprocess.run([f"{TOP}/tools/build"], check=True)
    with tempfile.TemporaryDirectory() as room:
        trial = Trial(room)
        for program, refusal, marked, said in CASES:
            trial.one(program, refusal, marked, said)
            if not alone:
                trial.by_program(program, refusal)
        trial.walked()
        trial.by_client()
        trial.piped()
        trial.parts()
        trial.others()
        trial.scripts()
        if not alone:
            trial.script_by_program()
            trial.asked()
            if shutil.which("cc"):
                trial.by_failures()
    lacking = [code for code in CODES if code not in trial.codes]
    print(f"{len(CASES)} refusals of {len(trial.codes)} codes, {trial.differences} differences")
    if lacking:
        print("no program for", ", ".join(lacking))
    sys.exit(1 if trial.differences or lacking else 0)


main()
