#!/usr/bin/env python3
"""Writes the grammar's tables of fz_parser: specs/Table.antt, specs/Rows.antt and src/tables.rt.

Nothing that this program finds is believed: the crate's proofs test each table by computing."""
import os

WORDS = 'Fun Fn Let In Case Of Inl Inr If Then Else Fst Snd True False Num Text Unit Bool Bag Inf Size Sum Clip Least Greatest Map Filter Split Union Do Release At'.split()
SIGNS = [('LeftParenthesis', '('), ('RightParenthesis', ')'), ('LeftAngle', '<'), ('RightAngle', '>'), ('LeftBracket', '['), ('RightBracket', ']'), ('Comma', ','), ('Colon', ':'), ('Is', '='), ('Bang', '!'), ('Bar', '|'), ('Plus', '+'), ('Minus', '-'), ('Star', '*'), ('Ampersand', '&'), ('Slash', '/'), ('Yields', '=>'), ('Arrow', '->'), ('Lollipop', '-o'), ('AtMost', '<='), ('EqualTo', '==')]
CLASSES = 64
# A terminal by what stands for it in a rule below: its number, and how antt and Rust name it.
terminals = {'NAME': (1, 'Named', 'Named'), 'NUMBER': (2, 'Numeral', 'Numeral'), 'SMALL': (3, 'Positive', 'Positive'), 'TEXT': (4, 'Quoted', 'Quoted')}
for i, (n, s) in enumerate(SIGNS):
    terminals[s] = (5 + i, f'(Symbol {n})', f'Symbol(Sign::{n})')
for i, w in enumerate(WORDS):
    terminals[w.lower()] = (26 + i, f'(Keyword {w})', f'Keyword(Word::{w})')

BEGUN, NAME, NUMBER, POSITIVE, TEXT, INTEGER, FACTOR, TYPE, TERM = range(9)
# What an action takes, the last part first, and what it gives.
ACTIONS = {
    'Begin': ([], BEGUN),
    'FunTerm': ([TERM, TYPE, NAME, BEGUN], TERM), 'FnTerm': ([TERM, TYPE, NAME, BEGUN], TERM),
    'LetBangTerm': ([TERM, TERM, NAME, BEGUN], TERM), 'LetPairTerm': ([TERM, TERM, NAME, NAME, BEGUN], TERM), 'LetTerm': ([TERM, TERM, NAME, BEGUN], TERM),
    'CaseTerm': ([TERM, NAME, TERM, NAME, TERM, BEGUN], TERM), 'IfTerm': ([TERM, TERM, TERM, BEGUN], TERM),
    'AtMostTerm': ([TERM, TERM], TERM), 'EqualTerm': ([TERM, TERM], TERM), 'PlusTerm': ([TERM, TERM], TERM), 'MinusTerm': ([TERM, TERM], TERM), 'ApplyTerm': ([TERM, TERM], TERM),
    'NegativeTerm': ([NUMBER, BEGUN], TERM), 'NegativeTimesTerm': ([TERM, NUMBER, BEGUN], TERM), 'TimesTerm': ([TERM, NUMBER], TERM), 'NumberTerm': ([NUMBER], TERM),
    'FstTerm': ([TERM, BEGUN], TERM), 'SndTerm': ([TERM, BEGUN], TERM), 'SizeTerm': ([TERM, BEGUN], TERM), 'LeastTerm': ([TERM, BEGUN], TERM), 'GreatestTerm': ([TERM, BEGUN], TERM),
    'SumTerm': ([TERM, INTEGER, INTEGER, BEGUN], TERM), 'ClipTerm': ([TERM, INTEGER, INTEGER, BEGUN], TERM),
    'InlTerm': ([TERM, TYPE, BEGUN], TERM), 'InrTerm': ([TERM, TYPE, BEGUN], TERM), 'BangTerm': ([TERM, FACTOR, BEGUN], TERM),
    'MapTerm': ([TERM, TERM, BEGUN], TERM), 'FilterTerm': ([TERM, TERM, BEGUN], TERM), 'SplitTerm': ([TERM, TERM, BEGUN], TERM), 'UnionTerm': ([TERM, TERM, BEGUN], TERM),
    'NameTerm': ([NAME], TERM), 'TextTerm': ([TEXT], TERM), 'TrueTerm': ([], TERM), 'FalseTerm': ([], TERM), 'UnitTerm': ([BEGUN], TERM),
    'GroupTerm': ([TERM, BEGUN], TERM), 'PairTerm': ([TERM, TERM, BEGUN], TERM), 'WithTerm': ([TERM, TERM, BEGUN], TERM),
    'PlainInteger': ([NUMBER], INTEGER), 'NegativeInteger': ([NUMBER], INTEGER),
    'WholeFactor': ([POSITIVE], FACTOR), 'FractionFactor': ([POSITIVE, POSITIVE], FACTOR), 'InfFactor': ([], FACTOR),
    'LollipopType': ([TYPE, TYPE], TYPE), 'ArrowType': ([TYPE, TYPE], TYPE), 'SumType': ([TYPE, TYPE], TYPE), 'TensorType': ([TYPE, TYPE], TYPE), 'WithType': ([TYPE, TYPE], TYPE),
    'BangType': ([TYPE, FACTOR, BEGUN], TYPE), 'BagType': ([TYPE, BEGUN], TYPE),
    'NumType': ([], TYPE), 'TextType': ([], TYPE), 'UnitType': ([], TYPE), 'BoolType': ([], TYPE), 'GroupType': ([TYPE, BEGUN], TYPE),
}
# An action in the rules above that is one of several of a form: the form, the operation, and its type in fz_ast.
OPERATIONS = {}
for form, kind, names in [('LambdaTerm', 'Arrow', 'Fun Fn'), ('InfixTerm', 'Binary', 'AtMost Equal Plus Minus App'), ('PrefixTerm', 'Binary', 'Map Filter Split Union Pair With'),
                          ('UnaryTerm', 'Unary', 'Fst Snd Size Least Greatest'), ('RangedTerm', 'Ranged', 'Sum Clip'), ('InjectTerm', 'Side', 'Inl Inr'), ('TruthTerm', 'Side', 'Inl Inr')]:
    for name in names.split():
        OPERATIONS[{'TruthTermInl': 'TrueTerm', 'TruthTermInr': 'FalseTerm', 'InfixTermApp': 'ApplyTerm'}.get(form + name, name + 'Term')] = (form, name, kind)
for name in 'Lollipop Sum Tensor With'.split():
    OPERATIONS[name + 'Type'] = ('JoinType', name, 'Joint')
FORMS = []
for a in ACTIONS:
    form = OPERATIONS[a][0] if a in OPERATIONS else a
    if form not in FORMS:
        FORMS.append(form)
KEPT = {'NAME': [NAME], 'NUMBER': [NUMBER], 'SMALL': [POSITIVE], 'TEXT': [TEXT]}
# A phrase, and what it takes from the parts; each gives one.
PHRASES = {
    'Expression': [], 'Binding': [BEGUN], 'Comparison': [], 'ComparisonTail': [TERM], 'Addition': [], 'AdditionTail': [TERM],
    'Multiplication': [], 'NegativeTail': [NUMBER, BEGUN], 'NumeralTail': [NUMBER], 'Application': [], 'ApplicationTail': [TERM],
    'Atom': [], 'Simple': [], 'Inside': [BEGUN], 'InsideTail': [TERM, BEGUN], 'Integer': [], 'Sensitivity': [], 'SensitivityTail': [POSITIVE],
    'AnyType': [], 'AnyTypeTail': [TYPE], 'PlusType': [], 'PlusTypeTail': [TYPE], 'ProductType': [], 'ProductTypeTail': [TYPE], 'PrefixType': [],
}
GIVES = {p: TERM for p in PHRASES}
GIVES.update({p: TYPE for p in PHRASES if 'Type' in p})
GIVES.update({'Integer': INTEGER, 'Sensitivity': FACTOR, 'SensitivityTail': FACTOR})

rules = []


def rule(head, text, comment=''):
    items = []
    for x in text.split():
        if x in terminals:
            items.append(('Take', x))
        elif x in ACTIONS:
            items.append(('Make', x))
        elif x in PHRASES:
            items.append(('Read', x))
        else:
            raise Exception(x)
    rules.append((head, items, comment))


rule('Expression', 'fun Begin ( NAME : AnyType ) => Expression FunTerm', 'term := fun ( name : type ) => term')
rule('Expression', 'fn Begin ( NAME : AnyType ) => Expression FnTerm', '      | fn ( name : type ) => term')
rule('Expression', 'let Begin Binding', '      | let ..')
rule('Binding', '! NAME = Expression in Expression LetBangTerm', '      .. ! name = term in term')
rule('Binding', '( NAME , NAME ) = Expression in Expression LetPairTerm', '      .. ( name , name ) = term in term')
rule('Binding', 'NAME = Expression in Expression LetTerm', '      .. name = term in term')
rule('Expression', 'case Begin Expression of inl NAME => Expression | inr NAME => Expression CaseTerm', '      | case term of inl name => term | inr name => term')
rule('Expression', 'if Begin Expression then Expression else Expression IfTerm', '      | if term then term else term')
rule('Expression', 'Comparison', '      | cmp')
rule('Comparison', 'Addition ComparisonTail', 'cmp := add [ ( <= | == ) add ]')
rule('ComparisonTail', '<= Addition AtMostTerm')
rule('ComparisonTail', '== Addition EqualTerm')
rule('ComparisonTail', '')
rule('Addition', 'Multiplication AdditionTail', 'add := mul { ( + | - ) mul }, grouped to the left: the part is made before the next sign is read')
rule('AdditionTail', '+ Multiplication PlusTerm AdditionTail')
rule('AdditionTail', '- Multiplication MinusTerm AdditionTail')
rule('AdditionTail', '')
rule('Multiplication', '- Begin NUMBER NegativeTail', 'mul := - number [ * mul ]')
rule('NegativeTail', '* Multiplication NegativeTimesTerm')
rule('NegativeTail', 'NegativeTerm')
rule('Multiplication', 'NUMBER NumeralTail', '     | number * mul, or an app that begins with a number')
rule('NumeralTail', '* Multiplication TimesTerm')
rule('NumeralTail', 'NumberTerm ApplicationTail')
rule('Multiplication', 'Application', '     | app')
for w in 'Fst Snd Size Least Greatest'.split():
    rule('Application', f'{w.lower()} Begin Atom {w}Term', 'app := op1 atom' if w == 'Fst' else '')
rule('Application', 'sum Begin [ Integer , Integer ] Atom SumTerm')
rule('Application', 'clip Begin [ Integer , Integer ] Atom ClipTerm')
rule('Application', 'inl Begin [ AnyType ] Atom InlTerm')
rule('Application', 'inr Begin [ AnyType ] Atom InrTerm')
rule('Application', '! Begin [ Sensitivity ] Atom BangTerm')
for w in 'Map Filter Split Union'.split():
    rule('Application', f'{w.lower()} Begin Atom Atom {w}Term', '     | op2 atom atom' if w == 'Map' else '')
rule('Application', 'Simple ApplicationTail', '     | atom { atom }, grouped to the left')
rule('ApplicationTail', 'Atom ApplyTerm ApplicationTail')
rule('ApplicationTail', '')
rule('Atom', 'NUMBER NumberTerm', 'atom := number')
rule('Atom', 'Simple')
rule('Simple', 'NAME NameTerm', '      | name | text | true | false')
rule('Simple', 'TEXT TextTerm')
rule('Simple', 'true TrueTerm')
rule('Simple', 'false FalseTerm')
rule('Simple', '( Begin Inside', '      | ( ) | ( term ) | ( term , term )')
rule('Simple', '< Begin Expression , Expression > WithTerm', '      | < term , term >')
rule('Inside', ') UnitTerm')
rule('Inside', 'Expression InsideTail')
rule('InsideTail', ') GroupTerm')
rule('InsideTail', ', Expression ) PairTerm')
rule('Integer', '- NUMBER NegativeInteger', 'int := [ - ] number')
rule('Integer', 'NUMBER PlainInteger')
rule('Sensitivity', 'SMALL SensitivityTail', 'sens := number [ / number ] | inf, each from 1 to 2^32 - 1')
rule('SensitivityTail', '/ SMALL FractionFactor')
rule('SensitivityTail', 'WholeFactor')
rule('Sensitivity', 'inf InfFactor')
rule('AnyType', 'PlusType AnyTypeTail', 'type := plus [ ( -o | -> ) type ], grouped to the right')
rule('AnyTypeTail', '-o AnyType LollipopType')
rule('AnyTypeTail', '-> AnyType ArrowType')
rule('AnyTypeTail', '')
rule('PlusType', 'ProductType PlusTypeTail', 'plus := prod [ + plus ]')
rule('PlusTypeTail', '+ PlusType SumType')
rule('PlusTypeTail', '')
rule('ProductType', 'PrefixType ProductTypeTail', 'prod := pre [ ( * | & ) prod ]')
rule('ProductTypeTail', '* ProductType TensorType')
rule('ProductTypeTail', '& ProductType WithType')
rule('ProductTypeTail', '')
rule('PrefixType', '! Begin [ Sensitivity ] PrefixType BangType', 'pre := ! [ sens ] pre')
rule('PrefixType', 'bag Begin PrefixType BagType', '     | bag pre')
for w in 'Num Text Unit Bool'.split():
    rule('PrefixType', f'{w.lower()} {w}Type', '     | num | text | unit | bool' if w == 'Num' else '')
rule('PrefixType', '( Begin AnyType ) GroupType', '     | ( type )')

number = {x: i for i, x in enumerate(PHRASES)}


def fits(k, c):
    return c == k or (k == 2 and c == 3)


# FIRST with what may be empty, FOLLOW.
null = {x: False for x in PHRASES}
first = {x: set() for x in PHRASES}
follow = {x: set() for x in PHRASES}


def begin(seq):
    s = set()
    for t, x in seq:
        if t == 'Take':
            return s | {c for c in range(CLASSES) if fits(terminals[x][0], c)}, False
        if t == 'Read':
            s |= first[x]
            if not null[x]:
                return s, False
    return s, True


# What is read by itself: the end may follow.
GOALS = ['Expression', 'AnyType', 'Sensitivity']
for x in GOALS:
    assert PHRASES[x] == []
    follow[x] = {0}
changed = True
while changed:
    changed = False
    for h, b, _ in rules:
        f, e = begin(b)
        if not f <= first[h]:
            first[h] |= f
            changed = True
        if e and not null[h]:
            null[h] = True
            changed = True
        for i, (t, x) in enumerate(b):
            if t == 'Read':
                f, e = begin(b[i + 1:])
                if e:
                    f = f | follow[h]
                if not f <= follow[x]:
                    follow[x] |= f
                    changed = True
choice = {x: [0] * CLASSES for x in PHRASES}
for p, (h, b, _) in enumerate(rules):
    f, e = begin(b)
    if e:
        f = f | follow[h]
    for k in f:
        assert not choice[h][k], ('conflict', h, k)
        choice[h][k] = p + 1
# The rule by which a shortest word comes, and how many steps it takes.
cost = {x: 10 ** 9 for x in PHRASES}
least = {}
changed = True
while changed:
    changed = False
    for p, (h, b, _) in enumerate(rules):
        v = 1 + sum(cost[x] if t == 'Read' else 1 for t, x in b)
        if v < cost[h]:
            cost[h], least[h], changed = v, p, True
# The steps before a token is taken.
weight = {x: 1 for x in PHRASES}


def lead(b):
    v = 0
    for t, x in b:
        if t == 'Take':
            return v + 1
        if t == 'Make':
            v += 1
        else:
            v += weight[x]
            if not null[x]:
                return v
    return v


changed = True
while changed:
    changed = False
    for h, b, _ in rules:
        if 1 + lead(b) > weight[h]:
            weight[h], changed = 1 + lead(b), True


def run(b, parts):
    for t, x in b:
        takes, gives = {'Take': lambda: ([], None), 'Make': lambda: ACTIONS[x], 'Read': lambda: (PHRASES[x], GIVES[x])}[t]()
        assert parts[:len(takes)] == takes, (b, parts)
        parts = (KEPT.get(x, []) if t == 'Take' else [gives]) + parts[len(takes):]
    return parts


for h, b, _ in rules:
    assert run(b, PHRASES[h]) == [GIVES[h]], (h, b)
total = sum(len(b) for _, b, _ in rules)
print('rules', len(rules), 'phrases', len(PHRASES), 'actions', len(ACTIONS), 'items', total, 'weight', max(weight.values()))


def antt(xs):
    return ' ∷ '.join(map(str, xs)) + (' ∷ []' if xs else '[]')


def item(i):
    t, x = i
    if t == 'Take':
        return f'Take {terminals[x][1]}'
    if t == 'Make' and x in OPERATIONS:
        form, name, kind = OPERATIONS[x]
        return f'Make ({form} {name}{kind})'
    return f'{t} {x}'


def as_named(kind):
    names = []
    for form, name, k in OPERATIONS.values():
        if k == kind and name not in names:
            names.append(name)
    return [f'{n} as {n}{kind}' for n in names]


WIDTH = 150


def filled(parts, between, first, other):
    """The parts one after another, on lines that begin with `first` and then `other`."""
    rows, row = [], first
    for i, x in enumerate(parts):
        x += between if i + 1 < len(parts) else ''
        if len(row) + len(x.rstrip()) > WIDTH and row not in (first, other):
            rows.append(row.rstrip())
            row = other
        row += x
    return '\n'.join(rows + [row])


def imports(module, names):
    """`use` lines of these names, as many as there must be."""
    rows, row = [], []
    for x in names:
        if row and len(f'use {module}.{{{", ".join(row + [x])}}}') > WIDTH:
            rows.append(row)
            row = []
        row.append(x)
    return ''.join(f'use {module}.{{{", ".join(r)}}}\n' for r in rows + [row])


root = os.path.join(os.path.dirname(os.path.abspath(__file__)), '..', 'crates', 'fz_parser')
used_words = [w for w in WORDS if any(('Take', w.lower()) in b for _, b, _ in rules)]
used_signs = [n for n, s in SIGNS if any(('Take', s) in b for _, b, _ in rules)]
with open(root + '/specs/Table.antt', 'w') as f:
    f.write('''-- The grammar, a rule a line: what is replaced, and the items that stand for it. `Take` is a token, `Read` another phrase, and `Make` makes a part of
-- those just read.
-- Written by tools/grammar.py; the lines above a rule have it in the usual form.
use Rattle.std.specs.Prelude.{ℕ, List, [], ◌∷◌}
''')
    for module, names in [
            ('fz_lexer.specs.declared.token.Word.TheVariants', used_words),
            ('fz_lexer.specs.declared.token.Sign.TheVariants', used_signs),
            ('fz_parser.specs.declared.grammar.Item', ['Item']),
            ('fz_parser.specs.declared.grammar.Item.TheVariants', ['Take', 'Read', 'Make']),
            ('fz_parser.specs.declared.grammar.Terminal.TheVariants', ['Named', 'Numeral', 'Positive', 'Quoted', 'Keyword', 'Symbol']),
            ('fz_parser.specs.declared.grammar.Phrase', ['Phrase']),
            ('fz_parser.specs.declared.grammar.Phrase.TheVariants', list(PHRASES)),
            ('fz_parser.specs.declared.grammar.Action.TheVariants', FORMS),
            ('fz_parser.specs.declared.grammar.Joint.TheVariants', as_named('Joint')),
            *((f'fz_ast.specs.declared.term.{kind}.TheVariants', as_named(kind)) for kind in ['Arrow', 'Binary', 'Unary', 'Ranged', 'Side'])]:
        f.write(imports('Rattle.' + module, names))
    f.write('''
pub record Rule : Type 0 where
  pub head : Phrase
  pub body : List Item

abbrev is_ : Phrase → List Item → Rule
is_ head body = record { head = head; body = body }

abbrev pub rule_count : ℕ
rule_count = %d

unfoldable pub rules : List Rule
rules =
''' % len(rules))
    for h, b, c in rules:
        if c:
            f.write(f'    -- {c}\n')
        f.write(filled([item(i) for i in b] + ['[]) ∷'], ' ∷ ', f'    is_ {h} (', '    ') + '\n')
    f.write('    []\n')
with open(root + '/specs/Rows.antt', 'w') as f:
    f.write('-- Found by tools/grammar.py, and tested in proofs/Checks: nothing here is believed. By the phrases\' numbers.\nuse Rattle.std.specs.Prelude.{ℕ, List, [], ◌∷◌}\n')
    f.write('\n-- the classes of token that may follow\nunfoldable pub follow_rows : List (List ℕ)\nfollow_rows =\n')
    for x in PHRASES:
        f.write('    (' + antt(sorted(follow[x])) + ') ∷\n')
    f.write('    []\n')
    f.write('\n-- in each phrase, one more than a rule, and then the classes of token before which it is chosen\nunfoldable pub choice_rows : List (List (List ℕ))\nchoice_rows =\n')
    for x in PHRASES:
        chosen = [[p + 1] + [c for c in range(CLASSES) if choice[x][c] == p + 1] for p in range(len(rules)) if p + 1 in choice[x]]
        f.write('    (' + '\n    '.join('(' + antt(row) + ') ∷' for row in chosen) + ' []) ∷\n')
    f.write('    []\n')
    for name, comment, row in [
            ('least_rows', 'the rule by which a shortest word comes', [least[x] for x in PHRASES]),
            ('cost_rows', 'how many steps that takes', [cost[x] for x in PHRASES]),
            ('weight_rows', 'how many steps there are at most before a token is taken', [weight[x] for x in PHRASES]),
            ('empty_rows', '1 where no token may stand for it', [int(null[x]) for x in PHRASES])]:
        f.write(f'\n-- {comment}\nunfoldable pub {name} : List ℕ\n{name} = {antt(row)}\n')
    f.write('\n-- the sorts of the parts that are taken, the last one first\nunfoldable pub need_rows : List (List ℕ)\n' + filled(['(' + antt(PHRASES[x]) + ')' for x in PHRASES] + ['[]'], ' ∷ ', 'need_rows = ', '    ') + '\n')
    f.write('\n-- and of the one that is given\nunfoldable pub gift_rows : List ℕ\ngift_rows = ' + antt([GIVES[x] for x in PHRASES]) + '\n')
with open(root + '/src/tables.rt', 'w') as f:
    f.write('//! Written by tools/grammar.py. The proofs test each table against the grammar of specs/Table.\nuse crate::grammar::Item::{Make, Read, Take};\nuse crate::grammar::Terminal::{Keyword, Named, Numeral, Positive, Quoted, Symbol};\nuse crate::grammar::{Action, Item, Joint, Phrase};\nuse fz_ast::{Arrow, Binary, Ranged, Side, Unary};\nuse fz_lexer::{Sign, Word};\n\n')

    def rust(i):
        t, x = i
        if t == 'Make' and x in OPERATIONS:
            form, name, kind = OPERATIONS[x]
            return f'Make(Action::{form}({kind}::{name}))'
        return {'Take': lambda: f'Take({terminals[x][2]})', 'Read': lambda: f'Read(Phrase::{x})', 'Make': lambda: f'Make(Action::{x})'}[t]()
    # A rule a line, and a phrase's row a line: `rt fmt` leaves what is marked so.
    f.write('/// The bodies of the rules, one after another: a rule that has one a line.\n')
    f.write(f'#[rattlefmt::skip]\npub static ITEMS: [Item; {total}] = [\n')
    starts = [0]
    for h, b, _ in rules:
        if b:
            f.write(filled([rust(i) for i in b], ', ', '    ', '        ') + ',\n')
        starts.append(starts[-1] + len(b))
    f.write('];\n\n/// Where each rule\'s body begins.\n')
    f.write(f'#[rattlefmt::skip]\npub static STARTS: [u16; {len(starts)}] = [\n')
    for i in range(0, len(starts), 26):
        f.write('    ' + ', '.join(map(str, starts[i:i + 26])) + ',\n')
    f.write('];\n\n/// By the phrase and the class of the next token: one more than the rule, or 0.\n')
    f.write(f'#[rattlefmt::skip]\npub static CHOICES: [[u8; {CLASSES}]; {len(PHRASES)}] = [\n')
    for x in PHRASES:
        f.write(filled([str(c) for c in choice[x]], ', ', '    [', '        ') + '],\n')
    f.write('];\n')


def lines(names):
    rows, row = [], ''
    for x in names:
        if row and len(row) + len(x) > 95:
            rows.append(row)
            row = ''
        row += (' ' if row else '    ') + x + ','
    return ''.join(r + '\n' for r in rows + [row])


with open(root + '/src/grammar.rt', 'w') as f:
    f.write('''//! What the grammar is made of.
use fz_ast::{Arrow, Binary, Ranged, Side, Unary};
use fz_lexer::{Sign, Word};

/// What a token has to be.
#[derive(Clone, Copy)]
pub enum Terminal {
    Named,
    Numeral,
    /// A number from 1 to 2^32 - 1.
    Positive,
    Quoted,
    Keyword(Word),
    Symbol(Sign),
}

/// What a rule stands for.
#[derive(Clone, Copy)]
#[rattlefmt::skip]
pub enum Phrase {
''' + lines(PHRASES) + '''}

/// What stands between two types.
#[derive(Clone, Copy)]
pub enum Joint {
    Lollipop,
    Sum,
    Tensor,
    With,
}

/// What is made of the parts that were read last.
#[derive(Clone, Copy)]
#[rattlefmt::skip]
pub enum Action {
''' + lines(x + ''.join(f'({k})' for k in dict.fromkeys(k for f, _, k in OPERATIONS.values() if f == x)) for x in FORMS) + '''}

/// What a rule's body is made of.
#[derive(Clone, Copy)]
pub enum Item {
    /// A token.
    Take(Terminal),
    /// What one of the phrase's rules stands for.
    Read(Phrase),
    /// A part is made.
    Make(Action),
}

/// What is on top of the stack before a token.
#[derive(Clone, Copy)]
pub enum Top {
    /// Nothing.
    Empty,
    /// Such a token.
    Wants(Terminal),
    /// No rule fits.
    DeadEnd,
}
''')
