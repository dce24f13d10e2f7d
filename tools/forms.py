#!/usr/bin/env python3
"""Counts places of older forms in the crates' src/, point by point as docs/DESIGN-PASS.md lists them.

    tools/forms.py              one line for each count
    tools/forms.py POINT        every place of that point, as FILE:LINE: TEXT
"""
import collections
import glob
import re
import sys

FILES = sorted(glob.glob('crates/*/src/**/*.rt', recursive=True))
LINES = [(f, n, line.rstrip('\n')) for f in FILES for n, line in enumerate(open(f, encoding='utf-8'), 1)]
CODE = [place for place in LINES if not place[2].lstrip().startswith('//')]
FUNCTION = re.compile(
    r'^( *)(?:pub )?(?:extern "C" )?fn (\w+)(?:<[^>]*>)?\((.*?)\)(.*?)\n\1\{\n(.*?)\n\1\}', re.S | re.M)


def found(pattern):
    return ['%s:%d: %s' % (f, n, line.strip()) for f, n, line in CODE if re.search(pattern, line)]


def functions():
    for f in FILES:
        for m in FUNCTION.finditer('\n'.join(line for g, _, line in LINES if g == f)):
            yield f.split('/')[1], *m.groups()[1:]


def fields(kind):
    """Fields of that type in structs, which end with a comma and stand four columns in, before any function begins."""
    places, inside = [], False
    for f, n, line in CODE:
        if re.match(r'(pub )?struct \w+.*\{', line):
            inside = True
        elif line.startswith('}'):
            inside = False
        elif inside and re.search(r': %s,$' % kind, line):
            places.append('%s:%d: %s' % (f, n, line.strip()))
    return places


def twins():
    """Functions that another crate has too, by name or by body (with names of parameters aside)."""
    by_name, by_body = collections.defaultdict(list), collections.defaultdict(list)
    for crate, name, parameters, _, body in functions():
        for k, p in enumerate(re.findall(r'(\w+):', parameters)):
            body = re.sub(r'\b%s\b' % p, 'p%d' % k, body)
        by_name[name].append('%s::%s' % (crate, name))
        by_body[re.sub(r'\s+', ' ', body)].append('%s::%s' % (crate, name))
    groups = [g for g in by_name.values() if len(g) > 1]
    groups += [g for g in by_body.values() if len(g) > 1 and len({x.split('::')[1] for x in g}) > 1]
    return [' '.join(g) for g in groups]


def facts():
    """Conjuncts of `requires` clauses that stand in three functions or more."""
    where = collections.defaultdict(set)
    for crate, name, _, clauses, _ in functions():
        for clause in re.findall(r'requires[ \w]*\{(.*?)\}(?=\s*(?:requires|ensures|$))', clauses, re.S):
            depth, part, parts = 0, '', []
            for c in re.sub(r'\s+', ' ', clause):
                depth += (c == '(') - (c == ')')
                if c == '×' and depth == 0:
                    parts.append(part)
                    part = ''
                else:
                    part += c
            for p in parts + [part]:
                p = re.sub(r'^\((.*)\)$', r'\1', re.sub(r'\.(old|now)', '', p.strip()))
                where[p].add('%s::%s' % (crate, name))
    return ['%4d %s' % (len(w), p) for p, w in sorted(where.items(), key=lambda x: -len(x[1])) if len(w) > 2]


def wide(most):
    return ['%2d %s::%s' % (parameters.count(':'), crate, name)
            for crate, name, parameters, _, _ in functions() if parameters.count(':') > most]


def lengths():
    """Parameters that say how much of a slice beside them counts."""
    places = []
    for crate, name, parameters, clauses, _ in functions():
        for n in re.findall(r'(\w+): usize', parameters):
            for s in re.findall(r'(\w+): &(?:mut )?\[', parameters):
                if re.search(r'[({ ]%s ≤ length %s\.' % (n, s), clauses):
                    places.append('%s::%s %s, %s' % (crate, name, s, n))
    return places


def switches():
    return ['%s::%s %s' % (crate, name, p) for crate, name, parameters, _, _ in functions()
            for p in re.findall(r'\w+: (?:bool|By)\b', parameters)]


def answers():
    return ['%s:%d' % (f, n) for f in sorted(glob.glob('crates/*/proofs/*/Answers.antt'))
            for n, line in enumerate(open(f, encoding='utf-8'), 1) if re.match(r'pub \S+ : goal\.', line)]


COUNTS = [
    ('1 own enums', lambda: found(r'^ *(pub )?enum ')),
    ('1 flags in structs', lambda: fields('bool')),
    ('1 refusals by number',
     lambda: found(r'Refused ?[({]|(number|minutes|points|asked) != 0 \{|^ *(return )?([3-9]|1[0-9]);?$')),
    ('1 kinds by number', lambda: found(r'\bkind: u8|^(pub )?const \w+: u8 = [1-9];')),
    ('1 numbers for none', lambda: found(r'^ *(pub )?const (NO_\w+|NOWHERE|EMPTY|UNREACHED\w*)\b|fn nowhere')),
    ('2 twins', twins),
    ('3 loops by hand', lambda: found(r"^ *('\w+: )?(while|loop)\b|= loop \{$")),
    ('3 for loops', lambda: found(r"^ *('\w+: )?for ")),
    ('4 order by hand', lambda: found(r'fn (lesser|larger|earlier|later|goes_before|same\w*|is_same\w*)\b')),
    ('5 facts in three or more', facts),
    ('5 more than ten parameters', lambda: wide(10)),
    ('6 lengths beside slices', lengths),
    ('7 switches', switches),
    ('8 answers', answers),
]

if __name__ == '__main__':
    for title, places in COUNTS:
        if len(sys.argv) == 1:
            print('%-28s %4d' % (title, len(places())))
        elif title.startswith(sys.argv[1]):
            print('%s: %d' % (title, len(places())), *places(), sep='\n    ')
