#!/usr/bin/env python3
"""Counts the places that docs/DESIGN-PASS.md speaks of, by its eight points.

    python3 tools/count_places.py [-v] [FOLDER]

FOLDER is a checkout of this repository, here by default. -v prints each place.
"""
import collections
import glob
import os
import re
import sys

VERBOSE = '-v' in sys.argv
args = [a for a in sys.argv[1:] if a != '-v']
ROOT = args[0] if args else '.'

FN = re.compile(r'^(\s*)(pub(\(crate\))? )?fn (\w+)')


def sources():
    for path in sorted(glob.glob(os.path.join(ROOT, 'crates/*/src/**/*.rt'), recursive=True)):
        yield os.path.relpath(path, ROOT), open(path, encoding='utf8').read()


def functions():
    """Path, name, signature, clauses and body of each function."""
    for path, text in sources():
        lines = text.split('\n')
        i = 0
        while i < len(lines):
            m = FN.match(lines[i])
            if not m:
                i += 1
                continue
            indent = m.group(1)
            start = i
            while i < len(lines) and lines[i].rstrip() not in (indent + '{',) and not lines[i].rstrip().endswith((';', '{}')) \
                    and not (i == start and lines[i].rstrip().endswith('{')) and not lines[i].startswith(indent + ') -> ') :
                i += 1
            while i < len(lines) and lines[i].rstrip() != indent + '{' and not lines[i].rstrip().endswith((' {', ';', '{}')):
                i += 1
            head = lines[start:i + 1]
            body = []
            i += 1
            while i < len(lines) and lines[i].rstrip() != indent + '}':
                if FN.match(lines[i]) and len(FN.match(lines[i]).group(1)) <= len(indent):
                    break
                body.append(lines[i])
                i += 1
            clauses = [l.strip() for l in head if re.match(r'\s*(requires|ensures)\b', l)]
            signature = ' '.join(l.strip() for l in head if l.strip() not in clauses)
            yield path, m.group(4), signature, clauses, '\n'.join(body)


def shown(title, places):
    print(f'{len(places):5}  {title}')
    if VERBOSE:
        for p in places:
            print(f'         {p}')


def lines_like(pattern, flags=0):
    found = []
    for path, text in sources():
        for n, line in enumerate(text.split('\n'), 1):
            if re.search(pattern, line, flags):
                found.append(f'{path}:{n}: {line.strip()[:90]}')
    return found


def shape(body):
    """The body with each name and number replaced by the order of its first appearance."""
    seen = {}
    out = []
    for token in re.findall(r'b?"[^"]*"|\w+|[^\w\s]', body):
        if re.match(r'\w|b?"', token) and token not in ('let', 'mut', 'if', 'else', 'for', 'in', 'match', 'return', 'while', 'self', 'Ok', 'Err', 'Some', 'None'):
            token = '#%d' % seen.setdefault(token, len(seen))
        out.append(token)
    return tuple(out)


everything = list(functions())

print('1. Option, Result and enums in other dress')
shown('a change that answers a bool for its refusal', [f'{p}: {n}' for p, n, s, c, b in everything if '&mut self' in s and '-> bool' in s])
shown('functions that make numbers of refusals or kinds', [f'{p}: {n}' for p, n, s, c, b in everything
      if re.search(r'fn (told\w*|number)\b', s) or (re.search(r'-> (usize|\(usize, usize\)|\[usize; 4\])', s) and re.search(r'=> \(?\d+,', b))])
shown('an Option made an error by hand (if let Some(place) ..)', lines_like(r'if let Some\(place\)'))
shown('let .. else that only returns None', [f'{p}: {n}' for p, n, s, c, b in everything for _ in re.findall(r'let Some\(\w+\) = [^;]*? else \{\s*return None;', b)])
shown('match on a Result that keeps one side (Ok(x) => Ok(x), Ok(()) => X, Err(e) => Y(e))', [f'{p}: {n}' for p, n, s, c, b in everything
      for _ in re.findall(r'Ok\((\w+)\) => (?:Ok\()?\1\b|Ok\(\(\)\) => \w|Err\((\w+)\) => \w+::\w+\(\2\)', b)])

print('2. Twins: functions whose bodies differ in names, numbers and types alone')
groups = collections.defaultdict(list)
for p, n, s, c, b in everything:
    t = shape(b)
    if len(t) >= 16:
        groups[t].append(f'{p}: {n}')
twins = [' = '.join(g) for g in groups.values() if len(g) > 1]
shown('groups of such functions', twins)
shown('structs of an array and how much of it counts', [f'{path}: {m.group(1)}' for path, text in sources()
      for m in re.finditer(r'struct (\w+)[^{;]*\{([^}]*(?:\{[^}]*\}[^}]*)*)\}', text) if re.search(r': \[[^\]]*; \w+\]', m.group(2)) and re.search(r'\b(count|len): usize', m.group(2))])

print('3. Loops by a counted index')
shown('for i in a..b', lines_like(r'^\s*(\'\w+: )?for \w+ in [^{]*\.\.'))
shown('while', lines_like(r'^\s*while '))

print('4. Equality, order, conversion, printing by hand')
shown('functions named for them', [f'{p}: {n}' for p, n, s, c, b in everything
      if re.fullmatch(r'same|name|plus|is_clear|is_plain|is_whole|size|decimal|numbers?|sizes|absolute', n)])
shown('anyhow! in place of an error type', lines_like(r'anyhow!\('))

print('5. Facts in several contracts, parameters that travel together')
clause = collections.defaultdict(set)
for p, n, s, c, b in everything:
    for l in c:
        m = re.match(r'(?:requires|ensures)(?: \w+)? \{ (.*) \}$', l)
        if m:
            clause[(p.split('/')[1], m.group(1))].add((p, n))
shown('clauses that stand in three or more contracts of a crate', [f'{k[0]}: {len(v)} times: {k[1][:80]}' for k, v in clause.items() if len(v) >= 3])
shown('records written out in clauses', lines_like(r'^\s*(requires|ensures).*record \{'))
pairs = collections.defaultdict(set)
for p, n, s, c, b in everything:
    parameters = re.findall(r'(\w+): ([^,()]+(?:\([^)]*\))?)', s.split('->')[0])
    names = sorted({f'{a}: {t.strip()}' for a, t in parameters})
    for i, x in enumerate(names):
        for y in names[i + 1:]:
            pairs[(p.split('/')[1], x, y)].add((p, n))
shown('pairs of parameters in three or more functions of a crate', [f'{k[0]}: {len(v)} times: {k[1]}, {k[2]}' for k, v in pairs.items() if len(v) >= 3])

print('6. Buffers with a length, places for parts of a text')
shown('fields count, len, length, pos, start, number of an array or a text', lines_like(r'^\s*(pub(\(crate\))? )?(count|len|length|pos|start): usize'))
shown('functions that read into a buffer by hand', [f'{p}: {n}' for p, n, s, c, b in everything if n == 'read_all'])

print('7. A switch on which step to run')
shown('match arms that pick a function of the crate', lines_like(r'^\s*\w+::\w+(\(.*\))? => [a-z_]+\(\w+\),'))

print('8. Proofs')
for name, pattern in (('answers', r'^pub [\w-]+ : goal\.'), ('lines of proof', r'\S')):
    total = collections.Counter()
    for path in glob.glob(os.path.join(ROOT, 'crates/*/proofs/**/*.antt'), recursive=True):
        crate = os.path.relpath(path, ROOT).split('/')[1]
        total[crate] += sum(1 for l in open(path, encoding='utf8') if re.search(pattern, l))
    print(f'{sum(total.values()):5}  {name}: ' + ', '.join(f'{c} {n}' for c, n in sorted(total.items())))
