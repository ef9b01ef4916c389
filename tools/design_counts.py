#!/usr/bin/env python3
"""Counts the places of docs/DESIGN-PASS.md's points in crates/*/src: python3 tools/design_counts.py [-v] [FOLDER]."""
import collections
import glob
import os
import re
import sys

ARGS = [a for a in sys.argv[1:] if a != '-v']
ROOT = ARGS[0] if ARGS else '.'
SHOW = '-v' in sys.argv

CODE_NAMES = r'refusal|_no$|^first$|^class_of$|^flatten$|^chart_(check|flatten)|^fill_slot$|^number_of$|^name_of$|^other_name$|^named$|^slot_of$'
CODE_CONSTS = (r'^(DONE|FORM|AREA|RANGE|BUSY|NOSTEP|IDLE|STALE|ABSENT|TAKEN|FULL|DRY|HOLDS|INUSE|CHART|TABLE|LOAD|START|NEW|POST|POSTFRONT|'
               r'PUBLISH|SUBSCRIBE|UNSUBSCRIBE|HOLD|RELEASE|DROP|NEXT|END|ARM|DISARM|TICK|READ|DRAIN|DEFER|RECALL|FLUSH|FLAG|TOP|STATE|ROW|PIECE|'
               r'FRESH|TO_TABLES|TO_GUARDED|GUARDED_CASE|LOADED|ALL_DONE|STOPPED|LAST|RETIRED|NO_EVENT|NO_BLOCK|HERE)$')
OWN = r'\b(wide|one|least|copy|join|record_number|less|low_byte_first)\('
PRINTING = r'^(pub )?fn (with_|tell|write_|named|kept)'
LENGTH_NAMES = r'^(n|length|count|letters|size|written)$'


def sources():
    for path in sorted(glob.glob(os.path.join(ROOT, 'crates/*/src/**/*.rt'), recursive=True)):
        with open(path, encoding='utf-8') as f:
            yield os.path.relpath(path, ROOT), f.read()


def functions(text):
    """Each function's name, parameters, head up to its body, and body."""
    for m in re.finditer(r'^ *(?:pub )?(?:extern "C" )?fn (\w+)(?:<[^>]*>)?\(', text, re.M):
        depth, i = 1, m.end()
        while depth:
            depth += {'(': 1, ')': -1}.get(text[i], 0)
            i += 1
        params = [p.strip() for p in re.split(r',\s*(?![^<\[(]*[>\])])', text[m.end():i - 1]) if p.strip()]
        indent = len(m.group(0)) - len(m.group(0).lstrip(' '))
        end = text.find('\n' + ' ' * indent + '}', i)
        yield m.group(1), params, text[i:end], m.start()


def structs(text):
    for m in re.finditer(r'(?:struct|enum) (\w+)[^{;(]*\{\n(.*?)\n\}', text, re.S):
        yield m.group(0).split()[0], m.group(1), m.group(2)


def places():
    found = collections.defaultdict(list)
    bodies = collections.defaultdict(list)
    facts = collections.Counter()
    for path, text in sources():
        put = lambda point, name: found[point].append(f'{path}: {name}')
        for kind, name, body in structs(text):
            rows = [r.strip().rstrip(',') for r in body.split('\n') if r.strip() and not r.strip().startswith('//')]
            if kind == 'enum' and len(rows) == 2 and sum('(' in r for r in rows) == 1:
                put('1 enums shaped like Option', name)
            if kind != 'struct':
                continue
            fields = [re.match(r'(?:pub )?(\w+): (.*)', r) for r in rows]
            fields = [(f.group(1), f.group(2)) for f in fields if f]
            for field, type_ in fields:
                if type_ == 'bool':
                    put('1 flags in structs', f'{name}.{field}')
            arrays = [re.match(r'\[\w+; (\w+)\]', t) for _, t in fields]
            lengths = collections.Counter(a.group(1) for a in arrays if a)
            if lengths and any(re.match(LENGTH_NAMES, f) for f, _ in fields):
                put('6 buffers with a length beside', name)
            for length, n in lengths.items():
                if n > 1:
                    put('6 parallel arrays', f'{name}: {n} of {length}')
        for m in re.finditer(r'^(?:pub )?const (\w+): u(?:8|16|32)\b', text, re.M):
            if re.match(CODE_CONSTS, m.group(1)):
                put('1 numbers for kinds or refusals, constants', m.group(1))
        for name, params, rest, _ in functions(text):
            head, _, body = rest.partition('\n{\n') if '\n{\n' in rest else rest.partition('{\n')
            if re.search(CODE_NAMES, name) and re.search(r'-> u(8|32)\b', head):
                put('1 numbers for kinds or refusals, functions', name)
            if len(params) >= 6:
                put('5 six parameters or more', f'{name}: {len(params)}')
            shape = re.sub(r'\b[A-Z]\w*\b|\b\d\w*\b|"[^"]*"', '#', re.sub(r'\b\w+(?=\()', '@', body))
            if body.count('\n') >= 2 and len(shape) > 120:
                bodies[re.sub(r'\s+', ' ', shape)].append(f'{path}: {name}')
            for fact in set(re.findall(r'\{ \(?(Good|Mail|Holds|Sized|Ready|Reads|HavePlaces)\b', head)):
                facts[fact] += 1
        for i, line in enumerate(text.split('\n'), 1):
            if re.match(r' *while ', line):
                put('3 while loops', f'{i}: {line.strip()}')
            if re.search(OWN, line) and ' fn ' not in f' {line}':
                put('4 calls of conversions of our own', f'{i}')
            if re.match(PRINTING, line):
                put('4 printing by hand', line.strip()[:60])
            if re.search(r'\bdyn\b|: fn\(', line):
                put('7 dyn values and tables of functions', line.strip())
    for names in bodies.values():
        if len(names) > 1:
            found['2 twins'].append(' = '.join(names))
    for fact, n in facts.items():
        if n >= 3:
            found['5 facts in three contracts or more'].append(f'{fact}: {n}')
    proofs = [p for p in glob.glob(os.path.join(ROOT, 'crates/*/proofs/**/*.antt'), recursive=True) if '/out/' not in p]
    answers = [p for p in proofs if os.path.basename(p) in ('Answers.antt', 'Invariants.antt', 'Proof.antt')]
    for group, files in (('8 proof files of functions', answers), ('8 lemma files', [p for p in proofs if p not in answers])):
        lines = 0
        for p in files:
            with open(p, encoding='utf-8') as f:
                lines += f.read().count('\n')
        found[f'{group} ({lines} lines)'] = files
    return found


for point, names in sorted(places().items()):
    print(f'{len(names):4}  {point}')
    if SHOW and not point.startswith('8'):
        print('\n'.join('        ' + n for n in names))
