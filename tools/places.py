#!/usr/bin/env python3
"""Lists the places in crates/*/src that docs/DESIGN-PASS.md counts, one point at a time.

    python3 tools/places.py [POINT] [-v]

Point 1: enums that are Option or Result by another name, flags and number codes. 2: functions that are the same but for names, types and
constants. 3: loops whose index or count is kept by hand. 4: impls and functions that compare, convert or print by hand. 5: clauses that
stand in three or more contracts, and parameters that three or more functions take together. 6: fixed arrays, and slices that are passed
with an index or a count. 7: functions that only choose which function to call. 8: answers and lemmas of the proofs.
A listing finds candidates; the page says of each what became of it. Tests are left out, but for point 3.
"""
import glob, os, re, sys
from collections import defaultdict

FUNC = re.compile(r'^\s*(?:pub(?:\(crate\))? )?(?:const )?fn (\w+)')

def sources():
    for path in sorted(glob.glob('crates/*/src/**/*.rt', recursive=True)):
        yield path, open(path, encoding='utf8').read().split('\n')

def is_test(path):
    return path.endswith('tests.rt')

def functions():
    """(path, line, name, parameters, clauses, body) of each function."""
    for path, lines in sources():
        i = 0
        while i < len(lines):
            m = FUNC.match(lines[i])
            if not m:
                i += 1
                continue
            start, head, depth = i, '', 0
            while True:
                head += lines[i] + '\n'
                depth += lines[i].count('(') - lines[i].count(')')
                if depth <= 0 and '(' in head:
                    break
                i += 1
            params = head[head.index('(') + 1:head.rindex(')')]
            clauses, i = [], i + 1
            if not lines[i - 1].rstrip().endswith(('{', ';', '{}')):
                text = ''
                while i < len(lines) and lines[i].strip() not in ('{', '{}'):
                    if re.match(r'\s*(requires|ensures)', lines[i]):
                        clauses.append(lines[i].strip())
                    elif clauses:
                        clauses[-1] += ' ' + lines[i].strip()
                    if lines[i].rstrip().endswith(';') or lines[i].strip() == '}':
                        break
                    i += 1
            body = []
            if i < len(lines) and lines[i].strip() == '{':
                depth, i = 1, i + 1
                while i < len(lines) and depth:
                    depth += lines[i].count('{') - lines[i].count('}')
                    if depth:
                        body.append(lines[i].strip())
                    i += 1
            yield path, start + 1, m.group(1), params, clauses, body

def strip(code):
    return [re.sub(r'//.*', '', line) for line in code]

def point1():
    for path, lines in sources():
        if is_test(path):
            continue
        for k, line in enumerate(lines, 1):
            m = re.search(r'\benum (\w+)', line)
            if m:
                j, names = k, []
                while j < len(lines) and lines[j].rstrip() != '}':
                    v = re.match(r'    (\w+)\s*(\(|\{|,| =)', lines[j])
                    if v:
                        names.append(v.group(1))
                    j += 1
                derived = 'derive(Clone, Copy, PartialEq, Eq, Debug)' in lines[k - 2]
                if not derived or {'None', 'Some', 'Ok', 'Err', 'Refused', 'Done', 'Failed'} & set(names):
                    yield path, k, 'enum ' + m.group(1) + ' { ' + ', '.join(names) + ' }'
            if re.match(r'\s+(pub )?\w+: bool,', line):
                yield path, k, 'flag: ' + line.strip()
    for path, line, name, params, clauses, body in functions():
        if is_test(path) or path.endswith('main.rt'):
            continue
        if len([b for b in body if re.search(r'=> (Ok\()?\(?\d+,?$', b) or re.match(r'\d+ => ', b)]) > 1:
            yield path, line, 'numbers for kinds: ' + name

def shape(body):
    text = ' '.join(strip(body))
    text = re.sub(r"b?'.'|b?\"[^\"]*\"|\b\d+\b", '#', text)
    return re.sub(r'\b\w+\b', lambda m: m.group(0) if m.group(0) in ('if', 'else', 'for', 'in', 'match', 'return', 'let', 'mut', 'while') else 'w', text)

def point2():
    groups = defaultdict(list)
    for path, line, name, params, clauses, body in functions():
        if is_test(path) or len(body) < 1 or path.endswith('main.rt'):
            continue
        s = shape(body)
        if len(s) > 30:
            groups[s].append((path, line, name))
    for s, fs in sorted(groups.items()):
        if len(fs) > 1:
            for path, line, name in fs:
                yield path, line, f'{name}   ({len(fs)} alike: {", ".join(f[2] for f in fs)})'
    consts = defaultdict(list)
    for path, lines in sources():
        for k, text in enumerate(lines, 1):
            m = re.match(r'\s*(?:pub(?:\(crate\))? )?const (\w+): [\w\[\]; ]+ = (.+);', text)
            if m and not is_test(path):
                consts[m.group(2)].append((path, k, m.group(1)))
    for value, cs in consts.items():
        if len(cs) > 1 and value not in ('1', '0'):
            for path, k, name in cs:
                yield path, k, f'const {name} = {value}   ({len(cs)} alike)'

def point3():
    for path, lines in sources():
        for k, line in enumerate(lines, 1):
            code = line.split('//')[0]
            if re.search(r'\bfor \w+ in [^{]*\.\.', code) or re.search(r'\bwhile ', code):
                yield path, k, code.strip()
    for path, line, name, params, clauses, body in functions():
        if re.search(r'\b%s\(.*(- 1|/ 10)' % name, ' '.join(body)):
            yield path, line, f'recursion that counts: {name}'

def point4():
    for path, lines in sources():
        for k, line in enumerate(lines, 1):
            if re.search(r'impl(<.*>)? (\w+::)*(PartialEq|Eq|Ord|PartialOrd|Clone|Copy|Default|Hash|From|TryFrom|Display|Debug)\b', line):
                yield path, k, line.strip()
    for path, line, name, params, clauses, body in functions():
        if is_test(path) or not body or not body[0].startswith('match ') or name == 'fmt':
            continue
        arms = [b for b in body[1:] if '=>' in b]
        if arms and all(re.match(r"[^=]*=> (Ok\()?\(?(\w+::)?(\d+|b?'.'|b?\"[^\"]*\"|\w+::\w+|true|false|None|Err\(.*\))", a) for a in arms):
            yield path, line, f'conversion by a match: {name}'

def point5():
    clauses_of = defaultdict(set)
    takes = defaultdict(set)
    for path, line, name, params, clauses, body in functions():
        if is_test(path):
            continue
        for c in clauses:
            text = re.sub(r'^(requires|ensures)( \w+)? ', '', c)
            clauses_of[text].add((path, line, name))
        pairs = re.findall(r'(?:mut )?(\w+): (&?(?:\'\w+ )?(?:mut )?[\w\[\]:<>]+)', params)
        for i in range(len(pairs)):
            for j in range(i + 1, len(pairs)):
                takes[pairs[i] + pairs[j]].add((path, line, name))
    for text, places in sorted(clauses_of.items()):
        if len(places) > 2:
            yield '', 0, f'{len(places)} contracts: {text}'
            for path, line, name in sorted(places):
                yield path, line, '    ' + name
    for p, places in sorted(takes.items()):
        if len(places) > 2:
            yield '', 0, f'{len(places)} functions take ({p[0]}: {p[1]}, {p[2]}: {p[3]})'
            for path, line, name in sorted(places):
                yield path, line, '    ' + name

def point6():
    for path, lines in sources():
        if is_test(path):
            continue
        for k, line in enumerate(lines, 1):
            if re.search(r': \[\w+; \w+\]|\[[^\]]+; \w+\];', line):
                yield path, k, 'array: ' + line.strip()
    for path, line, name, params, clauses, body in functions():
        if not is_test(path) and re.search(r'&(\'\w+ )?(mut )?\[', params) and re.search(r'\b(at|count|pairs|len|n|size|width): (usize|u32)', params):
            yield path, line, f'slice with an index or count: {name}({" ".join(params.split())})'

def point7():
    for path, line, name, params, clauses, body in functions():
        if is_test(path):
            continue
        text = ' '.join(strip(body))
        if re.match(r'match ', text):
            arms = [b for b in body[1:] if '=>' in b]
            calls = [a for a in arms if re.search(r'=> (self\.)?\w+(::\w+)*\(', a) and not re.search(r'=> (Ok|Err|Some)\(', a)]
            if len(calls) > 1:
                yield path, line, f'{name}: {len(calls)} of {len(arms)} arms call a function'
    for path, lines in sources():
        for k, line in enumerate(lines, 1):
            if re.search(r'\bdyn \w|impl Fn|: fn\(', line):
                yield path, k, line.strip()

def point8():
    for crate in sorted(os.listdir('crates')):
        answers = sum(len(re.findall(r'^pub ', open(f).read(), re.M)) for f in glob.glob(f'crates/{crate}/proofs/**/Answers.antt', recursive=True))
        lemmas = sum(len(re.findall(r'^(?:  )?(?:abbrev |unfoldable )?(?:pub )?[\w\'-]+ : ', open(f).read(), re.M)) for f in glob.glob(f'crates/{crate}/proofs/*.antt'))
        lines = sum(open(f).read().count('\n') for f in glob.glob(f'crates/{crate}/proofs/**/*.antt', recursive=True))
        if lines:
            yield crate, lines, f'{answers} answers, {lemmas} lemmas'

def main():
    words = [a for a in sys.argv[1:] if a != '-v']
    points = [int(words[0])] if words else range(1, 9)
    for p in points:
        found = list(globals()[f'point{p}']())
        print(f'point {p}: {len([f for f in found if f[0]])}')
        if '-v' in sys.argv:
            for path, k, text in found:
                print(f'  {path}:{k}: {text}' if path else f'  {text}')

main()
