#!/usr/bin/env python3
"""tools/places.py [POINT]: the places of each point of docs/DESIGN-PASS.md, a line each, and how many.

Run at the top of the repository. It lists by shape; which of them are places, and what became of each,
the page says."""
import glob
import re
import sys
from collections import defaultdict

FILES = sorted(glob.glob('crates/*/src/**/*.rt', recursive=True))
KEYWORDS = set('''as break const continue else enum ensures false fn for ghost if impl in invariant let loop match mod
mut pub requires return self struct true type use while u8 u16 u32 u64 u128 usize i32 i64 f64 bool result'''.split())


def place(path, line):
    return f'{path[7:]}:{line}'


def bare(text):
    """The text without comments, its lines kept."""
    return re.sub(r'//[^\n]*', '', text)


def block(text, at):
    """The end of the braces that open at or behind a place."""
    at = text.index('{', at)
    depth = 0
    for i in range(at, len(text)):
        depth += (text[i] == '{') - (text[i] == '}')
        if depth == 0:
            return i + 1
    return len(text)


SOURCES = {path: bare(open(path).read()) for path in FILES}


def functions():
    """Of each function: where it stands, its name, its parameters, its clauses and its body."""
    for path, text in SOURCES.items():
        for m in re.finditer(r'^ *(?:pub )?fn (\w+)(?:<[^(]*>)?\(', text, re.M):
            at, depth = m.end() - 1, 0
            while True:
                depth += (text[at] == '(') - (text[at] == ')')
                at += 1
                if depth == 0:
                    break
            parameters = text[m.end():at - 1]
            opens = re.compile(r'\{ *$', re.M).search(text, at)
            start = opens.start() if opens else at
            yield place(path, text.count('\n', 0, m.start()) + 1), m.group(1), parameters, text[at:start], text[start:block(text, start)]


def enums():
    for path, text in SOURCES.items():
        for m in re.finditer(r'\benum (\w+) \{', text):
            body = text[m.end():block(text, m.start()) - 1]
            depth, parts, part = 0, [], ''
            for c in body:
                depth += (c in '({') - (c in ')}')
                if c == ',' and depth == 0:
                    parts.append(part.strip())
                    part = ''
                else:
                    part += c
            variants = [p for p in parts + [part.strip()] if p]
            yield place(path, text.count('\n', 0, m.start()) + 1), m.group(1), variants


def point_1():
    for where, name, variants in enums():
        held = [v for v in variants if re.search(r'[({]', v)]
        names = {re.match(r'\w+', v).group(0) for v in variants}
        shape = len(variants) == 2 and held or len(variants) == 3 and len(held) == 1
        fails = any(re.match(r'Refused\b', v) for v in variants) or names & {'Sound', 'Done'}
        if shape or fails:
            yield where, f'enum {name}: ' + ', '.join(re.sub(r'\s+', ' ', v) for v in variants)
    for path, text in SOURCES.items():
        for i, line in enumerate(text.split('\n'), 1):
            if re.match(r' +(pub )?\w+: bool,', line):
                yield place(path, i), 'flag ' + line.strip()
            for m in re.finditer(r'\b(kind|source|period)\w*: u(8|16|32|64)\b', line):
                yield place(path, i), 'number for a kind: ' + m.group(0)


def alike(body):
    seen = {}
    tokens = []
    for t in re.findall(r"'?\w+|[^\w\s]+", body):
        if re.match(r'\d', t):
            tokens.append('#')
        elif t in KEYWORDS or not re.match(r'\w', t):
            tokens.append(t)
        else:
            tokens.append('n%d' % seen.setdefault(t, len(seen)))
    return tuple(tokens)


def point_2():
    groups = defaultdict(list)
    for where, name, parameters, _, body in functions():
        form = alike(body)
        if len(form) >= 25:
            groups[form].append((where, name))
    for group in groups.values():
        if len(group) > 1:
            for where, name in group:
                yield where, f'fn {name}, one of {len(group)} that differ in names and numbers alone'


def point_3():
    for path, text in SOURCES.items():
        for i, line in enumerate(text.split('\n'), 1):
            if re.search(r'^\s*(\'\w+: )?(while\b|loop \{)|\bfor \w+ in .*\.\.', line):
                yield place(path, i), line.strip()


def point_4():
    arm = re.compile(r'^(Some\()?(-?[\w:]+|b?\'.\'|b?"[^"]*")\)?$')
    for where, name, _, _, body in functions():
        m = re.match(r'\{\s*match [^{]*\{(.*)\}\s*\}$', body, re.S)
        if m and '=>' in m.group(1):
            rights = [r.strip().rstrip(',') for r in re.findall(r'=>\s*([^\n]*)', m.group(1))]
            if all(arm.match(r) for r in rights):
                yield where, f'fn {name}: a table from variants or numbers to values'
        if re.match(r'(same|compare|equal|is_same)', name):
            yield where, f'fn {name}: equality or order'


def point_5():
    together = defaultdict(set)
    for where, name, parameters, clauses, _ in functions():
        kept = [re.sub(r'\s+', ' ', p.strip()) for p in re.split(r',(?![^<(\[]*[>)\]])', parameters) if ':' in p]
        for i in range(len(kept)):
            for j in range(i + 1, len(kept)):
                for k in range(j + 1, len(kept)):
                    together[kept[i], kept[j], kept[k]].add((where, name))
        for clause in re.findall(r'requires \{(.*?)\}', clauses, re.S):
            for fact in clause.split('×'):
                together['requires ' + re.sub(r'[\s()]+', ' ', fact).strip()].add((where, name))
    for what, places in sorted(together.items(), key=lambda x: str(x[0])):
        if len(places) >= (3 if isinstance(what, str) else 4):
            yield sorted(places)[0][0], f'{what if isinstance(what, str) else ", ".join(what)}: {len(places)} functions'


def point_6():
    for where, name, parameters, _, _ in functions():
        if re.search(r'&mut \[u\d+\], \w+: usize', re.sub(r'\s+', ' ', parameters)):
            yield where, f'fn {name}: lent room and a place in it'
    for path, text in SOURCES.items():
        for m in re.finditer(r'^pub type (\w+) = \[u64; [\w:]+\];', text, re.M):
            yield place(path, text.count('\n', 0, m.start()) + 1), m.group(0)


def point_7():
    for where, name, _, _, body in functions():
        m = re.search(r'match (\w+)[^{\n]*\{(.*)\}', body, re.S)
        if m and len(re.findall(r'=> (?:return )?[\w:]+\(', m.group(2))) >= 3:
            yield where, f'fn {name}: match {m.group(1)}, a call in each arm'


def point_8():
    imports = re.compile(r'^(use |ghost use |--|//|pub mod |mod |$)')
    files, windows, seen = {}, defaultdict(list), set()
    for path in FILES + sorted(p for part in ('specs', 'proofs') for p in glob.glob(f'crates/*/{part}/**/*.antt', recursive=True)):
        kept = []
        for number, line in enumerate(open(path), 1):
            text = ' '.join(line.split())
            if len(text) >= 4 and not imports.search(text):
                kept.append((number, re.sub(r'[^\s(){}\[\],.;:]+', 'x', text)))
        files[path] = kept
        for at in range(len(kept) - RUN + 1):
            windows[tuple(t for _, t in kept[at:at + RUN])].append((path, at))
    for places in windows.values():
        for i, (a, x) in enumerate(places):
            for b, y in places[i + 1:i + 6]:
                n = 0
                while ((a, x, b, y) not in seen and x + n < len(files[a]) and y + n < len(files[b])
                       and files[a][x + n][1] == files[b][y + n][1] and not (a == b and x + n >= y)):
                    n += 1
                seen.update((a, x + k, b, y + k) for k in range(n))
                if n >= RUN:
                    yield place(a, files[a][x][0]), f'{n} lines of the shape of {place(b, files[b][y][0])}'


RUN = 10
POINTS = [point_1, point_2, point_3, point_4, point_5, point_6, point_7, point_8]

for number, point in enumerate(POINTS, 1):
    if len(sys.argv) > 1 and sys.argv[1] != str(number):
        continue
    places = list(point())
    for where, what in places:
        print(f'{number} {where} {what}')
    print(f'point {number}: {len(places)}')
