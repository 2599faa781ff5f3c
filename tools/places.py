#!/usr/bin/env python3
"""Where the code of crates/*/src writes by hand what the language or its library has, by eight points.

    tools/places.py [POINT..]

Each point prints its candidates, a line each, and their number. A candidate is a place to look at:
docs/DESIGN-PASS.md says which were places, and what stays.
"""
import re, sys
from itertools import combinations
from pathlib import Path
from collections import defaultdict

TOP = Path(__file__).resolve().parent.parent
FILES = sorted(p for p in TOP.glob('crates/*/src/**/*.rt'))


def lines():
    for path in FILES:
        name = str(path.relative_to(TOP / 'crates')).replace('/src/', '/')
        for number, line in enumerate(path.read_text().splitlines(), 1):
            text = line.strip()
            if not text.startswith('//') and not text.startswith('ghost use'):
                yield f'{name}:{number}', text


def group(text, at, pair='{}'):
    """The end of the group that opens at `at`."""
    depth = 0
    for i in range(at, len(text)):
        if text[i] == pair[0]:
            depth += 1
        elif text[i] == pair[1]:
            depth -= 1
            if depth == 0:
                return i + 1
    return len(text)


def functions():
    """Each function: place, name, parameters, result, clauses, body or None."""
    for path in FILES:
        name = str(path.relative_to(TOP / 'crates')).replace('/src/', '/')
        text = re.sub(r'^\s*//.*$', '', path.read_text(), flags=re.M)
        for found in re.finditer(r'\bfn (\w+)', text):
            at = found.end()
            if at < len(text) and text[at] == '<':
                at = group(text, at, '<>')
            if at >= len(text) or text[at] != '(':
                continue
            end = group(text, at, '()')
            params = ' '.join(text[at + 1:end - 1].split())
            head = re.match(r'\s*(?:->\s*([^{;]*?))?\s*(?=requires|ensures|where|\{|;)', text[end:], re.S)
            result = ' '.join((head.group(1) or '').split()) if head else ''
            at = end + (head.end() if head else 0)
            clauses = []
            while clause := re.match(r'\s*(where[^{]*?(?=requires|ensures|\{))?\s*(requires|ensures)\s*(\w+)?\s*(?=\{)', text[at:], re.S):
                open_at = at + clause.end()
                close = group(text, open_at)
                clauses.append((clause.group(2), ' '.join(text[open_at + 1:close - 1].split())))
                at = close
            body = None
            rest = re.match(r'\s*\{', text[at:])
            if rest:
                open_at = at + rest.end() - 1
                body = ' '.join(text[open_at + 1:group(text, open_at) - 1].split())
            yield f'{name}:{text.count(chr(10), 0, found.start()) + 1}', found.group(1), params, result, clauses, body


def by_line(*patterns):
    return [f'{where}  {text}' for where, text in lines() if any(re.search(p, text) for p in patterns)]


KEEP = {'self', 'Self', 'if', 'else', 'for', 'in', 'while', 'return', 'let', 'mut', 'match', 'fn', 'Some', 'None', 'Ok', 'Err', 'as'}


def shape(text):
    text = re.sub(r'\b[A-Za-z_]\w*\b', lambda m: m.group(0) if m.group(0) in KEEP else 'x', text)
    return re.sub(r'\b\d[\w.]*', '0', text)


def one():
    out = by_line(r'^(pub(\(crate\))? )?enum \w', r'Option<\w+(Failure|Fault|Error)\b', r'=> [0-9]+,')
    out += [f'{w}  fn {n}({p}) -> {r}' for w, n, p, r, _, _ in functions() if '&mut' in p and r == 'bool']
    return out


def two():
    seen = defaultdict(list)
    for where, name, _, _, _, body in functions():
        if body and len(body) > 24:
            seen[shape(body)].append(f'{where} {name}')
    return ['  ~  '.join(places) for places in seen.values() if len(places) > 1]


def three():
    return by_line(r'^while\b', r'^(\S+: )?loop\b', r'^for \w+ in .*\.\.', r'\w\[[a-z]\w*\]', r'[+-]= 1;')


def four():
    names = r'^(equals|eq|ne|cmp|partial_cmp|clone|fmt|told|to_\w+|from_\w+|into_\w+|as_\w+|embed|number|value|of|flag|named|parts|drawn\w*)$'
    return [f'{w}  fn {n}({p}) -> {r}' for w, n, p, r, _, _ in functions() if re.match(names, n)]


def five():
    facts, together = defaultdict(set), defaultdict(set)
    for where, name, params, _, clauses, _ in functions():
        for _, text in clauses:
            for fact in re.split(r' → | × ', text):
                facts[fact].add(f'{where} {name}')
        parts = [p.strip() for p in re.findall(r'(\w+: [^,]*(?:<[^>]*>)?)', params)]
        for pair in combinations(sorted(set(parts)), 2):
            together[' & '.join(pair)].add(f'{where} {name}')
    out = [f'{len(w)}  fact  {t}' for t, w in facts.items() if len(w) >= 3]
    out += [f'{len(w)}  parameters  {t}' for t, w in together.items() if len(w) >= 3]
    return sorted(out, key=lambda t: (-int(t.split()[0]), t))


def six():
    return by_line(r'\b(count|len|from|start|at|of): usize', r'&mut \[', r'\[0u32; ', r'Vec<', r'\.\.count\]', r'Option<E>,$')


def seven():
    return by_line(r'\bfn\(', r'\bdyn ', r'^match (request|step|kind|which)\b')


def eight():
    out = []
    for crate in sorted(TOP.glob('crates/*')):
        files = list(crate.glob('proofs/**/*.antt'))
        answers = [f for f in files if f.name in ('Answers.antt', 'Invariants.antt', 'Proof.antt')]
        count = lambda fs: sum(len(f.read_text().splitlines()) for f in fs)
        out.append(f'{crate.name}: {len(answers)} files of answers and invariants, {count(answers)} lines; {len(files) - len(answers)} files of lemmas, {count(set(files) - set(answers))} lines')
    return out


POINTS = {'1': one, '2': two, '3': three, '4': four, '5': five, '6': six, '7': seven, '8': eight}
for point in sys.argv[1:] or POINTS:
    found = POINTS[point]()
    print(f'point {point}: {len(found)}')
    for line in found:
        print('   ', line[:220])
