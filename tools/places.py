#!/usr/bin/env python3
"""Counts places in crates/*/src that an older form may stand in, by the points of docs/DESIGN-PASS.md.

    python3 tools/places.py [-l] [COMMIT]

With -l every place is listed; with a commit that tree is read, else the files as they stand."""
import collections
import re
import subprocess
import sys


def sources(commit):
    if commit:
        names = subprocess.run(['git', 'ls-tree', '-r', '--name-only', commit, 'crates'], capture_output=True, text=True, check=True).stdout.split('\n')
        read = lambda f: subprocess.run(['git', 'show', f'{commit}:{f}'], capture_output=True, text=True, check=True).stdout
    else:
        names = subprocess.run(['git', 'ls-files', '-co', '--exclude-standard', 'crates'], capture_output=True, text=True, check=True).stdout.split('\n')
        read = lambda f: open(f, encoding='utf-8').read()
    return {f: read(f) for f in names if re.fullmatch(r'crates/\w+/src/.*\.rt', f)}


# Functions with their parameters, clauses and body; a closing brace in the first column or behind four spaces ends a body.
HEAD = re.compile(r'^( *)(?:pub )?(?:extern "C" )?(?:final )?fn (\w+)(?:<[^>(]*>)?\(', re.M)


def functions(text):
    for m in HEAD.finditer(text):
        end = text.find('\n' + m.group(1) + '}\n', m.start())
        whole = text[m.start():end + 1 if end > 0 else None]
        depth, i = 1, m.end() - m.start()
        while depth and i < len(whole):
            depth += {'(': 1, ')': -1}.get(whole[i], 0)
            i += 1
        clauses, _, body = whole[i:].partition('\n' + m.group(1) + '{\n')
        line = text.count('\n', 0, m.start()) + 1
        yield line, m.group(2), whole[m.end() - m.start():i - 1], clauses, body


def conjuncts(clauses):
    for m in re.finditer(r'(requires|ensures)( \w+)? \{((?:[^{}]|\{[^{}]*\})*)\}', clauses):
        depth, part, parts = 0, '', []
        for c in ' '.join(m.group(3).split()):
            depth += {'(': 1, ')': -1}.get(c, 0)
            if c == '×' and depth == 0:
                parts.append(part)
                part = ''
            else:
                part += c
        for p in parts + [part]:
            p = p.strip()
            while p.startswith('(') and p.endswith(')') and p.count('(') == p.count(')') and '→' not in p.split(')')[0]:
                p = p[1:-1].strip()
            yield p


def shape(body):
    body = re.sub(r'//.*', '', body)
    body = re.sub(r'b?"[^"]*"|b?\'[^\']*\'', 's', body)
    kept = {'if', 'else', 'while', 'loop', 'match', 'return', 'let', 'mut', 'for', 'in', 'as'}
    s = ' '.join(t if t in kept or not re.match(r'\w', t) else 'v' for t in re.findall(r'\w+|[^\w\s]', body))
    return re.sub(r'v( : : v| \. v)+', 'v', s)


def main():
    args = [a for a in sys.argv[1:] if a != '-l']
    texts = sources(args[0] if args else None)
    found = collections.OrderedDict()

    def grep(point, pattern):
        for f, t in texts.items():
            for n, line in enumerate(t.split('\n'), 1):
                if re.search(pattern, line) and not line.lstrip().startswith('//'):
                    found.setdefault(point, []).append(f'{f[7:]}:{n} {line.strip()}')

    everything = [(f, *fn) for f, t in texts.items() for fn in functions(t)]
    grep('1a own enums', r'^\s*(pub )?enum \w')
    grep('1b fields that are a flag', r'^\s*(pub )?\w+: bool,$')
    grep('1c numbers named one by one (kinds, refusals, places, limits)', r'^\s*(pub )?const [A-Z][A-Z0-9_]*: (u8|u32|usize) = ')
    grep('1d uses of a number for a refusal or a kind', r'\b(Refusal|TokenType|Kind)::[A-Z][A-Z0-9_]+\b')
    grep('1e functions that answer a bare number', r'-> (u32|usize)( \{)?$')
    groups = collections.defaultdict(list)
    for f, line, name, _, _, body in everything:
        s = shape(body)
        if body.count('\n') >= 3 and len(s) > 40:
            groups[s].append(f'{f[7:]}:{line} {name}')
    found['2 functions whose bodies have one shape, by groups'] = [' = '.join(g) for g in groups.values() if len(g) > 1]
    grep('3 loops that are written out (while, loop)', r'^\s*(while|loop)\b')
    grep('4a conversion, comparison, copying by hand', r'fn (wide|is_between|larger|least|same_\w+|copy|clear|put|bit|has_bit|flag_bits|bit_flags|number|numbers|cell|where_so|digit|raised|fill)\(')
    grep('4b printing piece by piece', r'\b(say|told)::(words|decimal|hexadecimal|numbers|number|line)\(')
    facts = collections.defaultdict(set)
    for f, line, name, _, clauses, _ in everything:
        for c in conjuncts(clauses):
            if len(c) > 8:
                facts[c].add(f'{f[7:]}:{line} {name}')
    found['5a facts that stand in the contracts of three functions or more'] = [f'{len(v)} {k}' for k, v in sorted(facts.items(), key=lambda x: -len(x[1])) if len(v) > 2]
    pairs = collections.defaultdict(set)
    for f, line, name, params, _, _ in everything:
        ps = [re.sub(r'\s+', ' ', p.strip()) for p in re.split(r',\s*(?=[a-z_]+:)', params.replace('\n', ' ')) if ':' in p]
        ps = [p.rstrip(',').strip() for p in ps if not p.startswith('rt:')]
        for i, a in enumerate(ps):
            for b in ps[i + 1:]:
                pairs[(a, b)].add(f'{f[7:]}:{line} {name}')
    found['5b pairs of parameters that travel together, in three functions or more'] = [f'{len(v)} {a}; {b}' for (a, b), v in sorted(pairs.items(), key=lambda x: -len(x[1])) if len(v) > 2]
    for f, line, name, params, _, _ in everything:
        flat = ' '.join(params.split())
        if re.search(r'\w+: &(mut )?\[\w+\][^&]*, (\w+: usize, )?(k|n|m|end|z|count|from|start|at|i): usize', flat):
            found.setdefault('6a functions with a slice and its length or place beside it', []).append(f'{f[7:]}:{line} {name}')
    grep('6b tables that are copied where they are used', r'^\s*(pub )?const [A-Z][A-Z0-9_]*: \[')
    for f, line, name, params, _, _ in everything:
        flat = ' '.join(params.split())
        for b in re.findall(r'(\w+): bool', flat):
            found.setdefault('7 parameters that switch what is done', []).append(f'{f[7:]}:{line} {name} {b}')
    for point, places in found.items():
        print(f'{len(places):5} {point}')
        if '-l' in sys.argv:
            for p in places:
                print('        ' + p)
    print(f'{len(everything):5} functions')


main()
