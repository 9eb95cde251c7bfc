#!/usr/bin/env python3
"""Counts, for each point of docs/DESIGN-PASS.md, the lines of src/ that may have an older form.

    tools/forms.py          the counts
    tools/forms.py 3        the lines of point 3

A line is a place to look at; the page says which of them are places and what became of each.
"""
import collections
import glob
import itertools
import os
import re
import sys

os.chdir(os.path.join(os.path.dirname(os.path.abspath(__file__)), '..'))
SRC = sorted(glob.glob('crates/*/src/**/*.rt', recursive=True))


def code_lines():
    for path in SRC:
        for number, line in enumerate(open(path), 1):
            if line.strip() and not line.lstrip().startswith('//') and 'ghost use' not in line:
                yield path, number, line.rstrip('\n')


def hits(pattern):
    regex = re.compile(pattern)
    return [f'{p}:{n}: {l.strip()}' for p, n, l in code_lines() if regex.search(l)]


def functions():
    """Each function of its own: path, name, parameters. Methods of a trait's impl are left out."""
    for path in SRC:
        text = open(path).read()
        inside = [m.span() for m in re.finditer(r'^impl[^\n{;]* for [^\n{]*\{.*?^\}', text, re.S | re.M)]
        for m in re.finditer(r'\bfn ([a-z_0-9]+)(?:<[^>]*>)?\((.*?)\)(?: ->|\s*\n|\s*\{|;)', text, re.S):
            if not any(a <= m.start() < b for a, b in inside):
                yield path, m.group(1), m.group(2)


def crate(path):
    return path.split('/')[1]


def point1():
    return (hits(r'^\s*(pub(\(crate\))? )?enum ')
            + hits(r'^(pub )?const [A-Z_0-9]+: u(8|16|32) = ')
            + hits(r'let mut [a-z_]+ = (true|false);|: bool,')
            + hits(r'Result<Option<|Ok\(0\)|return Err\(why\)')
            + hits(r'extern "C" fn'))


def point2():
    names = collections.defaultdict(list)
    for path, name, _ in functions():
        names[name].append(path)
    common = {'new', 'main', 'run', 'read', 'write', 'len', 'as_slice'}
    return [f'{name}: {" ".join(paths)}' for name, paths in sorted(names.items())
            if len(paths) > 1 and name not in common]


def point3():
    return [h for h in hits(r'^\s*(for|while|loop)\b') if '#[test]' not in h]


def point4():
    return hits(r'^impl\b.*\b(PartialEq|Ord|Clone|From<.*>|TryFrom<.*>|Display|Default)\b.* for '
                r"|-> &'static (str|\[u8\])"
                r'|fn (same|is_same|same_[a-z_]+|is_kind|told|kind|kind_in|number_of|from_code|coded|code|stage'
                r'|has_key|session_name|agree|signer_of|digits|lit|shown|labelled)\b')


def point5():
    clauses = collections.Counter()
    pairs = collections.defaultdict(set)
    for _, _, line in code_lines():
        m = re.match(r'\s*(requires|ensures)\*? *[a-z_0-9]* *(\{.*\})', line)
        if m:
            clauses[m.group(1) + ' ' + m.group(2)] += 1
    for path, name, parameters in functions():
        found = [re.sub(r"&'[a-z]+ ", '&', re.sub(r'\s+', ' ', p.strip()))
                 for p in re.split(r',(?![^\[<(]*[\]>)])', parameters) if ':' in p]
        found = [p for p in found if not p.startswith(('heap', 'rt:', 'alloc'))]
        for pair in itertools.combinations(found, 2):
            pairs[pair].add(crate(path) + '::' + name)
    return ([f'{n} times: {c}' for c, n in clauses.most_common() if n >= 3]
            + [f'{len(w)} functions: {a}, {b}: {" ".join(sorted(w))}'
               for (a, b), w in sorted(pairs.items(), key=lambda x: -len(x[1])) if len(w) >= 3])


def point6():
    return hits(r'\blen: usize|_length: u8|sort|^\s*[a-z_() ]+: \[[^]]*; (N|16|48|64)\],|\bat: usize')


def point7():
    return hits(r'match (self|word|kind|subject|statement|request\.arguments|action|arguments|mark|code)\b'
                r'|: fn\(|\bdyn ')


def point8():
    found = []
    for path in sorted(glob.glob('crates/*/proofs/**/*.antt', recursive=True)):
        for number, line in enumerate(open(path), 1):
            if re.match(r'(abbrev )?(pub )?[^ ]+ : goal\.', line) or re.match(r'pub [^ ]+ :', line):
                found.append(f'{path}:{number}: {line.strip()[:100]}')
    return found


POINTS = [point1, point2, point3, point4, point5, point6, point7, point8]

if __name__ == '__main__':
    if len(sys.argv) > 1:
        print('\n'.join(POINTS[int(sys.argv[1]) - 1]()))
    else:
        for number, point in enumerate(POINTS, 1):
            print(f'point {number}: {len(point())} lines')
