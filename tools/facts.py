#!/usr/bin/env python3
"""The facts that stand in the `requires` of three or more functions of crates/*/src, most often first: tools/facts.py [ROOT]"""
import collections
import glob
import re
import sys

root = sys.argv[1] if len(sys.argv) > 1 else '.'


def parts(clause):
    """The factors of a clause, which is split at each × that no bracket encloses."""
    depth, part = 0, ''
    for char in clause:
        depth += (char in '([{') - (char in ')]}')
        if char == '×' and depth == 0:
            yield part
            part = ''
        else:
            part += char
    yield part


where = collections.defaultdict(set)
for path in sorted(glob.glob(root + '/crates/*/src/*.rt')):
    text = open(path, encoding='utf-8').read()
    for clause in re.finditer(r'requires(?: \w+)? \{(.*?)\}\n', text, re.S):
        function = path.split('/')[-3] + '::' + re.findall(r'fn (\w+)', text[:clause.start()])[-1]
        for part in parts(' '.join(clause.group(1).split())):
            part = part.strip()
            if part.startswith('(') and part.endswith(')'):
                part = part[1:-1]
            where[re.sub(r'\.(old|now)\b', '', part)].add(function)
often = sorted(((len(f), fact, f) for fact, f in where.items() if len(f) >= 3), key=lambda row: (-row[0], row[1]))
for count, fact, functions in often:
    print(count, fact, '|', ', '.join(sorted(functions)))
print(len(often), 'facts')
