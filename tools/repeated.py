#!/usr/bin/env python3
"""Lists what stands in the signatures of three or more functions of a crate: clauses, and pairs of parameters.

    python3 tools/repeated.py [CRATE..]
"""
import collections, glob, re, sys

FN = re.compile(r'^\s*(?:pub(?:\(crate\))? )?fn (\w+)(?:<[^>]*>)?\s*\((.*?)\)(.*?)(?=^\s*\{\s*$|;\s*$)', re.S | re.M)
CLAUSE = re.compile(r'^\s*(?:requires|ensures)\*?(?: \w+)? \{ (.*) \}\s*;?$', re.M)

def parameters(text):
    text = re.sub(r'\s+', ' ', text)
    found, depth, start = [], 0, 0
    for i, c in enumerate(text + ','):
        depth += (c in '(<[') - (c in ')>]')
        if c == ',' and depth == 0:
            found.append(text[start:i].strip())
            start = i + 1
    return [p for p in found if p and 'self' not in p]

crates = sys.argv[1:] or sorted({f.split('/')[1] for f in glob.glob('crates/*/src/*.rt')})
for crate in crates:
    clauses, pairs = collections.defaultdict(set), collections.defaultdict(set)
    for file in sorted(glob.glob(f'crates/{crate}/src/*.rt')):
        for m in FN.finditer(open(file).read()):
            name = f'{file.split("/")[-1]}:{m.group(1)}'
            for c in CLAUSE.findall(m.group(3)):
                clauses[c].add(name)
            ps = parameters(m.group(2))
            for i, p in enumerate(ps):
                for q in ps[i + 1:]:
                    pairs[tuple(sorted((p, q)))].add(name)
    for kind, table in (('clause', clauses), ('parameters', pairs)):
        for what, names in table.items():
            if len(names) >= 3:
                print(crate, kind, what if kind == 'clause' else ', '.join(what), '|', len(names), ' '.join(sorted(names)))
