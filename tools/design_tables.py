#!/usr/bin/env python3
# Prints, as Markdown, what of two checkouts' signatures, clauses and definitions differs: python3 tools/design_tables.py RESULT.json,
# where RESULT.json is what the kit's contracts.py prints of the two with --json.
import json, sys

r = json.load(open(sys.argv[1]))

def code(s):
    return '`` %s ``' % ' '.join(s.split()) if '`' in s else '`%s`' % ' '.join(s.split())

def clauses(kind, cs):
    return ['%s%s { %s }' % (kind, ' ' + n if n else '', t) for n, t in cs]

def pair(what, old, new):
    print('- **%s**' % what)
    for o in old:
        print('  - old: ' + code(o))
    for n in new:
        print('  - new: ' + code(n))

print('### Signatures\n')
for what, old, new in r['signatures changed']:
    pair(what, [old], [new])
print('\n### Clauses\n')
for what, ro, eo, rn, en in r['contracts changed']:
    o = clauses('requires', ro) + clauses('ensures', eo)
    n = clauses('requires', rn) + clauses('ensures', en)
    pair(what, [c for c in o if c not in n], [c for c in n if c not in o])
print('\n### Definitions and constants\n')
for crate, name, old, new in r['definitions']['changed']:
    pair('%s %s' % (crate, name), old, new)
for crate, kind, name, old, new in r['ghost items and constants']['changed']:
    pair('%s %s %s' % (crate, kind, name), old, new)
