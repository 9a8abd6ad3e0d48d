#!/usr/bin/env python3
# Counts the older forms in crates/*/src, a line for each, as docs/DESIGN-PASS.md uses them.
#   python3 tools/forms.py [--list] [FOLDER]     FOLDER: a checkout, or this one; --list prints each place
import collections, glob, os, re, sys

LIST = '--list' in sys.argv
rest = [a for a in sys.argv[1:] if a != '--list']
os.chdir(rest[0] if rest else os.path.join(os.path.dirname(os.path.abspath(__file__)), '..'))

# The text of each file without comments, clauses and `ghost use` lines; lines keep their numbers.
def text(path):
    out = []
    for line in open(path):
        line = re.sub(r'//.*', '', line.rstrip('\n'))
        if re.match(r'\s*(ghost use|requires|ensures)\b', line):
            line = ''
        out.append(line)
    return '\n'.join(out)

FILES = sorted(glob.glob('crates/*/src/**/*.rt', recursive=True))
TEXT = {f: text(f) for f in FILES}
RAW = {f: open(f).read() for f in FILES}

def found(pattern, flags=re.M, texts=TEXT):
    for f, s in texts.items():
        for m in re.finditer(pattern, s, flags):
            yield '%s:%d' % (f, s.count('\n', 0, m.start()) + 1), m

# The part in braces that begins at an index of a text.
def braces(s, at):
    depth = 0
    for i in range(at, len(s)):
        if s[i] == '{':
            depth += 1
        elif s[i] == '}':
            depth -= 1
            if not depth:
                return s[at:i + 1]
    return s[at:]

def functions():
    for f, s in TEXT.items():
        for m in re.finditer(r'^\s*(?:pub(?:\(crate\))? )?(?:extern "C" )?fn (\w+)', s, re.M):
            i = s.find('\n{', m.end()), s.find(' {\n', m.end())
            starts = [x for x in i if x >= 0]
            if starts:
                at = s.index('{', min(starts))
                yield '%s:%d' % (f, s.count('\n', 0, m.start()) + 2), m.group(1), s[m.start():at], braces(s, at)

def enums():
    for place, m in found(r'enum (\w+) \{'):
        f = place.split(':')[0]
        body = braces(TEXT[f], m.end() - 1)[1:-1]
        yield place, m.group(1), [v for v in re.findall(r'^\s*(\w+(?:\([^)]*\))?),', body, re.M)]

def own_option():
    for place, name, variants in enums():
        if len(variants) == 2 and any('(' in v for v in variants):
            yield place + ' ' + name

def flag_beside():
    for place, m in found(r'^\s*(?:pub )?(ok|whole|headed|waits): bool,'):
        yield place + ' ' + m.group(1)

def number_refusals():
    for place, m in found(r'(?:Refused|Refuse|refuse\(h, |fail\()\(?\d+|\breturn (?:[1-9]|1\d|1\d\d);(?=\n    \})'):
        f = place.split(':')[0]
        if re.search('/(format|message|checks|service|text_door|packet_door|gateway|c_api|why)/', f):
            yield place + ' ' + m.group(0).strip()

def sentinels():
    for place, name, head, body in functions():
        if name in ('value', 'digit_value', 'digit') and re.search(r'return (16|10);|^\s*(16|10)$', body, re.M):
            yield place + ' ' + name

def codes():
    for place, m in found(r'^pub const (\w+): u8 = '):
        yield place + ' ' + m.group(1)

def twins():
    words = {'if', 'else', 'while', 'for', 'in', 'match', 'return', 'let', 'mut', 'as', 'true', 'false', 'self', 'Self', 'None', 'Some', 'Ok', 'Err'}
    groups = collections.defaultdict(list)
    for place, name, head, body in functions():
        tokens = re.findall(r"\w+|\S", body)
        kept = [t if t in words or not re.match(r'\w', t) else 'n' if t[0].isdigit() else 'i' for t in tokens]
        if len(kept) >= 24:
            groups[' '.join(kept)].append(place + ' ' + name)
    for g in groups.values():
        if len(g) > 1:
            yield ' = '.join(g)

def counted_loops():
    for place, m in found(r'^\s*(?:while .*|loop) \{'):
        yield place + ' ' + m.group(0).strip()

def answers_by_case():
    for place, m in found(r'match [^\n]* \{\n((?:\s*[^\n]*=> (?:true|false),\n){3,})'):
        yield place

def ladders():
    for place, m in found(r'(?:^ *if [^\n]*\{\n *return [^\n]*;\n *\}\n){3,}'):
        yield place

def copies():
    for place, m in found(r'^ *let (\w+) = \w+\.\1;$'):
        yield place + ' ' + m.group(0).strip()

def repeated_fields():
    for place, m in found(r'^ *(\w+): \1,$'):
        yield place + ' ' + m.group(0).strip()

def repeated_facts():
    facts = collections.defaultdict(list)
    for place, m in found(r'requires(?: \w+)? \{ (.*) \}$', texts=RAW):
        f = place.split('/')[1]
        fact = re.sub(r'\b(state|bytes|reply|buffer|out|message|notice|line|entries)\.(now|old)', 'x', m.group(1))
        facts[f, fact].append(place)
    for (f, fact), places in facts.items():
        if len(places) >= 3:
            yield '%s: %s (%d functions)' % (f, fact, len(places))

def tables_in_text():
    for place, m in found(r'b"[^"\n]*,[^"\n]*,[^"\n]*,[^"\n]*"|b"(?:[^"\n]*\\n){3,}', texts=TEXT):
        yield place
    for place, m in found(r'^\s*(?:pub )?len: usize,|const \w+_HIGH: \['):
        yield place + ' ' + m.group(0).strip()

def switches():
    for place, m in found(r'match (?:h\.)?(?:cmd|kind|letter|number|found) \{'):
        yield place

POINTS = [
    ('1', 'enums of two cases of which one has a value, or both', own_option),
    ('1', 'flags with values beside them', flag_beside),
    ('1', 'refusals made of a bare number', number_refusals),
    ('1', 'a number that stands for no digit', sentinels),
    ('1', 'codes of the wire as constants', codes),
    ('2', 'functions with one body but for names and numbers', twins),
    ('3', 'loops that are no for', counted_loops),
    ('4', 'matches that answer true or false by case', answers_by_case),
    ('4', 'ladders of three or more returns', ladders),
    ('4', 'fields copied to a local of their name', copies),
    ('4', 'fields named twice in a literal', repeated_fields),
    ('5', 'facts that three or more functions of a crate ask for', repeated_facts),
    ('6', 'tables in one text, lengths beside buffers, parallel arrays', tables_in_text),
    ('7', 'switches on a number', switches),
]
for point, what, f in POINTS:
    places = list(f())
    print('%s  %4d  %s' % (point, len(places), what))
    if LIST:
        for p in places:
            print('           ' + p)
proofs = glob.glob('crates/*/proofs/**/*.antt', recursive=True)
answers = [p for p in proofs if p.endswith(('/Answers.antt', '/Invariants.antt', '/Proof.antt'))]
lines = lambda ps: sum(open(p).read().count('\n') for p in ps)
print('8  %4d  files of answers and invariants, of %d lines' % (len(answers), lines(answers)))
print('8  %4d  files of laws, of %d lines' % (len(proofs) - len(answers), lines(set(proofs) - set(answers))))
