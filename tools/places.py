#!/usr/bin/env python3
"""Counts the places of docs/DESIGN-PASS.md in a tree: python3 tools/places.py [TREE] [-v]

With -v each place is listed. The counts are of text in crates/*/src (comments left out) and, for point 8, of proofs/.
"""
import glob, os, re, sys

args = [a for a in sys.argv[1:] if a != '-v']
tree, verbose = (args or ['.'])[0], '-v' in sys.argv


def balanced(text, at, left, right):
    depth = 0
    for k in range(at, len(text)):
        depth += (text[k] == left) - (text[k] == right)
        if depth == 0 and text[k] == right:
            return k + 1
    return len(text)


def source(path):
    lines = []
    for line in open(path, encoding='utf-8'):
        line = '' if line.lstrip().startswith(('//', 'ghost use', '#[tactic')) else line.split(' //')[0]
        lines.append(line.rstrip('\n'))
    return '\n'.join(lines)


files = {p: source(p) for p in sorted(glob.glob(os.path.join(tree, 'crates/*/src/**/*.rt'), recursive=True))}


class Function:
    def __init__(self, path, text, m):
        self.path, self.name = os.path.relpath(path, tree), m.group(1)
        self.line = text.count('\n', 0, m.start()) + 1
        end = balanced(text, text.index('(', m.end()), '(', ')')
        self.params = text[text.index('(', m.end()) + 1:end - 1]
        k = end
        while k < len(text) and not (text[k] == '{' and text[text.rindex('\n', 0, k) + 1:k].strip() == '') \
                and not (text[k] == '{' and text[k:k + 2] == '{\n' and not re.search(r'(requires|ensures)[^{]*$', text[end:k])) \
                and text[k] != ';':
            k = balanced(text, k, '{', '}') if text[k] == '{' else k + 1
        self.head = text[end:k]
        self.body = text[k:balanced(text, k, '{', '}')] if k < len(text) and text[k] == '{' else ''

    def __str__(self):
        return '%s:%d %s' % (self.path, self.line, self.name)


functions = [Function(p, t, m) for p, t in files.items() for m in re.finditer(r'\bfn (\w+)', t)
             if '(' in t[m.end():m.end() + 200]]


def split(params):
    out, depth, part = [], 0, ''
    for ch in params:
        depth += ch in '(<[' and 1 or (ch in ')>]' and -1 or 0)
        if ch == ',' and depth == 0:
            out.append(part)
            part = ''
        else:
            part += ch
    return [p.strip() for p in out + [part] if p.strip()]


def show(title, found):
    print('%4d  %s' % (len(found), title))
    if verbose:
        for f in found:
            print('        ' + str(f))


def where(pattern):
    return ['%s:%d %s' % (os.path.relpath(p, tree), t.count('\n', 0, m.start()) + 1, m.group(0).strip().split('\n')[0])
            for p, t in files.items() for m in re.finditer(pattern, t, re.M)]


print('1. own enums of the shape of Option or Result, flags with a value, numbers for kinds and refusals')
enums = []
for p, t in files.items():
    for m in re.finditer(r'\benum (\w+)[^{]*\{', t):
        body = t[m.end():balanced(t, m.end() - 1, '{', '}') - 1]
        variants = [v for v in split(body.replace('{', '(').replace('}', ')'))]
        plain = [v for v in variants if '(' not in v]
        refusals = [v for v in variants if '(Refusal)' in v]
        if len(variants) <= 3 and len(plain) < len(variants) and (plain or refusals):
            enums.append((m.group(1), '%s %s' % (os.path.relpath(p, tree), m.group(1))))
show('own enums with a variant that holds nothing or a refusal beside one that holds a value', [e[1] for e in enums])
names = sorted({e[0] for e in enums})
show('lines that name a variant of one of them', where(r'^.*\b(%s)::[A-Z]\w*.*$' % '|'.join(names)) if names else [])
numbered = []
for p, t in files.items():
    for m in re.finditer(r'\bmust\(', t):
        inner = split(t[m.end():balanced(t, m.end() - 1, '(', ')') - 1])
        if len(inner) == 3 and inner[1].isdigit():
            numbered.append('%s:%d %s' % (os.path.relpath(p, tree), t.count('\n', 0, m.start()) + 1, inner[1]))
show("a refusal's number written in code", numbered + where(r'\bnumber: \d+'))
show('tests of 65535 for a rule\'s kind', where(r'[!=]= 65535'))
show('numbers for kinds: u8 parameters and literals of a block type, codes of a finding',
     where(r'\b(kind|t): u8\b') + where(r'\b(kind|type_of\(\w+, \w+\)) (==|<|<=) \d') + where(r'\b\d < kind') + where(r'const (STILL|MOVED)\b'))

print('2. twins: functions whose bodies are the same but for names, types and numbers')


def shape(f):
    words = re.findall(r"[A-Za-z_][\w]*|\d[\w]*|[^\s\w]", f.body)
    ids, out = {}, []
    keep = {'let', 'mut', 'while', 'for', 'in', 'if', 'else', 'return', 'match', 'as', 'true', 'false', 'loop', 'break', 'len', 'self'}
    for w in words:
        if w in keep or not (w[0].isalnum() or w[0] == '_'):
            out.append(w)
        elif w[0].isdigit():
            out.append('0')
        else:
            out.append('x')
    return ' '.join(w for w in out if w != ',')


groups = {}
for f in functions:
    s = shape(f)
    if len(s.split()) >= 14 and not f.path.startswith(('crates/nevelknop_c',)):
        groups.setdefault(s, []).append(f)
twins = [g for g in groups.values() if len(g) > 1]
show('functions in %d such groups' % len(twins), ['%s' % f for g in twins for f in g])

print('3. loops that count an index by hand')
loops = []
for p, t in files.items():
    for m in re.finditer(r'\bwhile ([^{]*)\{', t):
        body = t[m.end():balanced(t, m.end() - 1, '{', '}')]
        for i in set(re.findall(r'\b[a-z_]\w*\b', m.group(1))):
            if re.search(r'\b%s \+= 1;' % i, body):
                loops.append('%s:%d while %s' % (os.path.relpath(p, tree), t.count('\n', 0, m.start()) + 1, m.group(1).strip()))
                break
show('`while` loops that step an index by one', loops)

print('4. equality, order, copying, conversion and printing written by hand')
show('numbers and texts printed piece by piece', where(r'io::(print_decimal|write_all)\(1, .*$'))
trivial = [f for f in functions if re.fullmatch(r'\{\s*(\w+ as \w+|\w+ \|\| \w+|\w+ && \w+)\s*\}', f.body)]
show('functions that are one cast or one `||`', trivial)
show('fields written `x: x`', where(r'\b(\w+): \1(?=,| *\})'))
show('maximum, minimum, held sum by `if`', [f for f in functions if re.search(r'if (\w+) <=? [^{]*\{\s*return [^;]*;\s*\}\s*[\w+ ]+\s*\}\s*$', f.body)
     and len(f.body.split('\n')) <= 6 and re.search(r'(shorter|pair_height|held_sum|past)$', f.name)])

print('5. facts in three contracts or more, parameters that travel together')
par = {f: split(f.params) for f in functions}
name_of = lambda q: q.split(':')[0].replace('mut ', '').strip()
show('signatures with rules and edges', [f for f in functions if {'rules', 'edges'} <= {name_of(q) for q in par[f]}])
show('signatures with table and lengths', [f for f in functions if {'table', 'lengths'} <= {name_of(q) for q in par[f]}])
show('signatures with eight parameters or more', [f for f in functions if len(par[f]) >= 8])
clauses = {}
for f in functions:
    for c in re.findall(r'requires [^{]*(\{[^\n]*\})', f.head):
        clauses.setdefault(c, []).append(f)
often = {c: fs for c, fs in clauses.items() if len(fs) >= 3}
show('clauses `requires` that stand in three contracts or more, %d different ones' % len(often), ['%s %s' % (c, f) for c, fs in often.items() for f in fs])

print('6. buffers with a length beside, parallel arrays, searches by hand')
show('signatures of a text and the position in it', [f for f in functions if {'text', 'at'} <= {name_of(q) for q in par[f]}])
show('parallel arrays', where(r'let (low|high): \['))
show('a search by halves written by hand', where(r'while low < high'))

print('7. a switch on which step to run, tables of functions')
show('functions that choose another by a number', [])

print('8. proofs')
proofs = [p for p in glob.glob(os.path.join(tree, 'crates/*/proofs/**/*.antt'), recursive=True)]
inside = [p for p in proofs if os.path.basename(p) in ('Answers.antt', 'Invariants.antt', 'Proof.antt')]
count = lambda ps: sum(len(open(p, encoding='utf-8').read().split('\n')) - 1 for p in ps)
print('%4d  proof files of functions, %d lines' % (len(inside), count(inside)))
answers = re.compile(r'^pub [\w-]+ : goal\.', re.M)
print('%4d  answers' % sum(len(answers.findall(open(p, encoding='utf-8').read())) for p in inside))
rest = [p for p in proofs if p not in inside]
print('%4d  files of lemmas, %d lines' % (len(rest), count(rest)))
