#!/usr/bin/env python3
"""Counts the places of eight points of design in crates/*/src/*.rt and crates/*/proofs.
Run at the top of a checkout: design_count.py, or design_count.py -v POINT for each place. It looks for shapes, in points 1 and 6 also for the words of MEANING and LENGTH. A place is a candidate: what it is has to be read."""
import glob, os, re, shutil, signal, sys
from collections import Counter, defaultdict
from types import SimpleNamespace
INT = r'(?:u8|u16|u32|u64|usize|i32|i64)'
MEANING = r'(?:errno|error|why|number|kinds?|refus\w*|status|present|found|has_\w+|ended|unread|unwritten|untold|fail\w*)'
LENGTH = r'(?:at|len|held|used|end|told|from|count|n|size)'
LIBRARY = os.environ.get('RATTLE_LIBRARY') or os.path.join(os.path.dirname(os.path.realpath(shutil.which('rt') or '.')), '..', 'rattle')   # beside rt; for point 8

def blank(text):   # comments and what strings say are taken out; each line stays where it is
    def put(m):
        s, lines = m.group(), '\n' * m.group().count('\n')
        return lines if s[0] == '/' else '""' + lines if s[-1] == '"' else re.sub(r'[{}()\[\]";,]', '_', s)
    return re.sub(r'//[^\n]*|b?"(?:\\.|[^"\\])*"|b?\'(?:\\x..|\\.|[^\'\\\n])\'', put, text, flags=re.S)
def close(t, i):   # the place of the bracket that closes the one at i
    a, b, depth = t[i], {'(': ')', '{': '}', '[': ']', '<': '>'}[t[i]], 0
    for j in range(i, len(t)):
        depth += (t[j] == a) - (t[j] == b and not (b == '>' and t[j - 1] in '-='))
        if depth == 0: return j
    return len(t) - 1
def split(s, sep=','):   # the parts of s at the separators outside brackets
    out, depth, start = [], 0, 0
    for i, c in enumerate(s):
        depth += (c in '([{') - (c in ')]}')
        if c == sep and depth == 0: out.append(s[start:i]); start = i + 1
    return [' '.join(p.split()) for p in out + [s[start:]] if p.strip()]
def where(it, off=0): return '%s:%d' % (it.file, it.text.count('\n', 0, it.start + off) + 1)
def read(file):   # each function, enum, struct and constant of a file
    t = blank(open(file, encoding='utf-8').read())
    for m in re.finditer(r'\b(fn|enum|struct|const) (\w+)', t):
        it, i = SimpleNamespace(kind=m.group(1), name=m.group(2), file=file[7:], crate=file.split('/')[1], text=t, start=m.start()), m.end()
        if it.kind == 'const':
            c = re.match(r'\s*:\s*([^=;]+?)\s*=\s*([^;]+);', t[i:])
            if c: it.type, it.value = c.groups(); yield it
            continue
        i = close(t, i) + 1 if t[i] == '<' else i
        k = re.compile(r'[{;(]').search(t, i)
        if it.kind != 'fn':
            it.parts = [re.sub(r'(#\[[^\]]*\] *|^pub(\([^)]*\))? )', '', p) for p in split(t[k.end():close(t, k.start())])]
            if k.group() == '{': yield it
            continue
        k = close(t, i) + 1
        pairs = [p.partition(':') for p in split(t[i + 1:k - 1])]
        it.params = [(re.sub(r'^mut ', '', a.strip()), re.sub(r"'\w+ ", '', b.strip())) for a, _, b in pairs if b]
        it.clauses, it.result = [], re.sub(r"'\w+ ", '', (re.match(r'\s*->\s*(.*?)\s*(?:\{|;|\brequires\b|\bensures\b|\bwhere\b)', t[k:], re.S) or ['', ''])[1])
        while True:   # contracts first, then the body
            b = re.compile(r'[{;]').search(t, k)
            if not b or b.group() == ';': break
            e, clause = close(t, b.start()), re.search(r'\b(requires|ensures|measure)\b[^{}]*$', t[k:b.start()])
            if not clause:
                it.body, it.line, it.start = t[b.start():e + 1], where(it), b.start(); yield it; break
            it.clauses.append((clause.group(1), t[b.end():e])); k = e + 1
def payload(v): return re.sub(r'^\w+\s*[({]?\s*|\s*[)}]?$', '', v)
def loops(f): return [(m.start(), f.body[m.end() - 1:close(f.body, m.end() - 1)]) for m in re.finditer(r'\b(?:while|loop)\b[^{]*\{', f.body)]
def ends(f):   # what a function gives: the name or number at each of its ends, and whether it is a call
    return [(a, bool(b)) for a, b in re.findall(r'(?:return|=>|\{|\}|;)\s*(?:\w+::)*(\w+)(\((?:[^;{}])*\))?\s*[;,}]', f.body)]
def point1(fns, enums, structs, consts):
    for e in enums:
        pay = [payload(v) for v in e.parts]
        held, numbers = [p for p in pay if p], [p for p in pay if p in ('u8', 'u32', 'i32')]
        if 2 <= len(pay) <= 3 and held and len(held) - len(numbers) <= 1 and (len(held) < len(pay) or numbers): yield where(e), 'enum', 'enum %s { %s }' % (e.name, ', '.join(e.parts))
    for s in structs:
        flags = [p for p in s.parts if (p.endswith(': bool') and len(s.parts) <= 3) or re.match(MEANING + r': (%s|bool)$' % INT, p)]
        if len(s.parts) > 1 and flags: yield where(s), 'struct', 'struct %s of %d fields, among them %s' % (s.name, len(s.parts), ', '.join(flags))
    known, none, told = defaultdict(set), set(), set()   # the functions that give a number, by name; a call means that of its own crate, if there is one
    for f in fns: known[f.name].update({f.crate} if re.fullmatch(INT, f.result) else ())
    def mean(f, g): return {(g, f.crate)} if f.crate in known[g] else {(g, c) for c in known[g]}
    for f in fns:   # numbers that a caller compares with 0, named constants, the number of a variant
        tested = {g for a, g in re.findall(r'let (\w+) = (?:\w+::)*(\w+)\(', f.body) if re.search(r'\b%s [!=]= 0\b|\b0 < %s\b' % (a, a), f.body)}
        for g in tested | set(re.findall(r'(\w+)\([^;{}()]*\) [!=]= 0\b', f.body)): none |= mean(f, g)
        constant = any(re.fullmatch(r'[A-Z][A-Z_0-9]+', a) and not call and a != 'MAX' for a, call in ends(f))
        if constant or f.result in ('u8', 'u32') and re.search(r'\w+::\w+\((\w+)\)\s*=> \1\b', f.body): told |= mean(f, f.name)
    for f in fns * 5:   # and what ends in a call of such a one, or what such a one ends in
        called = set().union(*(mean(f, a) for a, call in ends(f) if call))
        if called & told: told |= mean(f, f.name)
        if f.crate in known[f.name] and (f.name, f.crate) in none: none |= called
    for f in fns:
        several, me = f.result in ('u8', 'u32') and len({a for a, _ in ends(f) if a.isdigit()}) > 1, (f.name, f.crate)
        why = [] if not re.fullmatch(INT, f.result) else ['result, 0 is none'] if me in none else ['result'] if me in told or several else []
        why += ['error'] * bool(re.search(r'Result<.*, (?:u8|u32)>$', f.result)) + [a for a, b in f.params if re.fullmatch(MEANING, a) and re.fullmatch(r'(?:u8|u32|&(?:mut )?\[(?:u8|u32)\])', b)]
        if why: yield f.line, 'fn', 'fn %s, a bare number: %s' % (f.name, ', '.join(why))
    small = [c for c in consts if re.fullmatch(INT, c.type) and c.value.isdigit() and int(c.value) < 256]
    for c in small:
        if sum(d.file == c.file for d in small) >= 5: yield where(c), 'const', 'const %s: %s = %s' % (c.name, c.type, c.value)
def form(f, loose):   # a function with its numbers, texts, types and own names taken out; loose: the names of what it calls too
    names, out = {a: 'p%d' % i for i, (a, _) in enumerate(f.params)}, []
    toks = re.findall(r'""|\w+|[^\w\s]', '(%s) -> %s %s' % (', '.join('%s: %s' % p for p in f.params), f.result, f.body))
    for k, after in zip(toks, toks[1:] + ['']):
        if k == f.name: k = 'SELF'
        elif k in names: k = names[k]
        elif k[0].isdigit(): k = '0'
        elif re.fullmatch(INT + r'|bool|[A-Z]\w*', k): k = 'T'
        elif loose and after == '(' and k not in ('if', 'match', 'while', 'return'): k = 'F'
        out.append(k)
    return re.sub(r'\w+ : : (?=F)', '', ' '.join(out))
def point2(fns, enums, structs, consts):
    groups, seen = [], set()
    for least, loose in ((12, False), (40, True)):
        by = defaultdict(list)
        for f in fns: by[form(f, loose)].append(f)
        for s, g in by.items():
            if len(g) > 1 and len(s.split()) >= least and not all(f.line in seen for f in g): groups.append(g); seen.update(f.line for f in g)
    by = defaultdict(list)
    for e in enums + structs:
        if len(e.parts) > 1: by[e.kind, tuple((re.match(r'\w+', p)[0], bool(payload(p)) and e.kind == 'enum') for p in e.parts)].append(e)
    for n, g in enumerate(groups + [g for g in by.values() if len(g) > 1], 1):
        for i, f in enumerate(g): yield getattr(f, 'line', 0) or where(f), '' if i else 'groups', 'group %d: %s %s' % (n, f.kind, f.name)
def point3(fns, *_):
    for f in fns:
        for at, body in loops(f):
            m = re.search(r'\b(\w+) [+-]= (?:\d\w*|[A-Z][A-Z_]+);|\b(\w+) = \2 [+-] \w+;', body)
            if m: yield where(f, at), '', 'fn %s, loop counting %s' % (f.name, m.group(1) or m.group(2))
HAND = [('least or greatest', r'if (\w+) <=? (\w+) \{\s*(?:return )?(?:\1|\2);?\s*\}\s*(?:else \{\s*)?(?:\1|\2)\s*\}|if (\w+) < (\w+) \{\s*\3 = \4;'),
        ('sum that stays below the most', r'MAX - \w+ < \w+|(?:<|==) u\d+::MAX \{\s*return'),
        ('equality or order', r'(\w+)\.(\w+) (?:!=|<) (\w+)\.\2 \{\s*return (?:false|true)|if (\w+)\[(\w+)\] != (\w+)\[\5\]'),
        ('copy or fill in a loop', r'(?:while|for)[^{]*\{[^}]*\w\[[^\]]+\] = (?:\w+\[[^\]]+\]|\d+|(?:\w+::)*\w+\([^;\[]*\));'),
        ('copy field by field', r'(?:\b(\w+): \w+\.\1,\s*){3}|(?:let (\w+) = \w+\.\2;\s*){3}'),
        ('same case to another type', r'(?:\w+::)*(\w+)\((\w+)\) => (?:return )?(?:\w+::)*\1\(\2\)'),
        ('whole function is a cast', r'^\{\s*\(?\w+\)? as \w+\s*\}$'),
        ('number to or from text', r"b'0' \+|\* (?:base|TEN|16|10) \+|- (?:48|87|55)\b|\b87 \+"),
        ('bytes to or from a number', r'(?:256|0x100|65_536|0x1_0000|4_294_967_296|0x1_0000_0000) \* \w+\W|/ 256\) as u8|% 256\) as u8;'),
        ('element or a default', r'if (\w+) < (\w+)(?:\.len\(\))? \{\s*(?:return )?\2\[\1\];?\s*\}|if (\w+) < \d+ \{\s*return \w+\.\w+\[\3\];')]
def point4(fns, *_):
    for f in fns:
        for label, m in ((label, re.search(pattern, f.body)) for label, pattern in HAND):
            if m: yield where(f, m.start()), label, 'fn %s, %s' % (f.name, label)
def point5(fns, *_):
    facts, sets = defaultdict(list), set()
    for f in fns:
        parts = {(kind, re.sub(r'^\((.*)\)$', r'\1', p)) for kind, c in f.clauses for p in split(c, '×')}
        for a, b in f.params: parts = {(kind, re.sub(r'(?<![.<\w])%s\b' % a, '<%s>' % b, p)) for kind, p in parts}
        for kind, p in parts: facts[f.crate, kind, p].append(f)
    for (crate, kind, p), fs in sorted(facts.items(), key=lambda x: -len(x[1])):
        if len(fs) >= 3: yield fs[0].line, '(a)', '(a) %s in %d functions of %s: %s' % (kind, len(fs), crate, p)
    params = [frozenset(f.params) for f in fns if len(f.params) >= 3]
    for a in set(params): sets.update(a & b for b in set(params) if len(a & b) >= 3)
    held = {s: n for s, n in ((s, sum(s <= p for p in params)) for s in sets) if n >= 3}
    held = {s: n for s, n in held.items() if not any(s < o and m * 2 >= n for o, m in held.items())}   # a larger group that is half as often stands for it
    for s, n in sorted(held.items(), key=lambda x: (-x[1] * len(x[0]), sorted(x[0]))):
        f = next(f for f in fns if s <= frozenset(f.params))
        yield f.line, '(b)', '(b) in %d functions: %s' % (n, ', '.join('%s: %s' % p for p in f.params if p in s))
def point6(fns, enums, structs, consts):
    lengths = {s.name for s in structs if any(re.match(LENGTH + ': usize', p) for p in s.parts)}
    for s in structs:
        if re.search(r': (?:&mut )?\[', ','.join(s.parts)) and ': usize' in ','.join(s.parts): yield where(s), 'struct', 'struct %s, an array and a length' % s.name
    for f in fns:
        lent = [a for a, x in f.params if re.match(r'&mut \[', x)]
        pairs = [(a, b) for (a, x), (b, y) in zip(f.params, f.params[1:]) if a in lent and y == 'usize'] or [(a, b) for a in lent for b, y in f.params if y in lengths]
        if pairs: yield f.line, 'buffer handed on', 'fn %s, a buffer and its length: %s, %s' % ((f.name,) + pairs[0])
        sizes = Counter(re.sub(r'.*; (\w+)\]', r'\1', x) for a, x in f.params if re.match(r'&(?:mut )?\[\w+; \w+\]', x))
        at = [Counter(i for _, i in set(re.findall(r'(\w+)\[(\w+)\]', b))) for _, b in loops(f)]
        if any(n > 1 for n in sizes.values()) or any(n > 2 for c in at for n in c.values()): yield f.line, 'parallel arrays', 'fn %s, parallel arrays' % f.name
def arms(body, i=0):   # each pattern of a match with what it gives
    for m in iter(lambda: re.compile(r'=>\s*').search(body, i), None):
        j = e = m.end()
        if body[j:j + 1] == '{': e = close(body, j) + 1
        while e < len(body) and body[e] != ',' and body[j] != '{': e = close(body, e) + 1 if body[e] in '([{' else e + 1
        yield body[i:m.start()].strip(' ,\n'), ' '.join(body[j:e].strip('{} \n').split()); i = e
def point7(fns, enums, structs, consts):
    for x in [f for f in fns if any(re.search(r'\bfn\(|dyn Fn', b) for _, b in f.params)] + [c for c in consts if 'fn(' in c.type]: yield getattr(x, 'line', 0) or where(x), 'function as a value', '%s %s, a function as a value' % (x.kind, x.name)
    for f in fns:
        for m in re.finditer(r'\bmatch\b[^{;]*\{', f.body):
            all_arms, calls = list(arms(f.body[m.end():close(f.body, m.end() - 1)])), []
            for pattern, e in all_arms:
                c, bound = re.fullmatch(r'((?:\w+::)*\w+)\((.*)\)', e), '|'.join(re.findall(r'\b[a-z]\w*\b', pattern) or ['-'])
                if c: calls.append((c.group(1), tuple(a for a in split(c.group(2)) if not re.match(r'""|\d|(?:\w+::)*[A-Z]|&?\[', a) and not re.search(r'\b(?:%s)\b' % bound, a))))
            args, n = Counter(a for _, a in calls).most_common(1)[0] if calls else ((), 0)
            names = {c for c, a in calls if a == args}
            if len(all_arms) >= 3 and n >= 0.6 * len(all_arms) and (args or len(names) == 1 and n >= 5): yield where(f, m.start()), 'one function, other constants' if len(names) == 1 else 'other functions', 'fn %s, %d arms call %s with %s' % (f.name, n, ' or '.join(sorted(names)), ', '.join(args) or 'constants alone')
def lemmas(text): return {m.group(1): m.group(2) for m in re.finditer(r'^ ? ?(?:pub )?([a-z][\w-]*) : (?=.*[≡≤<])(.*→.*)$', text, re.M)}
def shape(s):   # a statement with its names numbered
    bound = dict.fromkeys(k for g in re.findall(r'[({]([\w ]+) :', s) for k in g.split())
    return re.sub(r'[\w-]+', lambda m: 'v%d' % list(bound).index(m.group()) if m.group() in bound else m.group(), s)
def point8(*_):
    std, more = ([x for p in glob.glob(LIBRARY + g, recursive=True) for x in lemmas(open(p, encoding='utf-8').read()).items()] for g in ('/std/lemmas/**/*.md', '/*/proofs/**/*.antt'))
    names, shapes = {n.replace('-', '_') for n, _ in std if re.search('[_-]', n)}, {shape(st) for _, st in std + more}
    for d in sorted(glob.glob('crates/*/proofs')):
        texts = {p: open(p, encoding='utf-8').read() for p in sorted(glob.glob(d + '/**/*.antt', recursive=True))}
        answers = [t for p, t in texts.items() if p.endswith('/Answers.antt')]
        numbers = {'crates': 1, 'files': len(texts), 'lines': sum(t.count('\n') for t in texts.values()), 'Answers': len(answers),
                   'lines only a search': sum(len(re.findall(r'^(?:\s+|.* = )search\b.*$', t, re.M)) for t in answers)}
        yield d[7:], numbers, ', '.join('%s %d' % x for x in numbers.items())
        for p, n, st in ((p, n, st) for p, t in texts.items() if not p.endswith('/Answers.antt') for n, st in lemmas(t).items()):
            same = 'statement' if shape(st) in shapes else 'name' if n.replace('-', '_') in names else ''
            line = re.search(r'(?:.*\n)*? *(?:pub )?%s :' % re.escape(n), texts[p]).group().count('\n') + 1
            if same: yield '%s:%d' % (p[7:], line), 'lemmas of a library %s' % same, 'lemma %s, the %s of one of the library' % (n, same)

signal.signal(signal.SIGPIPE, signal.SIG_DFL)
kinds, wanted = defaultdict(list), sys.argv[2] if sys.argv[1:2] == ['-v'] and sys.argv[2:] else ''
for file in sorted(glob.glob('crates/*/src/**/*.rt', recursive=True)):
    for it in read(file): kinds[it.kind].append(it)
NAMES = ['own Option, Result, flags and numbers', 'twins', 'indexes counted by hand', 'written by hand', 'facts and parameters repeated', 'buffers with a length beside', 'switches on a step', 'proofs']
for n, name in [(n, name) for n, name in enumerate(NAMES, 1) if wanted in ('', str(n))]:
    places, sorts = list(globals()['point%d' % n](kinds['fn'], kinds['enum'], kinds['struct'], kinds['const'])), Counter()
    for _, sort, _ in places: sorts.update(sort if isinstance(sort, dict) else {sort: 1} if sort else {})
    print('%d %s: %d places%s' % (n, name, len(places), ' (%s)' % ', '.join('%s %d' % x for x in sorts.items()) if sorts else ''))
    for p, _, what in places * bool(wanted): print('%s: %s' % (p, what))
