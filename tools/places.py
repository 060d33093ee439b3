#!/usr/bin/env python3
"""places.py [POINT]: counts the places of the eight points of docs/DESIGN-PASS.md in crates/*/src, and lists them; run at the top of a checkout.
1 enums with a case that carries a value or says yes beside cases that say no, and numbers that stand for none; 2 functions whose text is the same but for
types, numbers and names; 3 loops that step a counter of their own; 4 min, max, casts, equality and codes written as functions; 5 facts and rows of
parameters in three or more signatures; 6 slices with a length beside them, columns and packed tables; 7 a match on a number that picks the call; 8 proofs."""
import collections, glob, os, re, sys

FILES = sorted(glob.glob('crates/*/src/**/*.rt', recursive=True))
TEXT = {f: open(f, encoding='utf-8').read() for f in FILES}

def functions():
    """(file, line, name, signature with clauses, body) of each fn that has a body."""
    for f in FILES:
        lines = TEXT[f].split('\n')
        i = 0
        while i < len(lines):
            m = re.match(r'(\s*)(?:pub(?:\(crate\))? )?(?:const )?(?:extern "C" )?fn (\w+)', lines[i])
            if not m:
                i += 1
                continue
            indent, start = m.group(1), i
            while i < len(lines) and not (lines[i] == indent + '{' or lines[i].startswith(indent) and lines[i].rstrip().endswith('{') and lines[i].lstrip().startswith((')', 'fn', 'pub fn', 'pub(crate) fn', 'pub extern'))):
                i += 1
            opened = i
            while i < len(lines) and lines[i] != indent + '}':
                i += 1
            yield f, start + 1, m.group(2), '\n'.join(lines[start:opened + 1]), '\n'.join(lines[opened + 1:i])
            i += 1

FUNCTIONS = list(functions())

def point1():
    for f in FILES:
        for m in re.finditer(r'^ *(?:pub )?enum (\w+)(?:<\w+>)? \{\n(.*?)^ *\}', TEXT[f], re.M | re.S):
            cases = re.findall(r'^\s*(\w+)(\(.*\))?,', m.group(2), re.M)
            yes = [c for c, v in cases if c in ('Of', 'At', 'Found', 'Given', 'Delivered', 'Taken', 'Read', 'Summed', 'Good', 'Open', 'Zero')]
            no = [c for c, v in cases if c in ('Refused', 'Past', 'Absent', 'Ended', 'One', 'TooLoud') or c.startswith(('Bad', 'Short', 'Not', 'Wrong', 'No', 'Too'))]
            if yes and no:
                yield f, TEXT[f][:m.start()].count('\n') + 1, m.group(1) + ': ' + ', '.join(c for c, v in cases)
        for n, line in enumerate(TEXT[f].split('\n'), 1):
            if re.search(r'//.*(if there is none|where there is none|stands for no|0 where|0 for (none|no)|n if there|or `end`|or the part\'s end|no refusal)', line):
                yield f, n, 'a number for none: ' + line.strip()

def plain(text):
    text = re.sub(r'//.*', '', text).replace('&mut ', '&')
    text = re.sub(r'"[^"]*"', 'S', text)
    text = re.sub(r'\b(0x[0-9A-Fa-f_]+|\d[\d_.e-]*)(u8|u16|u32|u64|usize|i32|i64|f32)?\b', 'N', text)
    text = re.sub(r'\b(u8|u16|u32|u64|usize|i32|i64|f32)\b', 'T', text)
    names = {}
    def name(m):
        w = m.group(0)
        if w in ('if', 'else', 'while', 'for', 'in', 'let', 'mut', 'match', 'return', 'as', 'T', 'N', 'S', 'true', 'false', 'len', 'self'):
            return w
        return names.setdefault(w, 'x%d' % len(names))
    return re.sub(r'\s+', ' ', re.sub(r'\b[A-Za-z_]\w*\b', name, text)).strip()

def point2():
    groups = collections.defaultdict(list)
    for f, n, name, signature, body in FUNCTIONS:
        if body.count('\n') >= 2 or body.count('(') >= 3:
            head = re.sub(r'\s*(requires|ensures)\b.*', '', signature, flags=re.S)
            groups[plain(re.sub(r'.*?\(', '(', head, count=1, flags=re.S) + body)].append((f, n, name))
    for rows in groups.values():
        if len(rows) > 1:
            yield rows[0][0], rows[0][1], ', '.join('%s::%s' % (f.split('/')[1], name) for f, n, name in rows)

def point3():
    for f, n, name, signature, body in FUNCTIONS:
        lines = body.split('\n')
        for i, line in enumerate(lines):
            if re.match(r'\s*(while|loop)\b', line):
                pad = re.match(r'\s*', line).group(0)
                j = next((k for k in range(i + 1, len(lines)) if lines[k].startswith(pad + '}')), len(lines))
                block = '\n'.join(lines[i:j])
                if re.search(r'\b(\w+) (\+=|-=) \d+;|\b(\w+) = \3 [+-] \d+;|\b(\w+) = end;', block):
                    yield f, n, name

def point4():
    shape = re.compile(r'^\s*if (\w+) < (\w+) \{ (\1|\2) \} else \{ (\1|\2) \}\s*$|^\s*\w+ as \w+\s*$')
    known = {'are_same', 'channel_of', 'kind_of', 'mode_of', 'verdict_number', 'higher', 'held', 'distance', 'int_of', 'bits_of', 'flip', 'up', 'at_most', 'put_text',
             'put_number', 'put_form', 'put_entry', 'say_form', 'say_line', 'put_answer', 'say_outcome', 'say_tally'}
    for f, n, name, signature, body in FUNCTIONS:
        if shape.match(re.sub(r'\s+', ' ', re.sub(r'//.*', '', body))) or name in known or re.fullmatch(r'\w+_refusal', name):
            yield f, n, name

def point5():
    facts = collections.Counter()
    rows = collections.Counter()
    for f, n, name, signature, body in FUNCTIONS:
        clauses = re.findall(r'requires(?: \w+)? \{(.*?)\}\n', signature + '\n', re.S)
        for clause in clauses:
            for part in set(re.sub(r'\s+', ' ', c).strip(' ()') for c in clause.split('×')):
                facts[part] += 1
        parameters = re.findall(r'(\w+): [^,()]+', signature.split(')')[0])
        for k in range(len(parameters) - 3):
            rows[' '.join(parameters[k:k + 4])] += 1
    for fact, n in facts.most_common():
        if n >= 3:
            yield 'fact', n, fact
    for row, n in rows.most_common():
        if n >= 3:
            yield 'parameters', n, row

def point6():
    for f, n, name, signature, body in FUNCTIONS:
        head = re.sub(r'\s+', ' ', re.sub(r'\s*(requires|ensures)\b.*', '', signature, flags=re.S))
        clauses = signature
        for m in re.finditer(r'(\w+): usize', head):
            if re.search(r'\(?\b%s ≤ length ' % m.group(1), clauses) and '[' in head:
                yield f, n, '%s(.. %s ..)' % (name, m.group(1))
    for f in FILES:
        for n, line in enumerate(TEXT[f].split('\n'), 1):
            if re.search(r'const [A-Z_]+: \[\w+; (24|2048)\]|row_entry\(|fn row_entry', line):
                yield f, n, line.strip()

def point7():
    for f in FILES:
        for m in re.finditer(r'match \w+ \{\n((?:\s*\d+ => \w+\(.*\),\n)+)', TEXT[f]):
            yield f, TEXT[f][:m.start()].count('\n') + 1, m.group(0).split('\n')[0].strip()

def point8():
    for d in sorted(glob.glob('crates/*')):
        files = glob.glob(d + '/proofs/**/*.antt', recursive=True)
        lines = sum(open(p, encoding='utf-8').read().count('\n') for p in files)
        if files:
            yield d, lines, '%d files' % len(files)

POINTS = [point1, point2, point3, point4, point5, point6, point7, point8]
for k, point in enumerate(POINTS, 1):
    if len(sys.argv) > 1 and int(sys.argv[1]) != k:
        continue
    rows = list(point())
    print('point %d: %d places%s' % (k, len(rows), ', %d lines of proofs' % sum(r[1] for r in rows) if k == 8 else ''))
    for place, n, what in rows:
        print('    %s:%s %s' % (place, n, what))
