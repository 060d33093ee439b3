"""Reading .antt files and making mutants of their definitions: for scripts/mutants.py.

A mutant is one change of one definition. Which changes there are is said by the tables below and by `Maker`.
"""
import hashlib
import re

# ---- which words may take each other's place

OPERATORS = {
    'ltb': 'leb', 'leb': 'ltb', 'eqb': 'leb', 'le': 'lt', 'lt': 'le', '&&': '||', '||': '&&', '+': '-', '-': '+', '*': '+', '/': '*', '%': '/',
    'min': 'max', 'max': 'min', '≤': '<', '<': '≤', 'true': 'false', 'false': 'true', '+ℤ': '-ℤ', '-ℤ': '+ℤ', 'highFirst': 'lowFirst',
    'Discrete': 'StereoPrimary', 'StereoPrimary': 'StereoSecondary', 'StereoSecondary': 'StereoPrimary',
}
NAT, BOOL, DEC = 'Prim.Native.Nat', 'mathlib.Core.Bool', 'lib.Dec'
# where such a word is imported from, if the file does not yet
HOMES = {
    'leb': DEC, 'ltb': DEC, 'eqb': DEC, 'le': 'lib.Ieee', 'lt': 'lib.Ieee', '_+_': NAT, '_-_': NAT, '_*_': NAT, '_/_': NAT, 'min': NAT, 'max': NAT,
    '_≤_': NAT, '_<_': NAT, '_&&_': BOOL, '_||_': BOOL, 'true': BOOL, 'false': BOOL, '_+ℤ_': 'lib.IntN', '_-ℤ_': 'lib.IntN',
}
# fields of one type: each is tried as the next of its row
FIELDS = [
    ['channels', 'base', 'stereo', 'total', '«frame_size»'], ['factors', 'side', 'codes', 'frame', 'scaled', 'intensities', 'spectra'],
    ['level', 'boundary', 'pairs', 'bits'], ['rate', 'frames', 'padding'], ['«start_frame»', '«end_frame»', 'delay'], ['offset', 'width', 'value'],
    ['channels', 'rate', 'depth', 'count'], ['body', 'size'], ['left', 'right', 'total'], ['peak', 'mean'], ['frames', 'bits', 'pairs'], ['.0', '.1'],
]
INFIX = set('∷ ++ && || + - * / % ^ ≡ ≤ < >>= ⊗ +ℤ -ℤ → × = : ←'.split())
BREAKS = {'let', 'in', 'λ', 'record', 'where', ';', ',', 'of'}
TOKEN = re.compile(r'--[^\n]*|\s+|«[^»]*»|0x[0-9A-Fa-f]+|[(){};,]|[^\s(){};,]+')
NUMBER = re.compile(r'0x[0-9A-Fa-f]+|[0-9]+')
TYPE_HEAD = re.compile(r'^(?:abbrev |unfoldable |pub )*(record|data)\s+(\S+)')
LONG_LIST = 16   # of a longer list about a sixth of the numbers is tried, and no two elements are exchanged


# ---- reading a file

class Declaration:
    """A definition or a theorem: its lines (from 1), its text with the headers of the `module _` around it, and its signature alone."""

    def __init__(self, file, name, line, public, is_definition, block):
        self.file, self.name, self.start, self.end = file, name, line, line
        self.public, self.is_definition, self.block = public, is_definition, block
        self.body = None   # the line of its first equation
        self.text = self.signature = ''
        self.names = {name}       # with the constructors of a data type
        self.unfolded = set()     # what its `unfolding` lines name

    @property
    def key(self):
        return (self.file, self.name)


def head_of(line):
    """name, public, whether users see its body; None where a line only goes on with an equation of the name before"""
    found = re.match(r'^((?:abbrev |unfoldable |pub )*)(?:record|data)\s+(\S+)', line)
    if found:
        return found.group(2), 'pub' in found.group(1).split(), True
    found = re.match(r'^((?:abbrev |unfoldable |pub )+)(\S+)', line)
    if found:
        words = found.group(1).split()
        return found.group(2), 'pub' in words, 'abbrev' in words or 'unfoldable' in words
    return line.split()[0], False, None


class Source:
    """A file of specs/ or proofs/: its `use` lines, the headers of its blocks, its declarations."""

    def __init__(self, file, text):
        self.file, self.text, self.lines = file, text, text.split('\n')
        self.uses, self.blocks, self.declarations = [], {}, []
        self.read()
        for d in self.declarations:
            heads = ''.join('\n' + '\n'.join(self.lines[a - 1:b]) for a, b in (self.blocks[i] for i in d.block))
            d.text = '\n'.join(self.lines[d.start - 1:d.end]) + heads
            d.signature = '\n'.join(self.lines[d.start - 1:(d.body or d.end + 1) - 1]) + heads
            head = TYPE_HEAD.match(self.lines[d.start - 1].strip())
            if head and head.group(1) == 'data':
                d.names |= set(re.findall(r'^\s+(?:pub )?(\S+) :', '\n'.join(self.lines[d.start:d.end]), re.M))
            for words in re.findall(r'^\s*unfolding ((?:.|\n)*?)(?=\n\s*' + re.escape(d.name) + r' )', d.text, re.M):
                d.unfolded |= words_of(words)
        unfolded = {word for d in self.declarations for word in d.unfolded}
        for d in self.declarations:   # a plain constant that its own file unfolds is a definition there
            d.is_definition = d.is_definition or d.name in unfolded

    def read(self):
        inside, current, open_head = [], None, False
        for number, line in enumerate(self.lines, 1):
            if not line.strip() or line.lstrip().startswith('--'):
                continue
            indent = len(line) - len(line.lstrip())
            if open_head:
                self.blocks[inside[-1]][1] = number
                open_head = not line.rstrip().endswith(' where')
                continue
            if indent < 2 * len(inside) and line[indent] not in '})':
                inside = inside[:indent // 2]
            rest = line[2 * len(inside):]
            if rest.startswith('module '):
                inside, current = inside + [number], None
                self.blocks[number] = [number, number]
                open_head = not line.rstrip().endswith(' where')
            elif re.match(r'(pub )?(use|mod) |infix', rest):
                current = None
                self.uses.append(number)
            elif rest[0].isspace() or rest[0] in '})' or rest.startswith(('unfolding', 'where')):
                if current:
                    current.end = number
            else:
                current = self.declare(number, rest, current, tuple(inside))

    def declare(self, number, rest, current, block):
        name, public, is_definition = head_of(rest)
        if current and name == current.name and is_definition is None:
            current.end, current.body = number, current.body or number
            return current
        current = Declaration(self.file, name, number, public, bool(is_definition), block)
        self.declarations.append(current)
        return current

    def offsets(self):
        """where each line begins"""
        out = [0]
        for line in self.lines:
            out.append(out[-1] + len(line) + 1)
        return out


def words_of(text):
    out = set()
    for token in TOKEN.findall(text):
        if not token.startswith('--') and not token.isspace():
            token = token.strip('λ').rstrip('.').lstrip('.')
            if token:
                out.add(token)
    return out


def file_of(module):
    """rules_files/specs/Wav of Rattle·rules_files·specs.specs.Wav; None of a library or a declared type"""
    found = re.match(r'Rattle·(\w+?)(?:·(?:specs|proofs))?\.(specs|proofs)\.([\w.]+)$', module)
    return f'{found.group(1)}/{found.group(2)}/' + found.group(3).replace('.', '/') if found else None


def module_of(file):
    crate, part, name = file.split('/', 2)
    return f'Rattle·{crate}·{part}.{part}.' + name.replace('/', '.')


# ---- the mutants of a file

class Mutant:
    """text[a:b] of a spec file replaced. Known by file, definition, old text, new text and which one of these: not by its place in the file."""

    def __init__(self, source, declaration, a, b, new, kind, needs):
        self.source, self.declaration, self.a, self.b, self.new, self.kind, self.needs = source, declaration, a, b, new, kind, needs
        self.file, self.old = source.file, source.text[a:b]
        self.line = source.text.count('\n', 0, a) + 1

    def settle(self, occurrence):
        squeezed = [' '.join(text.split()) for text in (self.old, self.new)]
        self.description = f'{self.file} {self.declaration.name}: `{squeezed[0]}` -> `{squeezed[1]}`' + (f' ({occurrence})' if occurrence > 1 else '')
        self.id = self.file.split('/')[-1] + '-' + hashlib.sha1(self.description.encode()).hexdigest()[:8]

    def changed(self):
        return self.source.text[:self.a] + self.new + self.source.text[self.b:]


class Node:
    """a word, or what stands in brackets"""

    def __init__(self, a, b, word=None, inner=None):
        self.a, self.b, self.word, self.inner = a, b, word, inner


def lex(text, start, end):
    out, at = [], start
    while at < end:
        found = TOKEN.match(text, at, end)
        word = found.group(0)
        if not word.isspace() and not word.startswith('--'):
            if word.startswith('λ') and len(word) > 1:
                out += [Node(at, at + 1, 'λ'), Node(at + 1, found.end(), word[1:])]
            else:
                out.append(Node(at, found.end(), word))
        at = found.end()
    return out


def tree(words):
    stack, opened = [[]], []
    for word in words:
        if word.word in '({':
            stack.append([])
            opened.append(word)
        elif word.word in ')}':
            if opened:
                inner, first = stack.pop(), opened.pop()
                stack[-1].append(Node(first.a, word.b, None, inner))
        else:
            stack[-1].append(word)
    return stack[0]


def applications(nodes):
    """a row of nodes cut at its operators: lists of nodes (a function and its arguments) and single operators"""
    out, current, i = [], [], 0
    while i < len(nodes):
        node = nodes[i]
        if node.word == 'λ' or node.word in INFIX or node.word in BREAKS:
            if current:
                out.append(current)
                current = []
            if node.word == 'λ':   # its variables go with it
                while i < len(nodes) - 1 and not (nodes[i].word or '').endswith('.'):
                    i += 1
            out.append(node)
        else:
            current.append(node)
        i += 1
    return out + [current] if current else out


class Maker:
    """all mutants of one definition"""

    def __init__(self, source, declaration, offsets, out):
        self.source, self.text, self.declaration, self.offsets, self.out = source, source.text, declaration, offsets, out
        self.numbers = 0

    def add(self, a, b, new, kind, needs=()):
        if self.text[a:b] != new:
            self.out.append(Mutant(self.source, self.declaration, a, b, new, kind, list(needs)))

    def of(self, first, last):
        return self.text[first.a:last.b]

    def make(self):
        d, is_type = self.declaration, bool(TYPE_HEAD.match(self.source.lines[self.declaration.start - 1].strip()))
        if is_type and '≤' not in d.text and '<' not in d.text:
            return
        first = d.start if is_type else d.body or d.end + 1
        start, end = self.offsets[first - 1], self.offsets[d.end]
        if start >= end:
            return
        clauses = [(start, start, end, [])] if is_type else self.clauses(first)
        for head, begin, stop, patterns in clauses:
            words = lex(self.text, begin, stop)
            is_long = sum(1 for w in words if w.word == '∷') > LONG_LIST
            self.words(words, self.variables(patterns), is_long)
            nodes = tree(words)
            self.structure(nodes, is_long)
            self.records(nodes)
        if not is_type:
            self.exchange_clauses(clauses)

    def clauses(self, first):
        """`name patterns = body`: where it begins, where its body begins and ends, the words of its patterns"""
        d, out = self.declaration, []
        starts = [n for n in range(first, d.end + 1) if self.text[self.offsets[n - 1]:].startswith(d.name + ' ')] + [d.end + 1]
        for one, following in zip(starts, starts[1:]):
            a, b = self.offsets[one - 1], self.offsets[following - 1]
            equals = re.compile(r'(?<=\s)=(?=\s)').search(self.text, a, b)
            if equals:
                out.append((a, equals.end(), b, [w.word for w in lex(self.text, a + len(d.name), equals.start())]))
        return out

    def variables(self, patterns):
        """the clause's variables with the types that the signature gives to their places"""
        signature, types, order = self.declaration.signature, {}, []
        for found in re.finditer(r'[({]([^():{}]+) : ((?:[^()]|\([^()]*\))*?)[)}]', signature):
            for name in found.group(1).split():
                types[name] = found.group(2).strip()
        for found in re.finditer(r'[(]([^():{}]+) :', signature):
            order += found.group(1).split()
        flat = [p for p in patterns if p not in '()']
        return {p: types.get(name) for p, name in zip(flat, order)} if len(flat) == len(order) else {}

    def words(self, words, variables, is_long):
        for i, w in enumerate(words):
            if i + 1 < len(words) and words[i + 1].word == '=':
                continue   # a field's name
            if NUMBER.fullmatch(w.word):
                self.number(w, is_long)
            elif w.word in OPERATORS:
                new = OPERATORS[w.word]
                name = f'_{new}_' if f'_{new}_' in HOMES else new
                self.add(w.a, w.b, new, 'operator', [(HOMES[name], name)] if name in HOMES else [])
            elif w.word.startswith('.') and len(w.word) > 1:
                for row in FIELDS:
                    if w.word[1:] in row:
                        self.add(w.a, w.b, '.' + row[(row.index(w.word[1:]) + 1) % len(row)], 'field')
            elif variables.get(w.word):
                alike = [v for v in variables if v not in (w.word, '_') and variables[v] == variables[w.word]]
                if alike:
                    self.add(w.a, w.b, alike[list(variables).index(w.word) % len(alike)], 'variable')

    def number(self, w, is_long):
        if re.search(r'(Type |\{)$', self.text[:w.a]):
            return   # a universe
        self.numbers += 1
        if is_long and self.numbers * 7919 % 11 > 1:
            return
        value, is_hex = int(w.word, 0), w.word.startswith('0x')
        for other in (value + 1, value - 1):
            if other >= 0:
                self.add(w.a, w.b, f'0x{other:0{len(w.word) - 2}X}' if is_hex else str(other), 'number')

    def structure(self, nodes, is_long):
        row = applications(nodes)
        for item in row:
            if isinstance(item, list):
                self.application(item)
        for i, item in enumerate(row):
            if not isinstance(item, list) and 0 < i < len(row) - 1 and isinstance(row[i - 1], list) and isinstance(row[i + 1], list):
                self.operator(item, row[i - 1], row[i + 1], i + 2 < len(row), is_long)
        for node in nodes:
            if node.inner is not None:
                self.structure(node.inner, is_long)

    def application(self, nodes):
        function, arguments = nodes[0], nodes[1:]
        name = function.word or '.'
        if name == 'cond' and len(arguments) == 3:
            yes, no = arguments[1:]
            self.add(yes.a, no.b, self.of(no, no) + ' ' + self.of(yes, yes), 'branches')
            self.add(function.a, no.b, '(' + self.of(no, no) + ')', 'case dropped')
        elif name[0] != '.' and name not in ('eqb', 'max', 'min') and not any((n.word or '').startswith('.') for n in arguments):
            for p, q in zip(arguments, arguments[1:]):
                if self.of(p, p) != self.of(q, q):
                    self.add(p.a, q.b, self.of(q, q) + self.text[p.b:q.a] + self.of(p, p), 'arguments')
        if name == 'not' and len(arguments) == 1:
            self.add(function.a, arguments[0].b, self.of(arguments[0], arguments[0]), 'not dropped')

    def operator(self, sign, left, right, goes_on, is_long):
        both = self.of(right[0], right[-1]) + f' {sign.word} ' + self.of(left[0], left[-1])
        if sign.word in ('&&', '+', '++', '||', '-', '*', '%', '/', '+ℤ', '-ℤ'):
            self.add(left[0].a, right[0].a, '', 'left dropped')
            self.add(left[-1].b, right[-1].b, '', 'right dropped')
            if sign.word in ('-', '++', '/', '%'):
                self.add(left[0].a, right[-1].b, both, 'sides')
        if sign.word == '∷' and not is_long:
            self.add(left[0].a, right[0].a, '', 'element dropped')
            if goes_on:
                self.add(left[0].a, right[-1].b, both, 'elements')

    def records(self, nodes):
        """the values of two neighbouring fields exchanged"""
        for node in nodes:
            if node.inner is None:
                continue
            if self.text[node.a] == '{':
                parts = [[]]
                for n in node.inner:
                    if n.word == ';':
                        parts.append([])
                    else:
                        parts[-1].append(n)
                fields = [p for p in parts if len(p) >= 3 and p[1].word == '=']
                for p, q in zip(fields, fields[1:]):
                    one, two = self.of(p[2], p[-1]), self.of(q[2], q[-1])
                    if one != two:
                        self.add(p[2].a, q[-1].b, two + self.text[p[-1].b:q[2].a] + one, 'fields')
            self.records(node.inner)

    def exchange_clauses(self, clauses):
        for (_, begin, end, _), (head, other, stop, _) in zip(clauses, clauses[1:]):
            one, two = self.text[begin:end].strip('\n'), self.text[other:stop].strip('\n')
            if one.strip() != two.strip():
                self.add(begin, stop, two + '\n' + self.text[head:other] + one + '\n', 'clauses')


def mutants_of(source):
    made, offsets = [], source.offsets()
    for declaration in source.declarations:
        Maker(source, declaration, offsets, made).make()
    seen, out, count = set(), [], {}
    for m in sorted(made, key=lambda m: (m.a, m.b, m.new)):
        if (m.a, m.b, m.new) not in seen:
            seen.add((m.a, m.b, m.new))
            same = (m.declaration.name, ' '.join(m.old.split()), ' '.join(m.new.split()))
            count[same] = count.get(same, 0) + 1
            m.settle(count[same])
            out.append(m)
    return out


def with_imports(text, needs):
    for module, name in needs:
        found = re.search(r'^use ' + re.escape(module) + r'\.\{([^}]*)\}', text, re.M)
        if not found:
            at = re.search(r'^use ', text, re.M).start()
            text = text[:at] + f'use {module}.{{{name}}}\n' + text[at:]
        elif name not in [n.strip() for n in found.group(1).split(',')]:
            text = text[:found.end(1)] + ', ' + name + text[found.end(1):]
    return text
