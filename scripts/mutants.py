#!/usr/bin/env python3
"""FOR THE OLDER KIT, rattle-kit-5b: with today's this does not run. It reads antt in that kit's spelling, and its prover lies in other folders. What it found
stands in docs/MUTANTS.md; `rt plant` tries wrong bodies today, and nothing of the kit's changes definitions.

How well the definitions under specs/ are pinned: single changes of them, and whether a theorem or a worked example refuses each.

  mutants.py list GROUP..                   how many mutants each spec file has
  mutants.py show GROUP..                   every mutant, a line each
  mutants.py run GROUP.. [--minutes N] [--share PART] [--batch N] [--only FILE,..]
                                            try mutants that have no verdict yet; target/mutants/GROUP.json has the verdicts
  mutants.py one ID..                       one mutant alone, in place, with all that the prover says; its verdict is written down
  mutants.py report [GROUP..]               figures a file, the survivors, and last `holes: N`

GROUP is the crate of the definitions (GROUPS below), or `all`. --share 1/3 tries a third of each spec file, its definitions in turn.

A mutant is first tried as a copy: the changed definition under a file of its own, with copies of what rests on it, many mutants in one check. This is done
with the rows that unfold nothing, since a number that is computed may have no end; then with all rows, which are proved by computation alone; then with all
that rests on it, each time those first that need few copies. A definition is copied unchanged beside them (its control): where that copy fails the theorem is not counted. What passes is tried in place,
alone, with every file of the crates above, slow ones too. So a kill is the word of a row or of a theorem, and a survivor has passed all of them.
The repository is not written to: all happens in target/mutants, or in the folder that MUTANTS names. It needs target/rlib of a `rt check` and nothing else.
One run at a time in one folder.
"""
import argparse
import json
import os
import random
import re
import resource
import shutil
import subprocess
import sys
import time
from fractions import Fraction

sys.dont_write_bytecode = True   # no __pycache__ beside the scripts
from mutants_text import Source, file_of, module_of, mutants_of, with_imports, words_of  # noqa: E402

# ---- what is tried: a crate of definitions, the crates with theorems about them, files that are left to the last try and rows that are left to the second
# because they take long, and how many seconds of CPU a copy may take on average (twice what most take), beside ten for each check

GROUPS = {
    'rules_files': {'above': ['file_header_demands', 'list_demands', 'wav_demands'], 'slow': [], 'late': ['worked-header', 'plain-header'], 'seconds': 1},
    'rules_stereo': {
        'above': ['stereo_demands'],
        'slow': ['stereo_demands/proofs/WorkedStereo'],
        'late': ['three-spectra', 'three-intensities', 'late-mixed', 'bands-row'],
        'seconds': 3,
    },
    'rules_line': {'above': ['line_demands'], 'slow': ['line_demands/proofs/WorkedLine'], 'late': [], 'seconds': 2},
    'rules_finest': {'above': [], 'slow': [], 'late': [], 'seconds': 2},
    'rules': {
        'above': ['rules_formats', 'rules_demands', 'rules_worked'],
        'slow': [f'rules_worked/proofs/{file}' for file in ['Worked', 'Runs', 'Empty', 'Refusal7', 'Clipping', 'Inputs', 'Unordered']],
        'late': [],
        'seconds': 3,
    },
}

# The tries of a copy, each with what passed the one before: the rows that unfold nothing, since a number that is computed may have no end; the rows that few
# declarations are copied for, all rows; the theorems that few are copied for, everything. NEAR is how many are few: most kills need no more, and a copy of
# everything takes ten times as long. Where a try comes to no end, a theorem that unfolds the changed definition alone may still refuse the change: `bare`.
TRIES = ['plain rows', 'near rows', 'rows', 'near', 'all']
NEAR = {'near rows': 12, 'near': 24, 'bare': 12}

ROOT = os.path.dirname(os.path.dirname(os.path.abspath(__file__)))
WORK = os.path.abspath(os.environ.get('MUTANTS') or os.path.join(ROOT, 'target', 'mutants'))
COPY = os.path.join(WORK, 'repo')
ACCEPTED = os.path.join(ROOT, 'scripts', 'mutants-accepted.txt')

# ---- what rests on what

class House:
    """the files of a group's crates, and which declaration uses which"""

    def __init__(self, group):
        self.group, self.crates = group, [group] + GROUPS[group]['above']
        self.sources, self.by_key, self.own = {}, {}, {}
        for crate in self.crates:
            for part in ('specs', 'proofs'):
                for path in sorted(os.listdir(f'{ROOT}/crates/{crate}/{part}')) if os.path.isdir(f'{ROOT}/crates/{crate}/{part}') else []:
                    if path.endswith('.antt') and path != 'Lib.antt':
                        file = f'{crate}/{part}/{path[:-5]}'
                        self.sources[file] = Source(file, open(f'{ROOT}/crates/{file}.antt').read())
        for file, source in self.sources.items():
            self.own[file] = {name: d for d in source.declarations for name in d.names}
            for d in source.declarations:
                self.by_key[d.key] = d
        self.uses, self.shown, self.users, self.seen_by, self.taken = {}, {}, {}, {}, {}
        for source in self.sources.values():
            scope = self.scope(source)
            for d in source.declarations:
                self.uses[d.key] = {scope[w] for w in words_of(d.text) if w in scope}
                self.shown[d.key] = self.uses[d.key] if d.is_definition else {scope[w] for w in words_of(d.signature) if w in scope}
                for key in self.uses[d.key]:
                    self.users.setdefault(key, set()).add(d.key)
                for key in self.shown[d.key]:
                    self.seen_by.setdefault(key, set()).add(d.key)
        self.specs = [f for f in self.sources if f.startswith(group + '/specs/')]

    def scope(self, source):
        """what each word of a file stands for: a declaration of these crates"""
        out = {}
        for number in source.uses:
            for file, name, alias in imports(source.lines[number - 1]):
                if name in self.own.get(file, {}):
                    out[alias] = self.own[file][name].key
        out.update({name: d.key for name, d in self.own[source.file].items()})
        for name in [n for n in out if '_' in n]:
            for piece in name.split('_'):
                if piece:
                    out.setdefault(piece, out[name])
        return out

    def resting_on(self, key):
        """every declaration whose check can come out otherwise when this one changes"""
        changed, todo = {key}, [key]
        while todo:
            for user in self.seen_by.get(todo.pop(), ()):
                if user not in changed:
                    changed.add(user)
                    todo.append(user)
        return changed | {user for k in changed for user in self.users.get(k, ())}

    def is_row(self, key):
        """is it proved by computation alone?"""
        d = self.by_key.get(key)
        return bool(d and re.search(r'(?s)\s=\s[\s(),]*refl[\s(),refl]*$', '\n'.join(self.sources[d.file].lines[(d.body or d.end) - 1:d.end])))

    def rows_of(self, keys):
        """the rows among these declarations, but for those that are left to the last"""
        return {k for k in keys if not self.by_key[k].is_definition and k[1] not in GROUPS[self.group]['late'] and self.is_row(k)}

    def with_used(self, chosen, keys):
        """the chosen among these declarations, and those that they rest on"""
        todo, kept = list(chosen), set(chosen)
        while todo:
            for key in self.uses[todo.pop()]:
                if key in keys and key not in kept:
                    kept.add(key)
                    todo.append(key)
        return kept

    def tried(self, key, which):
        """what is copied when a definition is changed: of all that rests on it what this try takes (TRIES)"""
        if (key, which) not in self.taken:
            self.taken[key, which] = self.take(key, which)
        return self.taken[key, which]

    def take(self, key, which):
        slow = GROUPS[self.group]['slow']
        keys = {k for k in self.resting_on(key) if k[0] not in slow}
        if which == 'all':
            return keys
        chosen = self.rows_of(keys) if 'rows' in which else {k for k in keys if not self.by_key[k].is_definition}
        if which == 'plain rows':
            chosen = {k for k in chosen if not self.by_key[k].unfolded}
        if which == 'bare':
            chosen = self.nearest({k for k in chosen if set(self.by_key[k].unfolded) <= {key[1]}}, keys, NEAR[which])
        if 'near' in which:
            chosen = self.nearest(chosen, keys, NEAR[which])
        return self.with_used(chosen, keys) | {key}

    def has_theorem(self, key, which):
        return any(not self.by_key[k].is_definition for k in self.tried(key, which))

    def nearest(self, chosen, keys, most):
        """of the chosen those that rest on the fewest, as long as no more than so many are copied together"""
        kept = set()
        for k in sorted(chosen, key=lambda k: (len(self.with_used({k}, keys)), k)):
            more = kept | self.with_used({k}, keys)
            if len(more) > most:
                break
            kept = more
        return kept


def imports(line):
    """(file, name, name here) of each name of a `use` line"""
    found = re.match(r'(?:pub )?use (\S+?)\.\{([^}]*)\}', line.strip())
    if found and file_of(found.group(1)):
        for name in found.group(2).split(','):
            name, _, alias = name.strip().partition(' as ')
            yield file_of(found.group(1)), name.strip(), alias.strip() or name.strip()


class Copies:
    """a mutant's changed definition and the rows or all that rests on it, each file under its name with a number behind it"""

    def __init__(self, house, mutant, number, which, control=False):
        self.house, self.number, self.mutant = house, number, mutant
        self.resting = house.tried(mutant.declaration.key, which)
        self.files = {}       # file -> text of its copy
        self.places = {}      # file -> [(first line, last line, name)]
        for file in sorted({k[0] for k in self.resting}):
            self.copy(file, mutant.source.text if control else mutant.changed() if file == mutant.file else house.sources[file].text)

    def kept(self, file):
        """the copied declarations of a file: those that rest on the change, and what these use and could not import"""
        house, wanted, borrowed = self.house, [k for k in self.resting if k[0] == file], set()
        kept = set(wanted)
        while wanted:
            user = house.by_key[wanted.pop()]
            for key in house.uses[user.key]:
                used = house.by_key[key]
                if key[0] == file and key not in kept:
                    if used.public and not used.block and used.name not in user.unfolded:
                        borrowed |= used.names
                    else:
                        kept.add(key)
                        wanted.append(key)
        return kept, borrowed - {name for key in kept for name in house.by_key[key].names}

    def copy(self, file, text):
        source = self.house.sources[file]
        if file == self.mutant.file:
            source = Source(file, text)
        kept, borrowed = self.kept(file)
        blocks = {b for d in source.declarations if d.key in kept for b in d.block}
        owner = {}
        for d in source.declarations:
            for number in range(d.start, d.end + 1):
                owner[number] = d
        for b in blocks:
            for number in range(source.blocks[b][0], source.blocks[b][1] + 1):
                owner[number] = None
        lines, places = [], []
        if borrowed:
            lines.append(f'use {module_of(file)}.{{{", ".join(sorted(borrowed))}}}')
        for number, line in enumerate(source.lines, 1):
            if number in source.uses:
                lines += self.use(line)
            elif number in owner and (owner[number] is None or owner[number].key in kept):
                lines.append(line)
                if owner[number]:
                    places.append((len(lines), owner[number].name))
        text = '\n'.join(lines) + '\n'
        if file == self.mutant.file:
            before = text.count('\n')
            text = with_imports(text, self.mutant.needs)
            places = [(n + text.count('\n') - before, name) for n, name in places]
        self.files[file], self.places[file] = text, dict(places)

    def use(self, line):
        """an import, in two where some of its names are copied"""
        found = re.match(r'((?:pub )?use )(\S+?)\.\{([^}]*)\}', line)
        file = file_of(found.group(2)) if found else None
        if not file or not any(k[0] == file for k in self.resting):
            return [line]
        mine, other = [], []
        for name in found.group(3).split(','):
            d = self.house.own[file].get(name.strip().partition(' as ')[0].strip())
            (mine if d and d.key in self.resting else other).append(name.strip())
        out = [f'{found.group(1)}{found.group(2)}.{{{", ".join(other)}}}'] if other else []
        return out + ([f'{found.group(1)}{found.group(2)}M{self.number}.{{{", ".join(mine)}}}'] if mine else [])

    def write(self):
        for file, text in self.files.items():
            with open(f'{COPY}/crates/{file}M{self.number}.antt', 'w') as out:
                out.write(text)


# ---- the prover

class Prover:
    """checks a group's crates from their sources, over an incremental folder; what is below comes from target/rlib"""

    def __init__(self, group):
        self.group, self.crates = group, [group] + GROUPS[group]['above']
        home = os.environ.get('RATTLE_HOME') or os.path.dirname(os.path.dirname(os.path.realpath(shutil.which('rt'))))
        own, rlib = f'{home}/on/{os.uname().machine}', f'{ROOT}/target/rlib'
        below = {}
        for line in open(f'{ROOT}/crates.txt'):
            if ':' in line and not line.startswith('#'):
                name, _, deps = line.partition(':')
                below[name.strip()] = deps.split()
        externs = sorted({d for c in self.crates for d in below[c]} - set(self.crates))
        main = self.crates[-1]
        self.command = [f'{own}/bin/rattle', 'check', '--crate-name', main, f'{COPY}/crates/{main}/src/lib.rt', '--extern', f'std={own}/rlib/std.rlib']
        for name in externs:
            self.command += ['--extern', f'{name}={rlib}/{name}.rlib']
        self.command += ['-L', f'dependency={rlib}', '-L', f'dependency={own}/rlib', '--antt-project', f'{home}/logic/antt-project.json']
        self.command += ['--logic-built', f'{own}/logic-built']
        for name in self.crates[:-1]:
            self.command += ['--lib', f'{name}:{",".join(below[name])}={COPY}/crates/{name}/src/lib.rt']
        self.command += ['--incremental', f'{WORK}/inc/{group}']

    def fresh(self):
        """the group's crates as the repository has them, without the copies of an earlier run"""
        for crate in self.crates:
            shutil.rmtree(f'{COPY}/crates/{crate}', ignore_errors=True)
            shutil.copytree(f'{ROOT}/crates/{crate}', f'{COPY}/crates/{crate}')
        os.makedirs(f'{WORK}/inc/{self.group}', exist_ok=True)

    def check(self, limit):
        """status (None: no end within so many seconds of CPU), errors [(file, line, words)], errors without a file, seconds of CPU"""
        before = resource.getrusage(resource.RUSAGE_CHILDREN)
        done = subprocess.run(self.command, stdout=subprocess.PIPE, stderr=subprocess.STDOUT, env=dict(os.environ, TMPDIR=scratch()),
                              preexec_fn=lambda: resource.setrlimit(resource.RLIMIT_CPU, (limit, limit + 5)))
        after = resource.getrusage(resource.RUSAGE_CHILDREN)
        seconds = after.ru_utime + after.ru_stime - before.ru_utime - before.ru_stime
        text, status = done.stdout.decode('utf8', 'replace'), None if done.returncode < 0 and seconds >= limit - 1 else done.returncode
        form = re.compile('^' + re.escape(f'{COPY}/crates/') + r'(\S+)\.antt:(\d+):\d+: error: (.*)$', re.M)
        errors = [(e.group(1), int(e.group(2)), e.group(3)[:200]) for e in form.finditer(text)]
        others = [line for line in text.split('\n') if ': error' in line and not form.match(line)]
        return status, errors, others, seconds


def scratch():
    """a folder in memory where there is one: a check copies what it rests on"""
    if 'TMPDIR' in os.environ:
        return os.environ['TMPDIR']
    return '/dev/shm' if os.access('/dev/shm', os.W_OK) else '/tmp'


WAITS = 'was not admitted'   # an error that only follows from another


class Trial:
    """a group's verdicts, kept in a file; and the two tries"""

    def __init__(self, group):
        self.house, self.prover, self.group = House(group), Prover(group), group
        self.path = f'{WORK}/{group}.json'
        self.state = json.load(open(self.path)) if os.path.exists(self.path) else {'verdicts': {}, 'controls': {}}
        self.verdicts, self.controls = self.state['verdicts'], self.state['controls']
        self.mutants = [m for file in self.house.specs for m in mutants_of(self.house.sources[file])]
        self.seconds, self.late = {'copies': 0.0, 'in place': 0.0}, False

    def save(self):
        with open(self.path + '.new', 'w') as out:
            json.dump(self.state, out, ensure_ascii=False, indent=0)
        os.replace(self.path + '.new', self.path)

    def with_modules(self, numbers):
        """the Lib.antt of each part with the copies' names, for as long as they are there"""
        for copies in numbers:
            copies.write()
        for part in {tuple(file.split('/')[:2]) for copies in numbers for file in copies.files}:
            lib = '/'.join(part) + '/Lib.antt'
            names = [f'pub mod {file.split("/", 2)[2]}M{c.number}' for c in numbers for file in c.files if tuple(file.split('/')[:2]) == part]
            with open(f'{COPY}/crates/{lib}', 'w') as out:
                out.write(open(f'{ROOT}/crates/{lib}').read() + '\n'.join(names) + '\n')

    def remove(self, numbers):
        for copies in numbers:
            for file in copies.files:
                os.remove(f'{COPY}/crates/{file}M{copies.number}.antt')
        for crate in self.prover.crates:
            for part in ('specs', 'proofs'):
                if os.path.exists(f'{ROOT}/crates/{crate}/{part}/Lib.antt'):
                    shutil.copyfile(f'{ROOT}/crates/{crate}/{part}/Lib.antt', f'{COPY}/crates/{crate}/{part}/Lib.antt')

    def copied(self, copies):
        """number -> [(file, declaration, words)] of one check; None where it came to no end (then `late`) or to an error outside the copies"""
        self.with_modules(copies)
        try:
            status, errors, others, seconds = self.prover.check(10 + GROUPS[self.group]['seconds'] * len(copies))
        finally:
            self.remove(copies)
        self.seconds['copies'] += seconds
        self.late = status is None
        if status not in (0, 1) or others:
            return None
        out = {c.number: [] for c in copies}
        for file, line, words in errors:
            found = re.fullmatch(r'(.+)M(\d+)', file)
            if not found:
                return None
            number = int(found.group(2))
            c = next(c for c in copies if c.number == number)
            if WAITS not in words:
                out[number].append((found.group(1), c.places[found.group(1)].get(line, ''), words))
        return out

    def control(self, batch, which):
        """the unchanged copies, once a definition that is refused: which theorems fail there too, and are not counted"""
        todo = {}
        for m in batch:
            if self.told(m, which) not in self.controls:
                todo.setdefault(self.name(m), m)
        if todo:
            copies = [Copies(self.house, m, n, which, control=True) for n, m in enumerate(todo.values(), 1)]
            found = self.copied(copies)
            for c in copies:
                self.controls[self.told(c.mutant, which)] = 'all' if found is None else [f'{file} {name}' for file, name, _ in found[c.number]]
            self.save()

    def told(self, mutant, which):
        return ('' if which == 'all' else which + ' of ') + self.name(mutant)

    @staticmethod
    def name(mutant):
        return f'{mutant.file} {mutant.declaration.name}'

    def try_copies(self, batch, which):
        """the batch as copies, in smaller parts where it comes to no end; answers those that passed"""
        passed, batch = self.parted(batch, lambda m: self.house.has_theorem(m.declaration.key, which))
        if not batch:
            return passed
        copies = [Copies(self.house, m, n, which) for n, m in enumerate(batch, 1)]
        found = self.copied(copies)
        if found is None:
            if len(batch) == 1 and not self.late:
                return passed + batch
            if len(batch) == 1:
                if which != 'bare' and not self.try_copies(batch, 'bare'):
                    return passed
                self.verdicts[batch[0].id] = {'verdict': 'no end', 'mutant': batch[0].description, 'kind': batch[0].kind, 'by': []}
                return passed
            part = -(-len(batch) // 4)
            return passed + [m for at in range(0, len(batch), part) for m in self.try_copies(batch[at:at + part], which)]
        self.control([m for m, c in zip(batch, copies) if found[c.number]], which)
        for m, c in zip(batch, copies):
            if not found[c.number]:
                passed.append(m)
                continue
            blind = self.controls[self.told(m, which)]
            words = [] if blind == 'all' else [(f, n, w) for f, n, w in found[c.number] if f'{f} {n}' not in blind]
            if any('/specs/' in f for f, _, _ in words):
                self.verdicts[m.id] = {'verdict': 'ill-typed', 'mutant': m.description, 'kind': m.kind, 'by': words[:1]}
            elif words:
                self.verdicts[m.id] = {'verdict': 'killed', 'mutant': m.description, 'kind': m.kind, 'by': words[:6], 'all': len(words)}
            else:
                passed.append(m)
        self.save()
        return passed

    @staticmethod
    def parted(batch, wanted):
        """those that are not wanted, and those that are"""
        return [m for m in batch if not wanted(m)], [m for m in batch if wanted(m)]

    def in_place(self, m, limit):
        """alone, over its own file, with everything above; a function's own proof does not count, since its code could be changed along"""
        path = f'{COPY}/crates/{m.file}.antt'
        with open(path, 'w') as out:
            out.write(with_imports(m.changed(), m.needs))
        try:
            status, errors, others, seconds = self.prover.check(limit)
        finally:
            with open(path, 'w') as out:
                out.write(m.source.text)
        self.seconds['in place'] += seconds
        words = [(f, self.declared(f, line, m), w) for f, line, w in errors if WAITS not in w and f in self.house.sources]
        if status is None:
            verdict = 'no end'
        elif status not in (0, 1) or (status == 1 and not errors):
            verdict = 'no verdict'
        elif any('/specs/' in f for f, _, _ in words):
            verdict = 'ill-typed'
        else:
            verdict = 'killed' if words else 'survived'
        self.verdicts[m.id] = {'verdict': verdict, 'mutant': m.description, 'kind': m.kind, 'by': words[:6], 'all': len(words), 'in place': True}
        if verdict == 'no verdict':
            self.verdicts[m.id]['by'] = others[:2]
        if verdict == 'survived' and errors:
            self.verdicts[m.id]['code'] = errors[0]
        self.save()
        return errors

    def declared(self, file, line, m):
        shift = m.changed().count('\n') - m.source.text.count('\n') if file == m.file else 0
        return next((d.name for d in self.house.sources[file].declarations if d.start <= line - shift <= d.end), '')

    def order(self, share, only):
        """what is to be tried: of each file its definitions in turn, the files in step"""
        places = []
        for file in self.house.specs:
            if only and file.split('/')[-1] not in only:
                continue
            mine = [m for m in self.mutants if m.file == file]
            random.Random(7).shuffle(mine)
            turn = {}
            for m in mine:
                turn[m.declaration.name] = turn.get(m.declaration.name, 0) + 1
                m.turn = turn[m.declaration.name]
            mine.sort(key=lambda m: m.turn)
            mine = mine[:-(-len(mine) * share.numerator // share.denominator)]
            places += [(i / len(mine), m) for i, m in enumerate(mine)]
        return [m for _, m in sorted(places, key=lambda p: p[0]) if m.id not in self.verdicts]

    def run(self, minutes, share, size, only):
        self.prover.fresh()
        status, errors, others, seconds = self.prover.check(1200)
        if status != 0:
            sys.exit(f'{self.group} is not proved as it stands: {(errors or others)[:1]}')
        print(f'{self.group}: {len(self.mutants)} mutants, {len(self.verdicts)} with a verdict; the unchanged crates take {seconds:.0f} s', flush=True)
        todo, end = self.order(share, only), time.time() + 60 * minutes
        while todo and time.time() < end and not os.path.exists(f'{WORK}/stop'):
            batch, todo = todo[:size], todo[size:]
            for which in TRIES:
                batch = self.try_copies(batch, which)
            for m in batch:
                self.in_place(m, int(4 * seconds) + 30)
            print(time.strftime('%H:%M:%S'), f'{len(todo)} to go,', self.counts(), {k: round(v) for k, v in self.seconds.items()}, flush=True)

    def counts(self):
        out = {}
        for v in self.verdicts.values():
            out[v['verdict']] = out.get(v['verdict'], 0) + 1
        return out


# ---- what came of it

CLASSES = ['same', 'tied', 'code']   # why a survivor is accepted: scripts/mutants-accepted.txt


def accepted():
    """name -> class; a line is `NAME | class | reason | what it is`, a name a mutant's id or `FILE DEFINITION` for all survivors of that definition"""
    out = {}
    for line in open(ACCEPTED) if os.path.exists(ACCEPTED) else []:
        if line.strip() and not line.startswith('#'):
            name, kind = [part.strip() for part in line.split('|')[:2]]
            if kind not in CLASSES:
                sys.exit(f'{ACCEPTED}: no class: {line.strip()}')
            out[name] = kind
    return out


def report(groups):
    known, used, holes, sums = accepted(), set(), [], [0] * (5 + len(CLASSES))
    print('| file | made | tried | killed | by a row | ' + ' | '.join(CLASSES) + ' | holes |')
    for group in groups:
        trial = Trial(group)
        for file in trial.house.specs:
            mine = [m for m in trial.mutants if m.file == file]
            verdicts = {m.id: trial.verdicts[m.id] for m in mine if m.id in trial.verdicts}
            tried = [m for m in mine if m.id in verdicts and verdicts[m.id]['verdict'] != 'ill-typed']
            killed = [m for m in tried if verdicts[m.id]['verdict'] == 'killed']
            rows = [m for m in killed if any(trial.house.is_row((file, name)) for file, name, _ in verdicts[m.id]['by'])]
            lasting, sorts, left = [m for m in tried if m not in killed], dict.fromkeys(CLASSES, 0), []
            for m in lasting:
                name = m.id if m.id in known else trial.name(m)
                if name in known:
                    used.add(name)
                    sorts[known[name]] += 1
                else:
                    left.append((m, verdicts[m.id]['verdict']))
            holes += left
            figures = [len(mine), len(tried), len(killed), len(rows), *sorts.values(), len(left)]
            sums = [a + b for a, b in zip(sums, figures)]
            if mine:
                untried = len(mine) - len(verdicts)
                print(f'| {file} | ' + ' | '.join(map(str, figures)) + ' |' + (f' {untried} without a verdict' if untried else ''))
    print('| all | ' + ' | '.join(map(str, sums)) + ' |')
    for m, verdict in holes:
        print(f'{m.id} | {verdict} | line {m.line} | {m.description}')
    if groups == list(GROUPS):
        for name in known:
            if name not in used:
                print(f'{name}: accepted, but no survivor')
    print(f'holes: {len(holes)}')


def main():
    reader = argparse.ArgumentParser(description=__doc__, formatter_class=argparse.RawDescriptionHelpFormatter)
    reader.add_argument('what', choices=['list', 'show', 'run', 'one', 'report'])
    reader.add_argument('names', nargs='*')
    reader.add_argument('--minutes', type=float, default=600)
    reader.add_argument('--share', type=Fraction, default=Fraction(1))
    reader.add_argument('--batch', type=int, default=24)
    reader.add_argument('--only', default='')
    words = reader.parse_args()
    os.makedirs(f'{COPY}/crates', exist_ok=True)
    groups = list(GROUPS) if words.names in ([], ['all']) else words.names
    if words.what == 'report':
        return report(groups)
    if words.what == 'one':
        return alone(words.names)
    for group in groups:
        if words.what == 'run':
            Trial(group).run(words.minutes, words.share, words.batch, words.only.split(',') if words.only else [])
            continue
        house = House(group)
        for file in house.specs:
            made = mutants_of(house.sources[file])
            if words.what == 'list':
                print(file, len(made))
            for m in made if words.what == 'show' else []:
                print(m.id, f'line {m.line}', m.kind, m.description)


def alone(names):
    for group in GROUPS:
        trial = Trial(group)
        mine = [m for m in trial.mutants if m.id in names]
        if mine:
            trial.prover.fresh()
        for m in mine:
            errors = trial.in_place(m, 600)
            print(m.id, trial.verdicts[m.id]['verdict'], m.description)
            for file, line, words in errors:
                print('   ', 'waits' if WAITS in words else 'FAILS', f'{file}:{line}', words)


if __name__ == '__main__':
    main()
