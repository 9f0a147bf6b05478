#!/usr/bin/env python3
"""Tries planted bugs, one at a time, and tells what refuses each.

usage: python3 tools/attack.py [NAME..]          at the top of the repository, with the crates named proved by `rt check`: tries what has no `by`
       python3 tools/attack.py --anew [NAME..]   tries all
       python3 tools/attack.py --seed S NAME..   plants a simple bug by chance in each function, and lists those that no contract refuses, with what a run shows
       python3 tools/attack.py --table [NAME..]  prints the bugs of attacks/*.txt with what refuses each, the bugs that no longer fit the code, and the counts

attacks/NAME.txt holds the bugs of a crate, parted by empty lines. A bug is

    bug: what goes wrong, in words, with the function's name
    file: src/lib.rt
    old: a text that stands once in that file
    new: what the bug puts in its place
    by: what refuses it

with more pairs of old and new where one does not do. `by` is written by this script: the function and the clause that is not
proved, or the test or stored output that differs. A bug that nothing refuses has `by: NOTHING`. Two refusals say little of the contract:
`FORM ALONE`, where a proof file only names what the bug took away, and `LIMIT ALONE`, where the prover met a limit of its own and gave no
verdict. What a run of `.ci/ends` sees, `by: .ci/ends: ..`, is written by hand, and so are a line `kept: NAME`, which says that the bug is the
must-fail edit NAME, and a line `mended: ..`, which says what was strengthened for it. Lines that begin with `# ` tell what holds of the whole file.
"""
import glob
import os
import random
import re
import subprocess
import sys


def read_bugs(path):
    """The bugs of a file: each a list of lines."""
    text = open(path).read().strip('\n')
    blocks = [[line for line in block.split('\n') if not line.startswith('# ')] for block in re.split(r'\n\s*\n', text)]
    return [block for block in blocks if block and block[0].startswith('bug: ')]


def line_of(bug, word):
    """What stands behind the first line of a bug that begins with the word."""
    return next((line[len(word) + 2:] for line in bug if line.startswith(word + ': ')), None)


def file_of(crate, place):
    """The path of a place such as src/lib.rt, in a crate."""
    return f'crates/{crate}/{place}'


def function_at(crate, place, number):
    """The function that stands at a line of a file of the crate, told by the nearest `fn` at or above it."""
    path = file_of(crate, place)
    if not os.path.exists(path):
        return place
    lines = open(path).read().split('\n')
    while lines[number - 1].startswith('#['):
        number += 1
    for line in reversed(lines[:number]):
        found = re.search(r'\bfn (\w+)', line)
        if found:
            return found.group(1)
    return place


# What rt says of a refusal that tells little of the contract, and how it is written behind `by:`.
ALONE = [('only because a proof file names what the edit took away', 'FORM ALONE'), ('only by a limit of the prover', 'LIMIT ALONE')]


def refused_by(crate, said):
    """What refuses a bug, by what rt says of it."""
    note = said.split('note:')[-1]
    alone = next((word for told, word in ALONE if told in said), None)
    return f'{alone}: {first_error(crate, note)}' if alone else first_error(crate, note)


def first_error(crate, note):
    """The function and clause that the prover's first error names."""
    found = re.search(r'((?:src|proofs|specs)/[\w/+]+\.(?:rt|antt)):(\d+):\d+: (.*)', note)
    if not found:
        return note.strip()
    place, number, why = found.groups()
    clause = re.search(r'`([^`]+)`\)', why) or re.search(r'`([^`]+)`', why)
    what = clause.group(1) if clause else why
    answered = re.fullmatch(r'proofs/(?:.*/)?\+?([\w]+)/(?:Answers|Invariants)\.antt', place)
    if answered:
        goal = re.match(r'error: `([^`]+)`', why)
        return f'{answered[1]}: {goal[1] if goal else what}, answered by hand'
    where = function_at(crate, place, int(number)) if place.startswith('src') else place
    kind = '' if 'ensures' in why else ' (' + why.split(';')[0].split('(`')[0].replace('it is not proved that ', '').strip()[:70] + ')'
    return f'{where}: {what}{kind}'


def try_all(crate, bugs):
    """Tries the bugs as must-fail edits, and gives what rt says of each."""
    folder = file_of(crate, 'must-fail')
    os.makedirs(folder, exist_ok=True)
    kept = glob.glob(f'{folder}/*.edit')
    names = []
    try:
        for path in kept:
            os.rename(path, path + '.away')
        for i, bug in enumerate(bugs):
            path = f'{folder}/attack{i:03}.edit'
            names.append(path)
            lines = [line for line in bug if re.match(r'(file|old|new): ', line) or line == 'new:']
            open(path, 'w').write('\n'.join(lines) + '\n')
        ran = subprocess.run(['rt', 'must-fail', crate], capture_output=True, text=True)
    finally:
        for path in kept:
            os.rename(path + '.away', path)
        for path in names:
            if os.path.exists(path):
                os.remove(path)
        if not os.listdir(folder):
            os.rmdir(folder)
    said = {}
    for line in (ran.stdout + ran.stderr).split('\n'):
        found = re.search(r'must-fail %s/attack(\d+)\.edit: (.*)' % crate, line)
        if found:
            said.setdefault(int(found.group(1)), found.group(2))
    return said, ran.stdout + ran.stderr


def ran(command, folder):
    """What a command says in a crate's folder, given the crate's stored input, and what it prints."""
    stdin = f'{folder}/stdin'
    given = open(stdin, 'rb').read() if os.path.exists(stdin) else b''
    try:
        done = subprocess.run(command, cwd=folder, input=given, capture_output=True, timeout=900)
    except subprocess.TimeoutExpired:
        return 'it did not end', b''
    return (done.stdout + done.stderr).decode(errors='replace'), done.stdout


def run_with(crate, bug):
    """Runs a crate's tests, and its program on its stored input, with a bug in it: what differs, or none."""
    path = file_of(crate, line_of(bug, 'file'))
    before = open(path).read()
    text = before
    old = None
    for line in bug:
        if line.startswith('old: '):
            old = line[5:]
        elif line.startswith('new:') and old is not None:
            text = text.replace(old, line[5:], 1)
            old = None
    folder = f'crates/{crate}'
    try:
        open(path, 'w').write(text)
        if any('#[test]' in open(p).read() for p in glob.glob(f'{folder}/src/*.rt')):
            said, _ = ran(['rt', 'test'], folder)
            failed = re.findall(r'test (\S+) \.\.\. FAILED', said)
            if failed:
                return 'test ' + ', '.join(name.split('::')[-1] for name in failed)
            if 'test result: ok' not in said:
                return 'NOT TRIED: ' + said.strip().split('\n')[-1]
        if os.path.exists(f'{folder}/stdin'):
            said, printed = ran(['rt', 'run'], folder)
            if 'linked target' not in said:
                return 'NOT TRIED: ' + said.strip().split('\n')[-1]
            want = open(f'{folder}/stdout', 'rb').read() if os.path.exists(f'{folder}/stdout') else b''
            if printed != want:
                return 'the stored output'
    finally:
        open(path, 'w').write(before)
    return None


def attack(crate, anew):
    path = f'attacks/{crate}.txt'
    bugs = read_bugs(path)
    open_bugs = [i for i, bug in enumerate(bugs) if anew or (line_of(bug, 'by') or 'NOT TRIED').startswith('NOT TRIED')]
    tried, log = try_all(crate, [bugs[i] for i in open_bugs]) if open_bugs else ({}, '')
    said = {i: tried.get(at) for at, i in enumerate(open_bugs)}
    notes = [line for line in open(path).read().split('\n') if line.startswith('# ')]
    out = ['\n'.join(notes)] if notes else []
    for i, bug in enumerate(bugs):
        note = said.get(i)
        if i not in said:
            by = line_of(bug, 'by')
        elif note is None:
            by = 'NOT TRIED'
        elif note.startswith('refused'):
            by = refused_by(crate, note)
        elif 'BAD' in note:
            by = note
        else:
            # what the script of the gate sees is written by hand
            was = line_of(bug, 'by') or ''
            by = run_with(crate, bug) or (was if was.startswith('.ci/') else 'NOTHING')
        if i in said:
            print(f'{crate}: {line_of(bug, "bug")}: {by}', flush=True)
        rest = [line for line in bug if not line.startswith('by: ')]
        at = next((j for j, line in enumerate(rest) if re.match(r'kept: |mended: ', line)), len(rest))
        out.append('\n'.join(rest[:at] + ['by: ' + by] + rest[at:]))
        left = ['\n'.join(bug) for bug in bugs[i + 1:]]
        open(path, 'w').write('\n\n'.join(out + left) + '\n')
    if None in said.values():
        print(log[-2000:])


# Simple bugs: a pattern in a line of code, and what takes its place.
SWAPS = [(r' < ', ' <= '), (r' <= ', ' < '), (r' > ', ' >= '), (r' >= ', ' > '), (r' == ', ' != '), (r' != ', ' == '), (r' && ', ' || '), (r' \|\| ', ' && '),
         (r' \+ ', ' - '), (r' - ', ' + '), (r' \+= ', ' -= '), (r'\btrue\b', 'false'), (r'\bfalse\b', 'true'), (r' & !', ' & '), (r' \| ', ' & '), (r' & ', ' | '),
         (r' << ', ' >> '), (r'\.\.=', '..'), (r'\bbreak\b', 'continue'), (r'\bmin\b', 'max'), (r'\bmax\b', 'min'), (r'if (?!let)', 'if !'), (r'Greater', 'Less'),
         (r'Less', 'Greater'), (r'\.and_then', '.or_else'), (r'\.all\(', '.any('), (r'\.any\(', '.all('), (r'\bSome\((\w+)\) =>', r'Some(\1) if false =>')]


# A field, an argument or a variant with its type: a bug there does not build.
TYPED = r'\s*(pub )?\w+(: .*\[\w+; \d+\]|\([a-z]\w*, [a-z]\w*\)),$'


def simple_bugs(crate):
    """The simple bugs of a crate: each a file, a line that stands once in it, and what to put in its place."""
    bugs = []
    for path in sorted(glob.glob(f'crates/{crate}/src/**/*.rt', recursive=True)):
        if path.endswith('/tests.rt'):
            continue
        text = open(path).read().split('#[cfg(test)]')[0]
        lines = text.split('\n')
        for line in lines:
            bare = line.split('//')[0]
            if not bare.strip() or lines.count(line) > 1 or re.match(TYPED, bare) or re.match(r'\s*(ensures|requires|ghost|pub |use |fn |impl|invariant|decreases|#)', bare):
                continue
            found = [(m.start(), m.end(), m.expand(new)) for swap, new in SWAPS for m in re.finditer(swap, bare)]
            for m in re.finditer(r'(?<![\w.])(\d+)(?![\w.])', bare):
                found += [(m.start(), m.end(), str(v)) for v in (int(m[1]) + 1, int(m[1]) - 1) if v >= 0]
            found += [(m.start(), m.end(), f'({m[2]}, {m[1]})') for m in re.finditer(r'\(([a-z_][\w.]*), ([a-z_][\w.]*)\)', bare)]
            if re.match(r'\s*[\w.\[\]*]+(\(.*\))? ?([-+|&]?= .*)?;$', bare) and not bare.strip().startswith(('let', 'return')):
                found.append((0, len(bare), ''))
            place = os.path.relpath(path, f'crates/{crate}')
            bugs += [(place, line, line[:a] + new + line[b:]) for a, b, new in found]
    return bugs


def by_chance(crate, seed):
    """Plants a simple bug by chance in each function of a crate, checks them all at once, and prints those that nothing refuses.

    A function is proved on the contracts of those that it calls, so each bug is judged alone. The bugs stand in the checkout meanwhile.
    """
    drawn = simple_bugs(crate)
    random.Random(seed).shuffle(drawn)
    texts = {file_of(crate, place): open(file_of(crate, place)).read() for place, _, _ in drawn}
    chosen = {}
    for place, old, new in drawn:
        number = texts[file_of(crate, place)].split('\n').index(old) + 1
        chosen.setdefault((place, function_at(crate, place, number)), (number, old, new))
    unbuilt = 0
    try:
        while chosen:
            for path, text in texts.items():
                for (place, _), (_, old, new) in chosen.items():
                    if file_of(crate, place) == path:
                        text = text.replace(old + '\n', new + '\n', 1)
                open(path, 'w').write(text)
            ran = subprocess.run(['rt', 'check'], cwd=f'crates/{crate}', capture_output=True, text=True)
            said = ran.stdout + ran.stderr
            if 'logic=' in said:
                break
            wrong = {(place, int(number)) for place, number in re.findall(r'(src/[\w/]+\.rt):(\d+):\d+: error', said)}
            broken = [key for key in chosen if any(key == (place, function_at(crate, place, number)) for place, number in wrong)]
            unbuilt += len(broken)
            if not broken:
                print(f'{crate}, seed {seed}: NOT TRIED: {said.strip()[-200:]}', flush=True)
                return
            for key in broken:
                del chosen[key]
    finally:
        for path, text in texts.items():
            open(path, 'w').write(text)
    failed = re.findall(r'^\w+ (\S+): (?:not proved|no proof)', said, re.M) if chosen else []
    passed = [key for key in chosen if not any(re.split(r'::|\+', path)[-1] == key[1] or f'::{key[1]}' in path for path in failed)]
    # Those that stand outside functions, and those that only a run can show, are tried one by one.
    bugs = [['bug: ' + f'{chosen[key][1].strip()} -> {chosen[key][2].strip()}', 'file: ' + key[0], 'old: ' + chosen[key][1], 'new: ' + chosen[key][2]] for key in passed]
    tried = try_all(crate, bugs)[0] if bugs else {}
    seen = survived = 0
    for i, bug in enumerate(bugs):
        if not tried.get(i, '').startswith('refused'):
            by = run_with(crate, bug) or 'NOTHING'
            seen += by != 'NOTHING'
            survived += by == 'NOTHING'
            print(f'{crate} {passed[i][1]}: {line_of(bug, "bug")}: {by}', flush=True)
    print(f'{crate}, seed {seed}: {len(chosen)} bugs by chance, {len(chosen) - seen - survived} refused, {seen} seen in a run, {survived} by nothing; '
          f'{unbuilt} more do not build', flush=True)


def cell(text):
    return (text or '').replace('|', '\\|')


def misfits(crate, bug):
    """The texts of a bug that do not stand once in their file."""
    path = file_of(crate, line_of(bug, 'file'))
    text = open(path).read() if os.path.exists(path) else ''
    return [line[5:] for line in bug if line.startswith('old: ') and text.count(line[5:]) != 1]


# A line that defines: a constant, a definition, a clause, the number of a variant.
DEFINES = r'\s*(pub(\(\w+\))? )?(const|static|ghost|ensures|requires)\b|\s*[A-Z]\w* = \d+,'


def changes_definition(crate, bug):
    """Whether a bug changes definitions and constants alone, and no code: what refuses it rests on them, and that says little of the contracts."""
    place = line_of(bug, 'file')
    path = file_of(crate, place)
    if not place.startswith('src/') or not os.path.exists(path):
        return not place.startswith('src/')
    lines = open(path).read().split('\n')
    olds = [line[5:] for line in bug if line.startswith('old: ')]
    return all(re.match(DEFINES, next((line for line in lines if old in line), old)) for old in olds)


# What refuses a bug, by how what stands behind `by:` begins; else a contract or a law does.
FRONTS = [('FORM ALONE', 'form alone'), ('LIMIT ALONE', 'limit alone'), ('NOTHING', 'nothing'), ('NOT TRIED', 'not tried'), ('BAD', 'not tried'), ('test ', 'a run'),
          ('the stored output', 'a run'), ('.ci/', 'a run')]
VERDICTS = ['a contract', 'a run', 'form alone', 'limit alone', 'nothing', 'not tried']


def verdict(bug):
    by = line_of(bug, 'by') or 'NOT TRIED'
    return next((kind for front, kind in FRONTS if by.startswith(front)), 'a contract')


def listed(words):
    return '| ' + ' | '.join(cell(str(word)) for word in words) + ' |'


def table(names):
    crates = [line.split(':')[0].split()[0] for line in open('crates.txt') if line.strip() and not line.startswith('#')]
    unfit, counts = [], []
    for crate in crates:
        if not os.path.exists(f'attacks/{crate}.txt') or names and crate not in names:
            continue
        bugs = read_bugs(f'attacks/{crate}.txt')
        notes = [line[2:] for line in open(f'attacks/{crate}.txt').read().split('\n') if line.startswith('# ')]
        print(f'### `{crate}` ({len(bugs)})\n')
        for note in notes:
            print(note + '\n')
        print('| bug | refused by |\n|---|---|')
        for bug in bugs:
            if misfits(crate, bug):
                unfit.append(f'- {crate}: {line_of(bug, "bug")}: {misfits(crate, bug)}')
            also = [f'{what} {line_of(bug, word)}' for word, what in [('mended', 'strengthened:'), ('kept', 'kept as')] if line_of(bug, word)]
            print(listed([line_of(bug, 'bug'), '; '.join([line_of(bug, 'by') or 'NOT TRIED'] + also)]))
        print()
        defined = [bug for bug in bugs if changes_definition(crate, bug)]
        in_code = [bug for bug in bugs if bug not in defined]
        told = [sum(verdict(bug) == kind for bug in in_code) for kind in VERDICTS]
        seen = sum(verdict(bug) in ('a contract', 'a run') for bug in defined)
        counts.append([crate, len(in_code)] + told + [len(defined), seen])
    print('### Bugs that no longer fit the code\n')
    print('\n'.join(unfit or ['None.']) + '\n')
    print('### How many bugs are refused by what\n')
    print('Bugs that change a definition or a constant alone, and no code, are counted apart.\n')
    print(listed(['crate', 'bugs in code'] + VERDICTS + ['in definitions and constants', 'refused']))
    print('|' + '---|' * (4 + len(VERDICTS)))
    for row in counts + [['all'] + [sum(column) for column in list(zip(*counts))[1:]]]:
        print(listed([word or '' for word in row]))


if sys.argv[1:2] == ['--table']:
    table(sys.argv[2:])
elif sys.argv[1:2] == ['--seed']:
    for name in sys.argv[3:]:
        by_chance(name, int(sys.argv[2]))
else:
    anew = '--anew' in sys.argv
    for name in [word for word in sys.argv[1:] if word != '--anew'] or sorted(os.path.basename(p)[:-4] for p in glob.glob('attacks/*.txt')):
        attack(name, anew)
