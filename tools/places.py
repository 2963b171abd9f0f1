#!/usr/bin/env python3
"""Lists the places of src/ that read like an older Rattle, point by point, for docs/DESIGN-PASS.md.

usage: python3 tools/places.py [COMMIT]    the tree as it stands, or that of a commit; prints 'point  file:line  what'

It goes by the text: it finds candidates, and the page says of each what became of it. Facts that stand often (point 5) are
counted a fact, with the functions that state it; the other points a place.
"""
import re
import subprocess
import sys
from collections import defaultdict

TOKEN = re.compile(r'[A-Za-z_][A-Za-z_0-9]*|\d[\d_xa-f]*|\S')


def sources(commit, ending='.rt', folder='/src/'):
    """The source files of the crates, or other files of theirs, by name."""
    if commit:
        names = subprocess.run(['git', 'ls-tree', '-r', '--name-only', commit, 'crates'], capture_output=True, text=True, check=True).stdout.split('\n')
        read = lambda n: subprocess.run(['git', 'show', f'{commit}:{n}'], capture_output=True, text=True, check=True).stdout
    else:
        names = subprocess.run(['git', 'ls-files', 'crates'], capture_output=True, text=True, check=True).stdout.split('\n')
        read = lambda n: open(n).read()
    return {n: read(n) for n in names if folder in n and n.endswith(ending)}


def functions(text):
    """Each function that has a body, as (line, name, header with its clauses, body)."""
    for m in re.finditer(r'^( *)(?:pub(?:\(crate\))? )?fn (\w+)', text, re.M):
        indent = m.group(1)
        end = re.compile(rf'^{indent}\}}$', re.M).search(text, m.end())
        opening = re.compile(r'^(?:.*\S)? *\{$', re.M).search(text, m.start())
        declared = re.compile(r';$', re.M).search(text, m.end())
        if not end or not opening or opening.start() > end.start() or declared and declared.start() < opening.start():
            continue
        yield text.count('\n', 0, m.start()) + 1, m.group(2), text[m.start():opening.start()] if opening.start() > m.start() else '', text[max(opening.start(), m.start()):end.end()]


def places(files):
    """All candidates, as (point, place, what)."""
    code = {n: re.sub(r'//.*', '', t) for n, t in files.items()}
    patterns = [
        (1, r'enum \w+(?:<[^>]*>)? \{\s*\w+,\s*\w+\([^)]*\),\s*\}', 'an enum of nothing or a value'),
        (1, r'None => Err\(|None => None,|Ok\((\w+)\) => Ok\(\1\),|Some\(_\) => Ok\(\(\)\)', 'an Option or a Result taken apart by hand'),
        (1, r'let (?:Some|Ok)\(\w+\) = [^;]*?else \{\s*return (?:None|Err)', 'a `?` written out'),
        (1, r'-> u8\b', 'a number that says nothing'),
        (1, r'let mut \w+ = [^;]*\.is_ok\(\);', 'a flag beside a value'),
        (1, r'pub kind: u32', 'a number for a kind'),
        (3, r'for (?!_ )\w+ in [^{]*\.\.[^{]*\{', 'a loop over places'),
        (3, r'if [^{]*< [\w.]+\.len\(\) \{\s*\w*\(?[\w.]+\[', 'a place tested and then read'),
        (4, r'pub fn of\(\w+: u32\)', 'a conversion by hand'),
        (4, r'pub fn number\(self\) -> u32', 'a conversion by hand'),
        (4, r'\.number\(\) == \w+\.number\(\)', 'an equality by hand'),
        (4, r'pub fn least\(', 'an order by hand'),
        (6, r'place: usize,\n', 'a slice with a place beside it'),
        (6, r'\w+: \[\w+; MOST_ROWS\]|-> \[\w+; MOST_ROWS\]', 'room for the most rows, with their number beside'),
        (6, r'\(draft: Draft, len: usize', 'a list with its length beside it'),
    ]
    for name, text in code.items():
        for point, pattern, what in patterns:
            for m in re.finditer(pattern, text):
                yield point, f'{name}:{text.count(chr(10), 0, m.start()) + 1}', what
    every = [(n, *f) for n, t in code.items() for f in functions(t)]
    yield from twins(every)
    yield from facts(every)


def twins(every):
    """Functions whose texts differ in a few words alone, and the types and traits that stand in two crates."""
    shapes = [(n, line, f, TOKEN.findall(head + body)) for n, line, f, head, body in every]
    for i, (n, line, f, a) in enumerate(shapes):
        for n2, line2, f2, b in shapes[:i]:
            if len(a) != len(b) or len(a) < 40:
                continue
            differ = {(x, y) for x, y in zip(a, b) if x != y}
            if len(differ) <= 4 and len({x for x, _ in differ}) == len(differ):
                yield 2, f'{n}:{line}', f'{f} and {f2} of {n2}'


def facts(every):
    """Clauses' facts that three functions or more state."""
    stated = defaultdict(set)
    for n, line, f, head, _ in every:
        for clause in re.findall(r'(?:requires|ensures)(?: \w+)? \{(.*)\}', head):
            for fact in re.split(r' × |OnOk result|OnErr result|IfOk result \(λ \w+\.', clause):
                fact = re.sub(r'\b(self|book|session)\.(old|new|now)\b', r'\1', fact).strip(' ()')
                if len(fact) > 10 and not fact.startswith('result'):
                    stated[fact].add(f'{n}:{line}')
    for fact, where in sorted(stated.items()):
        if len(where) >= 3 and '_outcome' not in fact:
            yield 5, f'{len(where)} functions', fact


def proofs(commit):
    """Point 8: how many answers there are, in how many files, and how many lemmas."""
    files = sources(commit, '.antt', '/proofs/')
    answers = {n: len(re.findall(r'^pub ', t, re.M)) for n, t in files.items() if n.endswith('Answers.antt')}
    lemmas = [len(re.findall(r'^(?:abbrev |unfoldable )?(?:pub )?[a-z]\S* .*: ', t, re.M)) for n, t in files.items() if re.search(r'proofs/[A-Z]\w*\.antt$', n)]
    return f'{sum(answers.values())} answers in {len(answers)} files, {sum(lemmas)} lemmas'


def main():
    commit = sys.argv[1] if len(sys.argv) > 1 else None
    found = sorted(places(sources(commit)))
    for point, place, what in found:
        print(point, place, what, sep='\t')
    for point in sorted({p for p, _, _ in found}):
        print(f'point {point}: {sum(p == point for p, _, _ in found)}')
    print('point 8:', proofs(commit))


if __name__ == '__main__':
    main()
