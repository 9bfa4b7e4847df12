#!/usr/bin/env python3
"""Lists the places in src/ that are written in older forms: one point of docs/DESIGN-PASS.md for each number.

    tools/places.py N [FOLDER]    the places of point N, a line each, in the checkout at FOLDER (default: this one)
    tools/places.py all [FOLDER]  how many places each point has
"""
import collections
import pathlib
import re
import sys

FUNCTION = re.compile(r'^ *(?:pub(?:\([a-z]+\))? )?(?:unsafe )?(?:extern "C" )?fn (\w+)', re.M)


def files(root):
    return sorted(pathlib.Path(root).glob('crates/*/src/*.rt'))


def functions(root):
    """Each function: crate, name, signature, clauses, body."""
    for path in files(root):
        text = re.sub(r'//[^\n]*', '', path.read_text())
        starts = [m for m in FUNCTION.finditer(text)]
        for i, m in enumerate(starts):
            part = text[m.start():starts[i + 1].start() if i + 1 < len(starts) else len(text)]
            # the body begins at the first brace that stands alone or ends the signature's line
            body = re.search(r'^ *\{$|\) (?:-> [^\n{]*)?\{$', part, re.M)
            cut = body.end() if body else len(part)
            head = part[:cut]
            clause = re.search(r'^ *(?:requires|ensures)\b', head, re.M)
            signature = head[:clause.start()] if clause else head
            yield path.parts[-3], m.group(1), signature, head[clause.start():] if clause else '', part[cut:]


def types(root):
    for path in files(root):
        text = re.sub(r'//[^\n]*', '', path.read_text())
        for m in re.finditer(r'^(?:pub )?(struct|enum) (\w+)[^{;]*\{(.*?)^\}', text, re.M | re.S):
            yield path.parts[-3], m.group(1), m.group(2), m.group(3)


FLAG = re.compile(r'\b(?:status|held|over|sound|failed|more|runs|ended|carries|bad): (?:u8|bool)\b|\banswer: Answer\b')
STATUS_NAME = re.compile(r'status|^bad_|^earlier$|^place$')


def point_1(root):
    """Types with a flag or a number beside values, enums with a refusal in them, functions that give a number for a refusal, constants
    that number kinds and refusals, places given with a number past the last for none."""
    flagged = set()
    for crate, what, name, fields in types(root):
        if what == 'struct' and FLAG.search(fields):
            flagged.add(name)
            yield f'{crate}: struct {name}'
        if what == 'enum' and re.search(r'\bRefused\b|\bStopped\b', fields):
            yield f'{crate}: enum {name}'
    for crate, name, signature, clauses, body in functions(root):
        result = re.search(r'-> ([\w:<>()\[\]; ,]+?)\s*(?:\{|$)', signature.strip() + '\n', re.M)
        gives = result.group(1).strip() if result else ''
        if gives == 'u8' and STATUS_NAME.search(name):
            yield f'{crate}: fn {name} -> u8'
        elif gives in flagged:
            yield f'{crate}: fn {name} -> {gives}'
        elif gives == 'usize' and name in ('find', 'next_merged'):
            yield f'{crate}: fn {name} -> usize, past the last for none'
    for path in files(root):
        for m in re.finditer(r'^(?:pub )?const ([A-Z_]+): (?:u8|u32) = \d+;', path.read_text(), re.M):
            yield f'{path.parts[-3]}: const {m.group(1)}'


def shape(body):
    tokens = re.findall(r'\w+|[^\s\w]', re.sub(r',(\s*[)\]}])', r'\1', body))
    keep = {'if', 'else', 'for', 'in', 'while', 'let', 'mut', 'return', 'match', 'as', 'true', 'false'}
    return tuple(t if not re.match(r'\w', t) or t in keep else 'x' for t in tokens)


def point_2(root):
    """Functions of one shape: the same tokens but for names, numbers and types; and functions of one name in two crates."""
    shapes, names = collections.defaultdict(list), collections.defaultdict(set)
    for crate, name, signature, clauses, body in functions(root):
        if crate.startswith(('test_', 'c_')):
            continue
        found = shape(body)
        if len(found) >= 14:
            shapes[found].append(f'{crate}::{name}')
        names[name].add(crate)
    for group in sorted(shapes.values()):
        if len(group) > 1:
            yield 'one shape: ' + ', '.join(group)
    for name, crates in sorted(names.items()):
        if len(crates) > 1:
            yield f'one name: {name} in ' + ', '.join(sorted(crates))


def point_3(root):
    """Loops by `while`, and loops over numbers that index a slice."""
    for path in files(root):
        lines = path.read_text().split('\n')
        for i, line in enumerate(lines):
            where = f'{path.parts[-3]}/{path.name}:{i + 1}: {line.strip()}'
            if re.match(r'\s*while ', line):
                yield where
                continue
            m = re.match(r'(\s*)for (\w+) in [^{]*\.\.', line)
            if not m:
                continue
            body = []
            for later in lines[i + 1:]:
                if later.startswith(m.group(1) + '}'):
                    break
                body.append(later)
            if re.search(r'\[[^\]]*\b' + m.group(2) + r'\b[^\]]*\]', '\n'.join(body)):
                yield where


BY_HAND = re.compile(
    r'^(?:smaller|larger|least|most_of|min|max|chosen|chosen_bits|same_bytes|same|number_of|bytes_of|word_of|word_at|eight|put_eight|word|'
    r'of_int|to_int|distance|decimal|digit|single|pair|begin|with_bytes|with_number|wide|put|put_key|or_zero|shift|append|fill|close|'
    r'continues|is_end|flag|mark|above|is_clear|byte|hex|text)$')


def point_4(root):
    """Comparing, choosing, copying, converting and printing by functions of the house."""
    for crate, name, signature, clauses, body in functions(root):
        if BY_HAND.match(name):
            yield f'{crate}: fn {name}'
    for path in files(root):
        for m in re.finditer(r'^\s*let \w+ = \w+\.(?:counts|bytes|line|group);', path.read_text(), re.M):
            yield f'{path.parts[-3]}: {m.group(0).strip()}'


def point_5(root):
    """Clauses that three or more functions require, and parameters that go together in three or more."""
    clauses, runs = collections.defaultdict(set), collections.defaultdict(set)
    for crate, name, signature, all_clauses, body in functions(root):
        for m in re.finditer(r'requires\s+(?:\w+ )?\{ (.*?) \}\s*$', all_clauses, re.M):
            for fact in re.split(r' × ', m.group(1)):
                fact = fact.strip('() ')
                clauses[re.sub(r'\.(?:now|old)\b', '', fact)].add(f'{crate}::{name}')
        if crate.startswith('c_'):
            continue
        parameters = [p.strip() for p in re.sub(r'\s+', ' ', signature.split('(', 1)[1].rsplit(')', 1)[0]).split(', ') if p.strip()]
        for size in (3, 4, 5):
            for i in range(len(parameters) - size + 1):
                runs[tuple(p.rstrip(',') for p in parameters[i:i + size])].add(f'{crate}::{name}')
    for fact, where in sorted(clauses.items(), key=lambda x: -len(x[1])):
        if len(where) >= 3:
            yield f'{len(where)} functions require: {fact}'
    longest = {}
    for run, where in runs.items():
        if len(where) >= 3 and not any(len(o) > len(run) and runs[o] >= where and ' '.join(run) in ' '.join(o) for o in runs):
            longest[run] = where
    for run, where in sorted(longest.items(), key=lambda x: -len(x[1])):
        yield f'{len(where)} functions take: ' + ', '.join(run)


def point_6(root):
    """Arrays with a count beside them, in a type or in parameters, and tables with a length beside them."""
    for crate, what, name, fields in types(root):
        if what == 'struct' and re.search(r'\[\w+; \d+\]', fields) and re.search(r'\busize\b', fields):
            yield f'{crate}: struct {name}'
    for crate, name, signature, clauses, body in functions(root):
        flat = re.sub(r'\s+', ' ', signature)
        if re.search(r'\[\w+; \d+\]', flat.split(') ->')[0]) and re.search(r'\b[dn]: usize', flat):
            yield f'{crate}: fn {name}: an array and how many of it count'
        elif re.search(r'-> \[u8; \d{2,}\]', flat) and re.search(r'\bn: usize', flat):
            yield f'{crate}: fn {name}: a table and how many of it count'
        elif re.search(r'\b(?:at|n): usize', flat) and re.search(r': &(?:mut )?\[u8\], \w+: usize', flat) and 'feed_io' == crate:
            yield f'{crate}: fn {name}: a buffer and how much of it counts'


def point_7(root):
    """Parameters that say which step to run."""
    for crate, name, signature, clauses, body in functions(root):
        for m in re.finditer(r'\b(minus|reads|first|holds|sound): bool', signature):
            yield f'{crate}: fn {name}: {m.group(0)}'


def point_8(root):
    """Answers, and lemmas of the house, by crate."""
    for crate in sorted(pathlib.Path(root).glob('crates/*')):
        answers = sum(len(re.findall(r'^(?:abbrev )?pub ', p.read_text(), re.M)) for p in crate.glob('proofs/**/Answers.antt'))
        lemmas = sum(len(re.findall(r'^(?:pub )?[\w◌≡+*<≤-]+ : ', p.read_text(), re.M)) for p in crate.glob('proofs/*.antt'))
        if answers or lemmas:
            yield f'{crate.name}: {answers} answers, {lemmas} lemmas'


POINTS = [point_1, point_2, point_3, point_4, point_5, point_6, point_7, point_8]


def main():
    which = sys.argv[1]
    root = sys.argv[2] if len(sys.argv) > 2 else pathlib.Path(__file__).resolve().parent.parent
    if which == 'all':
        for i, point in enumerate(POINTS):
            found = list(point(root))
            if i == 7:
                sums = [sum(int(re.search(r'(\d+) ' + w, l).group(1)) for l in found) for w in ('answers', 'lemmas')]
                print(f'8: {sums[0]} answers, {sums[1]} lemmas')
            else:
                print(f'{i + 1}: {len(found)}')
        return
    for line in POINTS[int(which) - 1](root):
        print(line)


main()
