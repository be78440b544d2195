#!/usr/bin/env python3
"""Respells the repository's own definitions and lemmas as today's Rattle spells names. Run once, at the top, after port.py.

A word is in snake case: `windowOf` becomes `window_of`, `row-within` becomes `row_within`. A dash stays where it joins the
names of two definitions, as in `put_back-window_of`. Types, facts and modules keep their capitals. Names of src/ stay.
With --names it prints the table and changes nothing."""
import glob, os, re, sys

SPECIAL = {'dispatch1D': 'dispatch_1d', 'dispatch2D': 'dispatch_2d'}
STD = {'length', 'take', 'drop', 'get_or', 'set', 'replicate', 'append', 'cond'}
WORD = re.compile(r"[^\s(){}\[\].;,«»`⌜⌝λ:|]+")
SIGNATURE = re.compile(r"^(\s*)((?:abbrev |unfoldable |pub )*)([^\s(){}:.;,=]+)\s*:(\s|$)")


def read(path):
    with open(path, encoding='utf-8') as f:
        return f.read()


def snake(word):
    if word in SPECIAL:
        return SPECIAL[word]
    word = re.sub(r"(?<=[a-z0-9])([A-Z])", lambda m: '_' + m.group(1).lower(), word)
    return word.replace('′', "'")


def definitions():
    """The names that specs/ and the lemma files declare, the files' own modules aside."""
    found = {}
    files = glob.glob('crates/*/specs/**/*.antt', recursive=True) + glob.glob('crates/*/proofs/*.antt')
    for path in sorted(files):
        for line in read(path).split('\n'):
            if line.lstrip().startswith('--'):
                continue
            m = SIGNATURE.match(line)
            if m and m.group(3) not in ('use', 'let', 'open', 'in', 'where', 'module'):
                found.setdefault(m.group(3), set()).add((path, 'specs' if '/specs/' in path else 'proofs'))
    return found


def spelled(name, words):
    """The new spelling: each part in snake case, a dash only between the names of two definitions."""
    if not re.match(r"^[a-z]", name):
        return name
    parts, units = [snake(p) for p in name.split('-')], []
    while parts:
        long = max((k for k in range(1, len(parts) + 1) if '_'.join(parts[:k]) in words), default=0)
        units.append(('_'.join(parts[:long or 1]), bool(long)))
        parts = parts[long or 1:]
    made = units[0][0]
    for (_, before), (part, named) in zip(units, units[1:]):
        made += ('-' if before and named else '_') + part
    return made


def table():
    found = definitions()
    words = STD | {snake(n) for n, where in found.items() if '-' not in n and any(w[1] == 'specs' for w in where)}
    names = {n: spelled(n, words) for n in found}
    for new, old in fall_together(names, found).items():
        for n in old:
            if not any(w[1] == 'specs' for w in found[n]) and meets(n, old - {n}):
                names[n] = new + '_lem'
    return {n: m for n, m in names.items() if n != m}, found


def meets(name, others):
    """Does a file have this name and one of the others?"""
    for path in glob.glob('crates/**/*.antt', recursive=True):
        tokens = set(WORD.findall(read(path)))
        if name in tokens and tokens & others:
            return True
    return False


def fall_together(names, found):
    """The names that would have one spelling."""
    by_new = {}
    for n in found:
        by_new.setdefault(names.get(n, n), set()).add(n)
    return {k: v for k, v in by_new.items() if len(v) > 1}


def in_pages(text, names, known):
    """For pages, whose names port.py has left as they were: also what it respelled itself."""
    more = {}
    for token in set(WORD.findall(text)):
        if re.match(r"^[a-z]+[a-z0-9]*[A-Z]", token) and snake(token) in known:
            more[token] = snake(token)
    return {**more, **names}


def write(path, text):
    if text != read(path):
        with open(path, 'w', encoding='utf-8') as f:
            f.write(text)


def turned(text, names):
    return WORD.sub(lambda m: names.get(m.group(0), m.group(0)), text)


def turned_in_ticks(text, names):
    return re.sub(r"`[^`\n]*`", lambda m: turned(m.group(0), names), text)


def main():
    names, found = table()
    if '--names' in sys.argv:
        for n in sorted(names):
            print(n, names[n])
        print('fall together:', fall_together(names, found))
        return
    lemma_files = glob.glob('crates/*/specs/**/*.antt', recursive=True) + glob.glob('crates/*/proofs/*.antt')
    others = (set(glob.glob('crates/*/proofs/**/*.antt', recursive=True)) - set(lemma_files)
              | set(glob.glob('crates/*/src/**/*.rt', recursive=True)) | set(glob.glob('crates/*/must-fail/*.edit')))
    # A name that was in snake case may be a function's of src/ too: outside the lemma files it stays.
    old_form = {n: m for n, m in names.items() if re.search(r"[A-Z-]", n)}
    for path in sorted(lemma_files):
        write(path, turned(read(path), names))
    for path in sorted(others):
        write(path, turned(read(path), old_form))
    known = {names.get(n, n) for n in found}
    for path in sorted(glob.glob('docs/*.md') + ['README.md']):
        write(path, turned_in_ticks(read(path), in_pages(read(path), old_form, known)))


main()
