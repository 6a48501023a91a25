#!/usr/bin/env python3
"""Brings the repository's own ghost names to today's spelling: functions, lemmas, fields and constructors in snake case, types in camel case.

usage: tools/respell.py [--list]      at the top of the checkout; run once, after the kit's port.py

A dash stays where it joins a name to an operator, as in `records-++`. Names of Rust code, strings and paths of files keep their spelling.
With --list it writes the table of names and changes nothing. Where two names would fall together, it says so and changes nothing."""
import glob, re, sys

SPLIT = re.compile(r'("(?:[^"\\]|\\.)*"|--[^\n]*|[\s(){}\[\];,.⟦⟧]+)')
WORD = re.compile(r"^[A-Za-zℕℤεα-ω]")


def files(*ends):
    return sorted(f for e in ends for f in glob.glob('crates/**/*' + e, recursive=True) if '/out/' not in f)


def defined():
    """Every name that a file of specs/ or proofs/ declares, but for what a Proof.antt keeps to itself."""
    names = set()
    for f in files('.antt'):
        if f.endswith('/Proof.antt'):
            continue
        for line in open(f):
            m = re.match(r'\s*(?:(?:unfoldable|abbrev|pub|mutual|data|record|ruleset)\s+)*([^\s:(){}|;,.]+)\s+(?:[({].*)?:(?!=)', line)
            if m and not line.strip().startswith('--'):
                names.add(m.group(1))
    return names


# A lemma that would have its function's name, and the choice between two values, whose older name is now the library's.
ALONE = {'integer-front': 'integer_front_lem'}
CHOICE = {'if': 'when', 'if◌then◌else◌': 'when◌then◌else◌'}


def respelt(n):
    if n in ALONE:
        return ALONE[n]
    if not WORD.match(n) or '◌' in n or '⟦' in n:
        return n
    parts = n.split('-')
    if n[0].isupper() and n[1:2].islower():
        # a type: its parts run together
        if all(p.isalnum() for p in parts):
            return ''.join(p[0].upper() + p[1:] for p in parts)
        return n
    out = parts[0]
    for p in parts[1:]:
        out += ('_' if WORD.match(p) or p[:1].isdigit() else '-') + p
    # camel case to snake case, but for a type that a name begins with or joins
    if re.match(r'^[a-z]', out) and '_' not in out and '-' not in out:
        out = re.sub(r'(?<=[a-z0-9])([A-Z])', lambda m: '_' + m.group(1).lower(), out)
    return out


def table():
    return {**CHOICE, **{n: r for n in defined() - set(CHOICE) for r in [respelt(n)] if r != n}}


def turned(text, names):
    pieces = SPLIT.split(text)
    return ''.join(p if i % 2 else names.get(p, p) for i, p in enumerate(pieces))


def comment(text, names):
    """A comment speaks of a name between backquotes; `sfConfig` there is the description's."""
    names = {n: r for n, r in names.items() if n != 'sfConfig'}
    return re.sub(r"`([^`\n]+)`", lambda m: '`' + turned(m.group(1), names) + '`', text)


def antt(text, names):
    pieces = SPLIT.split(text)
    out = []
    for i, p in enumerate(pieces):
        if i % 2:
            out.append(comment(p, names) if p.startswith('--') else p)
        else:
            out.append(names.get(p, p))
    return ''.join(out)


def borrowed(text):
    """The names that a file takes from elsewhere than this repository."""
    out = set()
    for path, names in re.findall(r'use ([\w.ℕℤ]+)\.\{([^}]*)\}', text):
        if re.match(r'Rattle\.(std|core)|Prim\b|[a-z]', path):
            out |= {n.strip() for n in names.split(',')}
    return out


CLAUSE = re.compile(r'ghost use [^;]*;|\b(?:requires|ensures|invariant|decreases)\*?(?: \w+)? \{|\bghost [^;{]*\{')


def clause_end(t, i):
    deep = 0
    for k in range(i, len(t)):
        deep += (t[k] == '{') - (t[k] == '}')
        if not deep:
            return k + 1
    return len(t)


def rust(text, names):
    out, i = [], 0
    for m in iter(lambda: CLAUSE.search(text, i), None):
        out.append(text[i:m.start()])
        end = m.end() if m.group().endswith(';') else clause_end(text, m.end() - 1)
        out.append(turned(text[m.start():end], names))
        i = end
    out.append(text[i:])
    return ''.join(out)


def main():
    names = table()
    if '--list' in sys.argv:
        for n in sorted(names):
            print(n, names[n])
        return 0
    words = {f: set(SPLIT.split(open(f).read())[::2]) for f in files('.antt', '.rt')}
    for old, new in sorted(names.items()):
        other = [o for o, n in names.items() if n == new and o != old]
        for f, w in words.items():
            if old in w and any(o in w for o in other):
                print(f'fall together in {f}: {old} and {other}, as {new}')
                return 1
    for f in words:
        old = open(f).read()
        others = borrowed(old)
        mine = {n: r for n, r in names.items() if n not in others}
        new = (antt if f.endswith('.antt') else rust)(old, mine)
        if new != old:
            open(f, 'w').write(new)
    return 0


sys.exit(main())
