#!/usr/bin/env python3
"""Respells this repository's own definitions and lemmas: words in snake case; facts and types have their capitals already.

    python3 tools/respell.py            at the top, once, right after port.py

Names of Rust items, exported C names, strings, inputs and outputs are left. --list prints the names and changes nothing.
"""
import pathlib
import re
import sys

ROOT = pathlib.Path('.')
TOKEN = re.compile(r'[^\s(){}\[\].,;`«»"]+')
# Names that would fall together with another: a lemma beside its definition gets `_lem`.
CHOSEN = {name: re.sub('-', '_', name) + '_lem' for name in '''
    at-least block-length can-move cb-of codes-agree codes-in codes-near cr-of greatest-light grey-codes grey-words
    in-range in-turn is-nan no-timing turn-of'''.split()}
CHOSEN['onLine'] = 'on_line_at'
CHOSEN['◌and-then◌'] = '◌and_then◌'


def antt_files():
    return sorted(p for p in ROOT.glob('crates/*/*/**/*.antt') if '/out/' not in str(p))


def signatures(text):
    """Each declared name of a file with what its signature says up to the next line that is not deeper."""
    lines = text.split('\n')
    for i, line in enumerate(lines):
        m = re.match(r'^(\s*)(?:let |\| )?((?:pub |abbrev |unfoldable |axiom |data |record )*)([^\s:(){}]+(?: [^\s:(){}]+)*?)((?: [({].*?[)}])*) : (.*)$', line)
        if not m or line.lstrip().startswith('--'):
            continue
        indent, marks, names, _, rest = m.groups()
        if any(w in ('use', 'module', 'infix', 'infixl', 'infixr') for w in (marks + names).split()):
            continue
        depth = len(indent)
        for later in lines[i + 1:]:
            if later.strip() and len(later) - len(later.lstrip()) <= depth:
                break
            rest += ' ' + later.strip()
        for name in names.split():
            yield name, rest, marks


def snake(name):
    name = re.sub(r'([a-z0-9])([A-Z])', lambda m: m.group(1) + '_' + m.group(2).lower(), name)
    return re.sub(r'(?<=[A-Za-z0-9])-(?=[A-Za-z0-9])', '_', name).replace('′', "'")


def mapping():
    names = {}
    for path in antt_files():
        for name, rest, marks in signatures(path.read_text()):
            if rest.startswith('tie.') or name.endswith('-spec'):
                continue
            names.setdefault(name, set()).add(str(path))
    turned = {}
    for name in sorted(names):
        new = CHOSEN.get(name) or snake(name)
        if new != name and not name[0].isupper():
            turned[name] = new
    return names, turned


def main():
    names, turned = mapping()
    if '--list' in sys.argv:
        back = {}
        for a, b in turned.items():
            back.setdefault(b, []).append(a)
        for b, olds in sorted(back.items()):
            if len(olds) > 1 or b in names:
                print('together', b, olds, sorted(names.get(b, [])), [sorted(names[o]) for o in olds])
        print(len(turned))
        return
    dashed = {a: b for a, b in turned.items() if '-' in a}
    camel = {a: b for a, b in turned.items() if '-' not in a and not a.islower()}
    for path in sorted(ROOT.glob('crates/**/*')) + sorted(ROOT.glob('docs/**/*.md')) + [ROOT / 'README.md']:
        if not path.is_file() or '/out/' in str(path):
            continue
        if path.suffix == '.antt':
            use = turned
        elif path.suffix == '.edit':
            use = turned
        elif path.suffix in ('.rt', '.md'):
            use = {**camel, **(dashed if path.suffix == '.md' else {})}
        else:
            continue
        text = path.read_text()
        if path.suffix == '.md':
            new = re.sub(r'`[^`\n]*`', lambda m: TOKEN.sub(lambda t: use.get(t.group(0), t.group(0)), m.group(0)), text)
        else:
            new = TOKEN.sub(lambda t: use.get(t.group(0), t.group(0)), text)
            new = re.sub(r'^(\s*◌and)-then◌', r'\1_then◌', new, flags=re.M)
        if new != text:
            path.write_text(new)


main()
