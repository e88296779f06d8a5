#!/usr/bin/env python3
"""Brings this repository's own names to the spelling of the installed Rattle. Run once, right after the kit's port.py.

usage: tools/respell.py [--check]

- A definition or lemma in camelCase goes to snake case (soundOf: sound_of), in specs/, in proofs/, in the clauses and comments of
  src/, and in must-fail/. In the name of a lemma a part that is a type keeps its capital (allBytes-append: AllBytes-append).
- The crate `bytes` becomes `octets`: the kit has a library of that name.
Strings, Rust's own names and exported names stay. --check only prints names that would fall together.
"""
import collections
import os
import re
import sys

WORD = re.compile(r"(?<![A-Za-z0-9_'])[a-z][A-Za-z0-9_']*[A-Z][A-Za-z0-9_']*")
PART = re.compile(r"(?<=[a-z0-9])(?=[A-Z])")
OLD, NEW = 'bytes', 'octets'


def files(*ends):
    for folder, dirs, names in os.walk('crates'):
        dirs[:] = sorted(d for d in dirs if d != 'out')
        yield from (os.path.join(folder, n) for n in sorted(names) if n.endswith(ends))


def text_of(path):
    with open(path, encoding='utf-8') as f:
        return f.read()


def snake(word):
    word = word.replace('_H', 'H') if word == 'no_Header' else word  # port.py's spelling of the step no_header
    return '_'.join(p.lower() if not p[:1].isdigit() else p for p in PART.split(word))


def strings_aside(text):
    """The pieces of a source: text and, at odd places, string literals."""
    return re.split(r'("(?:[^"\\\n]|\\.)*")', text)


def types():
    found = set()
    for path in files('.antt'):
        found |= set(re.findall(r"(?m)^(?:pub )?(?:data|record) ([A-Z]\w*)", text_of(path)))
        found |= set(re.findall(r"(?m)^(?:abbrev |unfoldable )?(?:pub )?([A-Z]\w*) :", text_of(path)))
    return found


def definitions():
    found = set()
    for path in files('.antt'):
        found |= set(re.findall(r"(?m)^\s*(?:abbrev |unfoldable )?(?:pub )?([a-z]\w*) :", text_of(path)))
    return found


def main():
    check = '--check' in sys.argv
    facts, defined = types(), definitions()

    def new(match):
        word, text, end = match.group(0), match.string, match.end()
        if word in ('dI', 'dT'):  # flags of a link packet, in comments
            return word
        capital = word[0].upper() + word[1:]
        in_name = text[end:end + 1] == '-' and text[end + 1:end + 2].isalpha() or text[match.start() - 1:match.start()] == '-'
        if in_name and capital in facts and word not in defined:
            return capital
        return snake(word)

    together = collections.defaultdict(set)
    for path in files('.antt', '.rt', '.edit'):
        text = text_of(path)
        words = set(re.findall(r"[A-Za-z0-9_']+", text))
        for w in {m.group(0) for m in WORD.finditer(text)}:
            together[snake(w)].add(w)
            if snake(w) in words:
                print(f'{path}: {w} falls together with {snake(w)}')
        if check:
            continue
        pieces = strings_aside(text) if path.endswith('.rt') else [text]
        out = ''.join(p if path.endswith('.rt') and i % 2 else WORD.sub(new, p) for i, p in enumerate(pieces))
        out = re.sub(rf'\bRattle\.{OLD}\.', f'Rattle.{NEW}.', out)
        out = re.sub(rf'\buse {OLD}::', f'use {NEW}::', out)
        out = re.sub(rf'(?<![:\w]){OLD}::(?=\w+::)', f'{NEW}::', out)
        if out != text:
            with open(path, 'w', encoding='utf-8') as f:
                f.write(out)
    for s, ws in sorted(together.items()):
        if len(ws) > 1:
            print(f'fall together: {sorted(ws)}')
    if not check:
        os.rename(f'crates/{OLD}', f'crates/{NEW}')
        lines = text_of('crates.txt').split('\n')
        turned = [l if l.startswith('#') else re.sub(rf'(?<![\w]){OLD}(?![\w])', NEW, l) for l in lines]
        with open('crates.txt', 'w', encoding='utf-8') as f:
            f.write('\n'.join(turned))


main()
