#!/usr/bin/env python3
"""Drops imports that a file of specs/ or proofs/ does not name, and breaks lines of more than 132 columns.

usage: tools/wrap.py [FILE...]     without files: every .antt file of crates/
"""
import os
import re
import sys

MOST = 132
USE = re.compile(r"(?m)^use ([\w.'+-]+)\.\{([^}]*)\}([^\n]*)\n")


def named(item, text):
    short = item.split(' as ')[-1]
    parts = [p for p in short.split('◌') if p]
    return all(re.search(rf"(?<![\w'-]){re.escape(p)}(?![\w'-])", text) if re.match(r"\w", p) else p in text for p in parts)


def imports(text):
    body = USE.sub('', text)

    def kept(m):
        items = [x.strip() for x in m.group(2).split(',') if x.strip()]
        keep = [x for x in items if named(x, body)]
        if not keep:
            return ''
        lines, line = [], []
        for x in keep:
            if line and len(f"use {m.group(1)}.{{{', '.join(line + [x])}}}") > MOST:
                lines.append(line)
                line = []
            line.append(x)
        lines.append(line)
        return ''.join(f"use {m.group(1)}.{{{', '.join(l)}}}{m.group(3)}\n" for l in lines)

    return USE.sub(kept, text)


def broken(line):
    if len(line) <= MOST:
        return [line]
    indent = len(line) - len(line.lstrip())
    if line.lstrip().startswith('--'):
        at = line.rfind(' ', indent + 10, MOST)
        return [line[:at]] + broken(' ' * indent + '-- ' + line[at + 1:])
    more = indent + 4
    best, deep, score = None, 0, None
    for i, c in enumerate(line):
        deep += (c in '([{') - (c in ')]}')
        if c == ' ' and more + 10 < i < MOST:
            s = (deep, -i)
            after = line[i + 1:i + 2]
            if line[i - 1] == ',' or after in '→∙≡×':
                s = (deep - 0.5, -i)
            if i < 70:
                s = (s[0] + 2, -i)
            if re.search(r'(λ|let|use|unfolding|elim)$', line[:i]) or '--' in line[:i]:
                continue
            if score is None or s < score:
                best, score = i, s
    if best is None:
        return [line]
    return [line[:best]] + broken(' ' * more + line[best + 1:])


def main():
    files = sys.argv[1:]
    if not files:
        for folder, dirs, names in os.walk('crates'):
            dirs[:] = sorted(d for d in dirs if d != 'out')
            files += [os.path.join(folder, n) for n in sorted(names) if n.endswith('.antt')]
    for path in files:
        with open(path, encoding='utf-8') as f:
            text = f.read()
        new = imports(text)
        new = '\n'.join(x for l in new.split('\n') for x in ([l] if l.startswith('use ') else broken(l)))
        if new != text:
            with open(path, 'w', encoding='utf-8') as f:
                f.write(new)
    return 0


sys.exit(main())
