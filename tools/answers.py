#!/usr/bin/env python3
"""Turns proofs in the older form, a Proof.antt that closes a Tie, into Invariants.antt and Answers.antt.

usage: tools/answers.py NAMES CRATE...

NAMES is a folder with CRATE/names.json for each crate, as `rattle check --generated .. --old-names` writes it. Answers that only call
`search rules` or `omega arith` go, since the check tries those. What it cannot turn it prints, one line each, as `left: ..`.
"""
import json
import os
import re
import sys

NAME = r"[^\W\d][\w'-]*"
PLAIN = {'search rules', 'omega arith'}
DIRECT = {'args', 'lifetimes', 'ranges', 'type_inv', 'utf8'}


def norm(s):
    return re.sub(r'_lem$', '', s).replace('_', '-')


def blocks(text):
    """The declarations of a file: runs of lines, each beginning at a line at the margin that is a comment or a signature."""
    lines = text.rstrip('\n').split('\n')
    uses, i = [], 0
    out, cur = [], []
    for l in lines:
        if l == '' and cur:
            out.append(cur)
            cur = []
        elif l != '':
            cur.append(l)
    if cur:
        out.append(cur)
    return out


class Function:
    def __init__(self, crate, path, entry):
        self.crate, self.path, self.entry = crate, path, entry
        self.parent, self.step, self.arm, self.extra, self.newplace = {}, {}, {}, {}, {}
        names = entry['places_by_name']
        for i, (old, parent, (s_old, s_new), callee, extra) in enumerate(entry['places']):
            self.parent[old] = parent
            self.step[old] = (s_old, s_new)
            self.extra[old] = dict(extra)
            self.newplace[old] = names[i] if i < len(names) else old
            arm = entry['arms'][i] if i < len(entry['arms']) else None
            self.arm[old] = arm
        self.asked = {}
        self.needs = {}
        for (o, n), (po, pn) in zip(entry['needs'], entry['asked_at']):
            self.needs[norm(o)] = n
            self.asked[n] = (po, pn)

    def above(self, place):
        while place:
            yield place
            place = self.parent.get(place)


def split_uses(text):
    m = re.match(r"(?:\s*(?:--[^\n]*|use [^\n{]*(?:\{[^}]*\})?[^\n]*)\n)*", text)
    return text[:m.end()], text[m.end():]


def expand(term, fn, place, left, goal):
    """Rewrites the paths from c in a term, at a place."""

    def path(m):
        segs = m.group(0).split('.')[1:]
        while segs and segs[0] == 'before':
            segs.pop(0)
        if not segs:
            return 'c'
        return 'c.' + field(segs)

    def field(segs):
        head, rest = segs[0], segs[1:]
        if head == 'pre':
            head = 'requires'
        if head in DIRECT or head == 'requires':
            return '.'.join([head, *rest])
        for p in fn.above(place):
            s_old, s_new = fn.step[p]
            if not s_old or norm(s_old) != norm(head):
                continue
            arm = fn.arm.get(p)
            if arm:
                best = None
                for new, step, way in arm[2]:
                    if norm(step) == norm(head) and rest[:len(way)] == way and way and (best is None or len(way) > len(best[1])):
                        best = (new, way)
                if best:
                    return '.'.join([arm[0], best[0], *rest[len(best[1]):]])
            extra = fn.extra.get(p, {})
            if rest and rest[0] in extra:
                rest = [extra[rest[0]], *rest[1:]]
            return '.'.join([s_new, *rest])
        left.append(f'{goal}: no step {head}')
        return '.'.join(segs)

    return re.sub(r"(?<![\w'.-])c(?:\.[\w'₀-]+)+", path, term)


def inline(term, helpers):
    """Puts the bodies of helpers over places in the place of their calls."""
    for _ in range(8):
        done = True
        for name, (param, body) in helpers.items():
            m = re.search(rf"(?<![\w'.-]){re.escape(name)} (c(?:\.before)*|\((?:c(?:\.before)*)\))(?![\w'-])", term)
            if m:
                arg = m.group(1).strip('()')
                b = re.sub(rf"(?<![\w'.-]){re.escape(param)}(?![\w'-])", arg, body)
                b = ' '.join(b.split())
                term = term[:m.start()] + '(' + b + ')' + term[m.end():]
                done = False
        if done:
            break
    return re.sub(r"\(\((c(?:\.[\w'-]+)*)\)\)", r"(\1)", re.sub(r"\((c(?:\.before)*)\)(?=\.)", r"\1", term))


def aliases(term):
    """Removes `let b = c.before.. in`, and writes c for b."""
    while True:
        m = re.search(rf"let ({NAME}) =\s*\(?c((?:\.before)*)\)?\s+in\s*", term)
        if not m:
            return term
        name = m.group(1)
        term = term[:m.start()] + re.sub(rf"(?<![\w'.-]){re.escape(name)}(?![\w'-])", 'c' + m.group(2), term[m.end():])


def turn(crate, folder, fn, write=True):
    text = open(f'{folder}/Proof.antt', encoding='utf-8').read()
    module = f'Rattle.{crate}.proofs.' + fn.path
    head, body = split_uses(text)
    uses = [u for u in re.findall(r"use [^\n{]*(?:\{[^}]*\})?[^\n]*", head)
            if not re.search(rf"{re.escape(module)}\.(Tie|Statement|Reads|Lts)\b", u)]
    uses = [re.sub(r'\s+', ' ', u) for u in uses]
    left, answers, helpers, invariants, renames, started = [], [], {}, [], {}, {}
    for b in blocks(body):
        comment = [l for l in b if l.startswith('--')]
        rest = [l for l in b if not l.startswith('--')]
        if not rest:
            answers.append(comment)
            continue
        joined = '\n'.join(rest)
        if 'tie.close' in joined or 'tie.spec' in joined:
            continue
        m = re.match(rf"(abbrev |pub |unfoldable )*({NAME}) : ?", joined)
        if not m:
            answers.append(b)
            left.append(f'text not understood: {rest[0][:60]}')
            continue
        name = m.group(2)
        need = re.match(rf"(?:pub )?({NAME}) : tie\.Need-([\w'-]+)([^\n]*)\n", joined + '\n')
        inv = re.match(rf"(?:abbrev )?(?:pub )?({NAME}) : tie\.(invariant|decreases)-([\w'-]+)\n", joined)
        if inv:
            kind, loop = inv.group(2), inv.group(3)
            d = re.search(rf"(?m)^{re.escape(name)}((?: {NAME}| _)*) =", joined)
            params, term = d.group(1).split(), joined[d.end():]
            new = loop
            for (o, n), _ in fn.entry['loops']:
                if norm(o) == norm(loop):
                    new = n
            seen = set()
            for p in params:
                seen.add(p)
            for p in sorted(set(params), key=len, reverse=True):
                if p == '_':
                    continue
                base = p.rstrip('₀')
                to = f'l.initial.{base}' if p.endswith('₀') else f'l.{base}'
                term = re.sub(rf"(?<![\w'.-]){re.escape(p)}(?![\w'₀-])", to, term)
            invariants.append(comment + [f'abbrev pub {kind}-{new} : goal.{kind}-{new}', f'{kind}-{new} l =' + term])
            continue
        if need:
            old = norm(need.group(2))
            keys = [old, re.sub(r'^overflow-', '', old)]
            keys += [re.sub(r'^cast-', 'cast-', k) for k in keys]
            new = next((fn.needs[k] for k in keys if k in fn.needs), None)
            if new is None:
                if norm(name) in fn.needs:
                    new = fn.needs[norm(name)]
            text_of = joined[need.end():]
            unfolding = re.match(r"((?:unfolding [^\n]*\n(?: +[^\n]*\n)*)?)", text_of)
            after = text_of[unfolding.end():]
            d = re.match(rf"{re.escape(name)} (c)((?: {NAME})*) =(.*)", after, re.S)
            if not d:
                if new:
                    left.append(f'{new}: several equations')
                answers.append([('' if not new else '') + l for l in b])
                continue
            term = d.group(3)
            if ' '.join(term.split()) in PLAIN and not unfolding.group(1):
                continue
            if new is None:
                if ' '.join(term.split()) not in PLAIN:
                    left.append(f'no goal for {need.group(2)}')
                    answers.append(['-- TODO: an older goal ' + need.group(2)] + ['-- ' + l for l in rest])
                continue
            place = fn.asked[new][0]
            term = aliases(inline(aliases(term), helpers))
            for h, (ltype, lbody) in started.items():
                call = rf"(?<![\w'.-]){re.escape(h)} (c(?:\.before)*|\(c(?:\.before)*\))(?![\w'.-])"
                if re.search(call, term):
                    term = f'\n    let {h} : {ltype} = {lbody} in' + re.sub(call, h, term)
            for h, hp in list(renames.items()):
                def call(mm, hp=hp, h=h):
                    arg = mm.group(1)
                    if arg.strip('()') == 'c' and fn.asked[new][0] == hp:
                        return f'{h} c'
                    return f"{h} (goal.at.{new} c).{fn.newplace[hp]}"
                term = re.sub(rf"(?<![\w'.-]){re.escape(h)} (c(?:\.before)*|\(c(?:\.before)*\))(?![\w'.-])", call, term)
            term = expand(term, fn, place, left, new)
            answers.append(comment + [f'pub {new} : goal.{new}'] + unfolding.group(1).rstrip('\n').split('\n') * bool(unfolding.group(1)) + [f'{new} c =' + term])
            continue
        h = re.match(rf"abbrev ({NAME}) : tie\.([\w'-]+) → [^\n]*(?:\n +[^\n]*)*\n(?:unfolding [^\n]*\n)?\1 ({NAME}) =(.*)", joined, re.S)
        if h:
            body = h.group(4)
            body = aliases(re.sub(rf"(?<![\w'.-]){re.escape(h.group(3))}(?![\w'-])", 'c', body)) if h.group(3) != 'c' else aliases(body)
            helpers[h.group(1)] = ('c', inline(body, helpers).strip())
            continue
        h = re.match(rf"({NAME}) : \(({NAME}) : tie\.([\w'-]+)\)", joined)
        if h:
            hname, param = h.group(1), h.group(2)
            hp = next((p for p in fn.parent if norm(p) == norm(h.group(3))), None)
            if hp is None:
                left.append(f'{hname}: no place {h.group(3)}')
                answers.append(b)
                continue
            t = joined
            if hp == 'Start':
                s = re.match(rf"{re.escape(hname)} : \({re.escape(param)} : tie\.Start\)\s*→ (.*?)\n{re.escape(hname)} {re.escape(param)} =(.*)", t, re.S)
                if s:
                    parts = [re.sub(rf"(?<![\w'.-]){re.escape(param)}(?![\w'-])", 'c', ' '.join(x.split())) for x in s.groups()]
                    for h, (ltype, lbody) in started.items():
                        call = rf"(?<![\w'.-]){re.escape(h)} c(?![\w'.-])"
                        if re.search(call, parts[1]):
                            parts[1] = f'let {h} : {ltype} = {lbody} in ' + re.sub(call, h, parts[1])
                    started[hname] = [expand(inline(aliases(x), helpers), fn, 'Start', left, hname) for x in parts]
                    continue
            if param != 'c':
                t = re.sub(rf"(?<![\w'.-]){re.escape(param)}(?![\w'-])", 'c', t)
            t = re.sub(r"tie\.[\w'-]+", fn.newplace[hp], t, count=1)
            t = aliases(inline(aliases(t), helpers))
            t = expand(t, fn, hp, left, hname)
            renames[hname] = hp
            answers.append(comment + t.split('\n'))
            continue
        answers.append(b)
        if 'tie.' in joined:
            left.append(f'{name}: names tie')
    kept = '\n\n'.join('\n'.join(b) for b in answers)
    loops = '\n\n'.join('\n'.join(b) for b in invariants)

    def header(text, which):
        out = []
        for u in uses:
            mm = re.match(r"use ([\w.'+-]+)\.\{([^}]*)\}(.*)", u)
            if mm:
                keep = []
                for item in [x.strip() for x in mm.group(2).split(',') if x.strip()]:
                    short = item.split(' as ')[-1]
                    parts = [p for p in short.split('◌') if p]
                    if all(re.search(rf"(?<![\w'-]){re.escape(p)}(?![\w'-])" if re.match(r"\w", p) else re.escape(p), text) for p in parts):
                        keep.append(item)
                if keep:
                    out.append(f"use {mm.group(1)}.{{{', '.join(keep)}}}{mm.group(3)}")
            else:
                out.append(u)
        places = sorted({fn.newplace[p] for p in renames.values()})
        if places and which == 'Goals':
            out.append(f"use {module}.Goals.{{{', '.join(places)}}}")
        return '\n'.join(out + [f'use {module}.{which} as goal']) + '\n\n'

    if write:
        if loops:
            open(f'{folder}/Invariants.antt', 'w', encoding='utf-8').write(header(loops, 'Given') + loops + '\n')
        if kept.strip():
            open(f'{folder}/Answers.antt', 'w', encoding='utf-8').write(header(kept, 'Goals') + kept + '\n')
        os.remove(f'{folder}/Proof.antt')
    return left


def main():
    names, crates = sys.argv[1], sys.argv[2:]
    for crate in crates:
        data = json.load(open(f'{names}/{crate}/names.json'))
        for folder, _, files in sorted(os.walk(f'crates/{crate}/proofs')):
            if 'Proof.antt' not in files:
                continue
            path = os.path.relpath(folder, f'crates/{crate}/proofs').replace('/', '.')
            entry = data.get(f'Rattle-{crate}-proofs.{path}.Lts')
            if entry is None:
                print(f'left: {folder}: no names')
                continue
            try:
                left = turn(crate, folder, Function(crate, path, entry))
            except Exception as e:
                left = [f'{type(e).__name__}: {e}']
            for l in left:
                print(f'left: {folder}: {l}')


main()
