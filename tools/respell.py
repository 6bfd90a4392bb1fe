#!/usr/bin/env python3
"""Brings the repository's own names to today's spelling: run once, behind the porting script of the toolchain (docs/PORT.md).

usage: python3 tools/respell.py [ROOT]

Words, lemmas and fields of .antt files go from kebab and camel case to snake case, facts and types to upper camel case; names of libraries, of Rust items
and of what the toolchain generates stay. NAMED has the names that would fall together with another of their file, and those that a tactic has now."""
import re, sys
from pathlib import Path

ROOT = Path(sys.argv[1] if len(sys.argv) > 1 else '.').resolve()
CRATES = sorted(p.name for p in (ROOT / 'crates').iterdir() if p.is_dir())

# what the rule would not tell apart: labelled code has functions named as model's, and lemmas are named as what they are about
NAMED = {
    'closedCall': 'labelled_closed_call', 'codeNot': 'labelled_code_not', 'codeSelf': 'labelled_code_self', 'emitJump': 'labelled_emit_jump',
    'withFree': 'labelled_with_free', 'toHere': 'labelled_to_here',
    'cat-k': 'cat_k_lem', 'cat-x': 'cat_x_lem', 'expr-at': 'expr_at_lem', 'is-reg': 'is_reg_lem', 'left-first': 'left_first_lem', 'right-first': 'right_first_lem', 'step-at': 'step_at_lem',
    'setAOf': 'set_a_of', 'setBOf': 'set_b_of', 'setCOf': 'set_c_of', 'first_of': 'first_value', 'isOfKind': 'IsOfKind', 'bytes-tell': 'BytesTell', 'reader-tells': 'ReaderTells',
}
THERE = {('simulation', 'as-rk'): 'as_rk_lem'}
# two files that would have the name of a module that the toolchain makes
FILES = {'Contracts': 'Relations'}

TOKEN = re.compile(r"(?<![^\s(){}\[\].,;:λ→×⊎\"@«»=|`])[^\s(){}\[\].,;:λ→×⊎\"@«»=|`]+")
PLAIN = re.compile(r"([A-Za-z][A-Za-z0-9_'-]*)([₀-₉⁺ᵉₙₜ?']*)")


def spelled(name):
    m = PLAIN.fullmatch(name)
    if not m:
        return name
    base, tail = m.groups()
    if base[0].isupper():
        return ''.join(p[:1].upper() + p[1:] for p in base.split('-')) + tail if '-' in base else name
    base = re.sub(r'(?<=[a-z0-9])([A-Z]+)', lambda m: '_' + m.group(1).lower(), base.replace('-', '_'))
    return re.sub(r'__+', '_', base) + tail


def new_name(crate, name):
    return THERE.get((crate, name)) or NAMED.get(name) or spelled(name)


def comment_at(line, mark):
    m = re.search(r'(?:^|\s)' + mark, line)
    return m.start() if m else len(line)


def foreign(text, use):
    """The names that a file takes from a library, as the library spells them."""
    found = set()
    for path, names in re.findall(use + r'\s+([^\s{]+?)\.\{([^}]*)\}', text):
        part = path.split('.')
        if part[0] == 'Rattle' and len(part) > 1 and part[1] in CRATES:
            continue
        found |= {n.split(' as ')[0].strip() for n in names.split(',')}
    return found


def defined():
    """Every name that a .antt file outside the walks through code defines: what comments, edits and answers may speak of."""
    names = set()
    for f in (ROOT / 'crates').rglob('*.antt'):
        if f.name == 'Proof.antt' or 'out' in f.parts:
            continue
        for l in f.read_text().split('\n'):
            m = re.match(r"\s*(?:(?:pub|abbrev|unfoldable|record|data)\s+)*([^\s(){}\[\].,;:λ→×⊎\"@«»=|`]+)(?:\s+[({].*)?\s*:\s", l)
            if m and not l.lstrip().startswith(('--', 'use ')):
                names.add(m.group(1))
    return {n for n in names if spelled(n) != n or n in NAMED}


def turn_line(crate, line, keep, mark, only=None):
    at = comment_at(line, mark)

    def code(m):
        t = m.group(0)
        return t if t in keep or (only is not None and t not in only) else new_name(crate, t)

    def quoted(m):
        return '`' + TOKEN.sub(lambda m: new_name(crate, m.group(0)) if m.group(0) in OWN else m.group(0), m.group(1)) + '`'

    def said(m):
        t = m.group(0)
        return new_name(crate, t) if t in OWN and re.search('[a-z][A-Z]', t) else t

    return TOKEN.sub(code, line[:at]) + TOKEN.sub(said, re.sub(r'`([^`]*)`', quoted, line[at:]))


def turn(path, mark, use, only=None):
    text = path.read_text()
    crate = path.relative_to(ROOT / 'crates').parts[0]
    keep = foreign(text, use)
    for old, new in FILES.items():
        text = re.sub(r'\.specs\.' + old + r'(?=[.\s{])', '.specs.' + new, text)
        text = re.sub(r'(?m)^pub mod ' + old + '$', 'pub mod ' + new, text)
    path.write_text('\n'.join(turn_line(crate, l, keep, mark, only) for l in text.split('\n')))


OWN = defined()
made = 0
for f in sorted((ROOT / 'crates').rglob('*')):
    if 'out' in f.parts or not f.is_file():
        continue
    if f.suffix == '.antt':
        turn(f, '--', r'use', OWN if f.name == 'Proof.antt' else None)
    elif f.suffix == '.rt':
        turn(f, '//', r'ghost use', None)
    elif f.suffix == '.edit':
        turn(f, '#', r'use', OWN)
    elif 'answers' in f.parts:
        turn(f, '--', r'use', OWN)
    else:
        continue
    made += 1
for f in sorted((ROOT / 'crates').glob('*/specs/*.antt')):
    if f.stem in FILES:
        f.rename(f.with_name(FILES[f.stem] + '.antt'))
print(f'{made} files read, {len(OWN)} names of their own brought to snake case')
