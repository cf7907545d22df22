#!/usr/bin/env python3
"""Brings the definitions, lemmas and record fields that this repository declares to snake case: `queueIn` and
`bit-lt` become `queue_in` and `bit_lt`. It goes by whole words, over the specs, the proofs, the contracts in src/ and
the must-fail edits; functions of src/, strings and the names of libraries stay. A crate that has a library's name gets
another. Run once, behind the toolchain's own
script for an older repository, at the top of the repository; it says which names fall together.
"""
import pathlib
import re
import sys

TOP = pathlib.Path('.')
ANTT, SOURCES, EDITS = [], [], []
WORD = r"[^\s(){}\[\],;.:⟦⟧⌜⌝\"]+"
USE = re.compile(r'^\s*(?:pub\s+)?(?:ghost\s+)?use\s+([^\s{;]+?)(?:\.\{([^}]*)\})?(?:\s+as\s+([^\s;]+))?;?\s*$', re.M)
DECLARED = re.compile(r"^\s*(?:(?:abbrev|unfoldable|pub|private|instance|data|record)\s+)*(" + WORD + r")(?:\s*\([^)]*\)|\s*\{[^}]*\})*\s*:(?!=)", re.M)
OURS = re.compile(r'Rattle\.(?!std\b|core\b|io\b|libc\b)\w+\.')


def snake(word):
    word = word.replace('getD', 'get_or').replace('-', '_')
    return re.sub(r'(?<=[a-z0-9\'])([A-Z])', r'_\1', word).lower() if word[0].islower() else word


def wants(word):
    return bool(re.match(r"[a-z][\w'₀-₉-]*$", word)) and snake(word) != word


def library(texts):
    """The names that are imported from the toolchain's libraries."""
    found = set()
    for text in texts:
        for path, names, _ in USE.findall(text):
            if not OURS.match(path):
                found |= {n.split(' as ')[0].strip() for n in names.split(',')}
    return found


def bare(text):
    return re.sub(r'--.*', '', text)


# lemmas in snake case already whose name a definition takes: like any lemma that would have its function's name
LEM = {
    'encapsulation': ('plain_word',),
    'both_ways': ('covered_of',),
    'sums': ('covered_of',),
    'ip': ('in_step',),
    'placement': ('group_at',),
    'tables': ('look_at',),
}


def aliases(text):
    found = {alias for _, _, alias in USE.findall(text) if alias}
    for _, names, _ in USE.findall(text):
        found |= {n.split(' as ')[1].strip() for n in names.split(',') if ' as ' in n}
    return found


def of_repository(texts):
    """What each declared name becomes."""
    theirs = library(texts.values())
    declared = set()
    for f in ANTT:
        declared |= set(DECLARED.findall(bare(texts[f])))
    defined = {snake(w): w for w in declared if wants(w) and '-' not in w}
    turned = {}
    for w in sorted(declared):
        if wants(w) and w not in theirs:
            new = snake(w)
            taken = '-' in w and (new in defined or new in declared)
            turned[w] = new + '_lem' if taken else new
    news = {}
    for old, new in turned.items():
        news.setdefault(new, []).append(old)
    for new, olds in sorted(news.items()):
        if len(olds) > 1 or new in declared:
            print(f'look: {", ".join(sorted(olds))} become {new}' + (', which is declared too' if new in declared else ''))
    return turned


def of_file(file, text, turned):
    """The same, with the names that one file alone gives: imports under another name, and lemmas that give way."""
    names = dict(turned)
    code = bare(text)
    outside = set(re.findall(WORD, USE.sub(lambda m: (m.group(2) or ''), code))) - aliases(code)
    taken = outside | {turned[w] for w in outside if w in turned}
    for alias in aliases(code):
        if wants(alias) and alias not in turned:
            names[alias] = snake(alias) + ('_fn' if snake(alias) in taken else '')
    for w in LEM.get(file.parts[1], ()):
        if 'proofs' in file.parts:
            names[w] = w + '_lem'
    for w in re.findall(r"[a-z][\w'-]*-Reads\b", code):
        names[w] = snake(w).lower()
    return names


# a crate whose name is that of a library of the toolchain today
CRATES = {'bytes': 'byte_runs'}


def of_crates():
    listed = TOP / 'crates.txt'
    for old, new in CRATES.items():
        (TOP / 'crates' / old).rename(TOP / 'crates' / new)
        listed.write_text(re.sub(rf'(?<![\w]){old}(?![\w])', new, listed.read_text()))
        for f in TOP.glob('crates/*/*/**/*'):
            if f.suffix in ('.antt', '.rt', '.edit'):
                text = f.read_text()
                turned = text.replace(f'Rattle.{old}.', f'Rattle.{new}.')
                if f.suffix != '.antt':
                    turned = re.sub(rf'(?<![\w:]){old}::', f'{new}::', turned)
                if turned != text:
                    f.write_text(turned)


def main():
    of_crates()
    ANTT.extend(sorted(TOP.glob('crates/*/specs/**/*.antt')) + sorted(TOP.glob('crates/*/proofs/**/*.antt')))
    SOURCES.extend(sorted(TOP.glob('crates/*/src/**/*.rt')))
    EDITS.extend(sorted(TOP.glob('crates/*/must-fail/*.edit')))
    texts = {f: f.read_text() for f in ANTT + SOURCES}
    turned = of_repository(texts)
    for f, text in texts.items():
        if f.suffix == '.antt':
            names = of_file(f, text, turned)
            words = set(re.findall(WORD, USE.sub(lambda m: (m.group(2) or ''), bare(text))))
            for old in sorted(words & set(names)):
                if names[old] in words:
                    print(f'look: {f}: {old} becomes {names[old]}, which stands there already')
            f.write_text(re.sub(WORD, lambda m: names.get(m.group(0), m.group(0)), text))
    for f in SOURCES + EDITS:
        turn = lambda m: turned.get(m.group(0), m.group(0))
        lines = f.read_text().split('\n')
        f.write_text('\n'.join(clause(line, turn) if f.suffix == '.rt' else re.sub(WORD, turn, line) for line in lines))
    print(f'{len(turned)} names turned')
    if '--list' in sys.argv:
        print('\n'.join(f'{old} {new}' for old, new in sorted(turned.items())))


def clause(line, turn):
    """A line of src/: what stands in a clause or an import may have hyphens; elsewhere a hyphen is none of a word."""
    return re.sub(WORD, turn, line) if re.match(r'\s*(ghost|ensures|requires|[(λ⌜]|×|→|\})', line) else re.sub(r"(?<![\w'-])[a-z][\w']*(?![\w'-])", turn, line)


main()
