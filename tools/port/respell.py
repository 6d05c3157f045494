#!/usr/bin/env python3
"""Respells, once, at the top, behind the port's own script:
- a word that specs/ or proofs/ declares is in snake case, where it was in camel case;
- a lemma that would have its function's name ends in `_lem`;
- a module `core` is `inner`, since `core` is a library's name;
- what `std` hands on of `core` is named by `std`'s path.
Functions of src/, exported names, strings, inputs and outputs keep their names."""
import glob
import os
import re
import subprocess

WORD = re.compile(r"(?<![\w\\])([a-z][A-Za-z0-9_₀-₉'′]*)")

# `ground` is a tactic's name.
OWN = {'ground': 'ground_of'}

# Lemmas whose functions are respelled to their own names.
LEMMAS = [('circle_rows', 'once_after'), ('tables', 'rows_agree'), ('read_rule', 'chain_link'), ('request_meaning', 'chain_link'),
          ('listing', 'columns_of'), ('share_totals', 'remainder_of')]


def snake(name):
    name = re.sub(r'([a-z0-9])([A-Z])', r'\1_\2', name)
    return re.sub(r'([A-Z]+)([A-Z][a-z])', r'\1_\2', name).lower()


def read(path):
    with open(path, encoding='utf-8') as file:
        return file.read()


def write(path, text, old):
    if text != old:
        with open(path, 'w', encoding='utf-8') as file:
            file.write(text)


def library_words(paths):
    "What files import from elsewhere keeps its spelling."
    words = set()
    for path in paths:
        for module, items in re.findall(r'^\s*(?:ghost )?use ([^\s{]+)\.\{([^}]*)\}', read(path), re.M):
            if not module.startswith('Rattle.') or module.startswith(('Rattle.core.', 'Rattle.std.')):
                for item in re.findall(r'[^\s,]+', items):
                    words.update(WORD.findall(item))
    return words


def table_of(proofs, sources):
    keep = library_words(proofs + sources)
    table = {}
    for path in proofs:
        for word in WORD.findall(read(path)):
            if re.search('[A-Z]', word) and word not in keep and not re.search('_[A-Z]', word):
                table[word] = snake(word)
    return table


def respell(text, table):
    return WORD.sub(lambda m: table.get(m.group(1), m.group(1)), text)


def outside_strings(text, change):
    parts = re.split(r'("(?:[^"\\\n]|\\.)*")', text)
    return ''.join(part if i % 2 else change(part) for i, part in enumerate(parts))


def paths_of(text):
    text = re.sub(r'\bRattle\.core\.', 'Rattle.std.', text)
    text = re.sub(r'\b(Rattle\.\w+\.(?:proofs|specs)(?:\.\w+)?)\.core\b', r'\1.inner', text)
    text = re.sub(r'\b(\w+)::core\b', r'\1::inner', text)
    text = re.sub(r'\bcore::(?=[a-z{])', 'inner::', text)
    text = re.sub(r'\bmod core\b', 'mod inner', text)
    return re.sub(r'\b(src|proofs)/core\b', r'\1/inner', text)


def main():
    proofs = sorted(glob.glob('crates/**/*.antt', recursive=True))
    sources = sorted(glob.glob('crates/*/src/*.rt'))
    edits = sorted(glob.glob('crates/*/must-fail/*.edit'))
    pages = ['README.md', 'crates/replay/README.md'] + sorted(glob.glob('docs/*.md')) + sorted(glob.glob('*/README.md'))
    table = table_of(proofs, sources)
    for path in proofs:
        old = text = read(path)
        for crate, lemma in LEMMAS:
            if path.startswith(f'crates/{crate}/proofs/'):
                text = re.sub(rf"(?<![\w.-]){lemma}(?![\w-])", lemma + '_lem', text)
        write(path, paths_of(respell(respell(text, table), OWN)), old)
    clause = re.compile(r'^(ghost use |\s+(?:requires|ensures)\b|(?:old|new):\s+(?:requires|ensures)\b)')
    for path in sources + edits:
        old = read(path)
        spec = path.endswith('.edit') and re.search(r'^file: \S+\.antt$', old, re.M)
        lines = []
        for line in old.split('\n'):
            line = outside_strings(line, lambda part: respell(part, table))
            lines.append(respell(line, OWN) if spec or clause.match(line) else line)
        write(path, paths_of('\n'.join(lines)), old)
    quoted = re.compile(r'`[^`\n]+`')
    for path in pages:
        old = read(path)
        write(path, quoted.sub(lambda m: paths_of(respell(m.group(0), table)), old), old)
    for path in sorted(glob.glob('crates/*/src/core.rt') + glob.glob('crates/*/proofs/core')):
        subprocess.run(['git', 'mv', path, path.replace('/src/core.rt', '/src/inner.rt').replace('/proofs/core', '/proofs/inner')], check=True)


if __name__ == '__main__':
    os.chdir(os.path.join(os.path.dirname(os.path.abspath(__file__)), '..', '..'))
    main()
