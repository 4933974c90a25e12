#!/usr/bin/env python3
# Brings the repository's own definitions and laws to the spelling of the kit's: words in snake case, types in camel
# case. Run once, at the top, after the kit's port.py:   tools/respell.py [--list]     (--list prints old and new names)
#
# A name in camel case that begins small, as topSet, becomes top_set. A dash stays where it joins names of definitions,
# functions or modules; elsewhere it becomes _, as in top_twice. A law that would then have the name of a definition, or
# of something else in its crate, ends in _lem. The proof of a function f of the code is f_spec. Names of the code,
# constructors, exported C names, strings and data keep their spelling.
import re, sys
from collections import defaultdict
from pathlib import Path

TOP = re.compile(r'^((?:pub |abbrev |unfoldable |pattern )*)([^\s(){}\[\];,:=λ.«»]+)(?: [({].*)? :(?: |$)')
INNER = re.compile(r'^\s+((?:pub )?)([^\s(){}\[\];,:=λ.«»]+(?: [^\s(){}\[\];,:=λ.«»]+)*) :(?: |$)')
TYPE = re.compile(r'^(?:pub |abbrev |unfoldable )*(data|record) (?:pub )?([^\s(){}:]+)')
WORD = re.compile(r'[^\s(){}\[\];,:=.«»`|"\'↔→←∷λ]+\'*')
CAMEL = re.compile(r"^[a-z][a-z0-9]*(?:[A-Z][A-Za-z0-9]*)+$")
KEYWORDS = {'pub', 'abbrev', 'unfoldable', 'pattern', 'data', 'record', 'let', 'in', 'where', 'module', 'use'}
# Laws that port.py had given the name that a definition gets here, each in one file.
LAWS = {
    'crates/text/proofs/TwentyLaws.antt': 'all_digits',
    'crates/roads/proofs/ToldLaws.antt': 'at_first',
    'crates/cord/proofs/RoadLaws.antt': 'walk_steps',
}

def snake(word):
    """topSet: top_set; setCOA: set_coa; aaaO: aaa_o; ofC16: of_c16; cordAnswer16: cord_answer16."""
    word = re.sub(r'([a-z0-9])([A-Z])', r'\1_\2', word)
    word = re.sub(r'([A-Z]+)([A-Z][a-z])', r'\1_\2', word)
    return word.lower()

def files(*patterns):
    return [path for pattern in patterns for path in sorted(Path().glob(pattern)) if 'out' not in path.parts]

def declared():
    """The crates in which each name of specs/ and of the lemma files of proofs/ is declared; the definitions alone."""
    names, definitions = defaultdict(set), set()
    for path in files('crates/*/specs/**/*.antt', 'crates/*/proofs/*.antt'):
        for line in path.read_text(encoding='utf-8').splitlines():
            if TYPE.match(line):
                continue
            top, inner = TOP.match(line), INNER.match(line)
            found = [top.group(2)] if top else inner.group(2).split() if inner else []
            for name in found:
                if name not in KEYWORDS:
                    names[name].add(path.parts[1])
            if top and path.parts[2] == 'specs':
                definitions.update(found)
    return names, definitions

def of_code():
    """Functions and modules of the code."""
    names = set()
    for path in files('crates/*/src/**/*.rt'):
        names.update(re.findall(r'\b(?:fn|mod) (\w+)', path.read_text(encoding='utf-8')))
    return names

def spelled(name, known):
    """A name as it is to be spelled. A run of parts that is one name of the code is one part, as alu_adc16."""
    parts = [snake(part) if CAMEL.match(part) else part for part in name.split('-')]
    if len(parts) == 1:
        return parts[0]
    joined, at = [], 0
    while at < len(parts):
        end = next(end for end in range(len(parts), at, -1) if end == at + 1 or '_'.join(parts[at:end]) in known)
        joined.append('_'.join(parts[at:end]))
        at = end
    return ('-' if all(part in known or part[:1].isupper() for part in joined) else '_').join(joined)

def renamed():
    names, definitions = declared()
    defined = {snake(name) if CAMEL.match(name) else name for name in definitions}
    known = of_code() | defined
    new = {name: spelled(name, known) for name in names}
    by_crate = defaultdict(set)
    for name, crates in names.items():
        for crate in crates:
            by_crate[crate, new[name]].add(name)
    for name, crates in names.items():
        taken = new[name] in defined or any(by_crate[crate, new[name]] != {name} for crate in crates)
        if '-' in name and '-' not in new[name] and taken:
            new[name] += '_lem'
    return {old: name for old, name in new.items() if old != name}

def respelled(text, new):
    return WORD.sub(lambda found: new.get(found.group(), found.group()), text)

def code(text, new):
    """In code, names of ours stand in clauses, ghost uses and comments; a string is left as it is."""
    return '\n'.join(line if 'b"' in line else respelled(line, new) for line in text.split('\n'))

def page(text, new):
    """On a page, between backticks."""
    return re.sub(r'`[^`\n]+`', lambda found: respelled(found.group(), new), text)

def law_of_proof(path, text):
    """In the proof of a function f of the code, f-spec becomes f_spec."""
    law = path.parent.name.lstrip('+')
    return re.sub(rf'\b{re.escape(law.replace("_", "-"))}-spec\b', f'{law}_spec', text)

def main():
    if sys.argv[1:] == ['--list']:
        for old, name in sorted(renamed().items()):
            print(old, name)
        return
    for path, law in LAWS.items():
        text = Path(path).read_text(encoding='utf-8')
        Path(path).write_text(re.sub(rf'(?<![\w-]){law}(?![\w-])', f'{law}_lem', text), encoding='utf-8')
    new = renamed()
    for paths, how in (
            (files('crates/*/specs/**/*.antt', 'crates/*/proofs/**/*.antt'), respelled),
            (files('crates/*/src/**/*.rt'), code),
            (files('crates/*/must-fail/*.edit', 'crates/*/harmless/*.edit', 'crates/*/by-hand/*.edit'), code),
            (files('docs/**/*.md', 'README.md', 'comparison/README.md', 'oracle/README.md'), page)):
        for path in paths:
            text = path.read_text(encoding='utf-8')
            changed = how(law_of_proof(path, text) if path.name == 'Proof.antt' else text, new)
            if changed != text:
                path.write_text(changed, encoding='utf-8')

if __name__ == '__main__':
    main()
