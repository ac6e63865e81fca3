#!/usr/bin/env python3
"""Respells the repository's own definitions and laws: words in snake case, a dash only where two names are joined.

  snake_names.py [--list] [FOLDER]

It was run once, after the toolchain's own script. A definition is a name that a file of `specs/` declares; a law is one of
`proofs/`. `apply-type` and `typeAt` become `apply_type` and `type_at`; a law `get-insert`, on two definitions, keeps its
dash; a law `apply-says` becomes `apply_says`. Types and modules keep their camel case. It rewrites `.antt` files, the
clauses of `.rt` files and the lines of must-fail edits, but no string, no function and no name that Rattle makes.
With --list it prints the table and changes nothing.
"""
import collections
import os
import re
import sys

TOKEN = re.compile(r'"(?:[^"\\]|\\.)*"|--[^\n]*|//[^\n]*|[^\s(){},;.\[\]|"`]+')
WORDS = {'pub', 'unfoldable', 'abbrev', 'data', 'record', 'mutual', 'ruleset'}
HEADS = {'let', 'elim', 'module', 'λ', 'where', 'open', 'use'}
# Definitions of the library on which laws speak.
LIBRARY = set('length append map take drop set get get_or replicate reverse filter sum add mul sub mod div'.split())
# Words of English that are names of definitions too.
ENGLISH = set('''a all and any are as at back bare before bound by closed each enough every fail first for found free from
front gives go goes got has held holds in is item items kept key last left letter list listed look lost low made most name named
next no none not nothing number of off old on one only or other out own paid past pair parts put read ready refused refuses rest
right room row rows said same says seen self shift short side size some sound stands step steps such take tell text the then there
tie to two under up use value values way where with word words'''.split())
OF_THE_KIT = re.compile(r'(ghost )?use (mathlib|borrow|lib|native|Prim|denote|Rattle\.std)\b')
# What a rule does not tell: names that fall together, words with signs, and a fact that is spelled as a type.
BY_HAND = {
    'bindersOf': 'binders_of_word', 'supersOf': 'super_words_of', 'typeNode': 'type_node_in', 'predsOf': 'preds_of_word',
    'schemeOf': 'scheme_of_word', 'varsOf': 'vars_of_word', 'env-of': 'EnvOf', 'discharged-in': 'discharged_in_lem',
    'removed-from': 'removed_from_lem', 'removed-in': 'removed_in_lem', 'preds-in': 'preds_in_lem',
    'of-preds': 'of_preds_lem', 'with-replaced': 'with_replaced_lem', 'fillBy': 'fill_cores_by',
    'put-row': 'put_row_lem', 'binders-from': 'binders_from_lem', 'late-row': 'late_row_lem', 'firsts-from': 'firsts_from_lem',
    'atVariable': 'waits_at_variable', 'Equals': 'equals', 'limit-of': 'limit_of_lem',
    'out-of-steps': 'out_of_steps', 'here-is': 'here_is', 'with-row': 'with_row_lem', 'part-at': 'part_at_lem', 'type-of': 'type_of_lem', 'sub_at': 'sub_at_lem',
    'yes?': 'is_yes', 'some?': 'is_some', 'yes?-of': 'is_yes_of', 'yes?-true': 'is_yes_true',
    'yes?-false': 'is_yes_false', 'no?-of': 'is_no_of',
}


def files(root, ends):
    for folder, dirs, names in os.walk(os.path.join(root, 'crates')):
        dirs[:] = sorted(d for d in dirs if d != 'out')
        for name in sorted(names):
            if name.endswith(ends):
                path = os.path.join(folder, name)
                yield path, os.path.relpath(path, root).split(os.sep)


def declared(line):
    """The name that a line of a signature declares, or None."""
    if line.lstrip().startswith(('--', 'use ')):
        return None
    at = line.find(' :')
    if at < 0:
        return None
    head = re.sub(r'[({][^(){}]*[)}]', ' ', line[:at]).split()
    while head and head[0] in WORDS:
        head.pop(0)
    if not head or head[0] in HEADS or not all(TOKEN.fullmatch(w) for w in head):
        return None
    return head[0]


def snake(word):
    word = re.sub(r'(?<=[a-z0-9])([A-Z])', lambda m: '_' + m.group(1).lower(), word)
    return word.replace('-', '_')


def is_value(name):
    return re.match(r'[a-z]', name) is not None


def joined(name, definitions):
    """A law's name: a dash between two names of definitions or after a type's, `_` elsewhere."""
    parts = name.split('-')
    if '' in parts:
        return name
    out, at = [], 0
    while at < len(parts):
        for end in range(len(parts), at, -1):
            whole = '-'.join(parts[at:end])
            if whole in definitions or end == at + 1:
                out.append((whole, whole in definitions or not is_value(whole)))
                at = end
                break
    text = out[0][0] if not is_value(out[0][0]) else snake(out[0][0])
    for (before, left), (after, right) in zip(out, out[1:]):
        text += '-' if left and right else '_'
        text += snake(after) if is_value(after) else after
    return text


def table(root):
    definitions, laws = collections.Counter(), collections.Counter()
    functions, computed = set(), set()
    for path, parts in files(root, '.antt'):
        if parts[2] == 'proofs' and len(parts) > 4:
            continue
        with open(path, encoding='utf-8') as f:
            for line in f:
                name = declared(line)
                if name:
                    (definitions if parts[2] == 'specs' else laws)[name] += 1
                    if parts[1] == 'sessions':
                        computed.add(name)
                    if parts[2] == 'specs' and re.match(r'(pub )?(unfoldable|abbrev) |abbrev pub ', line):
                        functions.add(name)
    turned = {}
    known = (functions | LIBRARY) - ENGLISH
    for name in list(definitions) + list(laws):
        if name in BY_HAND:
            turned[name] = BY_HAND[name]
        elif name in definitions and is_value(name) or name in computed and is_value(name):
            turned[name] = snake(name)
        elif name in definitions:
            continue
        elif is_value(name) or '-' in name:
            turned[name] = joined(name, known)
    turned.update(BY_HAND)
    return {a: b for a, b in turned.items() if a != b}


def imports_turned(text):
    """The imports of a recorded session, which the toolchain's script could not read."""
    lines = text.split('\n')
    if 'Recorded sessions, computed' not in lines[0]:
        return text
    for i, line in enumerate(lines[:12]):
        if line.startswith('use '):
            line = line.replace('_≡_', '◌≡◌').replace('_∷_', '◌∷◌').replace('_◂_', '◌◂◌').replace('Rattle·meaning', 'Rattle.meaning')
            lines[i] = line
    return '\n'.join(lines)


def turn(text, names, is_code, own=None):
    """The text with the names turned. `own`: for a function's proof, the names that are not to be turned in it."""
    def each(m):
        word = m.group(0)
        if word.startswith('"'):
            return word
        if word.startswith(('--', '//')):
            return re.sub(r'`([^`]*)`', lambda q: '`' + (names.get(q.group(1), q.group(1)) if '-' in q.group(1) or not is_code else q.group(1)) + '`', word)
        if text[:m.start()].endswith('Memᴰ.'):
            return word
        if own is not None and (word in own or text[m.start() - 1:m.start()] == '.' and not re.search(r'(?<![\w.])[A-Z]\w*\.$', text[:m.start()])):
            return word
        return names.get(word, word)
    return TOKEN.sub(each, text)


def main(argv):
    only_list = '--list' in argv
    rest = [a for a in argv if a != '--list']
    root = rest[0] if rest else '.'
    names = table(root)
    back = collections.defaultdict(list)
    for old, new in names.items():
        back[new].append(old)
    if only_list:
        for old in sorted(names):
            print(old, names[old])
    for path, parts in list(files(root, ('.antt', '.rt', '.edit'))):
        with open(path, encoding='utf-8') as f:
            before = text = f.read()
        text = imports_turned(text)
        own = None
        if parts[2] == 'proofs' and len(parts) > 4:
            own = {declared(line) for line in text.split('\n')} | {'returns'}
        kit = {w for l in text.split('\n') if OF_THE_KIT.match(l) for w in TOKEN.findall(l)}
        here = {old: new for old, new in names.items() if old not in kit}
        words = set(TOKEN.findall(text))
        for old in words & set(here):
            if own is None and names[old] in words and not only_list:
                print(f'look: {path}: {old} and {names[old]} fall together')
            for other in back[names[old]]:
                if other != old and other in words and own is None:
                    print(f'look: {path}: {old} and {other} fall together')
        if only_list:
            continue
        if parts[2] == 'must-fail':
            new = ''.join(turn(l, here, False) if l.startswith(('old:', 'new:')) else l for l in text.splitlines(keepends=True))
        else:
            new = turn(text, here, path.endswith('.rt'), own)
        if new != before:
            with open(path, 'w', encoding='utf-8') as f:
                f.write(new)


if __name__ == '__main__':
    main(sys.argv[1:])
