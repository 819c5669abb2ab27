#!/usr/bin/env python3
# Every function, definition and must-fail edit that docs/MAP.md names exists, the nine headings of crates.txt stand in
# docs/HOUSE.md in the same order with every crate under its own, and every edit applies. Prints what is wrong; status 1 then.
import os, re, sys

CRATES = 'crates'
wrong = []


def read(path):
    with open(path, encoding='utf-8') as f:
        return f.read()


def texts(crate, folder, ending):
    for at, _, files in os.walk(f'{CRATES}/{crate}/{folder}'):
        for name in files:
            if name.endswith(ending):
                yield read(os.path.join(at, name))


headings, crates = [], {}
for line in read('crates.txt').split('\n'):
    if line.startswith('# '):
        headings.append(line[2:].strip())
    elif ':' in line:
        crates[line.split(':')[0].split()[0]] = headings[-1]

source = {c: '\n'.join(texts(c, 'src', '.rt')) for c in crates}
logic = {c: '\n'.join(list(texts(c, 'specs', '.antt')) + list(texts(c, 'proofs', '.antt'))) for c in crates}
edits = {c: {e[:-5] for e in os.listdir(f'{CRATES}/{c}/must-fail')} if os.path.isdir(f'{CRATES}/{c}/must-fail') else set() for c in crates}
all_source, all_logic = '\n'.join(source.values()), '\n'.join(logic.values())


def named(word, text):
    return re.search(rf'(?<![\w-]){re.escape(word)}(?![\w-])', text) is not None


# functions: `crate::function`, `crate::module::function`
the_map = read('docs/MAP.md')
for path in set(re.findall(r'`([a-z_]+(?:::\w+)+)`', the_map)):
    parts = path.split('::')
    if parts[0] in crates:
        if not re.search(rf'\b(fn|struct|enum|const|mod|type) {parts[-1]}\b', source[parts[0]]):
            wrong.append(f'MAP: no {path}')
    elif not re.search(rf'\b(struct|enum|impl) {parts[0]}\b', all_source):
        wrong.append(f'MAP: no crate or type {parts[0]} of {path}')

# definitions: `snake_case` and `Capital` names that stand alone in quotes, or tests of differential/
for name in set(re.findall(r"`([A-Za-z][A-Za-z0-9_'-]*)`", the_map)):
    a_test = os.path.exists(f'differential/tests/{name}.rs')
    if name not in crates and not a_test and not named(name, all_logic) and not named(name, all_source):
        wrong.append(f'MAP: no definition {name}')

# edits: 'crate label, label; crate label' in the last column
labels = set().union(*edits.values())
for row in the_map.split('\n'):
    if not row.startswith('|') or row.count('|') < 4:
        continue
    for part in re.split(r'[;|]', row.rsplit('|', 2)[1]):
        words = part.replace(',', ' ').split()
        if words and words[0] in crates:
            for label in words[1:]:
                if re.fullmatch(r'[a-z0-9]+(_[a-z0-9]+)+', label) and label not in edits[words[0]] and label not in source[words[0]]:
                    wrong.append(f'MAP: {words[0]} has no edit {label}')

# headings
house = read('docs/HOUSE.md')
places = [house.find(f'## {h}') for h in headings]
if -1 in places or places != sorted(places):
    wrong.append(f'HOUSE: not the headings of crates.txt in their order: {headings}')
else:
    for crate, heading in crates.items():
        i = headings.index(heading)
        part = house[places[i]:places[i + 1] if i + 1 < len(places) else len(house)]
        if not named(crate, part):
            wrong.append(f'HOUSE: {crate} is not under {heading}')

# edits apply: each `old` stands once in its file
for crate, names in edits.items():
    for label in names:
        file, old, seen = '', '', {}
        for line in read(f'{CRATES}/{crate}/must-fail/{label}.edit').split('\n'):
            if line.startswith('file: '):
                file = f'{CRATES}/{crate}/{line[6:]}'
            elif line.startswith('old: '):
                old = line[5:]
            elif line.startswith('new:'):
                text = seen.get(file) or read(file)
                if text.count(old) != 1:
                    wrong.append(f'edit {crate} {label}: {text.count(old)} times in {file}: {old}')
                seen[file] = text.replace(old, line[4:].removeprefix(' '))

for line in wrong:
    print(line)
print(f'map: {len(crates)} crates, {sum(map(len, edits.values()))} edits, {len(wrong)} wrong')
sys.exit(1 if wrong else 0)
