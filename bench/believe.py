#!/usr/bin/env python3
"""Find the files that a reader must believe, and count them.

The script finds, and does not count a list. It reads the clauses of the two calls that the headline rests on:
`patience` in crates/patience/src/top.rt and `exit_code` in crates/patience/src/main.rt. It follows each name in these
clauses to its definition in specs/ of some crate, and goes on from there. It also follows each enum, struct and trait
in src/ that a definition names; of a trait it reads the ghost members alone, since clauses name nothing else of it.
What it finds is what a reader must believe. Definitions of the toolchain's libraries end a path.

A variable that is named as a definition counts as that definition. So the script may find too much, and not too little.

    python3 bench/believe.py              the tables that the pages show
    python3 bench/believe.py --check      compares them with the pages, and the quotes of docs/TRUST.md with the files that
                                          it names; status 1 and the differences if there are any
    python3 bench/believe.py --write      puts them into the pages
    python3 bench/believe.py --unreached  definitions that no clause reaches, in files where another one is reached
    python3 bench/believe.py --names      each definition that is reached, by file
    python3 bench/believe.py --why NAME   one path from a clause to each definition of that name
"""
import argparse
import re
import sys
import textwrap
from pathlib import Path

ROOT = Path(__file__).resolve().parent.parent
CRATES = ROOT / 'crates'

HEADER = re.compile(r'^( {2})?(?:pub )?(abbrev|unfoldable|record|data|opaque)(?: pub)? (?:\{[^}]*\} )?(\S+)')
MODULE = re.compile(r'^module ')
IMPORT = re.compile(r'^(?:ghost )?use (Rattle\.\S+?)(?:\.\{(.*)\};?| as (\w+);?|;)?$')
TOKEN = re.compile(r"(?<![\w'.])[A-Za-z_][A-Za-z0-9_'-]*|[^\sA-Za-z0-9_'(){}\[\];.,◌]+")
RUST_TYPE = re.compile(r'^pub (enum|struct|trait) (\w+)')


def without_comment(line):
    """The line up to `--`, which begins a comment in a definition file."""
    return re.sub(r'(^|\s)--(\s.*|$)', '', line)


def tokens(text):
    """The names and signs of a text. A sign such as ◌>>=◌ is the sign between the places of its arguments."""
    return set(TOKEN.findall(text))


def sign(name):
    """The token that stands for a defined name."""
    found = TOKEN.findall(name)
    return found[0] if found else name


def imports_of(lines):
    """What the imports of a file bring: local token -> list of (crate, dotted path, name), and aliases of modules."""
    names, aliases = {}, {}
    for line in lines:
        match = IMPORT.match(line.strip())
        if not match:
            continue
        path, listed, alias = match.groups()
        parts = path.split('.')
        crate, rest = parts[1], '.'.join(parts[2:])
        if alias:
            aliases[alias] = (crate, rest)
        elif listed:
            for item in listed.split(','):
                item = item.strip()
                if not item:
                    continue
                real, _, local = item.partition(' as ')
                names.setdefault(sign((local or real).strip()), []).append((crate, rest, real.strip()))
    return names, aliases


class Definition:
    """A definition of a file of specs/, or an enum, struct or trait of a file of src/."""

    def __init__(self, path, name, first, last, text, extra=''):
        self.path, self.name, self.first, self.last = path, name, first, last
        self.text = text
        self.tokens = tokens(text) | tokens(extra)
        self.key = (str(path.relative_to(ROOT)), name)


class Source:
    """A file with its definitions and what it imports."""

    def __init__(self, path):
        self.path = path
        self.lines = path.read_text(encoding='utf-8').split('\n')
        self.names, self.aliases = imports_of(self.lines)
        self.definitions = {}
        self.loose = []
        self.read()

    def add(self, definition):
        self.definitions.setdefault(definition.name, definition)

    def find(self, token):
        for name, definition in self.definitions.items():
            if sign(name) == token:
                return definition
        return None


class SpecFile(Source):
    """A file of specs/."""

    def read(self):
        module, index = '', 0
        while index < len(self.lines):
            line = self.lines[index]
            match = HEADER.match(line)
            if MODULE.match(line):
                module = line
            if match:
                if not match.group(1):
                    module = ''
                last = index
                while last + 1 < len(self.lines) and self.lines[last + 1].strip():
                    last += 1
                text = '\n'.join(without_comment(part) for part in self.lines[index:last + 1])
                self.add(Definition(self.path, match.group(3).rstrip(':'), index, last, text, module))
                index = last
            elif line.strip() and not re.match(r'^\s*--|^use |^module |^infix|^pub mod ', line):
                self.loose.append((index + 1, line))
            index += 1

    def comment_start(self, definition):
        """The first line of the comment that stands directly above a definition."""
        start = definition.first
        while start > 0 and re.match(r'^\s*(--|infix)', self.lines[start - 1]):
            start -= 1
        return start

    def counted_lines(self):
        """All lines of the file, and those of definitions alone: without comments, imports and blank lines."""
        whole = len(self.lines) - (self.lines[-1] == '')
        alone = 0
        for definition in self.definitions.values():
            for line in self.lines[definition.first:definition.last + 1]:
                alone += bool(without_comment(line).strip())
        alone += sum(1 for line in self.lines if MODULE.match(line) or line.startswith('infix'))
        return whole, alone


class RustFile(Source):
    """A file of src/, of which the enums, structs and traits are read."""

    def read(self):
        index = 0
        while index < len(self.lines):
            match = RUST_TYPE.match(self.lines[index])
            if match:
                last = index
                if not re.search(r'[;}]\s*$', self.lines[index]):
                    while last + 1 < len(self.lines) and not re.match(r'^[})]', self.lines[last]):
                        last += 1
                kept = self.lines[index:last + 1]
                if match.group(1) == 'trait':
                    # clauses of a call name the ghost members of a trait, and not what its functions promise
                    kept = [part for part in kept if part.strip().startswith('ghost ')]
                text = '\n'.join(part.split('//')[0] for part in kept)
                self.add(Definition(self.path, match.group(2), index, last, text))
                index = last
            index += 1
        self.uses = rust_uses('\n'.join(self.lines))


def rust_uses(text):
    """The names that `use` lines bring, each with its crate (`crate` for the own one)."""
    found = {}
    for match in re.finditer(r'^(?:pub )?use ([^;]+);', text, re.M):
        body = match.group(1).replace('\n', ' ')
        crate = body.split('::')[0].strip()
        for name in re.findall(r'\b([A-Z]\w+)', body):
            found[name] = crate
    return found


class Repository:
    """All definitions of the repository's crates."""

    def __init__(self):
        self.specs, self.rust = {}, {}
        for crate in sorted(path for path in CRATES.iterdir() if path.is_dir()):
            for path in sorted((crate / 'specs').glob('*.antt')):
                self.specs[(crate.name, path.stem)] = SpecFile(path)
            self.rust[crate.name] = [
                RustFile(path) for path in sorted((crate / 'src').rglob('*.rt')) if not path.stem.endswith('tests')]

    def rust_type(self, crate, name):
        for source in self.rust.get(crate, []):
            if name in source.definitions:
                return source, source.definitions[name]
        return None

    def target(self, crate, path, name):
        """The definition that an import names, or none if it is of a library."""
        parts = path.split('.')
        if crate not in self.rust:
            return None
        if parts[0] != 'specs':
            return None
        if parts[1] == 'declared':
            type_name = parts[-2] if parts[-1] == 'TheVariants' else name
            return self.rust_type(crate, type_name)
        source = self.specs.get((crate, parts[1]))
        if source and name in source.definitions:
            return source, source.definitions[name]
        return None

    def next_of(self, source, definition):
        """The definitions that a definition names."""
        return self.reached_by(source, definition.tokens, definition)

    def reached_by(self, source, found_tokens, own=None):
        targets = []
        for token in sorted(found_tokens):
            here = source.find(token)
            if here:
                if here is not own:
                    targets.append((source, here))
                continue
            for crate, path, name in source.names.get(token, []):
                target = self.target(crate, path, name)
                if target:
                    targets.append(target)
            if token in source.aliases:
                crate, path = source.aliases[token]
                for name in re.findall(r"\b%s\.([\w'-]+)" % re.escape(token), own.text if own else ''):
                    target = self.target(crate, path, name)
                    if target:
                        targets.append(target)
            if isinstance(source, RustFile):
                own_crate = source.path.relative_to(CRATES).parts[0]
                crate = source.uses.get(token, own_crate)
                crate = own_crate if crate in ('crate', 'super', 'self') else crate
                target = self.rust_type(crate, token)
                if target and target[1] is not own:
                    targets.append(target)
        return targets


def clauses_of(source, function):
    """The text of the requires and ensures of a function, and of its head."""
    text = '\n'.join(line.split('//')[0] for line in source.lines)
    match = re.search(r'\bfn %s\b(.*?)\n\{' % function, text, re.S)
    return match.group(1)


def roots(repository):
    """The clauses that the headline rests on, as (file, function)."""
    files = {path.path.name: path for path in repository.rust['patience']}
    return [(files['top.rt'], 'patience'), (files['main.rt'], 'exit_code')]


def reach(repository):
    """Everything that the clauses reach: key -> (file, definition, key of what named it)."""
    found, waiting = {}, []
    for source, function in roots(repository):
        for target in repository.reached_by(source, tokens(clauses_of(source, function))):
            waiting.append((target, (str(source.path.relative_to(ROOT)), function)))
    while waiting:
        (source, definition), parent = waiting.pop(0)
        if definition.key in found:
            continue
        found[definition.key] = (source, definition, parent)
        for target in repository.next_of(source, definition):
            waiting.append((target, definition.key))
    return found


def unreached(repository, found):
    """The definitions that nothing reaches, in files where another one is reached."""
    files = {key[0] for key in found}
    left = []
    for source in repository.specs.values():
        if str(source.path.relative_to(ROOT)) in files:
            left += [definition for definition in source.definitions.values() if definition.key not in found]
    return left


# The headings of the tables. Each table has the files that its definitions lead to and no earlier table has.
GROUPS = [
    ('What `unwinnable` says of a board', [('game_rules', 'Winning', 'Winnable')]),
    ('That the board is the one in your files', [
        ('rules_json', 'RulesFile', 'rules_of'), ('deal_reader', 'Position', 'position_of'),
        ('seed_deal', 'Seeds', 'seed_board'), ('seed_deal', 'Seeds', 'seed_fault')]),
    ('What a verdict says besides: nodes, `undecided`, the narrow search', [
        ('solve_job', 'Verdicts', 'IsVerdict'), ('solve_job', 'Verdicts', 'IsSmall')]),
    ('What else is printed, and when', None),
]


def from_definitions(repository, starts):
    """All keys that these definitions lead to."""
    waiting, seen = [], set()
    for crate, file, name in starts:
        source = repository.specs[(crate, file)]
        waiting.append((source, source.definitions[name]))
    while waiting:
        source, definition = waiting.pop()
        if definition.key not in seen:
            seen.add(definition.key)
            waiting += repository.next_of(source, definition)
    return seen


def grouped(repository, found):
    """For each heading the files of specs/ that it adds, the lowest crate first."""
    order = [line.split(':')[0] for line in (ROOT / 'crates.txt').read_text(encoding='utf-8').split('\n')
             if re.match(r'^\w+:', line)]
    sources = {key[0]: entry[0] for key, entry in found.items() if key[0].endswith('.antt')}
    left = dict(sources)
    result = []
    for heading, starts in GROUPS:
        if starts is None:
            here = set(left)
        else:
            here = {key[0] for key in from_definitions(repository, starts)} & set(left)
        crates = {name: order.index(name.split('/')[1]) for name in here}
        result.append((heading, [left.pop(name) for name in sorted(here, key=lambda name: (crates[name], name))]))
    return result


def matter(source):
    """The first sentence of the comment that opens a file."""
    words = []
    for line in source.lines:
        if not line.startswith('--'):
            break
        words.append(line[2:].strip())
    return re.split(r'(?<=\.)\s', ' '.join(words))[0].rstrip('.')


def row(*cells):
    return '| ' + ' | '.join(str(cell) for cell in cells) + ' |'


def sums(sources):
    counts = [source.counted_lines() for source in sources]
    return len(counts), sum(count[0] for count in counts), sum(count[1] for count in counts)


def file_tables(repository, found):
    """The tables of files, one for each heading, and what stands in them that no clause reaches."""
    lines = []
    for heading, sources in grouped(repository, found):
        files, whole, alone = sums(sources)
        lines += [f'### {heading}', '', f'{files} files, {whole:,} lines ({alone:,}).', '',
                  row('File', 'Lines', 'What it says'), '|---|---|---|']
        for source in sources:
            whole, alone = source.counted_lines()
            lines.append(row(f'`{source.path.relative_to(ROOT)}`', f'{whole} ({alone})', matter(source)))
        lines.append('')
    left = [f'`{definition.name}` ({definition.path.relative_to(CRATES).parts[0]})'
            for definition in unreached(repository, found)]
    text = 'In these files stand definitions that no clause reaches: ' + (', '.join(left) or 'none') + '.'
    return lines + textwrap.wrap(text, 118)


def type_table(repository, found):
    """The enums, structs and traits, by file."""
    files = {}
    for (name, kind), entry in sorted(found.items()):
        if name.endswith('.rt'):
            files.setdefault(name, []).append(entry[1])
    lines = [row('File', 'Types', 'Lines'), '|---|---|---|']
    total = 0
    for name, definitions in files.items():
        count = sum(definition.last - definition.first + 1 for definition in definitions)
        total += count
        lines.append(row(f'`{name}`', ', '.join(f'`{definition.name}`' for definition in definitions), count))
    names = sum(len(definitions) for definitions in files.values())
    return [f'{names} types in {len(files)} files, {total:,} lines.', ''] + lines


def library_table(repository, found):
    """The files of the libraries' definitions that are named, by library."""
    named = {}
    for source, definition, _ in found.values():
        for token in definition.tokens:
            for crate, path, _ in source.names.get(token, []):
                if crate not in repository.rust and path.startswith('specs.') and source.find(token) is None:
                    named.setdefault(crate, set()).add(path[len('specs.'):])
    lines = [row('Library', 'Its files of definitions'), '|---|---|']
    for crate in sorted(named, key=lambda crate: (crate != 'std', crate)):
        lines.append(row(crate, ', '.join(f'`{path}`' for path in sorted(named[crate]))))
    return lines


def sum_table(repository, found):
    """The sums by heading."""
    lines = [row('Part', 'Files', 'Lines', 'Definitions alone'), '|---|---|---|---|']
    groups = grouped(repository, found)
    for heading, sources in groups:
        files, whole, alone = sums(sources)
        lines.append(row(heading, files, f'{whole:,}', f'{alone:,}'))
    files, whole, alone = sums([source for _, sources in groups for source in sources])
    lines.append(row('All of them', files, f'{whole:,}', f'{alone:,}'))
    return lines


# The blocks that the pages show, each between two comments that name it.
BLOCKS = {'files': file_tables, 'types': type_table, 'libraries': library_table, 'sums': sum_table}
PAGES = ['docs/ARCHITECTURE.md', 'docs/TRUST.md']


def block_pattern(name):
    return re.compile(r'(<!-- bench/believe\.py: %s -->\n)(.*?)(<!-- end -->)' % name, re.S)


def compare(page, name, shown, wanted):
    """Prints the lines in which a block of a page differs."""
    for line in shown:
        if line not in wanted:
            print(f'{page}, {name}: the page has    {line}')
    for line in wanted:
        if line not in shown:
            print(f'{page}, {name}: the page wants  {line}')


def pages(repository, found, write):
    """Compares the blocks of all pages with what was found, or writes them; the number of blocks that differ."""
    differ, seen = 0, set()
    for page in PAGES:
        path = ROOT / page
        text = path.read_text(encoding='utf-8')
        for name, make in BLOCKS.items():
            match = block_pattern(name).search(text)
            if not match:
                continue
            seen.add(name)
            wanted = '\n'.join(make(repository, found)).strip('\n')
            if match.group(2).strip('\n') != wanted:
                differ += 1
                if not write:
                    compare(page, name, match.group(2).strip('\n').split('\n'), wanted.split('\n'))
            text = text[:match.start(2)] + '\n' + wanted + '\n' + text[match.end(2):]
        if write:
            path.write_text(text, encoding='utf-8')
    for name in sorted(set(BLOCKS) - seen):
        print(f'no page has the block "{name}"')
        differ += 1
    return differ


def quotes(page):
    """Prints each quote of a page that does not stand in the file that the page names before it; how many there are."""
    text = (ROOT / page).read_text(encoding='utf-8')
    missing, path = 0, None
    for part in re.split(r'(^```\n.*?^```$)', text, flags=re.S | re.M):
        if not part.startswith('```'):
            named = re.findall(r'`(crates/\S+?)`', part)
            path = named[-1] if named else path
            continue
        lines = [line.strip() for line in part.split('\n')[1:-1]]
        body = [line.strip() for line in (ROOT / path).read_text(encoding='utf-8').split('\n')]
        for piece in '\n'.join(lines).split('\n..\n'):
            wanted = piece.split('\n')
            if not any(body[at:at + len(wanted)] == wanted for at in range(len(body))):
                missing += 1
                print(f'{page}: {path} does not have the quote that begins with    {wanted[0]}')
    return missing


def main():
    parser = argparse.ArgumentParser(description=__doc__, formatter_class=argparse.RawDescriptionHelpFormatter)
    parser.add_argument('--check', action='store_true')
    parser.add_argument('--write', action='store_true')
    parser.add_argument('--unreached', action='store_true')
    parser.add_argument('--names', action='store_true')
    parser.add_argument('--why')
    asked = parser.parse_args()
    repository = Repository()
    found = reach(repository)
    if asked.unreached:
        for definition in unreached(repository, found):
            print(*definition.key)
    elif asked.names:
        for key in sorted(found):
            print(*key)
    elif asked.why:
        for key in sorted(found):
            if key[1] == asked.why:
                path = [key]
                while path[-1] in found:
                    path.append(found[path[-1]][2])
                print(' <- '.join('%s:%s' % step for step in path))
    elif asked.check or asked.write:
        differ = pages(repository, found, asked.write)
        missing = quotes('docs/TRUST.md')
        if differ and asked.check:
            print(f'{differ} blocks differ: run bench/believe.py --write, and read what changed')
        if missing or (differ and asked.check):
            return 1
        print('the pages show what the clauses reach' if asked.check else 'written')
    else:
        for name, make in BLOCKS.items():
            print('\n'.join(make(repository, found)))
            print()
    return 0


if __name__ == '__main__':
    sys.exit(main())
