#!/usr/bin/env python3
"""trace.py --check: says which names that docs/TRACE.md cites do not exist, and exits with 1 where one does not. Run it anywhere; it takes under a second.

What stands there between backticks, but for the list at its head, and has one of these forms is looked up:
    CRATE/specs/FILE.NAME, .{NAME, NAME}   a public definition, constructor or field
    CRATE/proofs/FILE.NAME                 a public law; these two in a file that Lib.antt declares
    CRATE::FUNCTION                        a public function with a contract and no `requires`
    CRATE/must-fail/NAME                   a wrong version, whose old texts stand just once in their files
    Fault::NAME                            a fault of reference/tests/comparison.rs
    DRIVER:NUMBER                          a wrong version of fuzz/wrong.c that `make fuzz-wrong` tries with that driver
    FILE::NAME                             a test: NAME is a function of FILE
    PATH                                   a file or a directory
The rows of each table are numbered in order, and no cell is empty. Every wrong version of the repository, cited or not, applies.
"""
import pathlib
import re
import sys

ROOT = pathlib.Path(__file__).resolve().parent.parent
PAGE = ROOT / 'docs/TRACE.md'


def text_of(path):
    path = ROOT / path
    return path.read_text() if path.is_file() else ''


def declares(crate, part, file):
    return re.search(rf'(?m)^pub mod {file}$', text_of(f'crates/{crate}/{part}/Lib.antt'))


def is_defined(crate, file, name):
    named = rf'(?:«?{re.escape(name)}»?)(?=[\s:({{])'
    return re.search(rf'(?m)^(?:abbrev |unfoldable )?pub (?:record |data )?{named}|^  (?:pub )?{named} ?:', text_of(f'crates/{crate}/specs/{file}.antt'))


def is_law(crate, file, name):
    return re.search(rf'(?m)^ *pub {re.escape(name)} :', text_of(f'crates/{crate}/proofs/{file}.antt'))


def is_promised(crate, function):
    for path in sorted((ROOT / 'crates' / crate / 'src').glob('*.rt')):
        found = re.search(rf'(?m)^pub (?:extern "C" )?fn {function}\b(.*?)\{{$', path.read_text(), re.S)
        if found:
            # a promise may stand in the type of what is answered, as a ghost field
            promise = found.group(1) + ghost_fields(crate, found.group(1))
            return ('ensures' in promise or 'ghost' in promise) and 'requires' not in promise
    return False


def ghost_fields(crate, signature):
    answered = re.search(r'-> (\w+)\s*$', signature)
    for path in sorted((ROOT / 'crates' / crate / 'src').glob('*.rt')) if answered else []:
        found = re.search(rf'(?m)^pub struct {answered.group(1)} \{{(.*?)^\}}', path.read_text(), re.S)
        if found:
            return ''.join(re.findall(r'(?m)^    ghost .*$', found.group(1)))
    return ''


def applies(crate, name):
    edit, file, old, texts = text_of(f'crates/{crate}/must-fail/{name}.edit'), None, None, {}
    for line in edit.splitlines():
        key, _, value = line.partition(': ')
        if key == 'file':
            file = value
            texts.setdefault(file, text_of(f'crates/{crate}/{file}'))
        elif key == 'old':
            old = value
        elif key == 'new':
            if texts[file].count(old) != 1:
                return False
            texts[file] = texts[file].replace(old, value)
    return bool(texts)


def is_function(file, name):
    return re.search(rf'(?m)^(?:static |def |fn |    fn |    def )[^(=]*\b{name}\(|^(?:def|fn) {name}\b', text_of(file))


def exists(cited):
    """Whether what is cited is there; None where it has none of the forms."""
    crate = r'([a-z0-9_]+)'
    m = re.fullmatch(rf'{crate}/specs/(\w+)\.(\w+|\{{.*\}})', cited)
    if m:
        return bool(declares(m[1], 'specs', m[2])) and all(is_defined(m[1], m[2], name) for name in re.split(', *', m[3].strip('{}')))
    m = re.fullmatch(rf'{crate}/proofs/(\w+)\.([\w-]+)', cited)
    if m:
        return bool(declares(m[1], 'proofs', m[2]) and is_law(*m.groups()))
    m = re.fullmatch(rf'{crate}/must-fail/(\w+)', cited)
    if m:
        return applies(*m.groups())
    m = re.fullmatch(r'Fault::(\w+)', cited)
    if m:
        return bool(re.search(rf'(?m)^    {m[1]},$', text_of('reference/tests/comparison.rs')))
    m = re.fullmatch(r'([a-z_]+):(\d+)', cited)
    if m:
        return bool(re.search(rf'\b{cited}\b', text_of('fuzz/fuzz.mk'))) and f'wrong({m[2]})' in text_of('fuzz/wrong.c')
    m = re.fullmatch(r'([\w./]+/[\w.]+)::(\w+)', cited)
    if m:
        return bool(is_function(*m.groups()))
    m = re.fullmatch(rf'{crate}::(\w+)', cited)
    if m:
        return is_promised(*m.groups())
    if re.fullmatch(r'[\w.-]+(/[\w.-]+)+/?', cited):
        return (ROOT / cited).exists()
    return None


def faults(page):
    """What is wrong with the page, line by line, and how many names are there."""
    found, there, last = [], 0, 0
    for number, line in enumerate(page.splitlines(), 1):
        cells = [cell.strip() for cell in line.strip('|').split('|')] if line.startswith('|') else []
        if cells and re.fullmatch(r'(\d+\.)?\d+', cells[0]):
            if len(cells) != 6 or not all(cells):
                found.append(f'{number}: row {cells[0]} has an empty place')
            last = last + 1 if '.' not in cells[0] or not cells[0].endswith('.1') else 1
            if int(cells[0].rpartition('.')[2]) != last:
                found.append(f'{number}: row {cells[0]} is not the next')
        for cited in re.findall(r'`([^`]+)`', '' if line.startswith('- ') else line):
            is_there = exists(cited)
            there += is_there is True
            if is_there is False:
                found.append(f'{number}: {cited}')
    return found, there


def main():
    if sys.argv[1:] != ['--check']:
        sys.exit(__doc__)
    found, there = faults(PAGE.read_text())
    found = [f'docs/TRACE.md:{line}' for line in found]
    for edit in sorted(ROOT.glob('crates/*/must-fail/*.edit')):
        if not applies(edit.parts[-3], edit.stem):
            found.append(f'{edit.relative_to(ROOT)}: an old text does not stand just once')
    if found:
        sys.exit('\n'.join(found))
    print(f'docs/TRACE.md: {there} names are there')


main()
