#!/usr/bin/env python3
"""Counts the places of issue 47's points in crates/*/src, at this tree or at a commit: tools/places.py [-v] [COMMIT].

Each row is a set of patterns over the lines of src/ (specs/ and proofs/ for point 8). -v prints the places.
docs/DESIGN-PASS.md says what they are.
"""
import re, subprocess, sys, io, tarfile, os

ARGS = [a for a in sys.argv[1:] if a != '-v']
VERBOSE = '-v' in sys.argv

ROWS = [
    # point, what, file, pattern over a line (or a whole file where it has (?s))
    ('1', 'variants of an own Option or Result', r'/src/(?!grounds)', r'^    (Refused|Returned|Whole|Unknown|Invalid)\b[(,]'),
    ('1', 'a flag beside its value', r'/src/', r'^    pub (\w*set|sized|ok|known|differs|missing): bool'),
    ('1', 'a refusal as a number in a struct', r'/src/', r'^    pub (number|refusal): u32'),
    ('1', 'functions that answer a refusal as a number', r'/src/', 'NUMBERED'),
    ('1', 'a kind as a number', r'/src/', r'^\s*(pub )?(fn .*)?\b(option|required): u8|^    pub (modes|image): u8|fn .*\bsize: u32\)|fn (set_code|code_of)\(.*-> u8'),
    ('2', 'structs that differ in a type', r'/src/', r'^pub struct \w+Register\b'),
    ('2', 'functions that differ in a type, a size or a constant', r'/src/',
     r'^\s*(pub )?fn (copy|copy_values|copy_part|put|put_word|paint_short|paint_long|short_pattern|long_pattern|short_run|long_run|load_rows|copy_rows|'
     r'load_grid_row|copy_grid_row|load_row|copy_row|lesser|least|third_of|place_of|lent_length|feed_packed|close_packed|ahead|behind|count_pairs|write_entries)\b'),
    ('3', 'loops', r'/src/', r'^\s*(while|loop)\b'),
    ('4', 'by hand what the library has', r'/src/',
     r'^\s*(pub )?fn (lesser|least|clear|copy|copy_values|copy_part|copy_even|twos|ahead|behind|wide|index|half_at|bytes_of|digit|same_from|place_if|one_word|third_of|place_of|lent_length|zero_from|zero_words|count)\b'),
    ('5', 'a fact of the hazards\' table', r'/src/', r'requires .*Agrees|× .*Agrees'),
    ('5', 'the size of texture memory', r'/src/', r'requires.*length texture'),
    ('5', 'bounds of a grid, a span, a strip, an area, runs', r'/src/', r'requires.*(SmallGrid|SmallSpan|SmallStrip|SmallArea|Ready|Fits|stride ≤)'),
    ('5', 'a list and its words', r'/src/', r'requires.*(WholeList|Decodable)|requires \{ \(words ≡'),
    ('5', 'a layout\'s table', r'/src/', r'requires.*(HoldsLayout|Packable|Stand )'),
    ('5', 'parameters that travel together', r'/src/', r'memory: &(mut )?\[u8\], start: u64|list: &\[u8\], words: usize|standing: Standing, (held|taken)|^    standing: Standing,$|from: usize, size: usize, stride: usize'),
    ('6', 'a buffer with its length, parallel arrays', r'/src/', r'^    pub (count|held_count|totals|choices|values): |held: \[u8; 176\]'),
    ('7', 'a step chosen by a flag', r'/src/', r'fn .*\b(afresh|strict|into|odd|whole): bool|^    (afresh|strict|into|odd|whole): bool,$'),
    ('8', 'files of answers', r'/proofs/.*/Answers\.antt$', None),
    ('8', 'files of invariants', r'/proofs/.*/Invariants\.antt$', None),
    ('8', 'lines of proofs', r'/proofs/.*\.antt$', r''),
]

def files():
    if ARGS:
        data = subprocess.run(['git', 'archive', ARGS[0], 'crates'], stdout=subprocess.PIPE, check=True).stdout
        with tarfile.open(fileobj=io.BytesIO(data)) as tar:
            for m in tar.getmembers():
                if m.isfile() and m.name.endswith(('.rt', '.antt')):
                    yield m.name, tar.extractfile(m).read().decode()
    else:
        top = os.path.join(os.path.dirname(os.path.abspath(__file__)), '..')
        for path in subprocess.run(['git', '-C', top, 'ls-files', '--cached', '--others', '--exclude-standard', 'crates'],
                                   stdout=subprocess.PIPE, check=True, text=True).stdout.split():
            if path.endswith(('.rt', '.antt')) and os.path.exists(os.path.join(top, path)):
                with open(os.path.join(top, path)) as f:
                    yield path, f.read()

TREE = sorted(files())

def numbered():
    """A pattern of functions that answer a type with a refusal's number in it, directly or in a field or a variant; or the number alone."""
    types = {}
    for path, text in TREE:
        if '/src/' in path:
            for m in re.finditer(r'^pub (?:struct|enum) (\w+)[^{;]*\{(.*?)^\}', text, re.M | re.S):
                types.setdefault(m.group(1), m.group(2))
    with_number = {n for n, body in types.items() if n != 'Stream' and re.search(r'^    pub number: u32|^    Refused\(u32', body, re.M)}
    grown = True
    while grown:
        more = {n for n, body in types.items() if n not in with_number and re.search(r'\b(' + '|'.join(with_number | {'-'}) + r')\b', body)}
        grown = bool(more)
        with_number |= more
    names = '|'.join(sorted(with_number | {'-'}))
    return (rf'^(\s*(pub )?fn .*|\) )-> ({names})( \{{)?$|'
            r'^\s*(pub )?fn (\w*refusal|corners|load_tile|copy_rectangle|load_block|uncut)\(.*-> u(8|32)')

NUMBERED = numbered()
for point, what, where, pattern in ROWS:
    found = []
    pattern = NUMBERED if pattern == 'NUMBERED' else pattern
    for path, text in TREE:
        if not re.search(where, '/' + path):
            continue
        if pattern is None:
            found.append(path)
            continue
        for i, line in enumerate(text.split('\n'), 1):
            if re.search(pattern, line) and not line.lstrip().startswith('//'):
                found.append(f'{path}:{i}: {line.strip()}')
    print(f'{point} {what}: {len(found)}')
    if VERBOSE and point != '8':
        for f in found:
            print('    ' + f)
