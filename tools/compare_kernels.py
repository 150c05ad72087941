#!/usr/bin/env python3
"""Compares the kernels of kernels/ with what is said of them elsewhere, so that nothing drifts: compare_kernels.py, without words.

It looks at names alone and at texts byte by byte, and works nothing out: that the numbers are right is what tools/run_code.py checks.
- A file has the name of its kernel.
- docs/KERNELS.md has each kernel once in its first table, in its table of plans and in that beside a cache, in order, and twice in its
  table of outputs, and says how many kernels there are.
- The tests in crates/worked_kernels/src/gallery have each file's text and no other, and run each kernel on the inputs that docs/KERNELS.md
  shows.
Ends with 0 if all agrees, and otherwise with 1 and a line for each difference.
"""
import glob
import os
import re
import sys

TOP = os.path.dirname(os.path.dirname(os.path.realpath(__file__)))
ONES = 'zero one two three four five six seven eight nine ten eleven twelve thirteen fourteen'.split()
ONES += 'fifteen sixteen seventeen eighteen nineteen'.split()
TENS = 'twenty thirty forty fifty sixty seventy eighty ninety'.split()
TEXT = re.compile(r'const (\w+): &str =\s*"([^"\\]*)";')
RUNS = re.compile(r'text: (\w+),.*?runs: \[(.*?)\n    \}', re.DOTALL)
RUN = re.compile(r'Run\(\s*"([^"]*)"')


def read(path):
    with open(os.path.join(TOP, path), encoding='utf-8') as file:
        return file.read()


def in_words(number):
    """A number below a hundred as it is written."""
    if number < 20:
        return ONES[number]
    return TENS[number // 10 - 2] + (f'-{ONES[number % 10]}' if number % 10 else '')


def compare_files(texts):
    """Each file has the name of its kernel."""
    for name, text in texts.items():
        if not re.search(rf'^kernel {name} {{', text, re.MULTILINE):
            yield f'kernels/{name}.kernel has a kernel of another name'


def compare_page(texts, page):
    """The four tables of the page, and the number of kernels that it says."""
    names = sorted(texts)
    sections = re.split(r'^## ', page, flags=re.MULTILINE)
    nine_numbers = r'^\| `(\w+)` \|(?: \d+ \|){9}$'
    forms = [r'^\| `(\w+)` \|', nine_numbers, nine_numbers, r'^\| `(\w+)` \| `']
    tables = [re.findall(form, section, re.MULTILINE) for form, section in zip(forms, sections)]
    for title, found, wanted in [('the first table', tables[0], names), ('the table of plans', tables[1], names),
                                 ('the table beside a cache', tables[2], names),
                                 ('the table of outputs', tables[3], [name for name in names for _ in range(2)])]:
        if found != wanted:
            odd = sorted(set(found) ^ set(wanted)) or 'their order or number'
            yield f'docs/KERNELS.md: {title} does not have the kernels of kernels/: {odd}'
    if not re.search(rf'\b{in_words(len(names))}\s+kernels\b', page):
        yield f'docs/KERNELS.md does not say that there are {in_words(len(names))} kernels'


def compare_tests(texts, page, source):
    """The texts in the tests, and the inputs on which the tests run them."""
    copies = dict(TEXT.findall(source))
    for text in copies.values():
        if text not in texts.values():
            yield f'crates/worked_kernels: no file has the text that begins with {text[:60]!r}'
    for name, text in texts.items():
        if text not in copies.values():
            yield f'crates/worked_kernels: the text of kernels/{name}.kernel is missing'
    shown = sorted(re.findall(r'^\| `(\w+)` \| `([-0-9 ]+)` \| `[-0-9 ]+` \|', page, re.MULTILINE))
    titles = {constant: title.group(1) for constant, text in copies.items() if (title := re.search(r'^kernel (\w+)', text, re.MULTILINE))}
    run = sorted((titles[constant], values) for constant, runs in RUNS.findall(source) for values in RUN.findall(runs))
    for name, values in sorted(set(shown) ^ set(run)):
        yield f'{name} on {values}: is only in one of docs/KERNELS.md and crates/worked_kernels'


def main():
    paths = sorted(glob.glob(os.path.join(TOP, 'kernels', '*.kernel')))
    texts = {os.path.basename(path)[:-len('.kernel')]: read(path) for path in paths}
    page = read('docs/KERNELS.md')
    source = ''.join(read(path) for path in sorted(glob.glob(os.path.join(TOP, 'crates/worked_kernels/src/gallery/*.rt'))))
    differences = [*compare_files(texts), *compare_page(texts, page), *compare_tests(texts, page, source)]
    print('\n'.join(differences) or f'kernels/, docs/KERNELS.md, crates/worked_kernels: {len(texts)} kernels agree')
    return 1 if differences else 0


if __name__ == '__main__':
    sys.exit(main())
