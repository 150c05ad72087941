#!/usr/bin/env python3
"""Whether what the documents name is there: links.py [PAGE..]

Of each Markdown page, or of the pages that are named:
- the file of each relative link, and the heading of its `#anchor`;
- a heading in quotes right after a link, or after the name of a page: [PAGE.md](PAGE.md), "Heading"; docs/PAGE.md, "Heading";
- each file or folder that is named with its folder: `docs/..`, `tools/..`, `crates/..`, `kernels/..`, `CRATE/src/..` and so on. Names with capitals in
  place of a word (`crates/NAME`), with `*` or `..`, and what is made by a build (`out/`, `release/`) are left out.
The pages that the scripts and the sources of the crates name have to be there as well. Ends with 0, or with 1 and a line for each fault.
"""
import os
import re
import sys

import tree

LINK = re.compile(r'\]\(([^)\s#]*)(?:#([^)\s]*))?\)((?:(?:,\s+|\s+and\s+)"[^"]+")*)')
TITLED = re.compile(r'(?<![\w/])((?:docs/)?[A-Z_]+\.md)`?((?:(?:,\s+|\s+and\s+)"[^"]+")+)')
NAMED = re.compile(r'(?<![\w./*-])((?:docs|tools|crates|kernels|python|bin|release|\.ci)/[\w./*-]+)')
IN_CRATE = re.compile(r'(?<![\w./*-])([a-z][a-z_0-9]*/(?:src|specs|proofs)(?:/[\w./*-]*)?)')
PAGE_NAME = re.compile(r'\bdocs/[A-Z_]+\.md\b')
WORD_FOR_A_NAME = re.compile(r'(?:^|[/_.])[A-Z]{2,}(?:[/_.]|$)|^[A-Z]$')


def anchor_of(heading):
    """The anchor of a heading, as GitHub makes it."""
    kept = re.sub(r'[^\w\- ]', '', re.sub(r'[`*]', '', heading.strip()).lower())
    return kept.replace(' ', '-')


def headings_of(name):
    text = tree.without_fences(tree.read(name))
    return [found.strip() for found in re.findall(r'^#+ (.*)$', text, re.MULTILINE)]


def quoted_in(text):
    """The headings in quotes, each in one line."""
    return [' '.join(heading.split()) for heading in re.findall(r'"([^"]+)"', text)]


def is_placeholder(name):
    """Whether a name has a word in place of a part of it, or is made by a build."""
    parts = name.split('/')
    return '*' in name or '..' in parts or 'out' in parts or parts[0] == 'release' or any(
        WORD_FOR_A_NAME.search(part) and not part.endswith('.md') and part not in ('MANIFEST', 'README') for part in parts)


def exists(name):
    """Whether a named file is there; a name without its ending, as a module has it, is enough."""
    clean = name.rstrip('./')
    return tree.there(clean) or any(tree.there(clean + end) for end in ('.rt', '.antt', '.py', '.sh'))


def faults_of_links(page, text):
    folder = os.path.dirname(page)
    for target, anchor, quoted in LINK.findall(text):
        if re.match(r'[a-z]+:', target):
            continue
        name = os.path.normpath(os.path.join(folder, target)) if target else page
        if not tree.there(name):
            yield f'{target} is not there'
            continue
        if name.endswith('.md'):
            headings = headings_of(name)
            if anchor and anchor not in map(anchor_of, headings):
                yield f'{name} has no heading for #{anchor}'
            for heading in quoted_in(quoted):
                if heading not in headings:
                    yield f'{name} has no heading "{heading}"'


def faults_of_names(page, text):
    folder = os.path.dirname(page)
    for name, quoted in TITLED.findall(text):
        place = name if name.startswith('docs/') or tree.there(name) else os.path.join(folder, name)
        if not tree.there(place):
            yield f'{name} is not there'
            continue
        headings = headings_of(place)
        for heading in quoted_in(quoted):
            if heading not in headings:
                yield f'{place} has no heading "{heading}"'
    for name in NAMED.findall(text):
        if not is_placeholder(name) and not exists(name):
            yield f'{name} is not there'
    for name in IN_CRATE.findall(text):
        if name.split('/')[0] != 'crates' and not is_placeholder(name) and tree.there('crates/' + name.split('/')[0]):
            if not exists('crates/' + name):
                yield f'crates/{name} is not there'


def faults_of_sources():
    """Pages that a script or a source of a crate names and that are not there."""
    for name in [*tree.files('tools'), *tree.files('bin'), *tree.files('python'), *tree.files('crates'), 'pebble', '.ci/run']:
        if name.endswith(('.md', '.pyc')) or '/tests/' in name:
            continue
        for page in PAGE_NAME.findall(tree.read(name)):
            if not tree.there(page) and name != 'tools/checks/links.py':
                yield f'{name} names {page}, which is not there'


def main(paths):
    pages = [os.path.relpath(os.path.abspath(path), tree.TOP) for path in paths] or tree.pages()
    wrong = []
    for page in pages:
        text = tree.without_fences(tree.read(page))
        wrong += [f'{page}: {fault}' for fault in sorted({*faults_of_links(page, text), *faults_of_names(page, text)})]
    if not paths:
        wrong += faults_of_sources()
    return tree.report('links', wrong, f'what {len(pages)} pages name is there')


if __name__ == '__main__':
    sys.exit(main(sys.argv[1:]))
