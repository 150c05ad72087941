#!/usr/bin/env python3
"""The picture and the table of crates in docs/ARCHITECTURE.md, made from crates.txt and from the README of each crate: crate_table.py [write]

Without words it compares them with the page, and asks that docs/PROVED.md names each crate and that each has a README. `write` puts them into the page,
and begins a README for each crate that has none, with the comment at the head of its src/lib.rt or src/main.rt.
The picture has a row for each layer: a crate is one layer above the highest crate that it uses. The table has what a crate is, the first paragraph of
its README, and the crates that it uses, without those that these use. A new crate gets a column by FAMILIES, or by the beginning of its name.
Ends with 0, or with 1 and a line for each fault.
"""
import re
import sys

import tree

PAGE = 'docs/ARCHITECTURE.md'
HEAD = '| Crate | Is | Uses |'
BEGIN, END = '```text\n', '```\n'
FAMILIES = {
    'language': 'token_grammar kernel_lexer kernel_ast kernel_syntax kernel_parser kernel_gen kernel_walk source_machine loop_unroll three_address',
    'game and plan': 'comp_graph pebble_rules normal_steps first_plan order_search cache_model scratch_machine slot_alloc play_files',
    'bounds': 'forced_bounds potential_cert cert_checker cover_cert part_bounds',
    'search': 'raw_chunk position_arena search_laws branch_bound',
    'windows': 'window_game window_laws window_steps',
    'texts, outside': 'step_count desk_io values_text line_texts plan_report scratch_code command_words',
}
PREFIXES = {'window_': 'windows', 'kernel_': 'language', 'game_': 'game and plan', 'order_': 'game and plan', 'bound_': 'bounds', 'search_': 'search'}
WHOLE = 'programs and tests'      # rows of their own, without columns


def layers(crates):
    """The layer of each crate: 0 if it uses none of the repository, else one above the highest that it uses."""
    found = {}

    def layer(crate):
        if crate not in found:
            found[crate] = 1 + max((layer(other) for other in crates[crate]), default=-1)
        return found[crate]
    for crate in crates:
        layer(crate)
    return found


def uses(crate, crates):
    """The crates that one uses, without those that these use."""
    return [other for other in crates[crate] if not any(other in crates[another] for another in crates[crate] if another != other)]


def family(crate, layer, top):
    """The column of a crate; those above all columns have none."""
    for name, members in FAMILIES.items():
        if crate in members.split():
            return name
    if crate.startswith('worked_') or layer >= top:
        return WHOLE
    return next((name for prefix, name in PREFIXES.items() if crate.startswith(prefix)), 'game and plan')


def picture(crates):
    """The lines of the picture, the highest layer first."""
    at = layers(crates)
    top = at['command_answers']
    columns = {crate: family(crate, at[crate], top) for crate in crates}
    widths = {name: max([len(name)] + [len(crate) for crate in crates if columns[crate] == name]) + 2 for name in FAMILIES}
    lines = ['tests  ' + ', '.join(crate for crate in crates if crate.startswith('worked_'))]
    for layer in range(max(at.values()), top - 1, -1):
        whole = [crate for crate in crates if at[crate] == layer and columns[crate] == WHOLE and not crate.startswith('worked_')]
        if whole:
            lines.append(f'{layer:5}  ' + ', '.join(whole))
    lines += ['', '       ' + ''.join(name.ljust(width) for name, width in widths.items()).rstrip()]
    for layer in range(top - 1, -1, -1):
        cells = [[crate for crate in crates if at[crate] == layer and columns[crate] == name] for name in widths]
        for number in range(max(map(len, cells))):
            row = ''.join((cell[number] if number < len(cell) else '').ljust(width) for cell, width in zip(cells, widths.values()))
            lines.append((f'{layer:5}  ' if number == 0 else '       ') + row.rstrip())
    return lines


def first_paragraph(crate):
    """What a crate is, by its README."""
    if not tree.there(f'crates/{crate}/README.md'):
        return ''
    paragraphs = tree.read(f'crates/{crate}/README.md').split('\n\n')
    return ' '.join(paragraphs[1].split()) if len(paragraphs) > 1 else ''


def begin_readme(crate):
    """Writes a README for a crate that has none."""
    head = next((tree.read(name) for name in (f'crates/{crate}/src/lib.rt', f'crates/{crate}/src/main.rt') if tree.there(name)), '')
    comment = [line[3:].strip() for line in head.split('\n') if line.startswith('//!')]
    text = ' '.join(comment[:comment.index('')] if '' in comment else comment)
    with open(f'{tree.TOP}/crates/{crate}/README.md', 'w', encoding='utf-8') as file:
        file.write(f'# {crate}\n\n{text}\n\nWhat is proved: [docs/PROVED.md](../../docs/PROVED.md).\n')


def table(crates):
    rows = [HEAD, '|---|---|---|']
    for crate in crates:
        used = ', '.join(f'`{other}`' for other in uses(crate, crates))
        name = f'[`{crate}`](../crates/{crate}/README.md)' if tree.there(f'crates/{crate}/README.md') else f'`{crate}`'
        rows.append(f'| {name} | {first_paragraph(crate).rstrip(".")} | {used} |')
    return rows


def replaced(page, crates):
    """The page with the picture and the table that are made."""
    begin = page.index(BEGIN) + len(BEGIN)
    page = page[:begin] + '\n'.join(picture(crates)) + '\n' + page[page.index(END, begin):]
    begin = page.index(HEAD)
    return page[:begin] + '\n'.join(table(crates)) + page[page.index('\n\n', begin):]


def main(words):
    crates = tree.crates()
    page = tree.read(PAGE)
    if words == ['write']:
        for crate in crates:
            if not tree.there(f'crates/{crate}/README.md'):
                begin_readme(crate)
    made = replaced(page, crates)
    if words == ['write']:
        with open(f'{tree.TOP}/{PAGE}', 'w', encoding='utf-8') as file:
            file.write(made)
        page = made
    wrong = [f'crates/{crate} has no README.md with a first paragraph' for crate in crates if not first_paragraph(crate)]
    proved = tree.read('docs/PROVED.md')
    wrong += [f'docs/PROVED.md does not name `{crate}`' for crate in crates if not re.search(rf'`(?:crates/)?{crate}[`/]', proved)]
    if page != made:
        wrong.append(f'{PAGE} has another picture or table: tools/checks/crate_table.py write makes them')
    return tree.report('crates', wrong, f'{PAGE} has the {len(crates)} crates of crates.txt, docs/PROVED.md names them, and each has a README')


if __name__ == '__main__':
    sys.exit(main(sys.argv[1:]))
