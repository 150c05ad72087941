"""What the checks of this folder know of the repository: its crates, its files and its pages. Needs Python 3.8 and nothing else."""
import os
import re

TOP = os.path.dirname(os.path.dirname(os.path.dirname(os.path.realpath(__file__))))
MADE = {'out', '.git', '__pycache__', '.mypy_cache', '.ruff_cache', 'node_modules'}    # folders that tools make


def read(name):
    """The text of a file, by its name from the top."""
    with open(os.path.join(TOP, name), encoding='utf-8') as file:
        return file.read()


def there(name):
    return os.path.exists(os.path.join(TOP, name))


def files(folder='.'):
    """The names of all files of a folder, from the top and sorted, without what tools make."""
    found = []
    for place, folders, names in os.walk(os.path.join(TOP, folder)):
        folders[:] = [name for name in folders if name not in MADE]
        found += [os.path.relpath(os.path.join(place, name), TOP) for name in names]
    return sorted(found)


def crates():
    """The crates that crates.txt lists, each with the crates of the repository that it uses, in the order of the file."""
    lines = [line.split('#')[0].strip() for line in read('crates.txt').split('\n')]
    used = {line.split(':')[0].split()[0]: line.split(':')[1].split() for line in lines if ':' in line}
    return {crate: [other for other in others if other in used] for crate, others in used.items()}


def pages():
    """The Markdown pages of the repository."""
    return [name for name in files() if name.endswith('.md')]


def report(subject, wrong, good):
    """Prints what is wrong, or one line that says what is good. The exit status."""
    for line in wrong:
        print(f'{subject}: {line}')
    if not wrong:
        print(f'{subject}: {good}')
    return 1 if wrong else 0


def without_fences(text):
    """A page with its fenced blocks blanked out, line by line."""
    kept, fenced = [], False
    for line in text.split('\n'):
        if re.match(r'\s*```', line):
            fenced = not fenced
            kept.append('')
        else:
            kept.append('' if fenced else line)
    return '\n'.join(kept)
