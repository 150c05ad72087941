"""Cost studies: kernels, numbers of slots, weights and searches, planned as jobs of GNU parallel, on one machine or many.

A study has a folder, in which it is resumed at any time:

    kernels/NAME-HASH.kernel   the texts that are planned; another text has another name
    jobs.tsv                   a line for each plan: kernel, S, load, store, search; new jobs are only ever added at the end
    joblog, runs/N/            GNU parallel's log, and what job N printed
    study.csv                  a row for each plan of the last call

Jobs that are done are not run again (`--resume`). The statuses Optimal and Open are successes. Other machines (`--sshlogin`) need rsync, and
the planner under the name that `--planner` gives.
"""
from __future__ import annotations

import argparse
import csv
import hashlib
import os
import re
import shlex
import shutil
import subprocess
from dataclasses import asdict, dataclass, fields
from pathlib import Path
from typing import Dict, Iterable, Iterator, List, Optional, Sequence, TextIO, Tuple

from . import options, program
from .errors import PebbleToolsError
from .kernels import Kernel
from .texts import Report, TextError, read_report

MOST_SLOTS = 64


class StudyError(PebbleToolsError):
    """A study cannot be made or drawn."""


@dataclass(frozen=True)
class Subject:
    """A kernel that is studied."""
    name: str
    text: str
    degree: int

    @property
    def key(self) -> str:
        return f'{re.sub(r"[^A-Za-z0-9_.]", "_", self.name)}-{hashlib.sha256(self.text.encode()).hexdigest()[:8]}'


@dataclass(frozen=True)
class Search:
    """How a plan is searched for: `plan` with a budget, or `improve` with an effort."""
    word: str
    amount: int

    def __str__(self) -> str:
        return f'{"effort" if self.word == "improve" else "budget"} {self.amount}'


@dataclass(frozen=True)
class Job:
    subject: Subject
    slots: int
    load: int
    store: int
    search: Search

    def fields(self) -> Tuple[str, ...]:
        return self.subject.key, str(self.slots), str(self.load), str(self.store), self.search.word, str(self.search.amount)

    def line(self) -> str:
        return '\t'.join(self.fields())


@dataclass(frozen=True)
class Row:
    """A plan's numbers, as study.csv has them."""
    kernel: str
    vertices: int
    inputs: int
    degree: int
    slots: int
    load: int
    store: int
    search: str
    first: int
    cost: int
    bound: int
    verdict: str
    expanded: int
    seconds: str
    host: str


# ---- what is studied

def subjects(words: argparse.Namespace) -> List[Subject]:
    """The kernels of words: FILE.kernel, FILE.c, FILE.c:FUNCTION, FILE.py (all its kernels), FILE.py:KERNEL."""
    found: List[Tuple[str, str, str, int]] = []  # file, name, text, degree
    for word in words.kernels:
        file, _, chosen = word.partition(':')
        if not os.path.isfile(file):
            raise StudyError(f'there is no file {file}')
        if file.endswith(('.c', '.py')):
            found += [(file, kernel.name, kernel.text(), kernel.degree) for kernel in _kernels(file, chosen, words)]
        else:
            text = Path(file).read_text(encoding='utf-8')
            found.append((file, Path(file).stem, text, program.degree(text)))
    names = [name for _, name, _, _ in found]
    made = []
    for file, name, text, degree in found:
        namesakes = {Path(other).stem for other, called, _, _ in found if called == name}
        title = name if names.count(name) == 1 else Path(file).stem if names.count(name) == len(namesakes) else f'{Path(file).stem}.{name}'
        made.append(Subject(title, text, degree))
    for name in {subject.name for subject in made}:
        if sum(subject.name == name for subject in made) > 1:
            raise StudyError(f'two kernels are called {name}')
    return made


def _kernels(file: str, chosen: str, words: argparse.Namespace) -> List[Kernel]:
    if file.endswith('.py') and not chosen:
        from .trace import kernels_of_file
        return [traced.kernel(words.mad) for traced in kernels_of_file(file)]
    return [options.kernel_of(file, chosen or None, words)]


def slots_of(text: str, degree: int) -> List[int]:
    """`4:12`, `4,6,8`, or `+8`, which is from the fewest that suffice to eight more. Those that are too few are left out."""
    if not re.fullmatch(r'\+\d+|\d+:\d+|\d+(,\d+)*', text):
        raise StudyError(f'--slots {text}: write 4:12, 4,6,8 or +8')
    if text[0] == '+':
        asked: Iterable[int] = range(degree + 1, degree + 2 + int(text))
    elif ':' in text:
        first, last = map(int, text.split(':'))
        asked = range(first, last + 1)
    else:
        asked = map(int, text.split(','))
    return [slots for slots in asked if degree < slots <= MOST_SLOTS]


def weights_of(text: str) -> Tuple[int, int]:
    match = re.fullmatch(r'(\d+):(\d+)', text)
    if not match:
        raise StudyError(f'--weights {text}: write LOAD:STORE, as 2:1')
    return int(match[1]), int(match[2])


# ---- the jobs

class Study:
    """The jobs of a folder. `planner` names the program on the machines; without it, it is that of this machine."""

    def __init__(self, folder: str, planner: Optional[str] = None):
        self.folder, self.planner = Path(folder), planner

    def write(self, jobs: Sequence[Job]) -> Dict[str, int]:
        """Adds what is new to the job list; gives the number of each line."""
        (self.folder / 'kernels').mkdir(parents=True, exist_ok=True)
        for job in jobs:
            file = self.folder / 'kernels' / f'{job.subject.key}.kernel'
            if not file.exists():
                file.write_text(job.subject.text, encoding='utf-8')
        listed = self.folder / 'jobs.tsv'
        lines = listed.read_text(encoding='utf-8').splitlines() if listed.exists() else []
        known = set(lines)
        lines += [line for line in dict.fromkeys(job.line() for job in jobs) if line not in known]
        listed.write_text(''.join(f'{line}\n' for line in lines), encoding='utf-8')
        return {line: number for number, line in enumerate(lines, 1)}

    def _program(self, word: str) -> str:
        return shlex.quote(self.planner or (program.find_improver() if word == 'improve' else None) or program.find_program())

    def _command(self, kernel: str, slots: str, load: str, store: str, word: str, amount: str) -> str:
        """The shell command of a job. A wrapper that names its program anew at each call is told to explain nothing."""
        choice = f'case {word} in improve) p={self._program("improve")};; *) p={self._program("plan")};; esac'
        return (f'{choice}; t=$(mktemp -d) && PEBBLE_QUIET=1 "$p" {word} {slots} "$t/table" {amount} {load} {store} < kernels/{kernel}.kernel; s=$?; '
                'rm -rf "$t"; [ $s = 5 ] && s=0; exit $s')

    def commands(self, jobs: Sequence[Job], numbers: Dict[str, int]) -> Iterator[str]:
        """A line for each job that is not done, for a batch system: it writes what a job of `run` writes."""
        where = shlex.quote(str(self.folder.resolve()))
        for job in jobs:
            number = numbers[job.line()]
            if self._report(number) is None:
                runs = f'runs/{number}'
                yield f'cd {where} && mkdir -p {runs} && ({self._command(*job.fields())}) > {runs}/stdout 2> {runs}/stderr'

    def run(self, processes: Optional[str] = None, sshlogins: Sequence[str] = (), retry: bool = False, bar: bool = True,
            more: Sequence[str] = ()) -> None:
        """Runs the jobs that are not done. `processes` is parallel's --jobs; `more` are further words of parallel's own."""
        if not shutil.which('parallel'):
            raise StudyError('GNU parallel is needed, and is not here: apt-get install parallel (--list prints the commands for another system)')
        words = ['parallel', '--colsep', r'\t', '-a', 'jobs.tsv', '--joblog', 'joblog', '--resume-failed' if retry else '--resume',
                 '--results', 'runs/{#}/', *(['--jobs', processes] if processes else []), *(['--bar'] if bar else [])]
        for login in sshlogins:
            words += ['--sshlogin', login]
        if sshlogins:
            words += ['--workdir', '...', '--transferfile', 'kernels/{1}.kernel', '--cleanup']
        command = self._command('{1}', '{2}', '{3}', '{4}', '{5}', '{6}')
        shell = {'PARALLEL_SHELL': '/bin/sh'}  # the commands are written for it; without SHELL, parallel runs none on other machines
        done = subprocess.run([*words, *more, command], cwd=self.folder, env={**os.environ, **shell}, stdin=subprocess.DEVNULL,
                              stdout=subprocess.DEVNULL, check=False)
        if done.returncode > 101:
            raise StudyError(f'parallel ended with status {done.returncode}')

    def _printed(self, number: int) -> str:
        file = self.folder / 'runs' / str(number) / 'stdout'
        return file.read_text(encoding='utf-8', errors='replace') if file.exists() else ''

    def _report(self, number: int) -> Optional[Report]:
        """The report that a job printed, or None if it did not end well."""
        text = self._printed(number)
        try:
            return read_report(text) if text.endswith('\nend\n') else None
        except TextError:
            return None

    def rows(self, jobs: Sequence[Job], numbers: Dict[str, int]) -> Tuple[List[Row], List[str]]:
        """The rows of jobs that are done, and a line for each that is not."""
        log: Dict[int, Dict[str, str]] = {}
        file = self.folder / 'joblog'
        logged = file.read_text(encoding='utf-8').splitlines() if file.exists() else []
        for entry in csv.DictReader(logged, delimiter='\t', quoting=csv.QUOTE_NONE):
            log[int(entry['Seq'])] = entry  # the last one counts
        none: Dict[str, str] = {}
        rows, missing = [], []
        for job in jobs:
            number = numbers[job.line()]
            report, entry = self._report(number), log.get(number, none)
            if report is None:
                said = self._printed(number).strip().splitlines()[:1] or ['status ' + entry['Exitval'] if entry else 'not run']
                missing.append(f'{job.subject.name}, {job.slots} slots: {said[0]}')
                continue
            rows.append(Row(job.subject.name, report.vertices, report.inputs, report.degree, report.slots, job.load, job.store, str(job.search),
                            report.first, report.cost, report.bound, report.verdict, report.expanded, entry.get('JobRuntime', '').strip(),
                            entry.get('Host', '')))
        return rows, missing


def write_csv(rows: Sequence[Row], out: TextIO) -> None:
    writer = csv.DictWriter(out, [field.name for field in fields(Row)], lineterminator='\n')
    writer.writeheader()
    writer.writerows(asdict(row) for row in rows)


# ---- tables

Series = Tuple[str, List[Row]]


def series_of(rows: Sequence[Row]) -> List[Series]:
    """The rows of one curve each: a kernel, and the weights and the search if there are several."""
    several = {name: len({getattr(row, name) for row in rows}) > 1 for name in ('load', 'store', 'search')}
    found: Dict[str, List[Row]] = {}
    for row in rows:
        name = row.kernel
        if several['load'] or several['store']:
            name += f', {row.load}:{row.store}'
        if several['search']:
            name += f', {row.search}'
        found.setdefault(name, []).append(row)
    return [(name, sorted(of, key=lambda row: row.slots)) for name, of in found.items()]


def compared(rows: Sequence[Row]) -> str:
    """A table of costs, the kernels side by side; after each cost but those of the first, its share of the first."""
    series = series_of(rows)
    names = [name for name, _ in series]
    cost = {(name, row.slots): row for name, of in series for row in of}
    lines = ['slots ' + ' '.join(f'{name[:20]:>20}' for name in names)]
    for slots in sorted({row.slots for row in rows}):
        cells = []
        base = cost.get((names[0], slots))
        for name in names:
            row = cost.get((name, slots))
            if row is None:
                cells.append('-')
                continue
            text = f'{row.cost}{"" if row.verdict == "Optimal" else " >= " + str(row.bound)}'
            cells.append(text if name == names[0] or base is None or not base.cost else f'{text} ({row.cost / base.cost:.0%})')
        lines.append(f'{slots:5} ' + ' '.join(f'{cell:>20}' for cell in cells))
    return '\n'.join(lines) + '\n'
