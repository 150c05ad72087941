"""The command `pebble-study`: many kernels, slots, weights and efforts, as jobs of GNU parallel."""
from __future__ import annotations

import argparse
import sys
from pathlib import Path
from typing import List, Optional, Sequence

from . import options, pictures, program, study
from .errors import PebbleToolsError

HEAD = 'Plans many kernels with many numbers of slots by GNU parallel, and prints tables, CSV and pictures. A study is resumed where it ended.'
FOOT = """examples:
  pebble-study fir.c gemm.c --slots +12 --plot costs.svg
  pebble-study a.c b.c --slots 4:16 --compare
  pebble-study kernels/*.kernel --slots 8 --weights 1:1 --weights 2:1 --csv -
  pebble-study a.c --slots 4:16 --sshlogin 4/node1 --sshlogin 4/node2
  pebble-study a.c --slots 4:16 --list > jobs       one command a line, for a batch system
  pebble-study a.c --slots 4:16 --collect           the rows of what it has done

Status 0: all plans are there; 1: some are missing, or something could not be done; 2: wrong options."""


def parser() -> argparse.ArgumentParser:
    words = argparse.ArgumentParser(prog='pebble-study', description=HEAD, epilog=FOOT, formatter_class=argparse.RawDescriptionHelpFormatter)
    words.add_argument('kernels', nargs='+', metavar='FILE[:NAME]', help='FILE.c, FILE.c:FUNCTION, FILE.kernel, FILE.py, FILE.py:KERNEL')
    options.add_source(words)
    words.add_argument('--slots', default='+8', help='4:12, 4,6,8 or +8 (from the fewest that suffice to eight more; the default)')
    words.add_argument('--weights', action='append', metavar='A:B', help='what a load and a store cost; may be repeated')
    words.add_argument('--effort', action='append', type=int, help='of improve; may be repeated (default: 20 if improve is there)')
    words.add_argument('--budget', action='append', type=int, help='of plan; may be repeated (default without improve: 20000)')
    words.add_argument('--folder', default='study', help='the folder of jobs and results (default: study)')
    words.add_argument('--jobs', help="plans at a time, as parallel's --jobs (default: one for each processor)")
    words.add_argument('--sshlogin', action='append', default=[], help="another machine, as parallel's --sshlogin; may be repeated")
    words.add_argument('--planner', help="the planner's file on the machines (default: that of this one)")
    words.add_argument('--parallel', action='append', default=[], metavar='WORD', help='a further option of parallel, as --parallel=--timeout=600')
    words.add_argument('--retry', action='store_true', help='run again what failed')
    words.add_argument('--list', action='store_true', help='run nothing; print the commands that are not done, one a line, for a batch system')
    words.add_argument('--collect', action='store_true', help='run nothing; take what a batch system has done')
    words.add_argument('--compare', action='store_true', help='print a table with the kernels side by side')
    words.add_argument('--plot', metavar='FILE', help='draw cost and bound over the slots, as .svg or .png')
    words.add_argument('--csv', metavar='FILE', help='the file of the rows (default: study.csv in the folder; - is standard output)')
    return words


def jobs_of(words: argparse.Namespace) -> List[study.Job]:
    """The jobs that the words ask for: by improve for each effort, by plan for each budget."""
    subjects = study.subjects(words)
    weights = [study.weights_of(text) for text in words.weights or ['1:1']]
    searches = [study.Search('plan', budget) for budget in words.budget or []] + [study.Search('improve', effort) for effort in words.effort or []]
    if any(search.word == 'improve' for search in searches) and program.find_improver() is None and not words.planner:
        raise PebbleToolsError('there is no program improve here, which an effort is for: give a budget')
    if not searches:
        searches = [study.Search('improve', 20) if program.find_improver() else study.Search('plan', 20000)]
    jobs = [study.Job(subject, slots, load, store, search) for subject in subjects for load, store in weights for search in searches
            for slots in study.slots_of(words.slots, subject.degree)]
    if not jobs:
        raise PebbleToolsError(f'no kernel can be planned with {words.slots} slots')
    return jobs


def do(words: argparse.Namespace) -> None:
    if words.plot:
        pictures.check(words.plot)
    jobs = jobs_of(words)
    made = study.Study(words.folder, words.planner)
    numbers = made.write(jobs)
    if words.list:
        print(*made.commands(jobs, numbers), sep='\n')
        return
    if not words.collect:
        made.run(words.jobs, words.sshlogin, words.retry, sys.stderr.isatty(), words.parallel)
    rows, missing = made.rows(jobs, numbers)
    if words.csv == '-':
        study.write_csv(rows, sys.stdout)
    else:
        with open(words.csv or Path(words.folder) / 'study.csv', 'w', newline='', encoding='utf-8') as out:
            study.write_csv(rows, out)
    if words.compare and rows:
        sys.stdout.write(study.compared(rows))
    if words.plot and rows:
        pictures.plot(study.series_of(rows), words.plot)
    for line in missing:
        print(f'pebble-study: no plan of {line}', file=sys.stderr)
    if missing:
        raise PebbleToolsError(f'{len(missing)} of {len(jobs)} plans are missing (--retry runs the failed ones again)')


def run(arguments: Optional[Sequence[str]] = None) -> int:
    words = parser().parse_args(arguments)
    return options.guarded('pebble-study', lambda: do(words))
