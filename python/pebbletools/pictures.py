"""Curves of cost and bound over the slots, by matplotlib or gnuplot."""
from __future__ import annotations

import importlib.util
import shutil
import subprocess
from typing import Sequence

from .study import Series, StudyError

COLOURS = ['#c0392b', '#2471a3', '#27ae60', '#8e44ad', '#d68910', '#16a085', '#7f8c8d', '#2c3e50']


def check(file: str) -> None:
    """Whether a picture can be drawn, before any plan is made."""
    if not file.endswith(('.svg', '.png')):
        raise StudyError(f'--plot {file}: a picture is an .svg or a .png')
    if not importlib.util.find_spec('matplotlib') and not shutil.which('gnuplot'):
        raise StudyError('a picture needs matplotlib or gnuplot: apt-get install python3-matplotlib, or gnuplot-nox')


def plot(series: Sequence[Series], file: str) -> None:
    """Cost (drawn through) and bound (dashed) over the slots, a colour for each series."""
    check(file)
    if importlib.util.find_spec('matplotlib'):
        _plot_by_matplotlib(series, file)
    else:
        _plot_by_gnuplot(series, file)


def _plot_by_matplotlib(series: Sequence[Series], file: str) -> None:
    import matplotlib  # optional, and slow to load
    matplotlib.use('Agg')
    from matplotlib import pyplot
    figure, axes = pyplot.subplots(figsize=(8, 4.8))
    for k, (name, of) in enumerate(series):
        slots = [row.slots for row in of]
        axes.plot(slots, [row.cost for row in of], marker='o', color=COLOURS[k % len(COLOURS)], label=name)
        axes.plot(slots, [row.bound for row in of], linestyle='--', color=COLOURS[k % len(COLOURS)])
    axes.set(xlabel='slots', ylabel='cost (drawn through) and bound (dashed)', ylim=(0, None))
    axes.xaxis.get_major_locator().set_params(integer=True)
    axes.legend()
    axes.grid(True, alpha=0.4)
    figure.tight_layout()
    figure.savefig(file)


def _plot_by_gnuplot(series: Sequence[Series], file: str) -> None:
    terminal = 'pngcairo size 800,480' if file.endswith('.png') else 'svg size 800,480 background rgb "white"'
    blocks, curves = [], []
    for k, (name, of) in enumerate(series):
        blocks.append(f'$s{k} << E\n' + ''.join(f'{row.slots} {row.cost} {row.bound}\n' for row in of) + 'E\n')
        colour, title = COLOURS[k % len(COLOURS)], name.replace("'", '')
        curves += [f"$s{k} using 1:2 with linespoints lw 2 pt 7 lc rgb '{colour}' title '{title}' noenhanced",
                   f"$s{k} using 1:3 with lines lw 2 dt 2 lc rgb '{colour}' notitle"]
    quoted = file.replace("'", "''")
    script = (f"set terminal {terminal}\nset output '{quoted}'\nset xlabel 'slots'\nset ylabel 'cost (drawn through) and bound (dashed)'\n"
              f"set yrange [0:*]\nset grid\nset key top right\n{''.join(blocks)}plot {', '.join(curves)}\n")
    done = subprocess.run(['gnuplot'], input=script, encoding='utf-8', errors='replace', stderr=subprocess.PIPE, check=False)
    if done.returncode:
        raise StudyError(f'gnuplot: {done.stderr.strip()}')
