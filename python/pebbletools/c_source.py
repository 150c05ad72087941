"""C files after the preprocessor, and the places of their tokens in the files as they were written."""
from __future__ import annotations

import difflib
import functools
import os
import re
import subprocess
from typing import Any, Dict, List, Optional, Sequence, Tuple

from pycparser import c_ast, c_parser

from .errors import SourceError

HEADERS = os.path.join(os.path.dirname(os.path.abspath(__file__)), 'include')
GCC = ['gcc', '-std=gnu11']
GCC_ERROR = re.compile(r'^(.*?):(\d+):(\d+): (?:fatal )?error: (.*)', re.M)
LINE_MARK = re.compile(r'# (\d+) "((?:[^"\\]|\\.)*)"')
TOKEN = re.compile(r'[A-Za-z_]\w*|\.?\d(?:[eEpP][+-]|[\w.])*|"(?:[^"\\]|\\.)*"|\'(?:[^\'\\]|\\.)*\'|\S')
COMMENT = re.compile(r'//.*|/\*.*?(?:\*/|$)')


@functools.lru_cache(maxsize=None)
def _parser() -> c_parser.CParser:
    """The parser; to make one takes longer than to use it."""
    return c_parser.CParser()


def _lines(text: str) -> Dict[Tuple[str, int], str]:
    """The lines of a preprocessed text, by the file and the line that they come from."""
    found: Dict[Tuple[str, int], str] = {}
    file, number = '', 1
    for line in text.split('\n'):
        mark = LINE_MARK.match(line)
        if mark:
            file, number = mark[2].replace('\\\\', '\\').replace('\\"', '"'), int(mark[1])
            continue
        if line or (file, number) not in found:
            found[file, number] = line
        number += 1
    return found


def _tokens(line: str) -> List[Tuple[int, str]]:
    return [(match.start(), match.group()) for match in TOKEN.finditer(line)]


def source_column(expanded: str, column: int, source: str) -> Tuple[int, bool]:
    """The column in a source line of a token of the line after the preprocessor, and whether the token is there as it is written."""
    here = _tokens(expanded)
    there = _tokens(COMMENT.sub(lambda comment: ' ' * len(comment.group()), source))
    at = max((k for k, (start, _) in enumerate(here) if start < column), default=0)
    if not here or not there:
        return column, expanded == source
    match = difflib.SequenceMatcher(a=[text for _, text in here], b=[text for _, text in there], autojunk=False)
    for tag, first, last, begin, _ in match.get_opcodes():
        if first <= at < last:
            token = begin + at - first if tag == 'equal' else begin
            return there[min(token, len(there) - 1)][0] + 1, tag == 'equal'
    return column, False


class Source:
    """A C file after the preprocessor, with this package's own small headers in place of the system's."""

    def __init__(self, file: str, defines: Sequence[str] = ()):
        self.file = file
        self.originals: Dict[str, List[str]] = {}
        self.lines: Dict[Tuple[str, int], str] = {}
        self.text = self._preprocessed(defines)
        self.lines = _lines(self.text)
        self._check()

    def _preprocessed(self, defines: Sequence[str]) -> str:
        if not os.path.isfile(self.file):
            raise SourceError('there is no such file', self.file)
        words = ['-E', '-nostdinc', '-I', HEADERS, '-D__attribute__(x)=', '-D__inline=inline', '-D__inline__=inline', '-D__restrict=restrict',
                 '-D__restrict__=restrict', '-D__extension__=', '-D__const=const', '-D__volatile__=volatile',
                 *[f'-D{define}' for define in defines], '-x', 'c', self.file]
        done = _gcc(words, self.file)
        if done.returncode:
            raise self._refused(done.stderr)
        return done.stdout

    def _refused(self, said: str) -> SourceError:
        """What gcc says of the file, as an error of this package."""
        found = GCC_ERROR.search(said)
        return self.error(found[4], found[1], int(found[2]), int(found[3])) if found else SourceError(f'gcc refuses it:\n{said.strip()}', self.file)

    def _check(self) -> None:
        """Has gcc check that this is C, so that the rest of this package meets valid C alone."""
        done = _gcc(['-fsyntax-only', '-w', '-fmax-errors=1', '-x', 'cpp-output', '-'], self.file, self.text)
        if done.returncode:
            raise self._refused(done.stderr)

    def tree(self) -> c_ast.FileAST:
        try:
            return _parser().parse(self.text, filename=self.file)
        except RecursionError:
            raise SourceError('it is nested too deeply to be read', self.file) from None
        except Exception as why:  # the parser's error has another module in each version, and a few faults are errors of its own
            said = str(why).replace(f'{self.file}: ', '')
        match = re.match(r'(.*?):(\d+):(?:(\d+):)? ?(.*)', said, re.S)
        what = 'this is C, but of a kind that is not taken'
        if not match:
            raise SourceError(f'{what}{f" ({said})" if said else ""}', self.file)
        if "Illegal character '\\" in match[4]:
            what = 'a name has other letters than those of ASCII'
        raise self.error(f'{what} ({match[4]})', match[1], int(match[2]), int(match[3] or 0))

    def original(self, file: str, line: int) -> Optional[str]:
        if file not in self.originals:
            try:
                with open(file, encoding='utf-8', errors='replace') as opened:
                    self.originals[file] = opened.read().split('\n')
            except OSError:
                self.originals[file] = []
        lines = self.originals[file]
        return lines[line - 1].rstrip('\r') if 0 < line <= len(lines) else None

    def error(self, message: str, file: str, line: int, column: int) -> SourceError:
        """An error at a place, with the line and a caret. `column` counts in the line after the preprocessor; 0 is unknown."""
        source, expanded = self.original(file, line), self.lines.get((file, line))
        if source is None or not column:
            return SourceError(message, f'{file}:{line}', _marked(source, 0) if source else '')
        if expanded is None:
            expanded = source
        place, exact = source_column(expanded, column, source)
        excerpt = _marked(source, place)
        if not exact and expanded.strip() != source.strip():
            excerpt += '\n  after the preprocessor:\n' + _marked(expanded, column)
        return SourceError(message, f'{file}:{line}:{place}', excerpt)

    def error_at(self, message: str, node: Any) -> SourceError:
        """An error at a node of the tree."""
        coord = getattr(node, 'coord', None)
        if coord is None:
            return SourceError(message, self.file)
        return self.error(message, str(coord.file), coord.line, coord.column or 0)


LONGEST_SHOWN = 120  # characters of a line


def _marked(line: str, column: int) -> str:
    """A line with a caret; of a long line, what is around it. Tabs become spaces."""
    before = line[:max(column - 1, 0)].expandtabs(8)
    shown, at = before + line[max(column - 1, 0):].expandtabs(8), len(before)
    if len(shown) > LONGEST_SHOWN:
        first = max(0, min(at - LONGEST_SHOWN // 2, len(shown) - LONGEST_SHOWN))
        shown, at = ('.. ' if first else '') + shown[first:first + LONGEST_SHOWN] + ' ..', at - first + (3 if first else 0)
    return f'    {shown}' + (f'\n    {" " * at}^' if column else '')


def _gcc(words: Sequence[str], file: str, text: str = '') -> 'subprocess.CompletedProcess[str]':
    try:
        return subprocess.run([*GCC, *words], input=text, stdout=subprocess.PIPE, stderr=subprocess.PIPE, encoding='utf-8', errors='replace',
                              check=False, env={**os.environ, 'LC_ALL': 'C'})
    except FileNotFoundError:
        raise SourceError('gcc is not found: it expands the directives of the file, and checks it', file) from None
    except ValueError as why:  # a word with a zero byte
        raise SourceError(str(why), file) from None
