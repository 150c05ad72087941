"""What the commands share: options, messages, endings."""
from __future__ import annotations

import argparse
import os
import sys
import traceback
from typing import Callable, Dict, Optional, Sequence

from .errors import PebbleToolsError, SourceError
from .kernels import Kernel

DONE, FAILED, WRONG_WORDS = 0, 1, 2


def add_source(words: argparse.ArgumentParser) -> None:
    words.add_argument('--mad', action='store_true', help='a product and the sum that alone reads it are one operation')
    words.add_argument('--size', action='append', default=[], metavar='NAME=N', help='the elements of a pointer, or of an array without a size')
    words.add_argument('--pure', action='append', default=[], metavar='NAME', help='a declared function that only computes')
    words.add_argument('-D', action='append', default=[], dest='defines', metavar='NAME[=VALUE]', help='a definition for the preprocessor')


def sizes_of(words: Sequence[str]) -> Dict[str, int]:
    sizes = {}
    for word in words:
        name, _, size = word.partition('=')
        if not size.isdecimal() or not name or not 0 < int(size) <= 65536:
            raise PebbleToolsError(f'--size {word}: write --size NAME=NUMBER')
        sizes[name] = int(size)
    return sizes


def kernel_of(file: str, function: Optional[str], words: argparse.Namespace) -> Kernel:
    """The kernel of a C file or of a Python file."""
    if file.endswith('.py'):
        from .trace import kernels_of_file
        traces = kernels_of_file(file, function or '')
        if len(traces) > 1:
            raise PebbleToolsError(f'{file}: name one of its kernels: {", ".join(traced.name for traced in traces)}')
        return traces[0].kernel(words.mad)
    try:
        from .from_c import kernel_from_file
    except ImportError:
        raise PebbleToolsError('C is read with pycparser, which is not installed: pip install pycparser, or apt-get install python3-pycparser'
                               ) from None
    return kernel_from_file(file, function, mad=words.mad, pure=words.pure, sizes=sizes_of(words.size), defines=words.defines)


def guarded(name: str, body: Callable[[], None]) -> int:
    """Runs a command. Whatever goes wrong is one message on standard error and a status."""
    try:
        body()
        sys.stdout.flush()
    except BrokenPipeError:
        os.dup2(os.open(os.devnull, os.O_WRONLY), sys.stdout.fileno())
        return FAILED
    except KeyboardInterrupt:
        print(f'{name}: interrupted', file=sys.stderr)
        return 130
    except SourceError as why:
        print(why, *([why.excerpt] if why.excerpt else []), sep='\n', file=sys.stderr)
        return FAILED
    except (PebbleToolsError, OSError, UnicodeError) as why:
        print(f'{name}: {why}', file=sys.stderr)
        return FAILED
    except Exception as why:
        if os.environ.get('PEBBLETOOLS_TRACEBACK'):
            traceback.print_exc()
        print(f'{name}: a fault of this program, {type(why).__name__}: {why} (PEBBLETOOLS_TRACEBACK=1 says where)', file=sys.stderr)
        return FAILED
    return DONE
