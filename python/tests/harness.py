"""What the tests share."""
from __future__ import annotations

import os

from pebbletools.compare import differs

__all__ = ['LONG', 'differs']
LONG = bool(os.environ.get('PEBBLETOOLS_LONG'))  # the whole set of tests, which takes some minutes
