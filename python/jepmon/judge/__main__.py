"""`python -m jepmon.judge`."""
from __future__ import annotations

import sys

from .tool import main

sys.exit(main())
