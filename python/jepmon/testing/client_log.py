"""Writes logs and warnings of client libraries to a file in the run's folder. Under faults they would flood the terminal."""
from __future__ import annotations

import contextlib
import logging
import pathlib
from typing import Iterator

from ..live.run_folder import CLIENTS_LOG


@contextlib.contextmanager
def kept_in(folder: pathlib.Path) -> Iterator[None]:
    """Keeps the logs during the block. There is no file if nothing was logged."""
    handler = logging.FileHandler(folder / CLIENTS_LOG, encoding="utf-8", delay=True)
    handler.setFormatter(logging.Formatter("%(asctime)s %(name)s %(levelname)s: %(message)s"))
    logging.getLogger().addHandler(handler)
    logging.captureWarnings(True)
    try:
        yield
    finally:
        logging.captureWarnings(False)
        logging.getLogger().removeHandler(handler)
        handler.close()
