"""A file of the user's is written whole, or stays as it was."""
from __future__ import annotations

import os
import stat
import tempfile
from pathlib import Path


def put(target: Path, text: bytes, out: str = "") -> None:
    """Writes a new file beside the target, and gives it the target's name. A failure names it, or OUT."""
    fresh = None
    try:
        if target.exists() and not target.is_file():
            target.write_bytes(text)
            return
        number, fresh = tempfile.mkstemp(prefix=".iox-", dir=target.parent)
        with open(number, "wb") as file:
            file.write(text)
        mask = os.umask(0)
        os.umask(mask)
        os.chmod(fresh, stat.S_IMODE(target.stat().st_mode) if target.exists() else 0o666 & ~mask)
        os.replace(fresh, target)
        fresh = None
    except OSError as error:
        raise OSError(error.errno, error.strerror, out or str(target)) from None
    finally:
        if fresh:
            os.unlink(fresh)
