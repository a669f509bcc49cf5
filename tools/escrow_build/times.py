"""How long crates took to be proved on this machine, kept in the user's cache."""

from __future__ import annotations

import json
import os
from pathlib import Path
from typing import Dict, Optional

from .saying import Stop


def cache_home() -> Optional[Path]:
    """The user's folder for what can be made again, or None where there is none."""
    named = os.environ.get("XDG_CACHE_HOME", "")
    if os.path.isabs(named):
        return Path(named)
    home = os.environ.get("HOME", "")
    return Path(home) / ".cache" if os.path.isabs(home) else None


def cache_folder() -> Path:
    home = cache_home()
    if home is None:
        raise Stop("neither HOME nor XDG_CACHE_HOME names a folder, so there is no place for what was proved")
    return home / "escrow"


def _times_file() -> Optional[Path]:
    home = cache_home()
    return None if home is None else home / "escrow" / "times.json"


def read_times() -> Dict[str, float]:
    """What each crate took the last time, in seconds; nothing where none was proved."""
    file = _times_file()
    try:
        said = json.loads(file.read_text(encoding="utf-8")) if file is not None else {}
    except (OSError, ValueError):
        return {}
    if not isinstance(said, dict):
        return {}
    known = {crate: seconds for crate, seconds in said.items() if isinstance(seconds, (int, float))}
    return {crate: float(seconds) for crate, seconds in known.items() if seconds > 0}


def keep_times(times: Dict[str, float]) -> None:
    file = _times_file()
    if file is None:
        return
    file.parent.mkdir(parents=True, exist_ok=True)
    part = file.with_name("times.%d" % os.getpid())
    part.write_text(json.dumps(times, indent=1, sort_keys=True) + "\n", encoding="utf-8")
    os.replace(part, file)
