"""The version of this repository, which stands in the file VERSION at its top, and in an archive likewise."""

from __future__ import annotations

import re
from pathlib import Path

FILE = "VERSION"


def read_version(root: Path) -> str:
    """The version, as 0.1.0; empty where nothing says it."""
    try:
        said = (root / FILE).read_text(encoding="ascii").strip()
    except (OSError, UnicodeDecodeError):
        return ""
    return said if re.fullmatch(r"\d+\.\d+\.\d+", said) else ""
