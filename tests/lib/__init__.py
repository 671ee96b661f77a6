"""What the scripts of tests/ share. They import it as `lib.NAME`, and modules of examples/ by their name alone, since
that folder is on the path, too."""

import sys
from pathlib import Path

sys.path.append(str(Path(__file__).resolve().parents[2] / "examples"))
