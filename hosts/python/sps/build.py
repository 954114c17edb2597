"""Makes the shared library of the proved archive, with the C compiler `cc`.

    python3 -m sps.build [ARCHIVE [LIBRARY]]

The archive is that of the repository that the package stands in, and the library goes beside the
package, where it is found, unless others are named.
"""

from __future__ import annotations

import subprocess
import sys
from pathlib import Path
from typing import List, Union

from ._library import NAME, SONAME

PACKAGE = Path(__file__).resolve().parent
ARCHIVE = PACKAGE.parents[2] / "target/staticlib/libsps.a"


def build(archive: Union[str, Path] = ARCHIVE, library: Union[str, Path] = PACKAGE / NAME) -> Path:
    """Makes the library, and returns its path."""
    whole = ["-Wl,--whole-archive", str(archive), "-Wl,--no-whole-archive"]
    words = ["cc", "-shared", "-Wl,-z,defs", f"-Wl,-soname,{SONAME}", *whole, "-o", str(library)]
    subprocess.run(words, check=True)
    return Path(library)


def main(words: List[str]) -> int:
    archive = Path(words[0]) if words else ARCHIVE
    if len(words) > 2 or not archive.is_file():
        print(f"{archive} is not there: ./build of the repository makes it", file=sys.stderr)
        return 2
    try:
        print(f"made {build(archive, *words[1:])}", file=sys.stderr)
    except (OSError, subprocess.CalledProcessError) as error:
        print(f"the library is not made: {error}", file=sys.stderr)
        return 2
    return 0


if __name__ == "__main__":
    sys.exit(main(sys.argv[1:]))
