#!/usr/bin/env python3
"""Makes a deployment file of DDS-XML, or of a vendor's profiles: `import.py FILE.xml .. > deployment.toml`. `--help` says how."""

import sys

sys.dont_write_bytecode = True

from converting import main  # noqa: E402

if __name__ == "__main__":
    sys.exit(main(sys.argv[1:]))
