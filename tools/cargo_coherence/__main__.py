"""`python3 -m cargo_coherence`, as the command."""

import sys

from cargo_coherence.command import main

sys.exit(main())
