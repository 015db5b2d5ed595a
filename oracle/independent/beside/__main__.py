"""Runs the independent model and the library on the same inputs. See --help."""

import sys

from .run import main

sys.exit(main())
