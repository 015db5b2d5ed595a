"""An independent model of the library, written from its specification alone.

Every docstring names the anchor of the section that it follows. See README.md for the signatures.
"""
