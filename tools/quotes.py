#!/usr/bin/env python3
"""Looks whether a document has all of a file as one of its blocks: quotes.py DOCUMENT FILE."""
import sys

document, file = sys.argv[1:]
with open(document, encoding="ascii") as text:
    blocks = text.read().split("```\n")[1::2]
with open(file, encoding="ascii") as text:
    sys.exit(0 if text.read() in blocks else 1)
