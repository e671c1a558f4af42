"""Prints each argument as a JSON string literal, as HTML, and as a literal for a script element."""

import sys

import escape_simd

for text in sys.argv[1:]:
    print(escape_simd.json(text), escape_simd.html(text), escape_simd.script(text), sep="\n")
