"""A language server in small that keeps each tree it ever parsed.

It parses files of Python's own library by lib2to3, counts from the trees how often each name stands in them, and closes none. The
package makes the trees and goes through them, so it is to be watched too: `tools/record --watch lib2to3 examples/real/trees.py`. Python has
it up to version 3.12.
"""
import glob
import os
import sys
from lib2to3 import pygram, pytree
from lib2to3.pgen2 import driver, token

trees = {}
names = {}


def open_file(parser, path):
    with open(path, encoding="utf-8") as file:
        tree = trees[path] = parser.parse_string(file.read() + "\n")
    for leaf in tree.leaves():
        if leaf.type == token.NAME:
            names[leaf.value] = names.get(leaf.value, 0) + 1


def main(count):
    parser = driver.Driver(pygram.python_grammar_no_print_statement, convert=pytree.convert)
    files = sorted((os.path.getsize(path), path) for path in glob.glob(os.path.join(os.path.dirname(os.__file__), "*.py")))
    for _, path in [file for file in files if file[0] > 600][:count]:
        open_file(parser, path)
    print(f"{len(trees)} trees are kept, with {len(names)} names")


main(int(sys.argv[1]) if len(sys.argv) > 1 else 30)
