"""The modules that are watched, rewritten so that each use of an object is told.

A use is an object through which the program reads or writes: the E of `E.attr`, `E[k]`, `for x in E` and `k in E`. In each of these
E becomes `_use_(E)`, which notes the object and answers it, so that a program does what it did. The rest of a module stays, line
numbers too.
"""
import ast
import importlib.abc
import importlib.machinery
import os
import sys

USE = "_use_"


class Uses(ast.NodeTransformer):
    """Puts a call of USE around each expression whose object is used."""

    def told(self, expression):
        is_super = isinstance(expression, ast.Call) and isinstance(expression.func, ast.Name) and expression.func.id == "super"
        if is_super or isinstance(expression, (ast.Constant, ast.JoinedStr)):
            return expression
        call = ast.Call(ast.copy_location(ast.Name(USE, ast.Load()), expression), [expression], [])
        return ast.copy_location(call, expression)

    def visit_Attribute(self, node):
        self.generic_visit(node)
        node.value = self.told(node.value)
        return node

    visit_Subscript = visit_Attribute

    def visit_For(self, node):
        self.generic_visit(node)
        node.iter = self.told(node.iter)
        return node

    visit_AsyncFor = visit_comprehension = visit_For

    def visit_Compare(self, node):
        self.generic_visit(node)
        node.comparators = [self.told(right) if isinstance(test, (ast.In, ast.NotIn)) else right
                            for test, right in zip(node.ops, node.comparators)]
        return node

    def visit_AnnAssign(self, node):
        node.target = self.visit(node.target)
        if node.value:
            node.value = self.visit(node.value)
        return node               # an annotation may be read as a text by others

    def visit_arg(self, node):
        return node

    def visit_FunctionDef(self, node):
        returns, node.returns = node.returns, None
        self.generic_visit(node)
        node.returns = returns
        return node

    visit_AsyncFunctionDef = visit_FunctionDef

    def visit_match_case(self, node):
        node.guard = self.visit(node.guard) if node.guard else None
        node.body = [self.visit(statement) for statement in node.body]
        return node               # a pattern is no expression: there may be no call in it


def compiled(source, path):
    """The code of a module that tells its uses."""
    return compile(Uses().visit(ast.parse(source, path)), path, "exec", dont_inherit=True)


class Loader(importlib.machinery.SourceFileLoader):
    """Loads a module that is watched. Files of bytecode are neither read nor written."""

    def __init__(self, name, path, begin):
        super().__init__(name, path)
        self.begin = begin

    def get_code(self, fullname):
        path = self.get_filename(fullname)
        return compiled(self.get_data(path), path)

    def exec_module(self, module):
        self.begin(module)
        super().exec_module(module)


class Finder(importlib.abc.MetaPathFinder):
    """Finds the modules that are watched: those of a folder, and those that are named, with what is in them."""

    def __init__(self, folder, names, begin):
        self.folder, self.names, self.begin = os.path.join(os.path.realpath(folder), ""), names, begin

    def is_watched(self, name, path):
        named = any(name == watched or name.startswith(watched + ".") for watched in self.names)
        return named or os.path.realpath(path).startswith(self.folder) and "site-packages" not in path

    def find_spec(self, name, path, target=None):
        spec = importlib.machinery.PathFinder.find_spec(name, path, target)
        if spec and type(spec.loader) is importlib.machinery.SourceFileLoader and self.is_watched(name, spec.origin):
            spec.loader = Loader(spec.loader.name, spec.loader.path, self.begin)
        return spec if spec and isinstance(spec.loader, Loader) else None


def has_source(name, first_paths):
    """Whether a module can be found by its dotted name, and has a source. Nothing is imported for that."""
    paths, found = first_paths, None
    for at, _ in enumerate(parts := name.split(".")):
        found = importlib.machinery.PathFinder.find_spec(".".join(parts[:at + 1]), paths)
        if found is None:
            return False
        paths = found.submodule_search_locations or []
    return isinstance(found.loader, importlib.machinery.SourceFileLoader)


def forget(names):
    """Lets the program import modules again that this tool uses itself, so that its own ones are watched."""
    for loaded in list(sys.modules):
        if any(loaded == name or loaded.startswith(name + ".") for name in names):
            del sys.modules[loaded]
