"""Scripts of this folder, which have no suffix, as modules."""
import importlib.machinery
import importlib.util
import pathlib
import sys

HERE = pathlib.Path(__file__).resolve().parent


def load(name):
    """A script beside this file, as a module of its name, which is loaded once."""
    if name not in sys.modules:
        loader = importlib.machinery.SourceFileLoader(name, str(HERE / name))
        module = sys.modules[name] = importlib.util.module_from_spec(importlib.util.spec_from_loader(name, loader))
        loader.exec_module(module)
    return sys.modules[name]
