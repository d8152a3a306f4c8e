"""The clone that this package is a folder of, and its scripts as modules."""
import importlib.machinery
import importlib.util
import os
import sys

TOP = os.path.dirname(os.path.dirname(os.path.dirname(os.path.realpath(__file__))))


def module(path):
    """Returns a script of the clone as a module: the one that is loaded already, or a new one under a name of this package."""
    whole = os.path.join(TOP, path)
    for it in list(sys.modules.values()):
        if getattr(it, "__file__", None) and os.path.realpath(it.__file__) == whole:
            return it
    name = f"{__package__}._{os.path.basename(path).removesuffix('.py')}"
    loader = importlib.machinery.SourceFileLoader(name, whole)
    made = importlib.util.module_from_spec(importlib.util.spec_from_loader(name, loader))
    sys.modules[name] = made
    # The scripts leave no compiled files beside themselves.
    before, sys.dont_write_bytecode = sys.dont_write_bytecode, True
    try:
        loader.exec_module(made)
    finally:
        sys.dont_write_bytecode = before
    return made
