"""Commands of this repository, whose names have no suffix, as modules of Python."""
import importlib.machinery
import importlib.util

from room import TOP


def module_of(*names):
    """The module of a command, by its path from the top."""
    path = TOP.joinpath(*names)
    loader = importlib.machinery.SourceFileLoader('_'.join(names), str(path))
    module = importlib.util.module_from_spec(importlib.util.spec_from_loader(loader.name, loader))
    loader.exec_module(module)
    return module
