"""Loads a script as a module, to test its functions: a script whose name has no .py, and which does
its work only where it is the program that runs."""
import importlib.util
import sys
from importlib.machinery import SourceFileLoader
from pathlib import Path
from types import ModuleType


def loaded(path: Path) -> ModuleType:
    """The module of a script; no compiled copy is left beside it."""
    sys.dont_write_bytecode = True
    loader = SourceFileLoader(path.stem.replace("-", "_"), str(path))
    spec = importlib.util.spec_from_loader(loader.name, loader)
    assert spec
    module = importlib.util.module_from_spec(spec)
    # (dataclasses look for their module)
    sys.modules[loader.name] = module
    loader.exec_module(module)
    return module
