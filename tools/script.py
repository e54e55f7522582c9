"""Scripts that have no .py, as modules."""

import importlib.machinery
import importlib.util
import pathlib

REPOSITORY = pathlib.Path(__file__).resolve().parent.parent


def load(place):
    """The script at that place of the repository, as a module."""
    path = str(REPOSITORY / place)
    loader = importlib.machinery.SourceFileLoader(pathlib.Path(place).parent.name + "_" + pathlib.Path(place).name, path)
    module = importlib.util.module_from_spec(importlib.util.spec_from_loader(loader.name, loader))
    loader.exec_module(module)
    return module
