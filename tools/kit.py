"""The kit, which `rt doc` finds, for the other tools of this folder."""

import importlib.machinery
import importlib.util
import os
import subprocess
import sys


def _found():
    """The folder of the kit."""
    try:
        ran = subprocess.run(["rt", "doc"], capture_output=True, text=True, check=True)
    except FileNotFoundError:
        sys.exit('there is no rt, the command of the Rattle kit, in the PATH (docs/RATTLE_HOST.md, "The kit")')
    return os.path.dirname(ran.stdout.strip())


KIT = _found()


def of_kit(name, file):
    """A Python program of the kit's `bin`, as a module of that name."""
    loader = importlib.machinery.SourceFileLoader(name, f"{KIT}/bin/{file}")
    module = importlib.util.module_from_spec(importlib.util.spec_from_loader(name, loader))
    sys.modules[name] = module
    loader.exec_module(module)
    return module
