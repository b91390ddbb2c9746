"""The modules of tools/lib, on which the scripts of tools/ stand, too: of this checkout, or as they were installed.

They import one another by bare names, such as `plans` and `files`. Here they are loaded under those names and then kept
apart, so that a caller's own modules of the same names stay what they are.
"""
import importlib
import pathlib
import sys
from types import ModuleType
from typing import Optional

HERE = pathlib.Path(__file__).resolve().parent
INSTALLED, ROOT = HERE / "_tools", HERE.parents[1]
FOLDER = INSTALLED if INSTALLED.is_dir() else ROOT / "tools" / "lib"
LOADED: dict[str, ModuleType] = {}


def checkout() -> Optional[pathlib.Path]:
    """The folder of the repository, where this package lies in it."""
    return None if FOLDER == INSTALLED else ROOT


def load(*names: str) -> list[ModuleType]:
    """These modules of tools/lib."""
    own = {it.stem for it in FOLDER.glob("*.py")}
    kept = {name: sys.modules.pop(name) for name in own & set(sys.modules)}
    sys.modules.update(LOADED)
    sys.path.insert(0, str(FOLDER))
    try:
        return [importlib.import_module(name) for name in names]
    finally:
        sys.path.remove(str(FOLDER))
        LOADED.update({name: sys.modules.pop(name) for name in own & set(sys.modules)})
        sys.modules.update(kept)


def load_if_there(name: str) -> Optional[ModuleType]:
    """A module that a checkout may lack."""
    return load(name)[0] if (FOLDER / f"{name}.py").is_file() else None
