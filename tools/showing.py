"""What the tools share: where the repository and the built program are."""
import os
import pathlib

TOP = pathlib.Path(__file__).resolve().parent.parent


def program_named(words):
    """The program: the word that is given, else that of PATIENCE, else the built one."""
    built = TOP / "crates" / "patience" / "out" / "patience"
    return os.path.abspath(words[0] if words else os.environ.get("PATIENCE", built))
