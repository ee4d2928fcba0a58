"""The programs that the tests run, once they are built, and what a test says where they are not."""
import pathlib
import shutil
import subprocess
import sys

ROOT = pathlib.Path(__file__).resolve().parent.parent
BIN = ROOT / "target" / "bin"


def need(*names, folder=BIN):
    """Ends the test with a line that says how to build them, unless the programs are there."""
    missing = [name for name in names if not (folder / name).is_file()]
    if missing:
        test = pathlib.Path(sys.argv[0]).name
        where = folder.relative_to(ROOT) if folder.is_relative_to(ROOT) else folder
        sys.exit(f"{test} needs {', '.join(f'{where}/{name}' for name in missing)}: tools/programs {' '.join(missing)}")


def need_tools(*names):
    """Ends the test with a line that says which tools it needs, unless they are there."""
    missing = [name for name in names if shutil.which(name) is None]
    if missing:
        sys.exit(f"{pathlib.Path(sys.argv[0]).name} needs {' and '.join(missing)}")


def said(name, text):
    """What a program prints on standard output"""
    return subprocess.run([BIN / name], input=text, capture_output=True, check=False).stdout
