"""Where the scripts of tests/ find programs, the library and recordings."""
import os
import pathlib
import subprocess
import tempfile

TESTS = pathlib.Path(__file__).resolve().parent
RECORDINGS = TESTS / "recordings"
CARGO = TESTS.parent / "scripts/cargo"


def program(name):
    """A program that `rt ci` or `rt run` built, or the one in the folder that the variable PROGRAMS names."""
    folder = os.environ.get("PROGRAMS")
    return pathlib.Path(folder).resolve() / name if folder else TESTS.parent / "crates" / name / "out" / name


def test_program(name):
    """A program of rust/tests/programs. Cargo builds it, if its sources changed."""
    subprocess.run([CARGO, "build", "--quiet", "--release", "--example", name], cwd=TESTS.parent, check=True)
    return pathlib.Path(os.environ.get("CARGO_TARGET_DIR", TESTS.parent / "target")) / "release/examples" / name


def results(cases):
    """The lines of the result of each case of a text, which rust/tests/cases.rs runs. Cargo builds it, if its sources changed."""
    with tempfile.NamedTemporaryFile("w", suffix=".test") as file:
        file.write(cases)
        file.flush()
        command = [CARGO, "test", "--quiet", "--profile", "checked", "--test", "cases", "--", "--update", file.name]
        printed = subprocess.run(command, cwd=TESTS.parent, stdout=subprocess.PIPE, text=True, check=True).stdout
    return [block.split("\n----\n")[1].splitlines() for block in printed.split("\n\n") if "\n----\n" in block]


def library():
    """What C programs are linked with."""
    return subprocess.run([TESTS / "library"], capture_output=True, text=True, check=True).stdout.split()


def recordings(*suffixes):
    """The recordings with one of these suffixes, such as ".data", in the order of their names."""
    return sorted(path for path in RECORDINGS.iterdir() if path.suffix in suffixes)
