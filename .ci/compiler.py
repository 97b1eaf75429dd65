"""The compiler's command for a crate, with the libraries that `rt ci` left in crates/*/out/rlib."""
import os
import subprocess

CRATES = os.path.normpath(os.path.dirname(os.path.abspath(__file__)) + "/../crates")
KIT = os.path.dirname(subprocess.run(["rt", "doc"], capture_output=True, text=True, check=True).stdout)


def uses():
    """Returns what each crate of crates.txt uses."""
    with open(f"{CRATES}/../crates.txt", encoding="utf-8") as lines:
        return {line.split()[0].rstrip(":"): line.partition(":")[2].split() for line in lines if ":" in line and line[0] != "#"}


def command(verb, crate):
    """Returns the words of `rattle check` or `rattle build` for a crate, to be run in its folder."""
    ours = [name for name in uses() if os.path.isdir(f"{CRATES}/{name}/out/rlib")]
    source = "src/main.rt" if os.path.isfile(f"{CRATES}/{crate}/src/main.rt") else "src/lib.rt"
    words = [f"{KIT}/bin/rattle", verb, "--crate-name", crate, source, "--links", f"{crate}="]
    for name in ["std", *uses()[crate]]:
        folder = f"{CRATES}/{name}/out/rlib" if name in ours else f"{KIT}/rlibs"
        words += ["--extern", f"{name}={folder}/{name}.rlib"]
    for folder in [f"{KIT}/rlibs", *[f"{CRATES}/{name}/out/rlib" for name in ours]]:
        words += ["-L", f"dependency={folder}"]
    return [*words, "--antt-project", f"{KIT}/rattle/logic/antt-project.json", "--logic-built", f"{KIT}/logic_built"]
