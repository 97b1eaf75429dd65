"""A PEP 517 backend. It links the static library into a shared object beside the package, and packs both into a wheel.

The static libraries are found in the folder DEWIKURA_DIR: libdewikura.a, and liblibc_c.a unless the first contains it, as an installed one
does. Without this variable they are those of the repository (crates/dewikura/out/libdewikura.a, and liblibc_c.a of the kit whose `rt` is on
PATH), or of the installation whose share/dewikura/python this folder is. Without the kit, cargo builds the shared library and the programs,
from the repository or from the sources in a source distribution. The wheel contains the programs too: those that cargo builds, or that are beside
the library (DIR/bin of DIR/lib, crates/NAME/out in the repository)."""

import ast
import base64
import hashlib
import io
import os
import pathlib
import json
import re
import shutil
import subprocess
import sysconfig
import tarfile
import tempfile
import zipfile

TOP = pathlib.Path(__file__).resolve().parent
REPOSITORY = TOP.parent.parent
PACKAGE = TOP / "src/dewikura"
LICENSES = ("LICENSE-MIT", "LICENSE-APACHE", "NOTICE")
PROGRAMS = ("perflist", "perfinfo", "perfjson", "perffold")
# That of the oldest glibc that tags of wheels name today.
OLDEST_GLIBC_MINOR = 17


def version():
    numbers = re.search(r"^VERSION = \((.*)\)$", (PACKAGE / "constants.py").read_text(encoding="utf-8"), re.M).group(1)
    return numbers.replace(", ", ".")


def license_file(name):
    """The bytes of a licence: it is beside this file, or at the top of the repository."""
    return next(folder / name for folder in (TOP, REPOSITORY) if (folder / name).exists()).read_bytes()


def library_folder():
    """The folder that has the static libraries; None in the repository."""
    folder = os.environ.get("DEWIKURA_DIR")
    if not folder and TOP.parts[-3:] == ("share", "dewikura", "python"):
        folder = TOP.parents[2] / "lib"
    return pathlib.Path(folder) if folder else None


def cargo_package():
    """The folder of the package that cargo builds, if its sources are here."""
    return next((folder for folder in (TOP / "cargo", REPOSITORY) if (folder / "Cargo.toml").exists()), None)


def cargo_folder():
    """The folder of the package that cargo builds; None where the static library is the kit's, or there is no cargo."""
    if library_folder() or shutil.which("rt") or not shutil.which("cargo"):
        return None
    return cargo_package()


def cargo_output(*words):
    """What a command of cargo prints on standard output."""
    return subprocess.run(["cargo", *words], cwd=cargo_folder(), stdout=subprocess.PIPE, check=True).stdout


def cargo_build(*words):
    """Builds by cargo. Returns the paths of what it made."""
    lines = cargo_output(*words, "--release", "--message-format", "json-render-diagnostics").splitlines()
    messages = [message for message in map(json.loads, lines) if message["reason"] == "compiler-artifact" and message["target"]["name"] in ("dewikura", *PROGRAMS)]
    return [pathlib.Path(path) for message in messages for path in message["filenames"]]


def cargo_licenses():
    """The names and the bytes of the licences of the registry's crates, whose code the library and the programs contain."""
    packages = json.loads(cargo_output("metadata", "--format-version", "1"))["packages"]
    folders = {f"{package['name']}-{package['version']}": pathlib.Path(package["manifest_path"]).parent for package in packages if package["source"]}
    return {f"{name}/{path.name}": path.read_bytes() for name, folder in folders.items() for path in sorted(folder.glob("LICENSE*"))}


def other_licenses():
    """The names and the bytes of the licences of the other code that the wheel contains: that of the kit's crates, or of the registry's."""
    if cargo_folder():
        return cargo_licenses()
    installed = library_folder()
    with tempfile.TemporaryDirectory() as made:
        folder = installed.parent / "share/doc/dewikura/licenses" if installed else pathlib.Path(made)
        if not installed:
            subprocess.run([REPOSITORY / "scripts/kit_licenses", folder], check=True)
        return {str(path.relative_to(folder)): path.read_bytes() for path in sorted(folder.rglob("LICENSE*"))}


def static_libraries():
    folder = library_folder()
    if folder:
        archive, runtime = (folder / name for name in ("libdewikura.a", "liblibc_c.a"))
        return [archive, runtime] if runtime.exists() else [archive]
    archive = REPOSITORY / "crates/dewikura/out/libdewikura.a"
    if not archive.exists():
        return [archive]
    kit = pathlib.Path(subprocess.run(["rt", "doc"], capture_output=True, text=True, check=True).stdout).parent
    return [archive, kit / "c/liblibc_c.a"]


def link_library(path):
    """Makes the shared object that the package loads."""
    if cargo_folder():
        made = cargo_build("rustc", "--lib", "--no-default-features", "--crate-type", "cdylib")
        shutil.copyfile(next(built for built in made if built.suffix in (".so", ".dylib", ".dll")), path)
        return
    archives = static_libraries()
    for archive in archives:
        if not archive.exists():
            raise SystemExit(f"{archive} doesn't exist: run `make lib` in the repository, set DEWIKURA_DIR to a folder with libdewikura.a, or install cargo")
    compiler = os.environ.get("CC", "cc")
    subprocess.run([compiler, "-shared", "-o", path, "-Wl,--whole-archive", *archives, "-Wl,--no-whole-archive"], check=True)


def project():
    """The tables `project` of pyproject.toml. Their texts and lists are also literals of Python, whose parser of TOML is younger than 3.9."""
    tables, table = {}, {}
    for line in (TOP / "pyproject.toml").read_text(encoding="utf-8").splitlines():
        if line.startswith("["):
            table = tables[line.strip("[]")] = {}
        elif " = " in line:
            key, value = line.split(" = ", 1)
            table[key] = ast.literal_eval(value)
    return tables["project"], tables["project.optional-dependencies"]


def metadata():
    fields, extras = project()
    lines = [
        ("Metadata-Version", "2.4"), ("Name", fields["name"]), ("Version", version()), ("Summary", fields["description"]),
        ("License-Expression", fields["license"]), *(("License-File", name) for name in LICENSES), ("Keywords", ",".join(fields["keywords"])),
        ("Requires-Python", fields["requires-python"]),
    ]
    for extra, requirements in extras.items():
        lines += [("Provides-Extra", extra), *(("Requires-Dist", f'{requirement}; extra == "{extra}"') for requirement in requirements)]
    lines.append(("Description-Content-Type", "text/markdown"))
    readme = (TOP / fields["readme"]).read_text(encoding="utf-8")
    return ("".join(f"{name}: {value}\n" for name, value in lines) + "\n" + readme).encode()


def package_files():
    return sorted(PACKAGE.glob("*.py")) + [PACKAGE / "py.typed"]


def tag(contents):
    """The tag of a wheel of this machine with these library and programs. Under glibc it says the oldest version that has all symbols that they use."""
    platform = re.sub(r"[-.]", "_", sysconfig.get_platform())
    minors = [int(minor) for data in contents for minor in re.findall(rb"(?<=\0)GLIBC_2\.(\d+)(?:\.\d+)?(?=\0)", data)]
    if minors and platform.startswith("linux_"):
        platform = f"manylinux_2_{max(OLDEST_GLIBC_MINOR, *minors)}_{platform.removeprefix('linux_')}"
    return "py3-none-" + platform


def information(folder, wheel_tag):
    """The names and the bytes of the files that describe the wheel, but for RECORD."""
    files = {f"{folder}/METADATA": metadata()}
    files[f"{folder}/WHEEL"] = f"Wheel-Version: 1.0\nGenerator: dewikura\nRoot-Is-Purelib: false\nTag: {wheel_tag}\n".encode()
    files.update((f"{folder}/licenses/{name}", license_file(name)) for name in LICENSES)
    return files


def wheel_files():
    """The names and the bytes of the wheel's other files."""
    files = {f"dewikura/{path.name}": path.read_bytes() for path in package_files()}
    with tempfile.TemporaryDirectory() as folder:
        library = pathlib.Path(folder) / "libdewikura.so"
        link_library(library)
        files["dewikura/libdewikura.so"] = library.read_bytes()
    return files


def program_paths():
    """The programs by name: those that cargo builds, of the installation (`bin` beside the folder of the library), or of the repository."""
    if cargo_folder():
        return {path.stem: path for path in cargo_build("build", "--bins")}
    installed = library_folder()
    paths = {name: installed.parent / "bin" / name if installed else REPOSITORY / "crates" / name / "out" / name for name in PROGRAMS}
    return {name: path for name, path in paths.items() if path.exists()}


def programs(folder):
    """The names and the bytes of the programs that are there. `dewikura.profile` needs perffold."""
    made = program_paths()
    return {f"{folder}/scripts/{made[name].name}": made[name].read_bytes() for name in PROGRAMS if name in made}


def prepare_metadata_for_build_wheel(metadata_directory, config_settings=None):
    folder = f"dewikura-{version()}.dist-info"
    for name, data in information(folder, tag([])).items():
        path = pathlib.Path(metadata_directory) / name
        path.parent.mkdir(parents=True, exist_ok=True)
        path.write_bytes(data)
    return folder


def build_wheel(wheel_directory, config_settings=None, metadata_directory=None):
    folder, lines = f"dewikura-{version()}.dist-info", []
    files, scripts = wheel_files(), programs(f"dewikura-{version()}.data")
    wheel_tag = tag([files["dewikura/libdewikura.so"], *scripts.values()])
    name = f"dewikura-{version()}-{wheel_tag}.whl"
    files.update(information(folder, wheel_tag))
    files.update((f"{folder}/licenses/{path}", data) for path, data in other_licenses().items())
    with zipfile.ZipFile(pathlib.Path(wheel_directory) / name, "w", zipfile.ZIP_DEFLATED) as wheel:
        for path, data in {**files, **scripts}.items():
            digest = base64.urlsafe_b64encode(hashlib.sha256(data).digest()).rstrip(b"=").decode()
            lines.append(f"{path},sha256={digest},{len(data)}\n")
            entry = zipfile.ZipInfo(path)
            entry.compress_type = zipfile.ZIP_DEFLATED
            entry.external_attr = (0o100755 if path in scripts else 0o100644) << 16
            wheel.writestr(entry, data)
        wheel.writestr(f"{folder}/RECORD", "".join(lines) + f"{folder}/RECORD,,\n")
    return name


def cargo_sources():
    """The files from which cargo builds the library and the programs."""
    top = cargo_package()
    if not top:
        return {}
    names = ["Cargo.toml", "crates.txt", "README.md", *LICENSES]
    paths = [top / name for name in names] + [path for part in ("crates/*/src/**/*.rt", "rust/**/*") for path in top.glob(part)]
    return {f"cargo/{path.relative_to(top)}": path.read_bytes() for path in sorted(paths) if path.is_file()}


def build_sdist(sdist_directory, config_settings=None):
    """Packs the package without the library, which its installation takes from DEWIKURA_DIR or builds by cargo."""
    own = [TOP / name for name in ("pyproject.toml", "build_backend.py", "README.md")] + package_files() + sorted(TOP.glob("examples/*.*"))
    files = {str(path.relative_to(TOP)): path.read_bytes() for path in own}
    files.update((name, license_file(name)) for name in LICENSES)
    files["PKG-INFO"] = metadata()
    files.update(cargo_sources())
    folder = f"dewikura-{version()}"
    with tarfile.open(pathlib.Path(sdist_directory) / f"{folder}.tar.gz", "w:gz", format=tarfile.PAX_FORMAT) as archive:
        for path, data in sorted(files.items()):
            entry = tarfile.TarInfo(f"{folder}/{path}")
            entry.size = len(data)
            archive.addfile(entry, io.BytesIO(data))
    return f"{folder}.tar.gz"
