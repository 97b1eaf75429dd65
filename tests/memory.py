"""Runs of programs in which an allocation fails, or with little memory: `fail_allocations.c` takes the place of malloc."""
import os
import pathlib
import resource
import subprocess

import paths

# The address space of a process with little memory, in bytes.
LIMIT = 2**28


def build(folder):
    """Builds what takes the place of malloc in a folder."""
    shim = pathlib.Path(folder) / "fail_allocations.so"
    options = "-Wall -Wextra -Werror -O1 -shared -fPIC".split()
    subprocess.run(["cc", *options, "-o", shim, paths.TESTS / "fail_allocations.c"], check=True)
    return shim


def run_failing(shim, command, at, every, **options):
    """Runs a command whose allocation number `at` fails, and with `every` all later ones too; none if `at` is 0. Returns what
    subprocess.run does, or None if the command hangs, and whether an allocation failed."""
    environment = {"LD_PRELOAD": str(shim)}
    read_end, write_end = os.pipe()
    if at:
        environment.update(FAIL_AT=str(at), FAIL_DESCRIPTOR=str(write_end), **({"FAIL_ALL": "1"} if every else {}))
    try:
        ran = subprocess.run(command, capture_output=True, env=environment, pass_fds=(write_end,), timeout=60, **options)
    except subprocess.TimeoutExpired:
        ran = None
    os.close(write_end)
    has_failed = os.read(read_end, 1) != b""
    os.close(read_end)
    return ran, has_failed


def run_limited(command, **options):
    """Runs a command in LIMIT bytes of address space."""
    return subprocess.run(command, capture_output=True, preexec_fn=lambda: resource.setrlimit(resource.RLIMIT_AS, (LIMIT, LIMIT)), timeout=60, **options)
