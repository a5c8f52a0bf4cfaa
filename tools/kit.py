"""The Rattle kit on this machine, as its own command `rt` uses it.

What `rt must-fail` does with one edit, `tools/wrong` does with many, and what `rt ci` has proved, `tools/product` compiles with no second proof of it:
no command of the kit does either, so both call the functions of the kit's own script."""
import functools
import importlib.machinery
import importlib.util
import pathlib
import subprocess
import sys

ROOT = pathlib.Path(__file__).resolve().parent.parent


class Failed(Exception):
    """A command of the kit failed, and said this."""


@functools.lru_cache(maxsize=None)
def rt():
    """The kit's script `rt`, as a module: it stands in the folder bin beside the page that `rt doc` names."""
    page = subprocess.run(["rt", "doc"], stdout=subprocess.PIPE, encoding="utf8", check=True).stdout.strip()
    loader = importlib.machinery.SourceFileLoader("rt", str(pathlib.Path(page).parent / "bin" / "rt"))
    made = importlib.util.module_from_spec(importlib.util.spec_from_loader("rt", loader))
    loader.exec_module(made)
    # Its first call sets a signal's handler, which only the main thread may.
    made.rtlib.guarded()
    return made


@functools.lru_cache(maxsize=None)
def crates():
    """The kit's own view of each crate, by its name, lowest first."""
    return {crate.name: crate for crate in rt().rtlib.crates_below(str(ROOT))}


def is_from_ci(crate):
    """Whether every library below the crate stands as `rt ci` left it: built, and without the stamp of the other commands."""
    return all(pathlib.Path(it.rlib, "format").exists() and not pathlib.Path(it.rlib).with_name("stamp").exists() for it in crate.below())


# The libraries that rt did not build.
broken = set()


def build_below(crate):
    """Has rt prove and build each library below the crate that is not built, or not from these sources."""
    for it in crate.below():
        if it.name in broken:
            raise Failed(f"{it.name}, which {crate.name} stands on, is not built")
        if not it.is_built():
            try:
                call("lib", it)
            except Failed:
                broken.add(it.name)
                raise


def call(command, crate, given=None):
    """Runs a command of rt in the crate's folder, and returns what it wrote."""
    ran = subprocess.run(["rt", command], cwd=crate.folder, input=given, stdout=subprocess.PIPE, stderr=subprocess.PIPE)
    if ran.returncode:
        said = (ran.stdout + ran.stderr).decode(errors="replace").splitlines()
        raise Failed("\n".join([*said[-20:], f"rt {command} in crates/{crate.name} ended with status {ran.returncode}"]))
    return ran.stdout


def compiled(crate, to, toolchain=None):
    """Compiles a static library over the libraries below it, as they stand built; only the crate itself is proved. Returns what the kit said."""
    own = rt().rtlib
    words = [own.RATTLE, "build", *crate.words(["--jobs", "1"], keeps=False), "--toolchain", toolchain or f"{own.KIT}/toolchain", "--backend", "llvm", "-o", str(to)]
    ran = subprocess.run([*own.guarded(), *words], cwd=crate.folder, stdin=subprocess.DEVNULL, stdout=subprocess.PIPE, stderr=subprocess.STDOUT, encoding="utf8", errors="replace")
    if ran.returncode or "\nlogic=proved " not in ran.stdout:
        raise Failed("\n".join([*ran.stdout.splitlines()[-20:], f"rattle build of {crate.name} ended with status {ran.returncode}"]))
    return ran.stdout


sys.dont_write_bytecode = True
