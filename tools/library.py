"""Builds the library for C, crates/velo_ffi/out/libvelo_ffi.a, over what `rt ci` left.

    python3 tools/library.py

`rt ci` proves the crate and compiles nothing of it. `rt lib` compiles it, but takes no library that `rt ci` left, as these have no
stamp: it would prove all crates below once more. So the kit's compiler is called here over them, as `rt ci` calls it for tests. It
proves the crate itself again. Where crates below have a stamp, or are not built, `rt lib` is as quick, and is called.
"""
import importlib.machinery
import importlib.util
import os
import subprocess
import sys

TOP = os.path.dirname(os.path.dirname(os.path.abspath(__file__)))
FOLDER = os.path.join(TOP, "crates", "velo_ffi")


def kit_library():
    """The kit's own module that knows how its compiler is called."""
    page = subprocess.run(["rt", "doc"], check=True, stdout=subprocess.PIPE, text=True).stdout
    path = os.path.join(os.path.dirname(page.strip()), "bin", "rtlib.py")
    loader = importlib.machinery.SourceFileLoader("rtlib", path)
    module = importlib.util.module_from_spec(importlib.util.spec_from_loader("rtlib", loader))
    sys.modules["rtlib"] = module
    loader.exec_module(module)
    return module


def is_left_by_the_gate(crate):
    return os.path.isdir(crate.rlib) and not os.path.exists(f"{crate.folder}/out/rlib/stamp")


def main():
    sys.dont_write_bytecode = True
    kit = kit_library()
    os.chdir(FOLDER)
    crate = kit.Crate(FOLDER, TOP, {})
    if not all(map(is_left_by_the_gate, crate.below())):
        return subprocess.run(["rt", "lib"], check=False).returncode
    os.makedirs("out", exist_ok=True)
    words = crate.words(["--jobs", "2"], keeps=False)
    words += ["--toolchain", f"{kit.KIT}/toolchain", "--backend", "llvm"]
    return crate.call(kit.RATTLE, "build", *words, "-o", f"out/lib{crate.name}.a")


if __name__ == "__main__":
    sys.exit(main())
