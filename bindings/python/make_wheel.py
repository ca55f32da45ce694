"""make_wheel.py LIBRARY FOLDER: the wheel, with libvelodrome.a in its extension; its path is printed. Its user needs no compiler.

It needs a C compiler (CC, else cc), objdump and Python 3.11 or later, and no package. The wheel is for CPython from 3.9 on, by the
stable ABI, on x86_64 Linux with glibc from 2.17 on, which is checked of the symbols that it wants.

It is also the build backend of pyproject.toml: `VELODROME_LIB_DIR=FOLDER-OF-THE-LIBRARY pip install bindings/python`.
"""
from __future__ import annotations

import base64
import hashlib
import io
import os
import pathlib
import re
import shlex
import subprocess
import sys
import sysconfig
import tarfile
import tempfile
import zipfile

HERE = pathlib.Path(__file__).resolve().parent
PLATFORM, GLIBC = "manylinux_2_17_x86_64", (2, 17)
TAG = f"cp39-abi3-{PLATFORM}"
PACKAGE = ("__init__.py", "_finding.py", "_session.pyi", "py.typed", "pytest_plugin.py")


def project() -> dict:
    """What pyproject.toml says."""
    import tomllib

    return tomllib.loads((HERE / "pyproject.toml").read_text())["project"]


def header() -> pathlib.Path:
    """velodrome_session.h: in the repository, or in a source distribution."""
    return next(
        path
        for folder in (HERE.parent / "session", HERE / "src")
        if (path := folder / "velodrome_session.h").exists()
    )


def compile_extension(library: pathlib.Path, folder: pathlib.Path) -> pathlib.Path:
    """The extension, with the library in it."""
    extension = folder / "_session.abi3.so"
    compiler = shlex.split(os.environ.get("CC", "cc"))
    flags = [
        "-O2",
        "-fPIC",
        "-fvisibility=hidden",
        "-Wall",
        "-Wextra",
        "-Wno-missing-field-initializers",
        "-Wno-cast-function-type",
    ]
    includes = [f"-I{folder}" for folder in (header().parent, sysconfig.get_paths()["include"])]
    linked = [str(library), "-Wl,--exclude-libs,ALL", "-Wl,-z,now", "-s", "-lpthread"]
    subprocess.run(
        [
            *compiler,
            *flags,
            "-DPy_LIMITED_API=0x03090000",
            *includes,
            "-shared",
            str(HERE / "src/_session.c"),
            *linked,
            "-o",
            str(extension),
        ],
        check=True,
    )
    return extension


def too_new(extension: pathlib.Path) -> list[str]:
    """The symbols that a glibc of the promised version does not have."""
    wanted = subprocess.run(
        ["objdump", "-T", str(extension)], check=True, capture_output=True, text=True
    ).stdout
    found = re.findall(r"\*UND\*.*?GLIBC_([0-9.]+)\)?\s+(\S+)", wanted)
    return [
        f"{name} of glibc {version}"
        for version, name in found
        if tuple(map(int, version.split(".")))[:2] > GLIBC
    ]


def metadata() -> str:
    """METADATA of the wheel, and PKG-INFO of the source distribution."""
    said = project()
    lines = [
        "Metadata-Version: 2.1",
        f'Name: {said["name"]}',
        f'Version: {said["version"]}',
        f'Summary: {said["description"]}',
        f'Requires-Python: {said["requires-python"]}',
        f'Keywords: {",".join(said["keywords"])}',
        *(f"Classifier: {classifier}" for classifier in said["classifiers"]),
        "Description-Content-Type: text/markdown",
    ]
    return "\n".join(lines) + "\n\n" + (HERE / said["readme"]).read_text()


def entry_points() -> str:
    groups = project()["entry-points"]
    return "\n".join(
        f"[{group}]\n" + "".join(f"{name} = {value}\n" for name, value in names.items())
        for group, names in groups.items()
    )


def record_line(name: str, data: bytes) -> str:
    """A line of the list of files: path, hash and size."""
    digest = base64.urlsafe_b64encode(hashlib.sha256(data).digest()).rstrip(b"=").decode()
    return f"{name},sha256={digest},{len(data)}\n"


def make_wheel(library: pathlib.Path, folder: pathlib.Path) -> pathlib.Path:
    """Writes the wheel into the folder, and returns its path."""
    said = project()
    stem = f'{said["name"]}-{said["version"]}'
    info = f"{stem}.dist-info"
    files = {f"velodrome/{name}": (HERE / "src/velodrome" / name).read_bytes() for name in PACKAGE}
    with tempfile.TemporaryDirectory() as scratch:
        extension = compile_extension(library, pathlib.Path(scratch))
        if missing := too_new(extension):
            raise SystemExit(f'make_wheel: not {PLATFORM}: {", ".join(missing)}')
        files[f"velodrome/{extension.name}"] = extension.read_bytes()
    files[f"{info}/METADATA"] = metadata().encode()
    files[
        f"{info}/WHEEL"
    ] = f"Wheel-Version: 1.0\nGenerator: make_wheel\nRoot-Is-Purelib: false\nTag: {TAG}\n".encode()
    files[f"{info}/entry_points.txt"] = entry_points().encode()
    record = "".join(record_line(name, data) for name, data in files.items()) + f"{info}/RECORD,,\n"
    path = folder / f"{stem}-{TAG}.whl"
    with zipfile.ZipFile(path, "w", zipfile.ZIP_DEFLATED) as wheel:
        for name, data in {**files, f"{info}/RECORD": record.encode()}.items():
            entry = zipfile.ZipInfo(name)  # of a fixed time: the same sources make the same bytes
            entry.external_attr, entry.compress_type = 0o644 << 16, zipfile.ZIP_DEFLATED
            wheel.writestr(entry, data)
    return path


def build_wheel(
    wheel_directory: str, config_settings: object = None, metadata_directory: object = None
) -> str:
    """For pip and build."""
    library = pathlib.Path(os.environ.get("VELODROME_LIB_DIR", HERE / "lib"), "libvelodrome.a")
    if not library.is_file():
        raise SystemExit(
            f"velodrome: there is no {library}: set VELODROME_LIB_DIR to the folder of libvelodrome.a, or install the wheel"
        )
    return make_wheel(library, pathlib.Path(wheel_directory)).name


def build_sdist(sdist_directory: str, config_settings: object = None) -> str:
    """For pip and build. The library is not in it, as it is built by another compiler."""
    said = project()
    stem = f'{said["name"]}-{said["version"]}'
    own = [
        "pyproject.toml",
        "make_wheel.py",
        "README.md",
        "src/_session.c",
        *(f"src/velodrome/{name}" for name in PACKAGE),
    ]
    files = {name: (HERE / name).read_bytes() for name in own}
    files["src/velodrome_session.h"] = header().read_bytes()
    with tarfile.open(pathlib.Path(sdist_directory, f"{stem}.tar.gz"), "w:gz") as archive:
        for name, data in {**files, "PKG-INFO": metadata().encode()}.items():
            entry = tarfile.TarInfo(f"{stem}/{name}")
            entry.size = len(data)
            archive.addfile(entry, io.BytesIO(data))
    return f"{stem}.tar.gz"


if __name__ == "__main__":
    if len(sys.argv) != 3:
        sys.exit(__doc__)
    print(make_wheel(pathlib.Path(sys.argv[1]), pathlib.Path(sys.argv[2])))
