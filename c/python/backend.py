"""Builds the wheel and the source archive of escape_simd: what pip, ./release and c/tests/python call:

    python backend.py build_wheel|build_sdist FOLDER    prints the path of what it wrote

It needs a C compiler and Python's headers alone. The library and its header lie beside this folder, as in the
repository, in ../lib and ../include, as in a release, or beside this file, as in a source archive. In the repository
./build-c builds the library first, if it is not there.
"""

import base64
import gzip
import hashlib
import io
import os
import re
import shlex
import subprocess
import sys
import sysconfig
import tarfile
import tempfile
import zipfile
from pathlib import Path

HERE = Path(__file__).resolve().parent
# What lies around an unpacked source archive is not the library's.
IS_ARCHIVE = (HERE / "PKG-INFO").exists()
PLACES = (HERE,) if IS_ARCHIVE else (HERE, HERE.parent, HERE.parent / "lib", HERE.parent / "include")
PACKAGE = "escape_simd"
SOURCES = [PACKAGE + "/" + name for name in ("__init__.py", "__init__.pyi", "py.typed")]


def find(name):
    """Returns the path of the library's file."""
    for folder in PLACES:
        if (folder / name).exists():
            return folder / name
    raise FileNotFoundError("%s is neither beside nor in %s, nor in ../lib or ../include" % (name, HERE))


def version():
    return ".".join(re.findall(r"#define ESCAPE_VERSION_(?:MAJOR|MINOR|PATCH) (\d+)", find("escape.h").read_text()))


def libraries():
    """Returns the files of the library by the paths that they get in the package.

    Of a release these are the shared ones, of which the loader takes the one for the processor; else the static one.
    """
    major, minor, _ = version().split(".")
    shared = "libescape.so." + (major if major != "0" else "0." + minor)
    for folder in PLACES:
        if (folder / shared).exists():
            return {str(file.relative_to(folder)): file for file in (folder / shared, *folder.glob("glibc-hwcaps/*/" + shared))}
    build_c = HERE.parent.parent / "build-c"
    if not IS_ARCHIVE and build_c.exists() and not (HERE.parent / "libescape.a").exists():
        subprocess.check_call([build_c])
    return {"libescape.a": find("libescape.a")}


def compile_extension(library, target):
    compiler = shlex.split(os.environ.get("CC") or sysconfig.get_config_var("CC") or "cc")
    headers = [find("escape.h").parent, sysconfig.get_path("include"), sysconfig.get_path("platinclude")]
    flags = ["-std=c11", "-O3", "-DNDEBUG", "-Wall", "-Wextra", "-fPIC", "-shared"] + ["-I%s" % folder for folder in headers]
    # The loader looks for a shared library beside the extension, before it looks in LD_LIBRARY_PATH.
    link = "--exclude-libs,ALL" if library.suffix == ".a" else "--disable-new-dtags,-rpath,$ORIGIN"
    subprocess.check_call(compiler + flags + [HERE / PACKAGE / "_escape.c", library, "-Wl," + link, "-o", target])


def platform_of(binaries):
    """Returns the wheel's platform: with the oldest glibc that has what the files name, or none if they name none."""
    platform = re.sub(r"\W", "_", sysconfig.get_platform())
    named = [int(number) for binary in binaries for number in re.findall(rb"\0GLIBC_2\.(\d+)", binary)]
    # No manylinux is older than glibc 2.5.
    return platform.replace("linux", "manylinux_2_%d" % max(5, *named)) if named else platform


def metadata():
    project = dict(re.findall(r'^([\w-]+) = "(.*)"$', (HERE / "pyproject.toml").read_text(), re.M))
    about = ["Metadata-Version: 2.1", "Name: " + project["name"], "Version: " + version()]
    return "\n".join(about + ["Summary: " + project["description"], "Requires-Python: " + project["requires-python"], ""]).encode()


def build_wheel(wheel_directory, config_settings=None, metadata_directory=None):
    """Writes the wheel to the folder, and returns its name."""
    library = libraries()
    binaries = {path: file.read_bytes() for path, file in library.items() if file.suffix != ".a"}
    with tempfile.TemporaryDirectory() as folder:
        compile_extension(next(iter(library.values())), Path(folder, "_escape.so"))
        binaries["_escape" + sysconfig.get_config_var("EXT_SUFFIX")] = Path(folder, "_escape.so").read_bytes()
    python = "cp%d%d" % sys.version_info[:2]
    tag = "-".join([python, python + sys.abiflags, platform_of(binaries.values())])
    name = "%s-%s" % (PACKAGE, version())
    info = name + ".dist-info/"
    wheel = ["Wheel-Version: 1.0", "Generator: " + PACKAGE, "Root-Is-Purelib: false", "Tag: " + tag, ""]
    files = {source: (HERE / source).read_bytes() for source in SOURCES}
    files.update((PACKAGE + "/" + path, content) for path, content in binaries.items())
    files[info + "METADATA"] = metadata()
    files[info + "WHEEL"] = "\n".join(wheel).encode()
    record = ""
    for path, content in files.items():
        digest = base64.urlsafe_b64encode(hashlib.sha256(content).digest()).rstrip(b"=").decode()
        record += "%s,sha256=%s,%d\n" % (path, digest, len(content))
    files[info + "RECORD"] = (record + info + "RECORD,,\n").encode()
    with zipfile.ZipFile(Path(wheel_directory, "%s-%s.whl" % (name, tag)), "w", zipfile.ZIP_DEFLATED) as archive:
        for path, content in files.items():
            # Each file has the same time, so that the same files make the same wheel.
            entry = zipfile.ZipInfo(path)
            entry.external_attr = 0o644 << 16
            archive.writestr(entry, content, zipfile.ZIP_DEFLATED)
    return "%s-%s.whl" % (name, tag)


def build_sdist(sdist_directory, config_settings=None):
    """Writes the package's source, with the library as it was built, to the folder, and returns the archive's name."""
    name = "%s-%s" % (PACKAGE, version())
    sources = ["pyproject.toml", "backend.py", *SOURCES, PACKAGE + "/_escape.c"]
    files = {**{source: HERE / source for source in sources}, "escape.h": find("escape.h"), **libraries()}
    contents = {**{path: file.read_bytes() for path, file in files.items()}, "PKG-INFO": metadata()}
    written = io.BytesIO()
    with tarfile.open(fileobj=written, mode="w") as archive:
        for path, content in contents.items():
            entry = tarfile.TarInfo(name + "/" + path)
            entry.size = len(content)
            archive.addfile(entry, io.BytesIO(content))
    # Each file has the same time here too.
    Path(sdist_directory, name + ".tar.gz").write_bytes(gzip.compress(written.getvalue(), mtime=0))
    return name + ".tar.gz"


if __name__ == "__main__":
    print(os.path.join(sys.argv[2], globals()[sys.argv[1]](sys.argv[2])))
