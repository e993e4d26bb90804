"""Makes the wheel, with no other tool: the module, and the library and the program convert of a release.

pip install . takes them from the release that this folder lies in, or from where ZOMPELGORS_LIBRARY and
ZOMPELGORS_CONVERT say. python3 backend.py FOLDER puts the wheel into a folder."""
import base64
import hashlib
import os
import pathlib
import re
import sys
import zipfile

HERE = pathlib.Path(__file__).resolve().parent
MODULE = HERE / "zompelgors"
# In a release this folder is share/zompelgors/python.
RELEASE = HERE.parents[2] if len(HERE.parents) > 2 else HERE
# The library is for x86-64 alone.
TAG = "py3-none-linux_x86_64"
# The first moment that a zip file can name: two wheels of the same files are the same bytes.
WHEN = (1980, 1, 1, 0, 0, 0)


def version():
    return re.search(r'^__version__ = "(.*)"', (MODULE / "__init__.py").read_text(), re.M).group(1)


def _binaries():
    """The files beside the module: the library, without which there is no wheel, and the program if there is one."""
    library = pathlib.Path(os.environ.get("ZOMPELGORS_LIBRARY") or RELEASE / "lib" / "libzompelgors.so")
    program = pathlib.Path(os.environ.get("ZOMPELGORS_CONVERT") or RELEASE / "libexec" / "zompelgors" / "convert")
    if not library.is_file():
        raise SystemExit(f"there is no library {library} (ZOMPELGORS_LIBRARY can name it)")
    yield "zompelgors/libzompelgors.so", library.read_bytes()
    if program.is_file():
        yield "zompelgors/zompelgors-convert", program.read_bytes()


def _metadata():
    """The files that say what it is."""
    about = f"Metadata-Version: 2.1\nName: zompelgors\nVersion: {version()}\nRequires-Python: >=3.8\n"
    about += "Summary: Folded pyramids of generalized maps: the proved library from Python\n"
    wheel = f"Wheel-Version: 1.0\nGenerator: zompelgors\nRoot-Is-Purelib: false\nTag: {TAG}\n"
    folder = f"zompelgors-{version()}.dist-info"
    return folder, [(f"{folder}/METADATA", about.encode()), (f"{folder}/WHEEL", wheel.encode())]


def _line(name, content):
    digest = base64.urlsafe_b64encode(hashlib.sha256(content).digest()).decode().rstrip("=")
    return f"{name},sha256={digest},{len(content)}\n"


def build_wheel(wheel_directory, config_settings=None, metadata_directory=None):
    """The wheel's name, as PEP 517 asks."""
    sources = sorted(file for file in MODULE.iterdir() if file.suffix == ".py" or file.name == "py.typed")
    files = [(f"zompelgors/{file.name}", file.read_bytes()) for file in sources]
    folder, about = _metadata()
    files += [*_binaries(), *about]
    record = "".join(_line(*file) for file in files) + f"{folder}/RECORD,,\n"
    name = f"zompelgors-{version()}-{TAG}.whl"
    with zipfile.ZipFile(pathlib.Path(wheel_directory) / name, "w", zipfile.ZIP_DEFLATED) as wheel:
        for path, content in [*files, (f"{folder}/RECORD", record.encode())]:
            entry = zipfile.ZipInfo(path, WHEN)
            entry.external_attr = (0o100755 if path.endswith("-convert") else 0o100644) << 16
            entry.compress_type = zipfile.ZIP_DEFLATED
            wheel.writestr(entry, content)
    return name


def build_sdist(sdist_directory, config_settings=None):
    """There is none: the release has the sources."""
    raise SystemExit("there is no source package: install from the release, or make a wheel")


if __name__ == "__main__":
    print(build_wheel(sys.argv[1]))
