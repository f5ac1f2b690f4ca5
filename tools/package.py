"""Builds the Python package for `pip install .`: the modules of python/oatmist, and beside them the proved library, which tools/build makes.

It needs Python's standard library alone, so that pip has nothing to download. The functions are those that pip calls (PEP 517).
"""
import base64
import hashlib
import os
import sys
import sysconfig
import zipfile

TOP = os.path.dirname(os.path.dirname(os.path.abspath(__file__)))
PYTHON = os.path.join(TOP, "python")
sys.path.insert(0, PYTHON)

from oatmist import library, receipts, version

TAG = "py3-none-" + sysconfig.get_platform().replace("-", "_").replace(".", "_")
INFO = f"oatmist-{version.version()}.dist-info"
METADATA = f"""Metadata-Version: 2.1
Name: oatmist
Version: {version.version()}
Summary: A verified marking desk for a concurrency course
Requires-Python: >=3.8
"""
WHEEL = f"""Wheel-Version: 1.0
Generator: oatmist
Root-Is-Purelib: false
Tag: {TAG}
"""
SCRIPTS = "[console_scripts]\noatmist = oatmist.cli:main\n"


def modules():
    """The modules of the package: their places in it and their bytes."""
    for folder, _, names in sorted(os.walk(os.path.join(PYTHON, "oatmist"))):
        for name in sorted(names):
            if name.endswith(".py"):
                path = os.path.join(folder, name)
                yield os.path.relpath(path, PYTHON), read(path)


def read(path):
    with open(path, "rb") as file:
        return file.read()


def record(place, data):
    """The line of a file in the list of all files."""
    digest = base64.urlsafe_b64encode(hashlib.sha256(data).digest()).rstrip(b"=").decode()
    return f"{place},sha256={digest},{len(data)}\n"


def build_wheel(wheel_directory, config_settings=None, metadata_directory=None):
    """Writes the package; its file name."""
    files = dict(modules())
    files["oatmist/VERSION"] = read(os.path.join(TOP, "VERSION"))
    built = library.build()
    files[f"oatmist/{library.NAME}"] = read(built)
    files[f"oatmist/{receipts.ORIGIN}"] = "\n".join(receipts.origin(built)).encode()
    files.update({f"{INFO}/METADATA": METADATA.encode(), f"{INFO}/WHEEL": WHEEL.encode(), f"{INFO}/entry_points.txt": SCRIPTS.encode()})
    listed = "".join(record(place, data) for place, data in files.items()) + f"{INFO}/RECORD,,\n"
    name = f"oatmist-{version.version()}-{TAG}.whl"
    with zipfile.ZipFile(os.path.join(wheel_directory, name), "w", zipfile.ZIP_DEFLATED) as wheel:
        for place, data in {**files, f"{INFO}/RECORD": listed.encode()}.items():
            wheel.writestr(place, data)
    return name


def build_sdist(sdist_directory, config_settings=None):
    """The checkout itself is the source."""
    raise NotImplementedError("install from the checkout: pip install .")
