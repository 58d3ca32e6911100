"""Packs the client for pip, with the standard library alone, so that `pip install ./clients/python` needs no network.

The client reads programs by modules of the repository's tools/. They go into the package's own folder tools/, where borrowed.py finds them.
"""
import base64
import gzip
import hashlib
import io
import os
import tarfile
import zipfile

HERE = os.path.dirname(os.path.dirname(os.path.abspath(__file__)))
NAME, VERSION, PYTHON = "hitchseason", "0.1", ">=3.9"
INFO = f"{NAME}-{VERSION}.dist-info"
SUMMARY = "A client of the Hitchseason query server for analysts"
METADATA = f"Metadata-Version: 2.1\nName: {NAME}\nVersion: {VERSION}\nSummary: {SUMMARY}\nRequires-Python: {PYTHON}\n"
WHEEL = "Wheel-Version: 1.0\nGenerator: wheels\nRoot-Is-Purelib: true\nTag: py3-none-any\n"
SCRIPTS = "[console_scripts]\nhitchseason-client = hitchseason.__main__:main\n"
BORROWED = ("explain", "public")
MOMENT = (1980, 1, 1, 0, 0, 0)


def tools():
    """Those of the repository, or those in an archive of sources."""
    places = [f"{HERE}/{NAME}/tools", f"{os.path.dirname(os.path.dirname(HERE))}/tools"]
    for place in places:
        if os.path.isdir(f"{place}/lib"):
            return place
    raise RuntimeError(f"there is no {places[1]}/lib: the client is built in its repository, by pip 21.3 or later")


def bytes_of(name):
    with open(name, "rb") as file:
        return file.read()


def modules_of(folder, to):
    return {f"{to}/{name}": bytes_of(f"{folder}/{name}") for name in sorted(os.listdir(folder)) if name.endswith(".py")}


def package():
    """The package's files by their names."""
    found, of = modules_of(f"{HERE}/{NAME}", NAME), tools()
    found.update({f"{NAME}/tools/{name}": bytes_of(f"{of}/{name}") for name in BORROWED})
    return {**found, **modules_of(f"{of}/lib", f"{NAME}/tools/lib")}


def about():
    return {f"{INFO}/METADATA": METADATA.encode(), f"{INFO}/WHEEL": WHEEL.encode(), f"{INFO}/entry_points.txt": SCRIPTS.encode()}


def packed(folder, files):
    """A wheel of files, the same bytes each time."""
    name = f"{NAME}-{VERSION}-py3-none-any.whl"
    lines = []
    with zipfile.ZipFile(f"{folder}/{name}", "w", zipfile.ZIP_DEFLATED) as wheel:
        for path, data in {**files, **about()}.items():
            digest = base64.urlsafe_b64encode(hashlib.sha256(data).digest()).rstrip(b"=").decode()
            lines.append(f"{path},sha256={digest},{len(data)}\n")
            wheel.writestr(zipfile.ZipInfo(path, MOMENT), data, zipfile.ZIP_DEFLATED)
        wheel.writestr(zipfile.ZipInfo(f"{INFO}/RECORD", MOMENT), "".join([*lines, f"{INFO}/RECORD,,\n"]))
    return name


# What pip calls.


def build_wheel(wheel_directory, config_settings=None, metadata_directory=None):
    return packed(wheel_directory, package())


def build_editable(wheel_directory, config_settings=None, metadata_directory=None):
    return packed(wheel_directory, {f"{NAME}.pth": f"{HERE}\n".encode()})


def build_sdist(sdist_directory, config_settings=None):
    name = f"{NAME}-{VERSION}"
    files = {"pyproject.toml": bytes_of(f"{HERE}/pyproject.toml"), "PKG-INFO": METADATA.encode(), **modules_of(f"{HERE}/backend", "backend"), **package()}
    with open(f"{sdist_directory}/{name}.tar.gz", "wb") as raw, gzip.GzipFile("", "wb", fileobj=raw, mtime=0) as zipped:
        with tarfile.open(fileobj=zipped, mode="w", format=tarfile.PAX_FORMAT) as archive:
            for path, data in files.items():
                entry = tarfile.TarInfo(f"{name}/{path}")
                entry.size = len(data)
                archive.addfile(entry, io.BytesIO(data))
    return f"{name}.tar.gz"
