"""Builds the package: wheels with the library inside, and the source distribution. The same files give the same bytes.

pip calls it (PEP 517), and tools/packages does. It needs the standard library alone.
"""

import base64
import gzip
import hashlib
import io
import re
import sysconfig
import tarfile
import zipfile
from pathlib import Path

from pdb_container._library import BUILT

HERE = Path(__file__).resolve().parent
PACKAGE, TESTS = "pdb_container", "tests"
LICENSES = ["LICENSE-APACHE", "LICENSE-MIT"]
# Files of the repository that the source distribution has elsewhere.
MOVED = {"README.md": "docs/PYTHON.md"}
SAMPLE = "examples/sample.pdb"  # which the tests read


def _found(name):
    """A file or a folder of the source distribution, or of the repository around this folder."""
    ours = HERE / name
    return ours if ours.exists() or (HERE / "PKG-INFO").exists() else HERE.parent / MOVED.get(name, name)


def _project():
    """The texts of pyproject.toml that a distribution tells of."""
    return dict(re.findall(r'^([\w-]+) = "(.*)"$', (HERE / "pyproject.toml").read_text(encoding="utf-8"), re.M))


def _metadata():
    about = _project()
    classifiers = re.findall(r'^    "(.+ :: .+)",$', (HERE / "pyproject.toml").read_text(encoding="utf-8"), re.M)
    lines = [
        "Metadata-Version: 2.1",
        f"Name: {about['name']}",
        f"Version: {about['version']}",
        f"Summary: {about['description']}",
        f"License: {about['license']}",
        f"Requires-Python: {about['requires-python']}",
        *(f"Classifier: {it}" for it in classifiers),
        "Description-Content-Type: text/markdown",
        "",
        _found("README.md").read_text(encoding="utf-8"),
    ]
    return "\n".join(lines).encode()


def _files(folder):
    """The sources in a folder, by their names from where the folder is."""
    return {f"{folder.name}/{it.name}": it for it in sorted(folder.iterdir()) if it.suffix in (".py", ".typed")}


def _stem():
    return f"{PACKAGE}-{_project()['version']}"


def targets():
    """The platforms for which there is a library, as sysconfig calls them."""
    return [platform for platform, library in BUILT.items() if _found(f"dist/{library}").is_file()]


def make_wheel(folder, platform):
    """Writes the wheel for a platform, and returns its name."""
    if platform not in targets():
        raise SystemExit(f"there is no library for {platform}, only for {', '.join(targets()) or 'no platform'}")
    tag = "py3-none-" + platform.replace("-", "_").replace("linux", "manylinux2014")
    library = _found(f"dist/{BUILT[platform]}")
    about = f"{_stem()}.dist-info"
    entries = {name: path.read_bytes() for name, path in _files(HERE / PACKAGE).items()}
    entries[f"{PACKAGE}/{library.name}"] = library.read_bytes()
    entries.update({f"{about}/{name}": _found(name).read_bytes() for name in LICENSES})
    entries[f"{about}/METADATA"] = _metadata()
    entries[f"{about}/WHEEL"] = f"Wheel-Version: 1.0\nGenerator: {PACKAGE}\nRoot-Is-Purelib: false\nTag: {tag}\n".encode()
    digest = lambda data: base64.urlsafe_b64encode(hashlib.sha256(data).digest()).rstrip(b"=").decode()
    record = [f"{name},sha256={digest(data)},{len(data)}\n" for name, data in sorted(entries.items())]
    entries[f"{about}/RECORD"] = "".join([*record, f"{about}/RECORD,,\n"]).encode()
    wheel = f"{_stem()}-{tag}.whl"
    with zipfile.ZipFile(Path(folder, wheel), "w", zipfile.ZIP_DEFLATED, compresslevel=9) as archive:
        for name, data in sorted(entries.items()):
            entry = zipfile.ZipInfo(name)  # of 1 January 1980
            entry.compress_type, entry.external_attr, entry.create_system = zipfile.ZIP_DEFLATED, 0o100644 << 16, 3
            archive.writestr(entry, data)
    return wheel


def build_wheel(wheel_directory, config_settings=None, metadata_directory=None):
    """The wheel for the platform that runs this, or for that of the setting `platform`."""
    return make_wheel(wheel_directory, (config_settings or {}).get("platform", sysconfig.get_platform()))


def build_sdist(sdist_directory, config_settings=None):
    """The source distribution, with the tests, what they read, and each library."""
    entries = {name: _found(name) for name in ("pyproject.toml", "backend.py", "README.md", *LICENSES, SAMPLE)}
    entries.update(_files(HERE / PACKAGE), **_files(HERE / TESTS))
    entries.update({f"dist/{BUILT[platform]}": _found(f"dist/{BUILT[platform]}") for platform in targets()})
    data = {"PKG-INFO": _metadata(), **{name: path.read_bytes() for name, path in entries.items()}}
    written = io.BytesIO()
    with tarfile.open(fileobj=written, mode="w", format=tarfile.USTAR_FORMAT) as archive:
        for name in sorted(data):
            entry = tarfile.TarInfo(f"{_stem()}/{name}")
            entry.size, entry.mode = len(data[name]), 0o644
            archive.addfile(entry, io.BytesIO(data[name]))
    sdist = f"{_stem()}.tar.gz"
    with open(Path(sdist_directory, sdist), "wb") as file, gzip.GzipFile("", "wb", 9, file, mtime=0) as packed:
        packed.write(written.getvalue())
    return sdist
