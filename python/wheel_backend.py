"""Makes the wheel of the module for pip (PEP 517, PEP 427), and its source archive, with Python's standard library only.

The module becomes the package `blocktree`, since only a package can carry the file py.typed, by which type checkers know that it has hints (PEP 561).
"""

import base64
import hashlib
import io
import os
import re
import tarfile
import zipfile

HERE = os.path.dirname(os.path.abspath(__file__))
SOURCES = ["blocktree.py", "pyproject.toml", "wheel_backend.py"]


def read(name):
    with open(os.path.join(HERE, name), encoding="utf-8") as file:
        return file.read()


def described():
    """The module's name and version, and its metadata: the strings of pyproject.toml and the module's __version__."""
    project = dict(re.findall(r'^([a-z-]+) = (?:\{ text = )?"(.*)"', read("pyproject.toml"), re.M))
    version = re.search(r'^__version__ = "(.*)"', read("blocktree.py"), re.M)[1]
    fields = [("Metadata-Version", "2.1"), ("Name", project["name"]), ("Version", version), ("Summary", project["description"])]
    fields += [("License", project["license"]), ("Requires-Python", project["requires-python"])]
    return project["name"], version, "".join("%s: %s\n" % field for field in fields)


def build_wheel(wheel_directory, config_settings=None, metadata_directory=None):
    name, version, metadata = described()
    folder = "%s-%s.dist-info" % (name, version)
    files = {
        name + "/__init__.py": read("blocktree.py"),
        name + "/py.typed": "",
        folder + "/METADATA": metadata,
        folder + "/WHEEL": "Wheel-Version: 1.0\nGenerator: wheel_backend\nRoot-Is-Purelib: true\nTag: py3-none-any\n",
    }
    record = folder + "/RECORD"
    files[record] = "".join(entry(path, text.encode()) for path, text in files.items()) + record + ",,\n"
    wheel = "%s-%s-py3-none-any.whl" % (name, version)
    with zipfile.ZipFile(os.path.join(wheel_directory, wheel), "w") as archive:
        for path, text in files.items():
            # one time for all files: the same sources make the same wheel
            archive.writestr(zipfile.ZipInfo(path), text)
    return wheel


def entry(path, content):
    """A line of RECORD: path, digest, length."""
    digest = base64.urlsafe_b64encode(hashlib.sha256(content).digest()).rstrip(b"=").decode()
    return "%s,sha256=%s,%d\n" % (path, digest, len(content))


def build_sdist(sdist_directory, config_settings=None):
    name, version, metadata = described()
    folder = "%s-%s" % (name, version)
    with tarfile.open(os.path.join(sdist_directory, folder + ".tar.gz"), "w:gz", format=tarfile.PAX_FORMAT) as archive:
        for path, text in [("PKG-INFO", metadata)] + [(source, read(source)) for source in SOURCES]:
            content = text.encode()
            member = tarfile.TarInfo("%s/%s" % (folder, path))
            member.size = len(content)
            archive.addfile(member, io.BytesIO(content))
    return folder + ".tar.gz"
