"""Packs the package as a wheel by the standard library alone: pip installs it without a network, a
setuptools of some version, or the package `wheel`, and from a folder that it may not write.

`pyproject.toml` names this module as the build backend; pip calls the two functions at its end.
"""
import base64
import configparser
import hashlib
import re
import zipfile
from pathlib import Path
from typing import Dict, Iterator, List, Optional, Tuple

HERE = Path(__file__).resolve().parent
METADATA = (("Name", "name"), ("Version", "version"), ("Summary", "description"),
            ("Requires-Python", "requires-python"), ("License", "license"),
            ("Classifier", "classifiers"))
WHEEL = "Wheel-Version: 1.0\nGenerator: satcluster\nRoot-Is-Purelib: true\nTag: py3-none-any\n"


class Project:
    """What pyproject.toml tells. Python before 3.11 reads no TOML, but `configparser` reads that
    file, since each value stands on one line."""

    def __init__(self) -> None:
        self._file = configparser.ConfigParser(delimiters="=", interpolation=None)
        self._file.read(str(HERE / "pyproject.toml"), encoding="utf-8")
        self.stem = "-".join(self.texts("project", "name") + self.texts("project", "version"))

    def texts(self, table: str, name: str) -> List[str]:
        """What stands in quotes."""
        return re.findall('"(.*?)"', self._file[table][name])

    def metadata(self) -> str:
        lines = ["%s: %s\n" % (to, text) for to, name in METADATA
                 for text in self.texts("project", name)]
        return "Metadata-Version: 2.1\n" + "".join(lines)

    def scripts(self) -> str:
        table = "project.scripts"
        lines = ["%s = %s\n" % (name, text) for name in self._file[table]
                 for text in self.texts(table, name)]
        return "[console_scripts]\n" + "".join(lines)


def files(project: Project, is_editable: bool) -> Iterator[Tuple[str, bytes]]:
    """The names and the bytes of what is installed, but for the list of these."""
    if is_editable:
        yield "satcluster.pth", ("%s\n" % HERE).encode()
    for path in () if is_editable else sorted((HERE / "satcluster").rglob("*")):
        if path.suffix == ".py" or path.name == "py.typed":
            yield path.relative_to(HERE).as_posix(), path.read_bytes()
    for name, text in (("METADATA", project.metadata()), ("WHEEL", WHEEL),
                       ("entry_points.txt", project.scripts())):
        yield "%s.dist-info/%s" % (project.stem, name), text.encode()


def write_wheel(folder: str, is_editable: bool = False) -> str:
    """Writes the wheel to a folder, and returns its name."""
    project = Project()
    name, record = project.stem + "-py3-none-any.whl", project.stem + ".dist-info/RECORD"
    rows = ""
    with zipfile.ZipFile(Path(folder) / name, "w", zipfile.ZIP_DEFLATED) as wheel:
        for path, data in files(project, is_editable):
            wheel.writestr(zipfile.ZipInfo(path), data, zipfile.ZIP_DEFLATED)
            digest = base64.urlsafe_b64encode(hashlib.sha256(data).digest()).decode().rstrip("=")
            rows += "%s,sha256=%s,%d\n" % (path, digest, len(data))
        wheel.writestr(zipfile.ZipInfo(record), rows + record + ",,\n")
    return name


def build_wheel(wheel_directory: str, config_settings: Optional[Dict[str, str]] = None,
                metadata_directory: Optional[str] = None) -> str:
    """What pip calls (PEP 517)."""
    return write_wheel(wheel_directory)


def build_editable(wheel_directory: str, config_settings: Optional[Dict[str, str]] = None,
                   metadata_directory: Optional[str] = None) -> str:
    """What `pip install -e` calls (PEP 660): the package stays where it is."""
    return write_wheel(wheel_directory, is_editable=True)
