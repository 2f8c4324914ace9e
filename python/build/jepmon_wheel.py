"""Builds the Python package (PEP 517 and 660) by the standard library alone, so that `pip install .` needs no network.

A wheel has the module jepmon, the commands of pyproject.toml, and, among its scripts, the released program dist/jepmon. So a wheel is for
the machines on which this program runs.
"""
import base64
import hashlib
import io
import pathlib
import re
import tarfile
import zipfile
from typing import Any, Dict, Iterator, NoReturn, Optional, Tuple

# The program is for Linux on x86-64, and needs no symbol of libc.so.6 later than GLIBC_2.34. pip installs it if glibc is that new.
TAG = "py3-none-manylinux_2_34_x86_64"
TOP = pathlib.Path(__file__).resolve().parents[2]
RESTORE = "restore dist/ (git checkout dist)"
Files = Iterator[Tuple[str, bytes, int]]  # each with its name in the archive and its mode


def stop(reason: str) -> NoReturn:
    raise SystemExit(f"jepmon: {reason}")


def project(table: str) -> Dict[str, str]:
    """The texts of a table of pyproject.toml."""
    text = (TOP / "pyproject.toml").read_text(encoding="utf-8")
    lines = text.partition(f"[{table}]\n")[2].partition("\n[")[0]
    return dict(re.findall(r'^([\w-]+) = "(.*)"$', lines, re.M))


def name_and_version() -> str:
    return f"jepmon-{project('project')['version']}"


def program() -> bytes:
    """The released program. It must be the program that dist/jepmon.from describes."""
    released, origin = TOP / "dist" / "jepmon", TOP / "dist" / "jepmon.from"
    for file in (released, origin):
        if not file.is_file():
            stop(f"there is no dist/{file.name}, and the package takes the released program from dist/: {RESTORE}")
    data = released.read_bytes()
    told = dict(line.split(" ", 1) for line in origin.read_text().splitlines() if " " in line)
    if told.get("program") != hashlib.sha256(data).hexdigest():
        stop(f"dist/jepmon is damaged: its checksum is not the one in dist/jepmon.from: {RESTORE}")
    return data


def modules() -> Files:
    """The files in python/jepmon, pages too."""
    for file in sorted((TOP / "python" / "jepmon").rglob("*")):
        if file.is_file() and "__pycache__" not in file.parts:
            yield file.relative_to(TOP / "python").as_posix(), file.read_bytes(), 0o644


def metadata() -> bytes:
    told, addresses = project("project"), project("project.urls")
    head = (f"Metadata-Version: 2.1\nName: jepmon\nVersion: {told['version']}\nSummary: {told['description']}\n"
            + "".join(f"Project-URL: {name}, {address}\n" for name, address in addresses.items())
            + f"Requires-Python: {told['requires-python']}\nDescription-Content-Type: text/markdown\n\n")
    return (head + page((TOP / told["readme"]).read_text(encoding="utf-8"), addresses.get("Repository"), f"v{told['version']}")).encode()


def page(text: str, repository: Optional[str], tag: str) -> str:
    """The page of the package on an index, which has no files beside it. Links and pictures lead to this version in the repository that
    pyproject.toml names. If it names no repository, a link becomes its words, and there are no pictures."""

    def absolute(match: "re.Match[str]") -> str:
        is_picture, words, target = match.groups()
        if re.match(r"[a-z]+:", target):
            return match.group()
        if repository is None:
            return "" if is_picture else words
        if target.startswith("#"):
            target = f"README.md{target}"
        return f"{is_picture}[{words}]({repository.rstrip('/')}/{'raw' if is_picture else 'blob'}/{tag}/{target})"

    parts = re.split(r"(^```.*?^```$)", text, flags=re.M | re.S)  # commands stay as they are
    return "".join(part if part.startswith("```") else re.sub(r"(!?)\[([^\]]*)\]\(([^)\s]+)\)", absolute, part) for part in parts)


def described() -> Files:
    """The program among the scripts, and the metadata of a wheel."""
    scripts = "".join(f"{name} = {call}\n" for name, call in project("project.scripts").items())
    folder = f"{name_and_version()}.dist-info"
    yield f"{name_and_version()}.data/scripts/jepmon", program(), 0o755
    yield f"{folder}/METADATA", metadata(), 0o644
    yield f"{folder}/WHEEL", f"Wheel-Version: 1.0\nGenerator: jepmon_wheel\nRoot-Is-Purelib: false\nTag: {TAG}\n".encode(), 0o644
    yield f"{folder}/entry_points.txt", f"[console_scripts]\n{scripts}".encode(), 0o644


def write_wheel(folder: str, *parts: Files) -> str:
    """Writes a wheel with these files and the record of their checksums. The same files always make the same bytes."""
    name, record = f"{name_and_version()}-{TAG}.whl", f"{name_and_version()}.dist-info/RECORD"
    lines = []
    files = [file for part in parts for file in part]  # all of them, before a wheel is begun
    with zipfile.ZipFile(pathlib.Path(folder, name), "w", zipfile.ZIP_DEFLATED) as wheel:
        for path, data, mode in files:
            digest = base64.urlsafe_b64encode(hashlib.sha256(data).digest()).rstrip(b"=").decode()
            lines.append(f"{path},sha256={digest},{len(data)}\n")
            write_member(wheel, path, data, mode)
        write_member(wheel, record, ("".join(lines) + f"{record},,\n").encode(), 0o644)
    return name


def write_member(wheel: zipfile.ZipFile, path: str, data: bytes, mode: int) -> None:
    member = zipfile.ZipInfo(path, (1980, 1, 1, 0, 0, 0))
    member.external_attr = (0o100000 | mode) << 16
    member.compress_type = zipfile.ZIP_DEFLATED
    wheel.writestr(member, data)


# --- The calls of PEP 517 and PEP 660 ---


def build_wheel(wheel_directory: str, config_settings: Optional[Any] = None, metadata_directory: Optional[str] = None) -> str:
    return write_wheel(wheel_directory, modules(), described())


def build_editable(wheel_directory: str, config_settings: Optional[Any] = None, metadata_directory: Optional[str] = None) -> str:
    """A wheel whose module is the one in this folder."""
    return write_wheel(wheel_directory, iter([("jepmon.pth", f"{TOP / 'python'}\n".encode(), 0o644)]), described())


def build_sdist(sdist_directory: str, config_settings: Optional[Any] = None) -> str:
    """The files of a wheel, including the program."""
    program()
    name = f"{name_and_version()}.tar.gz"
    with tarfile.open(pathlib.Path(sdist_directory, name), "w:gz", format=tarfile.PAX_FORMAT) as archive:
        for part in ("pyproject.toml", "README.md", "python", "dist"):
            archive.add(TOP / part, f"{name_and_version()}/{part}", filter=without_cache)
        told = tarfile.TarInfo(f"{name_and_version()}/PKG-INFO")
        told.size = len(metadata())
        archive.addfile(told, io.BytesIO(metadata()))
    return name


def without_cache(member: tarfile.TarInfo) -> Optional[tarfile.TarInfo]:
    return None if pathlib.PurePath(member.name).name == "__pycache__" else member
