"""How pip builds the package: by Python's own library alone, so that no net and no setuptools is needed, and with nothing
left in this folder. The package is Python and nothing else; a wheel of it is an archive of its files with a description
(PEP 427), and an archive of sources has the folder as it is (PEP 517).

Settings of a wheel, all of them files but the last: `version`, which says what it was made of; `library`, the shared library, and
`header`, mizgaure.h, which are put beside the modules; and the `platform` that the library runs on, as manylinux_2_17_x86_64.

Before Python 3.11 there is no reader of TOML in the library, and pip is asked for tomli where it isn't there.
"""

import base64
import hashlib
import io
import os
import sys
import tarfile
import zipfile
from contextlib import suppress
from pathlib import Path

HERE = Path(__file__).resolve().parent
TIME = (1980, 1, 1, 0, 0, 0)  # every member has this time, so that the same files make the same archive

# Python keeps what it compiles of this module beside it, before a line of it runs.
sys.dont_write_bytecode = True
compiled = __spec__.cached
if compiled and os.path.exists(compiled):
    os.unlink(compiled)
    with suppress(OSError):
        os.rmdir(os.path.dirname(compiled))

try:
    import tomllib as toml
except ImportError:
    try:
        import tomli as toml
    except ImportError:
        toml = None


def _requires(_settings=None):
    return [] if toml else ["tomli"]


get_requires_for_build_wheel = get_requires_for_build_sdist = _requires


def _project():
    return toml.loads((HERE / "pyproject.toml").read_text(encoding="utf-8"))["project"]


def _metadata(project):
    """The description of the package (PEP 566)."""
    lines = ["Metadata-Version: 2.1", f"Name: {project['name']}", f"Version: {project['version']}", f"Summary: {project['description']}",
             f"Requires-Python: {project['requires-python']}"]
    lines += [f"Requires-Dist: {asked}" for asked in project["dependencies"]]
    for extra, dependencies in project["optional-dependencies"].items():
        lines += [f"Provides-Extra: {extra}", *(f'Requires-Dist: {asked} ; extra == "{extra}"' for asked in dependencies)]
    readme = (HERE / project["readme"]).read_text(encoding="utf-8")
    return "\n".join([*lines, "Description-Content-Type: text/markdown", "", readme])


def _sources():
    """The package's files, each by its place in `src`, in order."""
    folder = HERE / "src"
    return {path.relative_to(folder).as_posix(): path for path in sorted(folder.rglob("*.py"))}


def build_wheel(wheel_directory, config_settings=None, metadata_directory=None):
    """The wheel, for pip: its name, as it stands in the folder."""
    project, settings = _project(), config_settings or {}
    title = f"{project['name']}-{project['version']}"
    tag = f"py3-none-{settings.get('platform', 'any')}"
    commands = "".join(f"{name} = {function}\n" for name, function in project["scripts"].items())
    members = {name: path.read_bytes() for name, path in _sources().items()}
    for setting, name in (("library", "libmizgaure.so.0"), ("header", "mizgaure.h")):
        if setting in settings:
            members[f"{project['name']}/{name}"] = Path(settings[setting]).read_bytes()
    if "version" in settings:
        members[f"{title}.dist-info/version"] = Path(settings["version"]).read_bytes()
    members[f"{title}.dist-info/METADATA"] = _metadata(project).encode()
    pure = str("library" not in settings).lower()
    members[f"{title}.dist-info/WHEEL"] = f"Wheel-Version: 1.0\nGenerator: build_backend\nRoot-Is-Purelib: {pure}\nTag: {tag}\n".encode()
    members[f"{title}.dist-info/entry_points.txt"] = f"[console_scripts]\n{commands}".encode()
    record = f"{title}.dist-info/RECORD"
    members[record] = "".join([*(f"{name},{_digest(octets)},{len(octets)}\n" for name, octets in members.items()), f"{record},,\n"]).encode()
    with zipfile.ZipFile(Path(wheel_directory) / f"{title}-{tag}.whl", "w", zipfile.ZIP_DEFLATED) as archive:
        for name, octets in members.items():
            member = zipfile.ZipInfo(name, TIME)
            member.external_attr = 0o100644 << 16
            archive.writestr(member, octets, zipfile.ZIP_DEFLATED)
    return f"{title}-{tag}.whl"


def _digest(octets):
    return "sha256=" + base64.urlsafe_b64encode(hashlib.sha256(octets).digest()).rstrip(b"=").decode()


def build_sdist(sdist_directory, config_settings=None):
    """The archive of sources: its name, as it stands in the folder."""
    project = _project()
    title = f"{project['name']}-{project['version']}"
    members = {name: (HERE / name).read_bytes() for name in ("pyproject.toml", "build_backend.py", project["readme"])}
    members.update({f"src/{name}": path.read_bytes() for name, path in _sources().items()})
    members["PKG-INFO"] = _metadata(project).encode()
    with tarfile.open(Path(sdist_directory) / f"{title}.tar.gz", "w:gz", format=tarfile.PAX_FORMAT) as archive:
        for name, octets in members.items():
            member = tarfile.TarInfo(f"{title}/{name}")
            member.size = len(octets)
            archive.addfile(member, io.BytesIO(octets))
    return f"{title}.tar.gz"
