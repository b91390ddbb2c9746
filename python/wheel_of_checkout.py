"""Builds the wheel of xgsolve by the standard library alone, so that `pip install` needs no network and no other
package.

The wheel has the package and, beside it, the modules of ../tools/lib, which the scripts of tools/ stand on too: each of
them is one file of the repository. An editable install leaves both where they are.
"""
import base64
import hashlib
import pathlib
import re
import zipfile

HERE = pathlib.Path(__file__).resolve().parent
PACKAGE, MODULES = HERE / "xgsolve", HERE.parent / "tools" / "lib"
# The time of each file in the wheel, so that the same files are the same wheel.
TIME = (1980, 1, 1, 0, 0, 0)


def project(name):
    return re.search(rf'^{name} = "(.*)"$', (HERE / "pyproject.toml").read_text(), re.M)[1]


def info():
    return f"{project('name')}-{project('version')}.dist-info"


def metadata():
    fields = {"Metadata-Version": "2.1", "Name": project("name"), "Version": project("version")}
    fields |= {"Summary": project("description"), "Requires-Python": project("requires-python")}
    return "".join(f"{name}: {value}\n" for name, value in fields.items())


def sources():
    """The bytes of each file of the package, by its name in the wheel."""
    for folder, place in ((PACKAGE, "xgsolve"), (MODULES, "xgsolve/_tools")):
        for path in sorted([*folder.glob("*.py"), *folder.glob("py.typed")]):
            yield f"{place}/{path.name}", path.read_bytes()


def write_wheel(folder, files):
    tag = "py3-none-any"
    told = f"Wheel-Version: 1.0\nGenerator: xgsolve\nRoot-Is-Purelib: true\nTag: {tag}\n"
    files = [*files, (f"{info()}/METADATA", metadata().encode()), (f"{info()}/WHEEL", told.encode())]
    record = "".join(f"{name},sha256={digest(data)},{len(data)}\n" for name, data in files)
    files.append((f"{info()}/RECORD", f"{record}{info()}/RECORD,,\n".encode()))
    wheel = f"{project('name')}-{project('version')}-{tag}.whl"
    with zipfile.ZipFile(pathlib.Path(folder) / wheel, "w", zipfile.ZIP_DEFLATED) as archive:
        for name, data in files:
            place = zipfile.ZipInfo(name, TIME)
            place.external_attr = 0o644 << 16
            archive.writestr(place, data, zipfile.ZIP_DEFLATED)
    return wheel


def digest(data):
    return base64.urlsafe_b64encode(hashlib.sha256(data).digest()).rstrip(b"=").decode()


# What `pip` calls, by PEP 517 and PEP 660.


def build_wheel(wheel_directory, config_settings=None, metadata_directory=None):
    return write_wheel(wheel_directory, list(sources()))


def build_editable(wheel_directory, config_settings=None, metadata_directory=None):
    return write_wheel(wheel_directory, [("xgsolve.pth", f"{HERE}\n".encode())])


def build_sdist(sdist_directory, config_settings=None):
    raise NotImplementedError("the modules of tools/lib lie outside this folder: install from a checkout")
