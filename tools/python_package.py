"""Makes the wheel of the Python package, for pip (PEP 517), of the standard library alone. The shared library goes into
it where tools/shared has built it, and the wheel is then for this machine's kind; else it is for any, and
DURBIZHAN_LIBRARY names the library where it is used."""
import base64
import hashlib
import pathlib
import re
import sysconfig
import zipfile

top = pathlib.Path(__file__).resolve().parent.parent
PACKAGE = top / "python" / "durbizhan"
LIBRARY = top / "target" / "native" / "libdurbizhan.so"


def project():
    """The fields of pyproject.toml that the wheel says again."""
    section = (top / "pyproject.toml").read_text(encoding="utf-8").split("[project]\n")[1]
    return dict(re.findall(r'^([\w-]+) = "(.*)"$', section, re.M))


def tag():
    """What machines the wheel is for."""
    machine = re.sub(r"[-.]", "_", sysconfig.get_platform()) if LIBRARY.exists() else "any"
    return f"py3-none-{machine}"


def sources():
    """The files of the package, and the shared library beside them, by their names in the wheel."""
    paths = [*PACKAGE.glob("*.py"), PACKAGE / "py.typed"]
    found = {f"durbizhan/{path.name}": path.read_bytes() for path in sorted(paths)}
    return found | ({f"durbizhan/{LIBRARY.name}": LIBRARY.read_bytes()} if LIBRARY.exists() else {})


def wheel(directory, files):
    """Writes a wheel of files, and of what it says of itself."""
    told = project()
    stem = f"{told['name']}-{told['version']}"
    described = {"Name": "name", "Version": "version", "Summary": "description", "Requires-Python": "requires-python"}
    metadata = "".join(f"{field}: {told[key]}\n" for field, key in described.items())
    pure = "false" if LIBRARY.exists() else "true"
    files[f"{stem}.dist-info/METADATA"] = f"Metadata-Version: 2.1\n{metadata}".encode()
    made_for = f"Wheel-Version: 1.0\nGenerator: {stem}\nRoot-Is-Purelib: {pure}\nTag: {tag()}\n"
    files[f"{stem}.dist-info/WHEEL"] = made_for.encode()
    record = f"{stem}.dist-info/RECORD"
    files[record] = ("".join(map(recorded, files, files.values())) + f"{record},,\n").encode()
    name = f"{stem}-{tag()}.whl"
    with zipfile.ZipFile(pathlib.Path(directory) / name, "w", zipfile.ZIP_DEFLATED) as made:
        for path, data in files.items():
            made.writestr(path, data)
    return name


def recorded(path, data):
    """A file's line of the record: its digest and its length."""
    digest = base64.urlsafe_b64encode(hashlib.sha256(data).digest()).rstrip(b"=").decode()
    return f"{path},sha256={digest},{len(data)}\n"


def build_wheel(wheel_directory, config_settings=None, metadata_directory=None):
    return wheel(wheel_directory, sources())


def build_editable(wheel_directory, config_settings=None, metadata_directory=None):
    return wheel(wheel_directory, {"durbizhan.pth": f"{PACKAGE.parent}\n".encode()})
