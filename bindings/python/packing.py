"""Makes the package of mtree for pip: a wheel that runs without the clone. It needs Python's own library alone.

The library is the file that the variable MTREE_LIBRARY names, or mtree/libmtree.so, where bindings/build puts it. The program is the one that
MTREE_PROGRAM names, or mtree/mtree_cli, or the one that ./mtree has built. Either may be missing. Use without pip: packing.py FOLDER."""

import base64
import hashlib
import io
import os
import re
import sys
import sysconfig
import tarfile
import zipfile

HERE = os.path.dirname(os.path.abspath(__file__))
BUILT = os.path.join(HERE, "..", "..", "crates", "mtree_cli", "out", "mtree_cli")


def get_requires_for_build_wheel(config_settings=None):
    return []


def get_requires_for_build_sdist(config_settings=None):
    return []


def get_requires_for_build_editable(config_settings=None):
    return []


def build_wheel(wheel_directory, config_settings=None, metadata_directory=None):
    """Makes the wheel in a folder, and tells its name."""
    return write_wheel(wheel_directory, modules() + built())


def build_editable(wheel_directory, config_settings=None, metadata_directory=None):
    """Makes a wheel that leads to this folder, and tells its name."""
    return write_wheel(wheel_directory, [("mtree.pth", f"{HERE}\n".encode(), 0o644)])


def build_sdist(sdist_directory, config_settings=None):
    """Makes an archive of this folder, with the library and the program, and tells its name."""
    about = facts()
    top = f"{about['name']}-{about['version']}"
    files = [(name, read(name), 0o644) for name in ("pyproject.toml", "packing.py", "README.md")] + modules() + built()
    with tarfile.open(os.path.join(sdist_directory, f"{top}.tar.gz"), "w:gz", format=tarfile.PAX_FORMAT) as archive:
        for name, held, mode in [*files, ("PKG-INFO", metadata(about), 0o644)]:
            entry = tarfile.TarInfo(f"{top}/{name}")
            entry.size, entry.mode = len(held), mode
            archive.addfile(entry, io.BytesIO(held))
    return f"{top}.tar.gz"


def facts():
    """The lines `name = "words"` of pyproject.toml."""
    return dict(re.findall(r'^([a-z-]+) = "(.*)"$', read("pyproject.toml").decode(), re.M))


def read(name):
    with open(os.path.join(HERE, name), "rb") as file:
        return file.read()


def modules():
    names = sorted(name for name in os.listdir(os.path.join(HERE, "mtree")) if name.endswith(".py") or name == "py.typed")
    return [(f"mtree/{name}", read(f"mtree/{name}"), 0o644) for name in names]


def built():
    """The library and the program."""
    found = []
    for name, variable, places in (("libmtree.so", "MTREE_LIBRARY", ["mtree/libmtree.so"]), ("mtree_cli", "MTREE_PROGRAM", ["mtree/mtree_cli", BUILT])):
        named = os.environ.get(variable)
        if named and not is_built(named):
            raise SystemExit(f"mtree: {variable} names {named}, which is not a built file")
        for place in [named] if named else places:
            if is_built(os.path.join(HERE, place)):
                found.append((f"mtree/{name}", read(os.path.abspath(place) if named else place), 0o755))
                break
        else:
            print(f"mtree: the package gets no {name}: {'bindings/build' if name == 'libmtree.so' else './mtree'} makes it", file=sys.stderr)
    if not found:
        raise SystemExit("mtree: neither the library nor the program is built. Run ./mtree for the program, bindings/build for the library.")
    return found


def is_built(path):
    """Whether the path is an ELF file, and no script that would build one."""
    try:
        with open(path, "rb") as file:
            return file.read(4) == b"\x7fELF"
    except OSError:
        return False


def metadata(about):
    lines = ["Metadata-Version: 2.1", f"Name: {about['name']}", f"Version: {about['version']}", f"Summary: {about['description']}", "License: MIT",
             f"Requires-Python: {about['requires-python']}", "Description-Content-Type: text/markdown", "", read("README.md").decode()]
    return "\n".join(lines).encode()


def write_wheel(folder, files):
    about = facts()
    name, version = about["name"], about["version"]
    tag = "py3-none-" + re.sub(r"[-.]", "_", sysconfig.get_platform())
    told = f"{name}-{version}.dist-info"
    files = [*files, (f"{told}/METADATA", metadata(about), 0o644),
             (f"{told}/WHEEL", f"Wheel-Version: 1.0\nGenerator: packing.py\nRoot-Is-Purelib: false\nTag: {tag}\n".encode(), 0o644)]
    license_path = os.path.join(HERE, "..", "..", "LICENSE")
    if os.path.exists(license_path):
        files.append((f"{told}/LICENSE", read(license_path), 0o644))
    record = "".join(f"{path},sha256={digest(held)},{len(held)}\n" for path, held, _ in files) + f"{told}/RECORD,,\n"
    wheel = f"{name}-{version}-{tag}.whl"
    with zipfile.ZipFile(os.path.join(folder, wheel), "w", zipfile.ZIP_DEFLATED) as archive:
        for path, held, mode in [*files, (f"{told}/RECORD", record.encode(), 0o644)]:
            entry = zipfile.ZipInfo(path)  # of the year 1980, so that equal files make equal wheels
            entry.external_attr = (0o100000 | mode) << 16
            entry.compress_type = zipfile.ZIP_DEFLATED
            archive.writestr(entry, held)
    return wheel


def digest(held):
    return base64.urlsafe_b64encode(hashlib.sha256(held).digest()).rstrip(b"=").decode()


if __name__ == "__main__":
    print(build_wheel(sys.argv[1]))
