"""Packs the module and the shared library for pip, which calls `build_wheel` by the file pyproject.toml. It needs Python alone."""
import base64
import hashlib
import pathlib
import zipfile

HERE = pathlib.Path(__file__).resolve().parent
NAME, TAG = "hive_library-1.0", "py3-none-linux_x86_64"
METADATA = "Metadata-Version: 2.1\nName: hive_library\nVersion: 1.0\nSummary: The rules of Hive and a search for its best moves\n"
WHEEL = f"Wheel-Version: 1.0\nGenerator: packing\nRoot-Is-Purelib: false\nTag: {TAG}\n"


def build_wheel(folder, settings=None, metadata=None):
    """Writes the package into a folder, and returns its file's name."""
    files = {
        "hive_library/__init__.py": (HERE / "hive_library.py").read_bytes(),
        "hive_library/libhive_library.so": (HERE / "lib" / "libhive_library.so").read_bytes(),
        f"{NAME}.dist-info/METADATA": METADATA.encode(),
        f"{NAME}.dist-info/WHEEL": WHEEL.encode(),
    }
    record = ""
    for name, data in files.items():
        digest = base64.urlsafe_b64encode(hashlib.sha256(data).digest()).decode().rstrip("=")
        record += f"{name},sha256={digest},{len(data)}\n"
    files[f"{NAME}.dist-info/RECORD"] = (record + f"{NAME}.dist-info/RECORD,,\n").encode()
    with zipfile.ZipFile(pathlib.Path(folder) / f"{NAME}-{TAG}.whl", "w", zipfile.ZIP_DEFLATED) as wheel:
        for name, data in files.items():
            wheel.writestr(name, data)
    return f"{NAME}-{TAG}.whl"
