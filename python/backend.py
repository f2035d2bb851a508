"""Makes the wheel of the module nspk for pip, with the shared library that tools/build-embed makes. It needs nothing but Python."""
import base64
import hashlib
import os
import sysconfig
import zipfile

HERE = os.path.dirname(os.path.abspath(__file__))
LIBRARY = os.path.join(HERE, "..", "out", "embed", "libnspk.so")
NAME = "nspk-0.1"
TAG = "py3-none-" + sysconfig.get_platform().replace("-", "_").replace(".", "_")
METADATA = """Metadata-Version: 2.1
Name: nspk
Version: 0.1
Summary: Runs Newspeak within limits, in this process
Requires-Python: >=3.9
"""
WHEEL = f"""Wheel-Version: 1.0
Generator: nspk
Root-Is-Purelib: false
Tag: {TAG}
"""


def _contents():
    """Each file of the wheel with its bytes."""
    paths = {f"nspk/{name}": os.path.join(HERE, "nspk", name) for name in ("__init__.py", "_library.py", "program.py", "py.typed")}
    if not os.path.isfile(LIBRARY):
        raise FileNotFoundError("out/embed/libnspk.so isn't there: run tools/build-embed first")
    paths["nspk/libnspk.so"] = LIBRARY
    for name, path in paths.items():
        with open(path, "rb") as file:
            yield name, file.read()
    yield f"{NAME}.dist-info/METADATA", METADATA.encode()
    yield f"{NAME}.dist-info/WHEEL", WHEEL.encode()


def _row(name, content):
    digest = base64.urlsafe_b64encode(hashlib.sha256(content).digest()).rstrip(b"=").decode()
    return f"{name},sha256={digest},{len(content)}\n"


def build_wheel(wheel_directory, config_settings=None, metadata_directory=None):
    made = f"{NAME}-{TAG}.whl"
    record = f"{NAME}.dist-info/RECORD"
    with zipfile.ZipFile(os.path.join(wheel_directory, made), "w", zipfile.ZIP_DEFLATED) as wheel:
        rows = ""
        for name, content in _contents():
            wheel.writestr(name, content)
            rows += _row(name, content)
        wheel.writestr(record, rows + f"{record},,\n")
    return made
