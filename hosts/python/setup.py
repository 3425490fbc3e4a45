"""Compiles the module in C over the library that `scripts/library DIR` installed: into DIR/lib, the
folder that RUGHVADI_LIB_DIR names, if this one isn't DIR/share/rughvadi/python."""

import os
import sysconfig
from pathlib import Path

from setuptools import Extension, setup

HERE = Path(__file__).resolve().parent
LIB = Path(os.environ.get("RUGHVADI_LIB_DIR") or HERE.parents[2] / "lib")

# One module for all versions, but for interpreters without a lock: they load no such module.
LIMITED = not sysconfig.get_config_var("Py_GIL_DISABLED")

PARTS = ("module", "party", "client", "server", "wire", "transaction")

core = Extension(
    "rughvadi._core",
    sources=[f"core/{name}.c" for name in PARTS],
    depends=["core/core.h"],
    include_dirs=[str(LIB.parent / "include")],
    extra_objects=[str(LIB / "librughvadi.a")],
    define_macros=[("Py_LIMITED_API", "0x030B0000")] if LIMITED else [],
    extra_compile_args=["-std=c11", "-g0", "-fvisibility=hidden", "-Wextra", "-Wconversion"],
    extra_link_args=["-Wl,--exclude-libs,ALL"],
    py_limited_api=LIMITED,
)
options = {"bdist_wheel": {"py_limited_api": "cp311"}} if LIMITED else {}
setup(ext_modules=[core], options=options)
