# Compiles idc.c for the package; idc.py finds the library by its name, _idc, and calls it by ctypes.
from setuptools import Extension, setup

setup(ext_modules=[Extension("_idc", ["idc.c"], extra_compile_args=["-w", "-O1"], libraries=["m"])])
