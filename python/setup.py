"""The wheel has a shared library for x86-64 Linux, which no code of Python is compiled for: any Python 3 takes it."""

from setuptools import Distribution, setup
from wheel.bdist_wheel import bdist_wheel


class Wheel(bdist_wheel):
    def get_tag(self):
        # The library needs memcpy and memset of the C library: GLIBC_2.14 at the latest.
        return "py3", "none", "manylinux_2_17_x86_64"


class Binary(Distribution):
    def has_ext_modules(self):
        return True


setup(cmdclass={"bdist_wheel": Wheel}, distclass=Binary)
