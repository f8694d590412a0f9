"""The version of this package, which is the version of the C library that it is written for."""

__version__ = "0.1.0"
