"""The version of the package, and of the library that it calls."""

__version__ = "0.1.0"
