"""The version, which is that of include/kin.h; there it is said when each of its numbers rises."""

__version__ = "2.1.0"
