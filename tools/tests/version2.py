"""Spells packages that were read: in version 2, and two of them as a joined package (docs/FORMATS.md)."""
from __future__ import annotations

from cases.package_versions import spelled as spelled_in
from cases.packages_joined import joined
from ldvtools.packages import Package

__all__ = ["joined", "spelled"]


def spelled(package: Package) -> bytes:
    """The version 2 of a package."""
    return spelled_in(2, package)
