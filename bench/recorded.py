"""Packages of worlds, with the numbers of their steps and events."""
from __future__ import annotations

import os
import re
import subprocess
import sys
from typing import NamedTuple

import harness
import package_worlds
from results import LDV
from setting import Setting

TOOL = os.path.join(harness.ROOT, 'tools', 'package.py')


class Recorded(NamedTuple):
    steps: int
    events: int
    size: int
    """The bytes of the package."""


def record(setting: Setting, world: str, size: int, target: str = 'package') -> Recorded:
    """Makes the package of a world for all programs, and says what it has. Nothing of it is measured."""
    harness.apart(package_worlds.write_world, setting.path('world'), world, size)
    path = setting.path(target)
    words = [setting.programs[LDV], 'record', '--steps', '10000000']
    harness.measure_well(words, setting.path('world'), path)
    done = subprocess.run([sys.executable, TOOL, path], stdout=subprocess.PIPE, check=True)
    first = done.stdout.decode().partition('\n')[0]
    found = [re.search(fr'([\d,]+) {what}s?\b', first) for what in ('step', 'event')]
    if None in found:
        harness.failed(f'tools/package.py says {first!r}')
    steps, events = (int(each[1].replace(',', '')) for each in found if each)
    return Recorded(steps, events, os.path.getsize(path))


def of_needed(path: str) -> float:
    """The bytes of a package as a multiple of those of its rows, its replies and its trace."""
    done = subprocess.run([sys.executable, TOOL, '--sizes', path], stdout=subprocess.PIPE, check=True)
    text = done.stdout.decode()
    found = [re.search(pattern, text, re.M) for pattern in (r'^all\s+(\d+)', r'^rows,.*\s(\d+)$')]
    if None in found:
        harness.failed(f'tools/package.py --sizes says {text!r}')
    whole, needed = (int(each[1]) for each in found if each)
    return whole / needed
