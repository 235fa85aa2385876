"""What the script `./ldv` adds to a call of the program, for a world that ends at once.

The size is the number of calls, of both in turn. `ms` of the program and of the script is the least of the
clock, `processor ms` the median of a processor. The program is that of this checkout; if it isn't built,
nothing is measured.
"""
from __future__ import annotations

import os
from typing import Iterator

import harness
from results import Line, line_of
from setting import Setting

WORLD = '{"start":["main"],"files":{"main":"exit 0"}}'
SCRIPT = 'script'


def measured(setting: Setting) -> Iterator[Line]:
    script = os.path.join(harness.ROOT, 'ldv')
    if not os.access(harness.BUILT, os.X_OK) or not os.access(harness.BUILT + '.mark', os.R_OK):
        print("calls: the program of this checkout isn't built, so no call of ./ldv is measured")
        return
    with open(setting.path('world'), 'w', encoding='ascii') as file:
        file.write(WORLD)
    jobs = {SCRIPT: setting.job([script, 'run'], setting.path('world'), os.devnull),
            'program': setting.job([harness.BUILT, 'run'], setting.path('world'), os.devnull)}
    jobs[SCRIPT]()
    for size in setting.sizes:
        taken = setting._replace(runs=size, as_it_comes=True).turns(jobs)
        own = {name: (min(took.clock for took in each) * 1000, harness.median(each) * 1000)
               for name, each in taken.items()}
        for name, each in taken.items():
            more = {'added ms': own[SCRIPT][0] - own['program'][0],
                    'added processor ms': own[SCRIPT][1] - own['program'][1]} if name == SCRIPT else {}
            yield line_of('calls', 'a world that ends', size, name, each,
                          **{'ms': own[name][0], 'processor ms': own[name][1], **more})
