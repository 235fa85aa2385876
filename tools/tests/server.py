"""A PostgreSQL server for tests, in a folder of its own, run by another user where this is root."""
from __future__ import annotations

import glob
import os
import pwd
import shutil
import subprocess
import tempfile
from typing import Optional


def program(name: str) -> Optional[str]:
    """A program of the server, or None."""
    found = sorted(glob.glob(f"/usr/lib/postgresql/*/bin/{name}"))
    return found[-1] if found else shutil.which(name)


class Server:
    """A server that listens on a socket of its folder alone, and is gone with it."""

    def __init__(self) -> None:
        self.folder = tempfile.mkdtemp()
        self.user = None
        if os.getuid() == 0:
            names = {each.pw_name for each in pwd.getpwall()}
            self.user = pwd.getpwnam("postgres" if "postgres" in names else "nobody")
            os.chown(self.folder, self.user.pw_uid, self.user.pw_gid)
        self.data = os.path.join(self.folder, "data")
        self.call("initdb", "-D", self.data, "-A", "trust", "-U", "ldv", "--no-sync", "--locale=C.UTF-8",
                  "-E", "UTF8")
        options = f"-c listen_addresses='' -c unix_socket_directories='{self.folder}' -c fsync=off"
        self.call("pg_ctl", "-D", self.data, "-o", options, "-w", "-l", os.path.join(self.folder, "log"),
                  "start")
        self.dsn = f"host={self.folder} user=ldv dbname=postgres"
        self.url = f"postgresql+psycopg2://ldv@/postgres?host={self.folder}"

    def call(self, name: str, *words: str) -> None:
        def become() -> None:
            if self.user is not None:
                os.setgid(self.user.pw_gid)
                os.setuid(self.user.pw_uid)
        subprocess.run([program(name) or name, *words], cwd=self.folder, preexec_fn=become, check=True,
                       stdin=subprocess.DEVNULL, stdout=subprocess.DEVNULL, stderr=subprocess.DEVNULL)

    def stop(self) -> None:
        """Stops the server, and takes its folder away."""
        if os.path.exists(self.data):
            self.call("pg_ctl", "-D", self.data, "-m", "immediate", "stop")
        shutil.rmtree(self.folder, ignore_errors=True)
