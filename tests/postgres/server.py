"""A PostgreSQL server of one's own, in an empty temporary folder, on a socket in that folder and on no port."""

import glob
import os
import pwd
import re
import shutil
import signal
import subprocess
import tempfile
import time

from connection import Connection, Fault

LEAST_VERSION = 15
FOLDERS = ("/usr/lib/postgresql/*/bin", "/usr/pgsql-*/bin", "/usr/local/pgsql/bin", "/usr/local/opt/postgresql*/bin",
           "/opt/homebrew/opt/postgresql*/bin")
SETTINGS = {
    "listen_addresses": "", "port": "5432", "fsync": "off", "full_page_writes": "off", "max_connections": "4",
    "shared_buffers": "32MB", "autovacuum": "off", "max_parallel_workers_per_gather": "0", "jit": "off",
    "temp_file_limit": "1GB", "log_min_messages": "fatal", "log_statement": "none",
}


class Missing(Exception):
    """What the machine lacks for a server."""


def _version(folder):
    program = os.path.join(folder, "postgres")
    if not all(os.access(os.path.join(folder, name), os.X_OK) for name in ("postgres", "initdb")):
        return 0
    said = subprocess.run([program, "--version"], capture_output=True, text=True).stdout
    number = re.search(r"\) (\d+)", said)
    return int(number.group(1)) if number else 0


def find_programs():
    """The folder of the newest server that is installed, and its version."""
    folders = [folder for folder in os.environ.get("PATH", "").split(os.pathsep) if folder]
    if shutil.which("pg_config"):
        folders.append(subprocess.run(["pg_config", "--bindir"], capture_output=True, text=True).stdout.strip())
    for pattern in FOLDERS:
        folders.extend(glob.glob(pattern))
    version, folder = max(((_version(folder), folder) for folder in folders), default=(0, ""))
    if version < LEAST_VERSION:
        found = f"the newest that was found is version {version}" if version else "none was found"
        raise Missing(f"this needs PostgreSQL {LEAST_VERSION} or later with its programs postgres and initdb on PATH "
                      f"(Debian: apt-get install postgresql); {found}")
    return folder, version


class Server:
    """Started on entry; ended, and its folder removed, on exit."""

    def __init__(self):
        self.programs, self.version = find_programs()
        self.process = None
        self.folder = None
        self.identity = {}
        if os.geteuid() == 0:
            # The server refuses to run as root.
            account = pwd.getpwnam("nobody")
            self.identity = {"user": account.pw_uid, "group": account.pw_gid, "extra_groups": []}

    def __enter__(self):
        try:
            self._start()
        except BaseException:
            self._end()
            raise
        return self

    def __exit__(self, *_):
        self._end()

    def connect(self):
        return Connection(os.path.join(self.folder, ".s.PGSQL.5432"), "away", "postgres")

    def _start(self):
        self.folder = tempfile.mkdtemp(prefix="away-postgres-")
        if len(self.folder) > 80:
            raise Missing(f"the path {self.folder} is too long for a socket; set TMPDIR to a shorter one")
        if self.identity:
            os.chown(self.folder, self.identity["user"], self.identity["group"])
        kept = {name: value for name, value in os.environ.items() if not name.startswith("PG")}
        how = {"cwd": self.folder, "env": {**kept, "HOME": self.folder, "LC_ALL": "C"}, "stdin": subprocess.DEVNULL,
               "start_new_session": True, **self.identity}
        data = os.path.join(self.folder, "data")
        log = os.path.join(self.folder, "log")
        with open(log, "wb") as out:
            made = self._call([os.path.join(self.programs, "initdb"), "--pgdata", data, "--username", "away",
                               "--auth", "trust", "--encoding", "UTF8", "--locale", "C", "--no-sync"], out, how)
            if made != 0:
                raise Missing("initdb failed: " + _end_of(log))
            words = [os.path.join(self.programs, "postgres"), "-D", data, "-k", self.folder]
            for name, value in SETTINGS.items():
                words += ["-c", f"{name}={value}"]
            self.process = subprocess.Popen(words, stdout=out, stderr=subprocess.STDOUT, **how)
        self._wait_until_it_answers(log)

    def _call(self, words, out, how):
        self.process = subprocess.Popen(words, stdout=out, stderr=subprocess.STDOUT, **how)
        status = self.process.wait()
        self.process = None
        return status

    def _wait_until_it_answers(self, log):
        until = time.monotonic() + 60
        while True:
            try:
                self.connect().close()
                return
            except (OSError, Fault):
                if self.process.poll() is not None or time.monotonic() > until:
                    raise Missing("the server didn't start: " + _end_of(log)) from None
            time.sleep(0.05)

    def _end(self):
        """Asks the server (or initdb) for a fast end first, and takes its whole session down where it doesn't come."""
        for number in (signal.SIGINT, signal.SIGTERM, signal.SIGHUP):
            signal.signal(number, signal.SIG_IGN)
        if self.process is not None:
            for number, seconds in ((signal.SIGINT, 10), (signal.SIGQUIT, 5)):
                self.process.send_signal(number)
                try:
                    self.process.wait(seconds)
                    break
                except subprocess.TimeoutExpired:
                    continue
            else:
                os.killpg(self.process.pid, signal.SIGKILL)
                self.process.wait()
            self.process = None
        for _ in range(20):
            if self.folder is None or not os.path.exists(self.folder):
                break
            shutil.rmtree(self.folder, ignore_errors=True)
            time.sleep(0.1)


def _end_of(log):
    with open(log, encoding="utf-8", errors="replace") as lines:
        return " ".join(lines.read().split()[-40:])
