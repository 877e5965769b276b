"""Calls of away."""

import os
import subprocess

from cases import TOP
from server import Missing


class Away:
    def __init__(self, path):
        self.path = path or os.environ.get("AWAY") or str(TOP / "away")
        # Without words it says usage; the script away proves and builds the program before, where it must.
        if self.call().returncode != 2:
            raise Missing(f"{self.path} isn't away, or can't be built")

    def call(self, *words):
        try:
            return subprocess.run([self.path, *words], stdout=subprocess.PIPE, text=True)
        except OSError as error:
            raise Missing(f"{self.path} doesn't run: {error.strerror}") from None

    def line(self, *words):
        """The line that it writes."""
        said = self.call(*words)
        return said.stdout.strip("\n") or f"status {said.returncode} and nothing written"
