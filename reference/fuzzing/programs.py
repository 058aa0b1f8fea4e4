"""Calls of the built programs, each in a folder of its own that holds the files of a case."""

from __future__ import annotations

import os
import shutil
import subprocess
import tempfile
from typing import Optional, Sequence, Union

from fuzzing.cases import Files

Answer = tuple[bytes, bytes, Union[int, str]]

TIMEOUT = "timeout"


class Programs:
    """The programs by name; each is a list of words to call it by.

    A call that does not end in time is tried once more with ten times the time, since the machine may be busy. After
    a call that does not end even so, no other is tried twice.
    """

    def __init__(self, programs: dict[str, list[str]], timeout: float, parent: Optional[str] = None) -> None:
        self.programs = programs
        self.times = [timeout, 10 * timeout]
        self.room = tempfile.mkdtemp(prefix="call_", dir=parent)

    def close(self) -> None:
        shutil.rmtree(self.room, ignore_errors=True)

    def answer(self, program: str, words: Sequence[bytes], files: Files) -> Answer:
        """Standard output, standard error and the status, or TIMEOUT in its place."""
        for name in os.listdir(self.room):
            os.remove(os.path.join(self.room, name))
        for name_bytes, data in files.items():
            with open(os.path.join(self.room.encode(), name_bytes), "wb") as file:
                file.write(data)
        call: list[Union[str, bytes]] = [*self.programs[program], *words]
        for seconds in self.times:
            try:
                done = subprocess.run(
                    call, cwd=self.room, stdin=subprocess.DEVNULL, capture_output=True, timeout=seconds, check=False
                )
                return done.stdout, done.stderr, done.returncode
            except subprocess.TimeoutExpired:
                pass
        del self.times[1:]
        return b"", b"", TIMEOUT
