"""A repository with stand-ins, in which `launcher` and `install` run the commands of bin/."""
import os
import subprocess
import tempfile
from pathlib import Path

from shared import ROOT, in_parallel


class Checkout:
    """A repository of some files and commands with nothing proved, and a toolchain whose `rt` is a stand-in."""

    def __init__(self, path, files, commands, rt):
        self.path, self.repository = Path(path), Path(path, "repository")
        for name, text in files.items():
            self.write(name, text)
        for name in commands:
            self.write(name, (ROOT / name).read_text(), 0o755)
        self.write("../kit/bin/rt", rt, 0o755)

    def write(self, name, text, mode=0o644):
        path = self.repository / name
        path.parent.mkdir(parents=True, exist_ok=True)
        path.write_text(text)
        path.chmod(mode)

    def known(self, **more):
        """The environment in which a command runs."""
        path = f"{self.path / 'kit/bin'}:{os.environ['PATH']}"
        return {**os.environ, "PATH": path, "ROOM": str(self.path), **more}

    def change(self, line):
        """Changes the repository by a shell's line."""
        subprocess.run(["bash", "-ec", line], cwd=self.repository, env=self.known(), check=True)


def in_rooms(cases, make):
    """Runs each of the cases, a test and its words, some at a time, in what is made in a folder of its own."""
    def in_a_room(case):
        with tempfile.TemporaryDirectory() as room:
            case[0](make(room), *case[1:])

    in_parallel(in_a_room, cases)
