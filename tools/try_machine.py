"""A machine with one register, without root and systemd: its server, and a thread that answers what
the application asks of the machine, by the commands that the units of a real one run.
"""
import argparse
import os
import pathlib
import socket
import subprocess
import sys
import threading
from types import ModuleType

ROOT = pathlib.Path(__file__).resolve().parent.parent
sys.path.append(str(ROOT / "deploy"))
from machine import (  # noqa: E402
    files, office_copy, office_requests, office_restore, registers,
)


class Machine:
    """A machine with one register, all of it in one folder."""

    # what the application asks of the machine, and who answers
    requests: tuple[tuple[str, ModuleType], ...] = (
        ("copy", office_copy), ("restore", office_restore))

    def __init__(self, folder: pathlib.Path, name: str, program: str) -> None:
        self.folder, self.name, self.program = folder, name, program
        self.lib, self.backups = folder / "lib", folder / "backups"
        self.copies = self.backups / name / "office"
        self.file = self.lib / name / "reg.db"
        self.state = folder / "state" / name
        self.tools = folder / "tools"
        for it in (self.lib / name, self.copies, self.state / "requests"):
            it.mkdir(parents=True, exist_ok=True)
        self.held = socket.socket()
        # (a port that is bound so is given to nobody else, and the program can listen on it)
        self.held.setsockopt(socket.SOL_SOCKET, socket.SO_REUSEADDR, 1)
        self.held.bind(("127.0.0.1", 0))
        self.port = self.held.getsockname()[1]
        self.run: subprocess.Popen[str] | None = None
        self.is_ended = threading.Event()
        self.answered = 0
        self.thread = threading.Thread(target=self.watch)

    @property
    def address(self) -> str:
        """Where the register is served."""
        return f"http://127.0.0.1:{self.port}"

    def places(self) -> list[tuple[object, str, object]]:
        """The attributes that the machine's commands have here: where all is,
        how the server is ended and begun, and that nobody else owns anything.
        """
        def tool(name: str) -> str:
            return str(self.tools / name)

        return [
            (registers, "REGISTERS", self.lib), (registers, "COPIES", self.backups),
            (registers, "SETTINGS", self.folder / "etc"),
            (registers, "OFFICES", self.folder / "state"),
            (office_requests, "start", self.start), (office_requests, "stop", self.stop),
            *((it, "program", tool) for it in (office_copy, office_restore, registers)),
            *((it, "USER", "root") for it in (office_copy, office_restore)),
            (files, "numbers", lambda user, group: (os.getuid(), os.getgid())),
        ]

    def link_tools(self) -> None:
        """Makes the folder with the program and the tools under their names."""
        self.tools.mkdir(exist_ok=True)
        for name, path in (("admissions", pathlib.Path(self.program).resolve()),
                           ("admissions-backup", ROOT / "tools" / "backup"),
                           ("admissions-restore", ROOT / "tools" / "restore")):
            (self.tools / name).unlink(missing_ok=True)
            os.symlink(path, self.tools / name)

    def start(self, *_: object) -> None:
        """Begins the server."""
        if self.run is None:
            # pylint: disable-next=consider-using-with
            self.run = subprocess.Popen([self.program, "serve", str(self.file), str(self.port)],
                                        stdout=subprocess.PIPE, text=True, start_new_session=True)
            assert self.run.stdout
            assert self.run.stdout.readline() == f"serving on 127.0.0.1:{self.port}\n"

    def stop(self, *_: object) -> None:
        """Ends the server, and leaves the register in its file alone."""
        if self.run is not None:
            self.run.terminate()
            self.run.communicate()
            self.run = None
        subprocess.run([self.program, "do", str(self.file)], stdin=subprocess.DEVNULL, check=True)

    def watch(self) -> None:
        """Answers requests, as the units of the machine do."""
        given = argparse.Namespace(name=self.name)
        while not self.is_ended.wait(0.01):
            for name, command in self.requests:
                if os.path.lexists(self.state / "requests" / name):
                    command.main(given)
                    self.answered += 1

    def close(self) -> None:
        """Ends it."""
        self.is_ended.set()
        if self.thread.is_alive():
            self.thread.join()
        if self.run is not None:
            self.stop()
        self.held.close()
