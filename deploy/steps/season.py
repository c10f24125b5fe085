"""The season of examples/season at a register that is served, by what is installed: season.py FOLDER NAME HOST USER PASSWORD, as root.

FOLDER is examples/season. Commands, letters, lists and reports are requested over HTTPS as USER; the office's tools read the newest nightly copy, which is made
anew after each change; an import, and a file with a draw, are done while the desk is stopped. Each step must print what `expected` has for it. Prints each that does not, and at
the end `N steps as expected`, or `M of N steps not as expected`.
"""
import base64
import http.client
import json
import pathlib
import re
import shlex
import shutil
import socket
import ssl
import subprocess
import sys
import tempfile
import time

AS_DESK = ("setpriv", "--reuid=admissions", "--regid=admissions", "--clear-groups", "--")
REPORTS = {"letter": "/child/{}/letter", "list": "/school/{}/waiting", "round-report": "/round/{}"}


def run(*arguments, **more):
    return subprocess.run([str(it) for it in arguments], text=True, stdout=subprocess.PIPE, stderr=subprocess.STDOUT, check=False, **more)


class Register:
    """The register, its site, and a folder with the files of the example, in which reg.db is its newest copy."""

    def __init__(self, folder, room, name, host, user, password):
        self.name, self.host, self.room, self.is_new = name, host, room, True
        self.copies = pathlib.Path("/var/backups/admissions", name)
        for file in folder.iterdir():
            shutil.copy(file, room)
        self.headers = {"Content-Type": "application/json", "Origin": f"https://{host}", "Authorization": "Basic " + base64.b64encode(f"{user}:{password}".encode()).decode()}
        self.context = ssl.create_default_context(cafile=f"/etc/admissions/{name}/site.crt")

    def connection(self):
        it = http.client.HTTPSConnection(self.host, context=self.context, timeout=60)
        it.sock = self.context.wrap_socket(socket.create_connection(("127.0.0.1", 443), 60), server_hostname=self.host)
        return it

    def ask(self, *paths, body=None):
        """The bodies of the responses to requests over one connection: a POST where there is a body."""
        connection = self.connection()
        for path in paths:
            connection.request("POST" if body else "GET", path, body, self.headers)
            yield connection.getresponse().read().decode()
        connection.close()

    def send(self, lines):
        self.is_new = True
        connection = self.connection()
        for line in lines:
            connection.request("POST", "/command", line, self.headers)
            yield connection.getresponse().read().decode()
        connection.close()

    def wait(self):
        """Until the desk answers."""
        for _ in range(600):
            connection = self.connection()
            connection.request("GET", "/round/1", None, self.headers)
            status = connection.getresponse().status
            connection.close()
            if status in (200, 404):
                return
            time.sleep(0.1)
        raise TimeoutError("the desk does not answer")

    def copy(self):
        """Makes a nightly copy, which is reg.db then."""
        if self.is_new:
            if run("systemctl", "start", f"admissions-backup@{self.name}").returncode:
                raise RuntimeError("the copy was not made")
            shutil.copy(max(self.copies.glob("nightly-*.db")), self.room / "reg.db")
            self.wait()
            self.is_new = False

    def at_the_file(self, *words, text=""):
        """What a subcommand prints that is called as the user of the desks, while the desk is stopped."""
        run("systemctl", "stop", f"admissions@{self.name}")
        done = run(*AS_DESK, "admissions", words[0], f"/var/lib/admissions/{self.name}/reg.db", *words[1:], input=text).stdout
        run("systemctl", "start", f"admissions@{self.name}")
        self.wait()
        self.is_new = True
        return done

    def imported(self, file):
        shutil.copy(self.room / file, "/tmp/season.csv")
        pathlib.Path("/tmp/season.csv").chmod(0o644)
        return self.at_the_file("import", "/tmp/season.csv")

    def done(self, file):
        """The answers to a file of commands. The application takes draws on its own screen alone, with a second person."""
        text = (self.room / file).read_text(encoding="utf-8")
        if any(json.loads(it)["cmd"] in ("round", "fill") for it in text.splitlines()):
            return self.at_the_file("do", text=text)
        return "".join(f"{it}\n" for it in self.send(text.splitlines()))

    def step(self, line):
        """What a step prints, or None where it is none of this."""
        words = shlex.split(line)
        if line.startswith("admissions do"):
            return self.done(words[-1])
        if line.startswith("admissions import"):
            return self.imported(words[-1])
        if words[0] == "admissions" and words[1] in REPORTS:
            return next(self.ask(REPORTS[words[1]].format(words[3])))
        if line.startswith("admissions-backup"):
            self.copy()
            shutil.copy(self.room / "reg.db", self.room / words[-1])
            return f"reg.db is backed up as {words[-1]}\n"
        if line.startswith("admissions-") or line.startswith("admissions pairs"):
            self.copy()
            return run(*words, cwd=self.room).stdout
        if line.startswith("serving"):
            options = {"user": base64.b64decode(self.headers["Authorization"].split()[1]).decode(), "cacert": f"/etc/admissions/{self.name}/site.crt",
                       "resolve": f"{self.host}:443:127.0.0.1"}
            text = "".join(f'{name} = "{value}"\n' for name, value in options.items()) + "".join(f'header = "{it}: {self.headers[it]}"\n' for it in ("Content-Type", "Origin"))
            (self.room / ".curlrc").write_text(text, encoding="utf-8")
            return run("bash", "asks", cwd=self.room, env={"PATH": "/usr/bin:/bin", "HOME": str(self.room), "at": f"https://{self.host}"}).stdout
        return None


def main():
    folder = pathlib.Path(sys.argv[1])
    blocks = re.findall(r"^\$ (.*)\n((?:.*\n)*?)status \d+\n", (folder / "expected").read_text(encoding="utf-8"), re.M)
    count = bad = 0
    with tempfile.TemporaryDirectory() as room:
        register = Register(folder, pathlib.Path(room), *sys.argv[2:])
        for line, wanted in blocks:
            seen = register.step(line)
            if seen is not None:
                count += 1
                if seen != wanted:
                    bad += 1
                    print(f"        {line}: {seen[:300]!r} and not {wanted[:300]!r}", file=sys.stderr)
    print(f"{bad} of {count} steps not as expected" if bad else f"{count} steps as expected")


main()
