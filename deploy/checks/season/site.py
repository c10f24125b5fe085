"""Where the application is: its address, the certificate to trust, browsers for its people, and the
register as a program with a token reads it.
"""
import base64
import contextlib
import dataclasses
import hashlib
import http.client
import json
import os
import pathlib
import shutil
import socket
import ssl
import subprocess
import urllib.parse
from collections.abc import Iterator
from typing import Any

from selenium import webdriver
from selenium.webdriver.chrome.options import Options
from selenium.webdriver.chrome.service import Service
from selenium.webdriver.remote.webdriver import WebDriver

ARGUMENTS = (
    "--headless=new", "--disable-gpu", "--disable-dev-shm-usage", "--no-first-run",
    "--disable-background-networking", "--disable-component-update", "--disable-extensions",
    "--no-proxy-server", "--lang=en-GB")
# for so long a page may load on a machine that is busy
SECONDS = 600


@dataclasses.dataclass(frozen=True)
class Site:
    """An application: its address as browsers show it, without a path; the certificate of a site
    that no authority has signed; and where it is (HOST:PORT), if its name does not say that.
    """

    url: str
    certificate: pathlib.Path | None = None
    place: str = ""

    @property
    def host(self) -> str:
        """The name of its host."""
        return urllib.parse.urlsplit(self.url).hostname or ""

    @property
    def port(self) -> int:
        """Its port."""
        found = urllib.parse.urlsplit(self.url)
        return found.port or (443 if found.scheme == "https" else 80)

    def pin(self) -> str:
        """The digest of its public key, by which Chromium trusts a certificate."""
        read = subprocess.run(
            ["openssl", "x509", "-in", str(self.certificate), "-pubkey", "-noout"],
            capture_output=True, text=True, check=True).stdout
        key = base64.b64decode("".join(read.strip().split("\n")[1:-1]))
        return base64.b64encode(hashlib.sha256(key).digest()).decode()

    def arguments(self) -> Iterator[str]:
        """What a browser is started with."""
        yield from ARGUMENTS
        if self.certificate:
            yield f"--ignore-certificate-errors-spki-list={self.pin()}"
        if self.place:
            yield f"--host-resolver-rules=MAP {self.host} {self.place}"
        if os.getuid() == 0:
            # (Chromium refuses to run as root with one)
            yield "--no-sandbox"

    @contextlib.contextmanager
    def browser(self, downloads: pathlib.Path) -> Iterator[WebDriver]:
        """A browser of one person, which keeps what it is sent in a folder."""
        options = Options()
        options.binary_location = shutil.which("chromium") or ""
        for it in self.arguments():
            options.add_argument(it)
        options.set_capability("goog:loggingPrefs", {"browser": "ALL"})
        service = Service(shutil.which("chromedriver") or "")
        driver = webdriver.Chrome(service=service, options=options)
        try:
            driver.set_page_load_timeout(SECONDS)
            driver.execute_cdp_cmd("Browser.setDownloadBehavior", {
                "behavior": "allow", "downloadPath": str(downloads)})
            yield driver
        finally:
            driver.quit()

    def connection(self) -> http.client.HTTPConnection:
        """A connection of a program."""
        if self.url.startswith("http:"):
            made = http.client.HTTPConnection(self.host, self.port, timeout=SECONDS)
        else:
            known = ssl.create_default_context(cafile=self.certificate)
            made = http.client.HTTPSConnection(self.host, self.port, timeout=SECONDS,
                                               context=known)
        if self.place:
            host, _, port = self.place.rpartition(":")
            plain = socket.create_connection((host, int(port)), SECONDS)
            made.sock = plain if self.url.startswith("http:") else known.wrap_socket(
                plain, server_hostname=self.host)
        return made

    def read(self, path: str, name: str, token: str) -> Any:
        """A document of the register, which a program asks for with its token."""
        given = base64.b64encode(f"{name}:{token}".encode()).decode()
        asking = self.connection()
        try:
            asking.request("GET", path, headers={"Authorization": f"Basic {given}"})
            answer = asking.getresponse()
            body = answer.read()
            if answer.status != 200:
                raise RuntimeError(f"GET {path}: {answer.status} {body[:200]!r}")
            return json.loads(body)
        finally:
            asking.close()
