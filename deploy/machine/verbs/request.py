"""Prints a request for a certificate, for a CA to sign.

  admissions-admin request [NAME] [--site HOST] [--new-key]

Without an option it is the request of the site by its key, as for a renewal.
With --site it is of another name by the same key: so the CA can sign it before
the name is changed (admissions-admin site). With --new-key a new key is made,
which is used once its certificate is taken (admissions-admin certificate): as
where others may have the one before. The site goes on meanwhile. If the key is
lost, the new one is used at once, with a certificate for a trial: without a key
nginx starts with no site of this machine.

example:
  admissions-admin request secondary-2025 --new-key > request.csr
"""
import argparse
import pathlib
import sys

from register_files import Refused

from .. import answers, certificates, files, sites
from ..registers import Register


def arguments(reader: argparse.ArgumentParser) -> None:
    answers.add_register(reader)
    reader.add_argument("--site", metavar="HOST", help="the name that the site shall have")
    reader.add_argument("--new-key", action="store_true", help="by a new key, which is kept")


def main(given: argparse.Namespace) -> int:
    register = answers.register_of(given)
    key, certificate, _ = certificates.paths(register)
    new = certificates.later(key)
    host = answers.host(given.site) if given.site else register.host
    if host is None:
        raise Refused(f"{register.name} has no site: admissions-admin setup {register.name}")
    if given.new_key:
        # (one that is there may be with the CA)
        if not new.exists():
            files.write(new, certificates.new_key(), 0o600)
        is_there = key.exists() and certificate.exists()
        if not is_there or key.read_bytes() == new.read_bytes():
            serve_meanwhile(register, new, register.host or host)
        key = new
    print(certificates.requested(key, host), end="")
    how = certificates.command(register)
    if host != register.host:
        how = f"admissions-admin site {register.name} {host} --certificate FILE"
    print("next: let a CA sign it, put its answer into FILE, with the intermediate certificates"
          f" below it, and type: {how}", file=sys.stderr)
    return 0


def serve_meanwhile(register: Register, key: pathlib.Path, host: str) -> None:
    """Has the site served by a new key in the place of one that is lost, until a CA has signed its
    certificate. (The request alone is printed on the standard output.)"""
    to_key, certificate, request = certificates.paths(register)
    if not to_key.exists():
        certificates.keep_before(certificate)
        for it in (certificate, request):
            it.unlink(missing_ok=True)
        files.write(to_key, key.read_bytes(), 0o600)
    for line in (*certificates.make(register, host), *sites.make_all()):
        print(line, file=sys.stderr)
    print(f"WARNING: browsers that know {host} let nobody past this certificate until a CA has"
          " signed the next one", file=sys.stderr)
