"""Takes the certificate of a site that a CA has signed.

  admissions-admin certificate [NAME] FILE [--key FILE]

FILE has the certificate, with the CA's intermediate certificates below it. Its
key is the one of the site, or the new one that `admissions-admin request` has
made; --key gives another. A certificate of another key or site is refused, and
so is one that has ended or is not yet valid. What was there is kept as
site.crt.before and site.key.before, unless the key is a new one of `request`:
then the key before is deleted, since others may have it.

example:
  admissions-admin certificate secondary-2025 /root/signed.crt
"""
import argparse
import typing

from register_files import Refused

from .. import answers, certificates, files, serving, sites
from ..registers import Register


def arguments(reader: argparse.ArgumentParser) -> None:
    answers.add_register(reader)
    reader.add_argument("file", metavar="FILE", help="what the CA has signed")
    reader.add_argument("--key", metavar="FILE", help="its key")
    answers.add_yes(reader)


def main(given: argparse.Namespace) -> int:
    register = answers.register_of(given)
    file = answers.file(given.file)
    if register.host is None:
        raise Refused(f"{register.name} has no site: admissions-admin setup {register.name}")
    key = answers.file(given.key) if given.key else key_of(register, file)
    see(register, file, key, register.host, given.yes)
    serving.report(taken(register, file, key))
    serving.report(sites.make_all())
    serving.report(serving.other_problems(register))
    print(f"next: look at https://{register.host}/ with a browser of the office;"
          f" admissions-admin status {register.name}")
    return 0


def key_of(register: Register, file: str) -> str:
    """The key of a certificate: the one of the site, or the one that was made to replace it."""
    key = certificates.paths(register)[0]
    for it in (key, certificates.later(key)):
        if it.exists() and certificates.is_pair(file, str(it)):
            return str(it)
    raise Refused(f"{file} is not of the key {key}. If it has a key of its own: --key FILE")


def see(register: Register, file: str, key: str, host: str, is_confirmed: bool) -> None:
    """Refuses what browsers would, and has confirmed what is replaced."""
    certificates.see_days(file)
    certificates.see_name(file, host)
    if not certificates.is_lost(register, file, key):
        return
    is_new = key == str(certificates.later(certificates.paths(register)[0]))
    rest = "the earlier key is deleted, since others may have it" if is_new else (
        "those that are there are kept beside them as site.crt.before and site.key.before")
    answers.confirm(f"the certificate and the key of {register.name} are replaced, and {rest}",
                    is_confirmed)


def taken(register: Register, file: str, key: str) -> typing.Iterator[str]:
    """Takes a certificate and its key, and makes the request of the next renewal."""
    if certificates.take(register, file, key):
        yield f"took the certificate {file}"
    to_key = certificates.paths(register)[0]
    new = certificates.later(to_key)
    if new.exists() and new.read_bytes() == to_key.read_bytes():
        for it in (new, *(to_key.with_name(f"site.{it}.before") for it in ("key", "crt"))):
            it.unlink(missing_ok=True)
        yield "the earlier key is deleted: have the CA revoke its certificate"
    request = certificates.paths(register)[2]
    if not request.exists():
        files.write(request, certificates.requested(to_key, register.host or ""), 0o644)
        yield f"made the request {request}, for the next renewal"
    if soon := certificates.ends_soon(register):
        yield soon
