"""Gives the site of a register another name.

  admissions-admin site [NAME] HOST [--certificate FILE]

The earlier name ends at once. The key stays; the certificate and the request of
the earlier name are kept beside them under that name. FILE is the certificate
of HOST that a CA has signed for this key: `admissions-admin request --site
HOST` prints the request. Without it the site has one for a trial, of which
browsers warn.

example:
  admissions-admin site secondary-2025 places.example --certificate signed.crt
"""
import argparse

from register_files import Refused

from .. import answers, certificates, files, serving, sites
from ..registers import Register
from . import certificate
from .setup import see_site_is_free


def arguments(reader: argparse.ArgumentParser) -> None:
    answers.add_register(reader)
    reader.add_argument("site", metavar="HOST", help="the name by which browsers find it")
    reader.add_argument("--certificate", metavar="FILE", help="its certificate, of the same key")
    answers.add_yes(reader)


def main(given: argparse.Namespace) -> int:
    register, host = answers.register_of(given), answers.host(given.site)
    before = register.host
    if before is None:
        raise Refused(f"{register.name} has no site: admissions-admin setup {register.name}")
    see_site_is_free(register, host)
    file = answers.file(given.certificate) if given.certificate else None
    key = certificates.paths(register)[0]
    if file:
        certificates.pair(file, str(key))
        certificates.see_days(file)
        certificates.see_name(file, host)
    if before != host:
        warned = "" if file else ", and browsers warn of it until a CA has signed its certificate"
        answers.confirm(f"the site of {register.name} is {host} and no longer {before}{warned}",
                        given.yes)
        rename(register, before, host)
    if file:
        serving.report(certificate.taken(register, file, str(key)))
    serving.report(certificates.make(register, host))
    serving.report(sites.make_all())
    # (each has read the name)
    serving.systemctl("try-restart", serving.application(register)[1])
    print(f"the site is {host}")
    if warning := certificates.warning(register):
        print(warning)
    print(f"next: lead {host} to this machine in DNS; where the accounts of the authority are used,"
          f" give the provider the address https://{host}/sign-in/authority/back")
    return 0


def rename(register: Register, before: str, host: str) -> None:
    """Puts what is of the earlier name aside, and keeps the new one. Killed between, it goes on."""
    _, there, request = certificates.paths(register)
    for it in (there, request):
        if it.exists() and it.with_name(f"{before}{it.suffix}") != it:
            it.rename(it.with_name(f"{before}{it.suffix}"))
    files.write(register.settings / "site-name", host + "\n", 0o644)
