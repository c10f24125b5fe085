"""The key and the certificate of a site, and the request for one."""
import datetime
import pathlib
import re
import subprocess
import typing

from register_files import Refused

from . import files
from .programs import call, tool
from .registers import Register

DAYS_OF_TRIAL = 90
# from so many days before its end on a certificate needs attention
DAYS_OF_WARNING = 21
PEM = re.compile(r"-----BEGIN CERTIFICATE-----.*?-----END CERTIFICATE-----", re.DOTALL)


def openssl(*arguments: object) -> "subprocess.CompletedProcess[str]":
    return call(tool("openssl", "openssl"), *arguments)


def paths(register: Register) -> tuple[pathlib.Path, pathlib.Path, pathlib.Path]:
    return (
        register.settings / "site.key",
        register.settings / "site.crt",
        register.settings / "site.csr",
    )


def make(register: Register, host: str) -> typing.Iterator[str]:
    """Makes what is missing of a key, a request for a certificate, and a certificate that the key
    itself signs. Returns a line for each."""
    key, certificate, request = paths(register)
    if certificate.exists() and not key.exists():
        raise Refused(f"{key_problem(register)}: {repair(register)}")
    if not key.exists():
        files.write(key, new_key(), 0o600)
        yield f"made the key {key}"
    if not request.exists():
        files.write(request, requested(key, host), 0o644)
        yield f"made the request {request}: let a CA sign it"
    if not certificate.exists():
        trial = requested(key, host, "-x509", "-days", str(DAYS_OF_TRIAL))
        files.write(certificate, trial, 0o644)
        yield f"made the certificate {certificate}, for a trial of {DAYS_OF_TRIAL} days"


def new_key() -> str:
    """The text of a new key."""
    return openssl("genpkey", "-algorithm", "EC", "-pkeyopt", "ec_paramgen_curve:P-256").stdout


def requested(key: pathlib.Path, host: str, *more: str) -> str:
    """A request for a certificate of a site by a key; or, with more words, the certificate."""
    name = ("-subj", f"/CN={host}", "-addext", f"subjectAltName=DNS:{host}")
    return openssl("req", "-new", *more, "-key", key, *name).stdout


def later(path: pathlib.Path) -> pathlib.Path:
    """The place of a key, or of its request, that is used once a CA has signed it."""
    return path.with_name(f"{path.name}.new")


def warning(register: Register) -> str | None:
    """One line where browsers will not trust the certificate."""
    _, certificate, request = paths(register)
    if not is_self_signed(certificate):
        return None
    return (
        f"WARNING: {certificate}: no CA has signed it, so browsers warn of the site. Let one sign"
        f" {request}, put its answer into FILE, and type: {command(register)}"
    )


def command(register: Register) -> str:
    """What takes a certificate that a CA has signed for the key that is there."""
    return f"admissions-admin certificate {register.name} FILE"


def repair(register: Register) -> str:
    """What is typed where nginx cannot serve the site with its certificate: a lost key is made
    anew, for which a CA signs another one."""
    if paths(register)[0].exists():
        return command(register)
    return f"admissions-admin request {register.name} --new-key"


def is_self_signed(certificate: pathlib.Path) -> bool:
    names = openssl(
        "x509", "-in", certificate, "-noout", "-subject", "-issuer", "-nameopt", "RFC2253"
    ).stdout.splitlines()
    return len({line.partition("=")[2] for line in names}) == 1


def key_problem(register: Register) -> str | None:
    """Why nginx cannot serve the site, where the certificate is not of the key."""
    key, certificate, _ = paths(register)
    for it in (key, certificate):
        if not it.exists():
            return f"{it} is not there, so nginx cannot serve the site"
    if is_pair(certificate, key):
        return None
    return f"{certificate} is not of the key {key}, so nginx cannot serve the site"


def name_problem(certificate: pathlib.Path | str, host: str) -> str | None:
    """Why browsers refuse a site of this name, where the certificate is of others."""
    # (its exit status differs between versions)
    said = looked_at(certificate, "-checkhost", host)
    if "does match certificate" in said:
        return None
    names = ", ".join(names_of(pathlib.Path(certificate))) or "no site"
    return f"{certificate} is of {names}, and not of {host}, so browsers refuse the site"


def names_of(certificate: pathlib.Path) -> list[str]:
    """The names of the sites that a certificate is of."""
    return re.findall(r"DNS:([^\s,]+)", looked_at(certificate, "-ext", "subjectAltName"))


def looked_at(certificate: pathlib.Path | str, *arguments: str) -> str:
    """What openssl prints of a certificate."""
    command = (tool("openssl", "openssl"), "x509", "-in", certificate, "-noout", *arguments)
    return call(*command, may_fail=True).stdout


def see(register: Register, host: str) -> str | None:
    """Refuses a certificate that nginx cannot serve, whatever put it there. Returns a warning of
    one that browsers will not trust."""
    if problem := key_problem(register):
        raise Refused(f"{problem}. Give both: {command(register)} --key FILE")
    problem = name_problem(paths(register)[1], host)
    return f"WARNING: {problem}" if problem else warning(register)


def pem(path: str) -> str:
    """The text of a certificate or a key."""
    try:
        return pathlib.Path(path).read_text(encoding="ascii")
    except UnicodeDecodeError as error:
        raise Refused(f"{path} is not in the form PEM, which is text") from error


def pair(certificate: str, key: str) -> tuple[str, str]:
    """The texts of a certificate and its key."""
    texts = pem(certificate), pem(key)
    if not is_pair(certificate, key):
        raise Refused(f"{certificate} is not of the key {key}")
    return texts


def is_pair(certificate: pathlib.Path | str, key: pathlib.Path | str) -> bool:
    """Whether a certificate is of a key."""
    of_certificate = public_key("x509", "-pubkey", "-noout", "-in", certificate)
    return of_certificate == public_key("pkey", "-pubout", "-in", key)


def see_name(certificate: str, host: str) -> None:
    """Refuses a certificate of another site."""
    if problem := name_problem(certificate, host):
        raise Refused(problem)


def see_days(certificate: str) -> None:
    """Refuses a certificate that has ended, or is not yet valid; and so one whose CA has one."""
    now = datetime.datetime.now(datetime.timezone.utc)
    for number, text in enumerate(PEM.findall(pem(certificate)), 1):
        begin, end = days_of(text)
        what = f"{certificate}, its certificate {number}," if number > 1 else certificate
        if end <= now:
            raise Refused(f"{what} has ended at {local(end)}: have the CA sign a new one")
        if begin > now:
            raise Refused(f"{what} is valid from {local(begin)} on, and it is {local(now)} here: is"
                          " the clock right?")


def ends_soon(register: Register) -> str | None:
    """A warning of a certificate that ends soon."""
    certificate = paths(register)[1]
    days = days_left(certificate)
    if days >= DAYS_OF_WARNING:
        return None
    return f"WARNING: {certificate} ends in {days} days, at {local(end_of(certificate))}"


def local(moment: datetime.datetime) -> str:
    """A moment in the time of this machine."""
    return f"{moment.astimezone():%Y-%m-%d %H:%M}"


def is_lost(register: Register, certificate: str, key: str) -> bool:
    """Whether another certificate or key is there, which these would replace."""
    texts, (to_key, to_certificate, _) = pair(certificate, key), paths(register)
    return any(
        path.exists() and path.read_bytes() != text.encode()
        for path, text in zip((to_certificate, to_key), texts)
    )


def take(register: Register, certificate: str, key: str) -> bool:
    """Takes a certificate and its key from files. Returns whether they are others than before."""
    texts, (to_key, to_certificate, request) = pair(certificate, key), paths(register)
    if is_lost(register, certificate, key):
        keep_before(to_key, to_certificate)
    # (where there is no room the two stay that are there)
    new = to_key.with_name(f"{to_key.name}.taken")
    files.write(new, texts[1], 0o600)
    changed = [files.write(to_certificate, texts[0], 0o644),
               not to_key.exists() or to_key.read_bytes() != texts[1].encode()]
    new.rename(to_key)
    if request.exists() and public_key("req", "-in", request, "-pubkey", "-noout") != public_key(
        "pkey", "-pubout", "-in", to_key
    ):
        # (it is of the key of before)
        request.unlink()
    return any(changed)


def keep_before(*there: pathlib.Path) -> None:
    """Keeps the key and certificate that are replaced beside the new ones."""
    for path in there:
        if path.exists():
            mode = 0o600 if path.suffix == ".key" else 0o644
            files.write(path.with_name(f"{path.name}.before"), path.read_bytes(), mode)


def public_key(*arguments: object) -> str:
    return openssl(*arguments).stdout.strip()


def end_of(certificate: pathlib.Path) -> datetime.datetime:
    """The moment until which a certificate is valid."""
    return days_of(certificate.read_text(encoding="ascii", errors="replace"))[1]


def days_of(text: str) -> tuple[datetime.datetime, datetime.datetime]:
    """From when on, and until when, the first certificate of a text is valid."""
    said = call(tool("openssl", "openssl"), "x509", "-noout", "-dates", "-dateopt", "iso_8601",
                text=text).stdout
    begin, end = (
        datetime.datetime.strptime(line.partition("=")[2], "%Y-%m-%d %H:%M:%SZ").replace(
            tzinfo=datetime.timezone.utc) for line in said.splitlines())
    return begin, end


def days_left(certificate: pathlib.Path) -> int:
    """How many whole days a certificate is still valid, negative after its end."""
    return (end_of(certificate) - datetime.datetime.now(datetime.timezone.utc)).days
