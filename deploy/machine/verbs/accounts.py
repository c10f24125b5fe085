"""Signs people in by the accounts of the authority over OpenID Connect, or no
more.

  admissions-admin accounts [NAME] FILE | none

FILE has title, issuer, client, secret and claim as JSON; the word none in its
place ends that. Passwords go on beside it. Only with such accounts may the
application use the network of the machine.

example:
  admissions-admin accounts secondary-2025 /root/accounts.json
"""
import argparse
import http.client
import json
import pathlib
import urllib.request

from .. import answers, files, people, serving
from ..network import keep_in, outside_of

OUTSIDE = "# Made by admissions-admin accounts\n[Service]\nPrivateNetwork=no\n"
# for so long a provider is waited for
PROVIDER_SECONDS = 10


def arguments(reader: argparse.ArgumentParser) -> None:
    answers.add_register(reader)
    reader.add_argument("file", metavar="FILE", help="what the provider gave, as JSON; or none")


def main(given: argparse.Namespace) -> int:
    register, is_none = answers.register_of(given), given.file == answers.NONE
    text = "" if is_none else pathlib.Path(answers.file(given.file)).read_text("utf-8")
    path = outside_of(register)
    people.set_provider(register, text)
    if text:
        path.parent.mkdir(exist_ok=True)
        files.write(path, OUTSIDE, 0o644)
    else:
        keep_in(register)
    serving.systemctl("daemon-reload")
    serving.systemctl("try-restart", serving.application(register)[1])
    print(f"{register.name}: people sign in by the accounts of the authority" if text
          else f"{register.name}: people sign in with their passwords alone")
    if text and (said := provider_fault(json.loads(text)["issuer"])):
        print(f"WARNING: {said}. Nobody signs in by these accounts until the provider answers;"
              " passwords go on")
    return 0


def provider_fault(issuer: str) -> str:
    """Why the provider of an issuer signs nobody in now, by what it says of itself; or ""."""
    from office.web.people.authority import MOST_ANSWER

    address = f"{issuer.rstrip('/')}/.well-known/openid-configuration"
    try:
        with urllib.request.urlopen(address, timeout=PROVIDER_SECONDS) as answer:
            text = answer.read(MOST_ANSWER + 1)
        if len(text) > MOST_ANSWER:
            return f"{address} is longer than 1 MiB"
        found = json.loads(text)
    except (OSError, http.client.HTTPException, ValueError) as error:
        return f"{address} cannot be read: {error}"
    named = found.get("issuer") if isinstance(found, dict) else None
    if not isinstance(named, str) or named.rstrip("/") != issuer.rstrip("/"):
        return f"{address} is not of {issuer}"
    return ""
