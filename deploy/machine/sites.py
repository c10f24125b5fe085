"""The sites of nginx: one of each register, and what all of them share, made by the template that
the office may change.
"""
from __future__ import annotations

import dataclasses
import hashlib
import pathlib
import re
import socket
from collections.abc import Iterable, Mapping
from typing import TYPE_CHECKING

from register_files import Refused

from . import files
from .registers import NAME, SETTINGS, Register
from .programs import call, is_booted, tool

if TYPE_CHECKING:
    from jinja2 import Environment

NGINX = pathlib.Path("/etc/nginx")
AVAILABLE, ENABLED = NGINX / "sites-available", NGINX / "sites-enabled"
MODEL, MACHINE = AVAILABLE / "admissions", pathlib.Path("/etc/nginx/conf.d/admissions.conf")
# nginx's main file, and one that it reads as a part of it
MAIN, LIMITS = NGINX / "nginx.conf", NGINX / "modules-enabled/90-admissions.conf"
# The connections of each process of nginx, so that silent clients do not keep others out; a request
# that is passed on takes two, and each is a file
CONNECTIONS, OPEN_FILES = 8192, 16384
# From this version on HTTP/2 is a directive of its own, and an option of `listen` is warned of
HTTP2_DIRECTIVE = (1, 25, 1)
READ = pathlib.Path("/run/admissions-sites-read")
# What the template must use. That of an earlier version has none of it
VARIABLES = {"part", "host", "suffix", "settings", "socket"}
LABEL = "[a-z0-9]([a-z0-9-]{0,61}[a-z0-9])?"
HOST = re.compile(rf"(?=.{{1,253}}\Z){LABEL}(\.{LABEL})+")
MADE = (
    "# Made by admissions-admin from sites-available/admissions:"
    " change that, and type admissions-admin sites\n"
)


@dataclasses.dataclass(frozen=True)
class Machine:
    """What the text of a site depends on."""

    nginx: tuple[int, ...]
    has_ipv6: bool


def this_machine() -> Machine:
    """The version of nginx here, and whether a socket of IPv6 can be made."""
    said = call(tool("nginx", "nginx"), "-v").stderr
    version = re.search(r"nginx/([0-9]+)\.([0-9]+)\.([0-9]+)", said)
    if not version:
        raise Refused(f"nginx does not name its version: {said.strip()}")
    try:
        socket.socket(socket.AF_INET6).close()
    except OSError:
        return Machine(tuple(map(int, version.groups())), False)
    return Machine(tuple(map(int, version.groups())), True)


def environment() -> Environment:
    """How a template of nginx's files is read. In these `{#` may begin a block and a remark, so it
    begins no comment of the template.
    """
    import jinja2

    return jinja2.Environment(
        undefined=jinja2.StrictUndefined,
        comment_start_string="{%#",
        comment_end_string="#%}",
        trim_blocks=True,
        lstrip_blocks=True,
        keep_trailing_newline=True,
    )


def by_template(template: str, machine: Machine, **values: str) -> str:
    """A text by a template, for this machine."""
    text: str = environment().from_string(template).render(
        ipv6=machine.has_ipv6, http2_directive=machine.nginx >= HTTP2_DIRECTIVE, **values
    )
    return text


def by_model(model: str, machine: Machine, **values: str) -> str:
    """A part of the template that the office may change. An error in it is named, and so is the
    template of an earlier version, which an upgrade leaves where the office has changed it.
    """
    import jinja2
    import jinja2.meta

    try:
        unused = VARIABLES - jinja2.meta.find_undeclared_variables(environment().parse(model))
        if unused:
            raise Refused(
                f"{MODEL} is not a template of this version: it does not use"
                f" {', '.join(sorted(unused))}. No site was changed. Put what you changed into a"
                f" copy of {share() / 'admissions.conf'}, move that to {MODEL}, and type"
                " admissions-admin sites"
            )
        return by_template(model, machine, **values)
    except jinja2.TemplateSyntaxError as error:
        raise Refused(f"{MODEL}, line {error.lineno}: {error.message}") from error
    except (jinja2.TemplateError, ArithmeticError, LookupError, TypeError, ValueError) as error:
        raise Refused(f"{MODEL}: {error}") from error


def site_text(model: str, name: str, host: str, machine: Machine) -> str:
    """The site of one register: its host, files and socket, and names that no other site has."""
    register, suffix = Register(name), name.replace("-", "_")
    text = by_model(
        model,
        machine,
        part="site",
        host=host,
        suffix=suffix,
        settings=str(register.settings),
        socket=str(register.office_socket),
    )
    if wrong := not_own(text, register, host, suffix):
        raise Refused(
            f"{MODEL} makes a site of {name} that lacks what is its own, or shares it with others:"
            f" {wrong}. No site was changed. Compare it with {share() / 'admissions.conf'}, the"
            " template of the package"
        )
    return MADE + text


def not_own(text: str, register: Register, host: str, suffix: str) -> str:
    """What a site lacks of its own, or shares with others, after a change of the template: nginx
    would take it, and give the rights of another register, or log elsewhere.
    """
    # (a remark may name what it was before)
    text = re.sub(r"(?m)(?<![^\s;{}])#.*", "", text)
    own = [register.settings / it for it in ("site.crt", "site.key")] + [register.office_socket]
    names = " ".join(re.findall(r"(?m)^\s*server_name\s([^;]*);", text)).split()
    wrong = [] if host in names else [f"server_name {host}"]
    for path in own:
        found = set(re.findall(rf"/\S*/{re.escape(path.name)}(?=[\s;\"'])", text))
        if found != {str(path)}:
            wrong.append(str(path))
    for group in re.findall(r"(?m)^\s*upstream\s+(\w+)\s*\{", text):
        if not group.endswith(f"_{suffix}"):
            wrong.append(f"upstream {group}")
    return ", ".join(wrong)


def machine_text(model: str, more: str, machine: Machine) -> str:
    """What all sites share, after what is before any of it."""
    return MADE + by_template(more, machine) + by_model(model, machine, part="machine")


def limits_text(main: str) -> str:
    """How many files each process of nginx may have open, unless its main file says it already, as
    nginx takes it once.
    """
    is_said = re.search(r"(?m)^[^#\n]*\bworker_rlimit_nofile\s", main)
    return MADE if is_said else f"{MADE}worker_rlimit_nofile {OPEN_FILES};\n"


def main_text(text: str) -> str:
    """nginx's main file, with connections enough. The number that was there stays behind it, for a
    purge of the package to put it back; so another directive on the line would be lost, and it is
    left as it is.
    """
    found = re.search(r"(?m)^(\s*worker_connections\s+)([0-9]+);(?=[ \t]*(?:#|$))", text)
    if not found or int(found[2]) >= CONNECTIONS:
        return text
    line = f"{found[1]}{CONNECTIONS}; # {found[2]} before admissions-admin"
    return f"{text[:found.start()]}{line}{text[found.end():]}"


def share(name: str = "nginx") -> pathlib.Path:
    """The folder of what the sites are made of, or another beside it, below the prefix of this
    installation."""
    return pathlib.Path(__file__).resolve().parent.parent / name


def registers_with_site() -> list[Register]:
    """The registers that have a site name, by name."""
    names = [path.parent.name for path in sorted(SETTINGS.glob("*/site-name"))]
    found = [it for it in map(Register, filter(NAME.fullmatch, names)) if it.host]
    for it in found:
        if not HOST.fullmatch(it.host or ""):
            raise Refused(f"{it.settings / 'site-name'}: {it.host!r} is no name of a site")
    return found


def make_all() -> list[str]:
    """Makes the sites that differ from what they should be, all or none, and has nginx read them.
    Returns what was changed, a line each.
    """
    if not MODEL.exists():
        raise Refused(f"{MODEL} is missing")
    model = MODEL.read_text(encoding="utf-8")
    machine = this_machine()
    main = MAIN.read_text(encoding="utf-8") if MAIN.exists() else ""
    more = (share() / "machine.conf").read_text(encoding="utf-8")
    wanted = {MACHINE: machine_text(model, more, machine), LIMITS: limits_text(main)}
    if main:
        wanted[MAIN] = main_text(main)
    sites = {
        AVAILABLE / f"admissions-{it.name}": site_text(model, it.name, it.host or "", machine)
        for it in registers_with_site()
    }
    wanted |= sites
    before = {
        path: path.read_text(encoding="utf-8") if path.exists() else None for path in wanted
    }
    lines: list[str] = []
    links: list[pathlib.Path] = []
    for path, text in wanted.items():
        if files.write(path, text, 0o644):
            lines.append(f"{'changed' if path == MAIN else 'made'} {path}")
        if path in sites and files.link(ENABLED / path.name, f"../sites-available/{path.name}"):
            links.append(ENABLED / path.name)
            lines.append(f"enabled {ENABLED / path.name}")
    default = ENABLED / "default"
    had_default = default.is_symlink() and default.resolve() == AVAILABLE / "default"
    if had_default:
        default.unlink()
        lines.append(f"disabled Debian's own site, {default}")
    try:
        call(tool("nginx", "nginx"), "-t", "-q")
    except Refused:
        undo(before, links, default if had_default else None)
        raise
    if is_booted() and read_by_nginx(wanted):
        lines.append("nginx has read the sites")
    return lines


def read_by_nginx(wanted: Mapping[pathlib.Path, str]) -> bool:
    """Has nginx read the sites and certificates, if it has not read them as they are now. A
    run that was killed before this is so made up for. Returns whether it read them.
    """
    digest = hashlib.sha256("".join(wanted.values()).encode())
    for register in registers_with_site():
        for name in ("site.crt", "site.key"):
            digest.update((register.settings / name).read_bytes())
    if READ.exists() and READ.read_text(encoding="ascii") == digest.hexdigest():
        return False
    call(tool("systemctl", "systemd"), "enable", "--quiet", "nginx.service")
    call(tool("systemctl", "systemd"), "reload-or-restart", "nginx.service")
    READ.write_text(digest.hexdigest(), encoding="ascii")
    return True


def undo(
    before: Mapping[pathlib.Path, str | None],
    links: Iterable[pathlib.Path],
    default: pathlib.Path | None,
) -> None:
    """Puts back what nginx refused."""
    for path in links:
        path.unlink()
    for path, text in before.items():
        if text is None:
            path.unlink(missing_ok=True)
        else:
            files.write(path, text, 0o644)
    if default:
        default.symlink_to("../sites-available/default")
