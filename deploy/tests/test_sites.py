"""The sites that admissions-admin makes, by the version of nginx and with or without IPv6, and by a
template that an office has changed."""
import pathlib
import re

import pytest
from conftest import ROOT
from machine import registers, sites
from register_files import Refused

MODEL = (ROOT / "deploy/nginx/admissions.conf").read_text(encoding="utf-8")
MORE = (ROOT / "deploy/nginx/machine.conf").read_text(encoding="utf-8")
OLD, LAST_OLD, FIRST_NEW, NEW = (1, 22, 1), (1, 25, 0), (1, 25, 1), (1, 26, 3)
HERE = sites.Machine(NEW, True)
# A template of an earlier version was a site, whose names were replaced
EARLIER = """map $remote_user $role {
    include /etc/admissions/roles;
}
# The machine's own part, which is there once:
limit_conn_zone $binary_remote_addr zone=admissions_address:4m;
# The end of that part
server {
    listen 443 ssl;
    server_name admissions.example;
}
"""
# What nginx knows by one name for all sites, and what a site has of the machine
OWN = re.compile(
    r"(?m)^ *(?:upstream (\w+) |zone (\w+) |server (unix:\S+) |server_name (\S+);"
    r"|proxy_set_header Host (\S+);|ssl_certificate(?:_key)? +(\S+);)"
)


def listens(machine: sites.Machine) -> tuple[list[list[str]], list[int]]:
    """The addresses of a site and of the machine's own part, and how often HTTP/2 is a directive in
    each."""
    site = sites.site_text(MODEL, "x-1", "x.example", machine)
    texts = site, sites.machine_text(MODEL, MORE, machine)
    addresses = [re.findall(r"(?m)^ *listen (.*);", it) for it in texts]
    return addresses, [it.count("http2 on;") for it in texts]


@pytest.mark.parametrize(
    "version, has_ipv6, own, machines, is_directive",
    [
        (OLD, True, ["443 ssl http2", "[::]:443 ssl http2"], True, False),
        (LAST_OLD, False, ["443 ssl http2"], False, False),
        (FIRST_NEW, False, ["443 ssl"], False, True),
        (NEW, True, ["443 ssl", "[::]:443 ssl"], True, True),
    ],
)
def test_what_a_site_listens_at(
    version: tuple[int, int, int],
    has_ipv6: bool,
    own: list[str],
    machines: bool,
    is_directive: bool,
) -> None:
    """HTTP/2 is named as the version takes it: as a directive also in the server that answers for
    another host. IPv6 is named only where there is some."""
    found, directives = listens(sites.Machine(version, has_ipv6))
    shared = [
        "80 default_server",
        "[::]:80 default_server",
        "443 ssl default_server",
        "[::]:443 ssl default_server",
    ]
    wanted = [own, shared if machines else shared[::2]]
    assert (found, directives) == (wanted, [is_directive, is_directive])


def names_in(text: str) -> set[str]:
    """What a site has of its own."""
    return {name for found in OWN.findall(text) for name in found if name}


def test_two_sites_share_no_name_and_no_file() -> None:
    one = sites.site_text(MODEL, "primary-2026", "primary.example", HERE)
    other = sites.site_text(MODEL, "x", "admissions.example", HERE)
    assert (len(names_in(one)), len(names_in(other)), names_in(one) & names_in(other)) == (
        5,
        5,
        set(),
    )
    for old, new in (
        ("primary-2026", "x"),
        ("primary_2026", "x"),
        ("primary.example", "admissions.example"),
    ):
        assert old in one
        one = one.replace(old, new)
    assert one == other


@pytest.mark.parametrize(
    "old, new, named",
    [
        ("{{ settings }}/site.crt", "/etc/admissions/site.crt", "/etc/admissions/x-1/site.crt"),
        ("{{ settings }}/site.key", "/etc/admissions/site.key", "/etc/admissions/x-1/site.key"),
        ("server_name {{ host }}", "server_name admissions.example", "server_name x.example"),
        ("upstream office_{{ suffix }}", "upstream office", "upstream office"),
        (
            "unix:{{ socket }}",
            "unix:/run/admissions-office/y.sock; #{{ socket }}",
            "/run/admissions-office/x-1.sock",
        ),
    ],
)
def test_a_site_without_what_is_its_own_is_refused(old: str, new: str, named: str) -> None:
    """As where names of an earlier template were put into this one: nginx would take most of it."""
    assert old in MODEL
    with pytest.raises(Refused) as found:
        sites.site_text(MODEL.replace(old, new), "x-1", "x.example", HERE)
    assert str(found.value) == (
        f"{sites.MODEL} makes a site of x-1 that lacks what is its own, or shares it with others:"
        f" {named}. No site was changed. Compare it with {ROOT}/deploy/nginx/admissions.conf, the"
        " template of the package"
    )


@pytest.mark.parametrize(
    "old, new",
    [
        ("    server_name ", "    # was: /etc/admissions/site.crt;\n    server_name "),
        ("{{ settings }}/site.crt;", "{{ settings }}/site.crt; # and not /etc/admissions/site.crt"),
        ("{{ settings }}/site.key", '"{{ settings }}/site.key"'),
        ("server_name {{ host }}", "server_name  www.{{ host }}\n        {{ host }}"),
        ("upstream office_", "map $host $night { }\nupstream office_"),
    ],
)
def test_other_changes_of_a_site_are_taken(old: str, new: str) -> None:
    """A remark may name what is not the site's own, and a path may be between quotes."""
    assert old in MODEL
    text = sites.site_text(MODEL.replace(old, new), "x-1", "x.example", HERE)
    for field, value in (
        ("{{ settings }}", "/etc/admissions/x-1"),
        ("{{ host }}", "x.example"),
        ("{{ suffix }}", "x_1"),
    ):
        new = new.replace(field, value)
    assert new in text


@pytest.mark.parametrize("socket", ["/run/admissions/desk.sock", "127.0.0.1:8080"])
def test_a_template_must_use_what_is_each_registers_own(socket: str) -> None:
    with pytest.raises(Refused, match="of this version: it does not use socket. No site was "):
        sites.site_text(MODEL.replace("{{ socket }}", socket), "x-1", "x.example", HERE)


@pytest.mark.parametrize(
    "old, new, said",
    [
        ("{% elif part", "{% or part", ", line {line}: Encountered unknown tag 'or'"),
        ("server_name {{ host }}", "server_name {{ hots }}", ": 'hots' is undefined"),
        ("server_name {{ host }}", "server_name {{ host + 1 }}", ": can only concatenate str"),
        ("server_name {{ host }}", "server_name {{ host | idn }}", ": No filter named 'idn'"),
    ],
)
def test_an_error_in_the_template_is_named(old: str, new: str, said: str) -> None:
    line = MODEL[: MODEL.index(old)].count("\n") + 1
    with pytest.raises(Refused) as found:
        sites.site_text(MODEL.replace(old, new), "x-1", "x.example", HERE)
    assert str(found.value).startswith(f"{sites.MODEL}{said.format(line=line)}")


def test_a_remark_behind_a_brace_is_no_comment_of_the_template() -> None:
    named = "    location = /signed-in {"
    text = MODEL.replace(f"{named}\n", f"{named}# who signed in\n    #}}\n")
    site = sites.site_text(text, "x-1", "x.example", HERE)
    assert f"{named}# who signed in\n    #}}\n        internal;\n" in site


@pytest.fixture(name="nginx")
def nginx_fixture(
    register: registers.Register,
    write_as_me: None,
    tmp_path: pathlib.Path,
    monkeypatch: pytest.MonkeyPatch,
) -> pathlib.Path:
    """A folder with what nginx has of a machine with one register, before its site is made. Nothing
    is called."""
    root = tmp_path / "nginx"
    for name in ("sites-available", "sites-enabled", "conf.d", "modules-enabled"):
        (root / name).mkdir(parents=True)
    for constant, name in (
        ("AVAILABLE", "sites-available"),
        ("ENABLED", "sites-enabled"),
        ("MODEL", "sites-available/admissions"),
        ("MACHINE", "conf.d/admissions.conf"),
        ("MAIN", "nginx.conf"),
        ("LIMITS", "modules-enabled/90-admissions.conf"),
    ):
        monkeypatch.setattr(sites, constant, root / name)
    monkeypatch.setattr(sites, "this_machine", lambda: HERE)
    monkeypatch.setattr(sites, "tool", lambda name, package: name)
    monkeypatch.setattr(sites, "call", lambda *_: None)
    monkeypatch.setattr(sites, "is_booted", lambda: False)
    (root / "nginx.conf").write_text("events {\n\tworker_connections 768;\n}\n")
    return root


def files_of(root: pathlib.Path) -> dict[str, bytes]:
    return {str(it.relative_to(root)): it.read_bytes() for it in root.rglob("*") if it.is_file()}


@pytest.mark.parametrize("is_made", [False, True])
@pytest.mark.parametrize("has_register", [False, True])
def test_with_a_template_of_an_earlier_version_nothing_is_changed(
    is_made: bool, has_register: bool, nginx: pathlib.Path, register: registers.Register
) -> None:
    """Neither where sites are made already, nor where no register is there."""
    if not has_register:
        (register.settings / "site-name").unlink()
    if is_made:
        sites.MODEL.write_text(MODEL, encoding="utf-8")
        assert f"made {sites.MACHINE}" in sites.make_all()
        assert (nginx / "sites-enabled/admissions-secondary-2025").exists() == has_register
    sites.MODEL.write_text(EARLIER, encoding="utf-8")
    before = files_of(nginx)
    with pytest.raises(Refused) as found:
        sites.make_all()
    assert str(found.value) == (
        f"{nginx}/sites-available/admissions is not a template of this version: it does not use"
        " host, part, settings, socket, suffix. No site was changed. Put what you"
        f" changed into a copy of {ROOT}/deploy/nginx/admissions.conf, move that to"
        f" {nginx}/sites-available/admissions, and type admissions-admin sites"
    )
    assert files_of(nginx) == before


def test_the_machines_own_part_needs_no_site() -> None:
    """Each variable of it is its own or nginx's, so nginx starts where the last register is
    retired.
    """
    text = re.sub(r"(?m)^ *#.*", "", sites.machine_text(MODEL, MORE, HERE))
    own = set(re.findall(r"(?m)^map .*\$(\w+) \{$|\(\?<(\w+)>", text))
    own = {name for names in own for name in names}
    others = set(re.findall(r"\$(\w+)", text)) - own
    assert sorted(others) == [
        "binary_remote_addr",
        "content_length",
        "host",
        "http_accept",
        "http_cookie",
        "http_transfer_encoding",
        "request_method",
        "request_uri",
        "status",
        "upstream_addr",
        "upstream_connect_time",
        "upstream_status",
        "uri",
    ]


def test_a_connection_has_as_many_requests_as_nginx_says() -> None:
    """More of them on one of HTTP/2, begun and reset at once, are what its advice warns of."""
    assert "keepalive_requests" not in MODEL + MORE


def test_each_answer_has_the_headers_of_the_list() -> None:
    """Also that to a request for another host, which is not of a site. Retry-After has no value but
    for what may be repeated, and what a site itself answers is JSON or a page.
    """
    lines = (ROOT / "deploy/checks/headers").read_text(encoding="utf-8").splitlines()
    wanted = dict(line.split(": ", 1) for line in lines if not line.startswith("#"))
    assert wanted.pop("Server") == "nginx"
    texts = sites.site_text(MODEL, "x", "x.example", HERE), sites.machine_text(MODEL, MORE, HERE)
    found = [
        dict(re.findall(r'(?m)^ *add_header (\S+) "?([^"\n]+?)"? always;$', it)) for it in texts
    ]
    wanted["Retry-After"] = "$retry_after"
    assert found == [wanted | {"Content-Type": "$answer_kind"}, wanted]


@pytest.mark.parametrize(
    "before, after",
    [
        (
            "events {\n\tworker_connections 768;\n}",
            "events {\n\tworker_connections 8192; # 768 before admissions-admin\n}",
        ),
        ("events { }", "events { }"),
        ("\tworker_connections 9000;", "\tworker_connections 9000;"),
        ("\t# worker_connections 768;", "\t# worker_connections 768;"),
        (
            "worker_connections\t768; # few",
            "worker_connections\t8192; # 768 before admissions-admin # few",
        ),
        (
            "\tworker_connections 768; multi_accept on;",
            "\tworker_connections 768; multi_accept on;",
        ),
        ("events { worker_connections 768; }", "events { worker_connections 768; }"),
    ],
)
def test_the_connections_of_nginx(before: str, after: str) -> None:
    """They are raised once, and never lowered."""
    assert sites.main_text(before) == sites.main_text(after) == after


@pytest.mark.parametrize(
    "main, is_said",
    [
        ("user www-data;\n", False),
        ("# worker_rlimit_nofile 512;\n", False),
        ("worker_rlimit_nofile 4096;\n", True),
        ("user x; worker_rlimit_nofile\t4096;\n", True),
    ],
)
def test_the_open_files_of_nginx_are_said_once(main: str, is_said: bool) -> None:
    assert sites.limits_text(main) == sites.MADE + (
        "" if is_said else "worker_rlimit_nofile 16384;\n"
    )
