"""Serves the application of a register, to try it: python3 -m office.web NAME ..

The register is served by the program; ORIGIN is the address that the browser shows. In FOLDER the
application keeps office.db and its history. The first person is added with --person, and signs in
with the password that is printed.

example, in the repository:
  admissions serve reg.db 8080 &
  PYTHONPATH=.:tools python3 -m office.web secondary-2025 --door http://127.0.0.1:8080 \\
    --listen 127.0.0.1:8000 --origin http://127.0.0.1:8000 --folder office.d --person jane
"""
import argparse
import pathlib

from . import serve
from .parts import Config
from .people import people, roles
from .register.store import Store

ROOT = pathlib.Path(__file__).resolve().parents[2]


def main() -> None:
    """Adds the person, and serves."""
    reader = argparse.ArgumentParser(
        prog="python3 -m office.web", description=__doc__,
        formatter_class=argparse.RawDescriptionHelpFormatter)
    reader.add_argument("name", metavar="NAME", help="the name of the register")
    for name in ("door", "listen", "origin"):
        reader.add_argument(f"--{name}", required=True)
    reader.add_argument("--folder", required=True, type=pathlib.Path)
    reader.add_argument("--person", help="add this person, as head of the office")
    given = reader.parse_args()
    given.folder.mkdir(mode=0o700, exist_ok=True)
    if given.person:
        store = Store(str(given.folder / "office.db"))
        print(f"{given.person}: {people.People(store).add(given.person, roles.HEAD)}", flush=True)
        store.close()
    folder = given.folder.resolve()
    serve.run(Config(given.name, given.origin, given.door, folder, folder / "copies",
                     ROOT / "deploy" / "site"), given.listen)


if __name__ == "__main__":
    main()
