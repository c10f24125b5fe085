"""What the second place has of a register: whether it is reached, and all of it fetched and
decrypted."""
import contextlib
import os
import pathlib
import shutil
import subprocess

from register_files import Refused

from . import answers, copies, files, histories, history_copies, sealed, second_copy
from .programs import OFFICE, USER, call, tool
from .registers import SETTINGS, Register, named

# what is fetched: copies with what is beside each, and the history
WANTED = (*copies.PATTERNS, *(f"{it}{sealed.END}" for it in copies.PATTERNS),
          f"/{history_copies.FOLDER}/", f"/{history_copies.FOLDER}/*")
# a program that runs what it is given, in place of a host
ENV = "env"
# how many copies are named where the one that was asked for is not there
NAMED = 5
# as a copy calls ssh, but that it may ask whether the key of that machine is right
ASKS = "ssh -o PasswordAuthentication=no -o ConnectTimeout=30"


def fetch(
    name: str, place: str, wanted: str = "", identity: str | None = None
) -> pathlib.Path:
    """Fetches what the second place has of a register, and returns the copy from which it goes on:
    the one that is wanted, or the last one."""
    register = named(name)
    place = (place or second_copy.place_of() or "").rstrip("/")
    if not place:
        raise Refused(f"name the second place, here or in {SETTINGS / 'second-copy'}", 2)
    see_place(name, place)
    files.folder(register.copies, 0o710, USER, OFFICE)
    options: list[object] = ["--recursive", "--times", "--omit-dir-times", "--chmod=D700,F600"]
    for it in WANTED:
        options += ["--include", it]
    # (a disk of another machine may know its users by other numbers: root reads it, and only the
    # other end, which is begun as one of another machine would be, is of the user of the copies)
    is_local = second_copy.is_local(place)
    call(tool("rsync", "rsync"), *options, "--exclude", "*",
         "--rsh", other_end() if is_local else second_copy.SSH, f"{place}/{name}/",
         f"{f'{ENV}:' if is_local else ''}{register.copies}/", as_user=None if is_local else USER)
    decrypt_all(register, identity)
    made = register.nightly_copies()
    if not made:
        raise Refused(f"{place}/{name} has no copy of a register")
    print(f"fetched {len(made)} copies from {place}/{name}, the last of them {made[-1].name}")
    return chosen(made, wanted) if wanted else last_on_the_way(made)


def other_end() -> str:
    """How rsync begins its other end on this machine, which writes as the user of the copies: so no
    link that this user puts there leads root anywhere. What follows is the name of a host."""
    as_user = f"setpriv --reuid={USER} --regid={USER} --clear-groups "
    return f"{as_user if os.geteuid() == 0 else ''}{ENV}"


def chosen(made: list[pathlib.Path], wanted: str) -> pathlib.Path:
    """The copy of this name."""
    found = next((it for it in made if it.name == wanted), None)
    if found is None:
        last = ", ".join(it.name for it in made[-NAMED:])
        raise Refused(f"the second place has no copy {wanted}; of its {len(made)} copies the last"
                      f" are {last}")
    return found


def last_on_the_way(made: list[pathlib.Path]) -> pathlib.Path:
    """The last copy that lacks just what was sent since it was made. One of before a restore may
    have what the restore has undone."""
    data = history_copies.last_whole(made[-1].parent / history_copies.FOLDER)
    record = histories.Record("the history", data)
    found = next((it for it in reversed(made) if record.is_on_the_way(copies.moment(it))), made[-1])
    if found != made[-1]:
        print(f"goes on from {found.name}: since {made[-1].name} the office has restored a copy,"
              " so that one has what was undone, or lacks what was brought back")
    return found


def see_place(name: str, place: str) -> None:
    """Refuses a place of this machine that is not there, or has no folder of the register; and
    another machine that is not reached."""
    if not second_copy.is_local(place):
        see_machine(place)
        return
    path = pathlib.Path(place)
    if not path.is_dir():
        raise Refused(f"{place} is not there: is the disk mounted?")
    if not (path / name).is_dir():
        there = ", ".join(sorted(it.name for it in path.iterdir() if it.is_dir())) or "none"
        above = f". Name {path.parent}, which has it" if path.name == name else ""
        raise Refused(f"{place} has no folder {name}, and so no copies of a register of this name;"
                      f" folders there: {there}{above}")


def decrypt_all(register: Register, given: str | None) -> None:
    """Decrypts what was fetched encrypted, with the identity file that is given, that of this
    machine, or the one that is typed."""
    found = sorted(register.copies.rglob(f"*{sealed.END}"))
    if not found:
        return
    with contextlib.ExitStack() as stack:
        identity = None if given else sealed.identity()
        if identity is None:
            identity = stack.enter_context(sealed.lent(answers.identity_file(given)))
        # (in a folder of the user of the copies)
        stack.enter_context(files.as_desk())
        for path in found:
            target = sealed.decrypt(path, identity)
            shutil.copystat(path, target)
            path.unlink()


def see_machine(place: str) -> None:
    """Looks whether the user of the copies reaches a folder of another machine. Where it has not
    met that machine, ssh shows its key on the terminal, and asks whether it is right."""
    words = [tool("rsync", "rsync"), "--list-only", "--rsh", ASKS, f"{place}/"]
    done = subprocess.run(words, check=False, cwd="/", user=USER, group=USER, extra_groups=[],
                          stdout=subprocess.DEVNULL)
    if done.returncode:
        raise Refused(f"{place} cannot be reached by the user {USER}: admissions-admin second-place"
                      " --ssh-key prints what that machine needs, and the first time it is reached"
                      " from a terminal, which shows its key")
