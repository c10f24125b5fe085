"""Errors of the machine in words for officers, who know no path, no program and no user of it."""
import re
import sqlite3

from register_files import FULL, Refused, program as named_program

COMMAND = re.compile(r"\badmissions-[a-z-]+: ")
PATH = re.compile(r"""'?(?<![\w/.])/[^\s:,;'"()]+'?""")
NUMBER = re.compile(r"\[Errno -?[0-9]+\] ")
# what the store says where its file cannot be written or read
STORE = {
    "database or disk is full": "its disk is full",
    "attempt to write a readonly database": "its files cannot be written",
    "unable to open database file": "its files cannot be opened",
    "disk I/O error": "its disk does not answer",
}
ADVICE = "Tell IT support"


def said(text: str) -> str:
    """What a program of the machine has said, without the names of files and programs."""
    return PATH.sub("a file", COMMAND.sub("", NUMBER.sub("", text)))


def reason(error: OSError | sqlite3.Error) -> str:
    """Why a file of the application cannot be read or written."""
    if isinstance(error, OSError):
        if error.errno in FULL:
            return STORE["database or disk is full"]
        return error.strerror.lower() if error.strerror else "a file is missing"
    return STORE.get(str(error), "its files are not as they should be")


def program() -> str:
    """The program of the register, or a refusal that an officer can pass on."""
    try:
        return named_program()
    except Refused as error:
        raise Refused(f"the program of the register is not on the machine: {ADVICE}") from error
