#!/usr/bin/env python3
"""Types answers on a terminal: deploy/steps/typed.py ANSWERS COMMAND [ARGUMENT..]

Runs a command on a terminal of its own and prints what that terminal shows. Each line of the file
ANSWERS is typed where a question waits: once what is shown ends in ': ' or '? ' and nothing
follows. After the last one the input has ended, so that one question too many does not wait for
ever. The exit status is that of the command, or 1 where an answer was not asked for.
"""
import os
import pty
import select
import sys

# so long a question has no more text
SILENCE = 0.5
# what a terminal takes for the end of the input
END = "\4"


def typed(answers: list[str], command: list[str]) -> int:
    """Runs the command, and returns its exit status."""
    process, terminal = pty.fork()
    if process == 0:
        os.execvp(command[0], command)
    shown = b""
    while True:
        is_question = shown.endswith((b": ", b"? "))
        ready, _, _ = select.select([terminal], [], [], SILENCE if is_question else None)
        if not ready:
            os.write(terminal, (f"{answers.pop(0)}\n" if answers else END).encode())
            shown = b""
            continue
        try:
            data = os.read(terminal, 65536)
        except OSError:
            # (the other end of a terminal was closed)
            data = b""
        if not data:
            break
        shown += data
        sys.stdout.buffer.write(data.replace(b"\r\n", b"\n"))
    sys.stdout.flush()
    status = os.waitstatus_to_exitcode(os.waitpid(process, 0)[1])
    return 1 if answers else status


if __name__ == "__main__":
    with open(sys.argv[1], encoding="utf-8") as file:
        sys.exit(typed(file.read().splitlines(), sys.argv[2:]))
