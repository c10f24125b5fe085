"""Instructions as valgrind's callgrind counts them, by who runs them and by function: for bench/aims.

They do not depend on how busy the machine is, and leave out what the system does. To zero or copy a block counts once a byte.
"""
import collections
import contextlib
import re
import tempfile

LEAST = 0.01
# The owner of a function, by its name: the first that matches. A crate of this repository is an owner by itself.
OWNERS = [
    ("`sqlite`", r"sqlite"),
    ("`serde_json`", r"serde_json"),
    ("`http`, `httparse`, `matchit`", r"(http|httparse|matchit)\b"),
    ("`csv`", r"csv"),
    ("`jiff`", r"jiff"),
    ("allocating and freeing memory", r"(malloc|realloc|calloc|free|_int_\w+|unlink_chunk|rattle_(de)?alloc\w*)\b"),
    ("zeroing and copying memory", r"(__)?mem(set|cpy|move|cmp)"),
    ("the system and other libraries", r""),
]
OURS = re.compile(r"(adm_\w+|admissions|match_runs)::")


def owner(name):
    ours = OURS.match(name)
    return f"`{ours[1]}`" if ours else next(who for who, pattern in OWNERS if re.match(pattern, name))


class Counted:
    """What callgrind counted in a run: the instructions of each function by itself, and those of each function's calls of each other one, with
    all that they call in turn."""

    def __init__(self, data):
        self.alone: collections.Counter = collections.Counter()
        self.calls: collections.Counter = collections.Counter()
        name = callee = None
        with open(data) as lines:
            for line in lines:
                if line.startswith("fn="):
                    name = line[3:].strip()
                elif line.startswith("cfn="):
                    callee = line[4:].strip()
                elif line[0].isdigit() and name is not None:
                    cost = int(line.split()[1])
                    if callee is None:
                        self.alone[name] += cost
                    else:
                        self.calls[name, callee] += cost
                        callee = None
        self.whole = sum(self.alone.values())
        assert self.whole, "nothing was counted"

    def shares(self):
        """The shares of whole crates, as text. A library's is that of the calls from this repository's functions, less what it calls of these;
        so the share of `sqlite` is all that it costs, and would be there if this program took no time at all."""
        found: collections.Counter = collections.Counter()
        for name, cost in self.alone.items():
            if OURS.match(name):
                found[owner(name)] += cost
        for (name, callee), cost in self.calls.items():
            ours, theirs = OURS.match(name), OURS.match(callee)
            # a function that runs nothing by itself during the count only encloses what is counted
            if self.alone[name] > 0 and ours and not theirs:
                found[owner(callee)] += cost
            elif self.alone[name] > 0 and theirs and not ours:
                found[owner(name)] -= cost
        every = sum(found.values())
        return ", ".join(f"{who} {cost / every:.0%}" for who, cost in found.most_common() if cost >= LEAST * every)

    def functions(self, most=8):
        """The functions that run most instructions by themselves, as text."""
        found: collections.Counter = collections.Counter()
        for name, cost in self.alone.items():
            found[re.sub(r"<#[0-9a-f]+>|::<.*>|\(.*\)", "", name)] += cost
        return ", ".join(f"`{name}` {cost / self.whole:.0%}" for name, cost in found.most_common(most))


@contextlib.contextmanager
def counting(arguments, at):
    """The arguments that run a program under valgrind, and a function that then returns what was counted in the functions `at`, with blanks between them."""
    with tempfile.NamedTemporaryFile() as data:
        options = [*(f"--toggle-collect={it}" for it in at.split()), "--compress-strings=no", "--compress-pos=no", f"--callgrind-out-file={data.name}"]
        yield ["valgrind", "-q", "--tool=callgrind", *options, *arguments], lambda: Counted(data.name)
