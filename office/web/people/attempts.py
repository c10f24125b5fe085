"""How long somebody waits who has typed a wrong password: the longer, the more often it failed."""
import collections
import ipaddress
import threading
import time
from collections.abc import Callable

from register_files import Refused

# so many attempts that fail are free; each after them doubles the wait, up to the longest
FREE_ATTEMPTS, LONGEST_WAIT = 5, 300
# an office has one address for all: failures are forgotten so many seconds after the last wait
FORGOTTEN_AFTER = 3600
# for a name from all addresses many are free, and they are forgotten after a day
EVERYWHERE, FREE_EVERYWHERE, FORGOTTEN_EVERYWHERE = "everywhere ", 100, 24 * 3600
# what failed for a name is kept, however much else fails: who has many addresses would have it
# dropped by names that nobody has. So that it is bounded these share some counts, as the browsers
# of a person do
OF_CHANGES, OF_BROWSER = "changes ", "browser "
KEPT, NOBODIES, BROWSERS = (OF_CHANGES, OF_BROWSER, EVERYWHERE), 4096, 64
# all else is of an address, of which so many are kept: who has more has free attempts at each
MOST_OF_ADDRESSES = 10_000


def network(address: str) -> str:
    """An address; of IPv6 its first 64 bits, since whoever has one of these has all of them."""
    try:
        found = ipaddress.ip_address(address)
    except ValueError:
        return address
    return str(ipaddress.ip_network((found, 64), False)) if found.version == 6 else address


class TooMany(Refused):
    """An attempt that is not looked at, since an earlier one must be waited for."""


class Attempts:
    """How often somebody tried a password that was wrong. The wait grows with each, for a name from
    an address, for an address, and after many for a name from everywhere; whether a name exists
    makes no difference. A browser in which the name has signed in before has a wait of its own, so
    that nobody else can keep it out. Those at the same time count as if they failed until they have
    ended: what is beyond the free ones waits for them.
    """

    def __init__(self, clock: Callable[[], float] = time.monotonic) -> None:
        self.clock, self.lock = clock, threading.Condition(threading.RLock())
        self.failed: dict[str, tuple[int, float]] = {}
        self.open: collections.Counter[str] = collections.Counter()

    def is_right(self, check: Callable[[], bool], *keys: str) -> bool:
        """Whether an attempt is right, which is counted before it is checked; a refusal where
        nothing may be tried now.
        """
        self.begin(*keys)
        is_right = False
        try:
            is_right = check()
        finally:
            self.end(is_right, *keys)
        return is_right

    def begin(self, *keys: str) -> None:
        """Begins an attempt, once those in progress leave one of the free ones."""
        with self.lock:
            while not (wait := self.wait(*keys)) and any(map(self.is_full, keys)):
                self.lock.wait()
            if wait:
                self.poll(keys[0])
                wait = self.wait(*keys)
                raise TooMany(f"Too many attempts failed. Try again in {wait} seconds.")
            self.open.update(keys)

    def poll(self, key: str) -> None:
        """Begins the wait of somebody anew who does not wait for its end: who asks all the time
        would otherwise be the next one each time, and nobody else ever.
        """
        if self.wait(key):
            count, _ = self.failed[key]
            self.failed[key] = count, self.clock() + wait_after(key, count)

    def is_full(self, key: str) -> bool:
        """Whether another attempt would be beyond the free ones, if those in progress fail. After a
        wait there is one at a time.
        """
        count, until = self.failed.get(key, (0, 0.0))
        known = 0 if self.clock() - until > forgotten_after(key) else count
        return self.open[key] >= max(1, free(key) - known)

    def end(self, is_right: bool, *keys: str) -> None:
        """Ends an attempt."""
        with self.lock:
            self.open.subtract(keys)
            self.open = +self.open
            if is_right:
                self.succeed(keys[0])
            else:
                self.fail(*keys)
            self.lock.notify_all()

    def wait(self, *keys: str) -> int:
        """For how many seconds nothing more may be tried."""
        with self.lock:
            ends = (self.failed.get(it, (0, 0.0))[1] for it in keys)
            return max(0, int(max(ends) - self.clock() + 0.999))

    def fail(self, *keys: str) -> None:
        """Counts one that failed."""
        with self.lock:
            for key in keys:
                count, until = self.failed.pop(key, (0, 0.0))
                count = 1 if self.clock() - until > forgotten_after(key) else count + 1
                self.failed[key] = count, self.clock() + wait_after(key, count)
            others = [it for it in self.failed if not it.startswith(KEPT)]
            for key in others[:-MOST_OF_ADDRESSES]:
                del self.failed[key]

    def succeed(self, key: str) -> None:
        """Forgets those of a name from an address."""
        with self.lock:
            self.failed.pop(key, None)


def keys_of(name: str, is_known: bool, address: str) -> tuple[str, str, str]:
    """The keys of a sign-in: of a name from an address, of the address, and of the name from
    everywhere.
    """
    place = network(address)
    everywhere = f"of {name}" if is_known else f"at {hash(name) % NOBODIES}"
    return f"name {name} {place}", f"address {place}", EVERYWHERE + everywhere


def key_of_browser(name: str, browser: str) -> str:
    """The key of a browser in which a name has signed in before."""
    return f"{OF_BROWSER}{hash(browser) % BROWSERS} {name}"


def free(key: str) -> int:
    """How many attempts are free of a wait."""
    return FREE_EVERYWHERE if key.startswith(EVERYWHERE) else FREE_ATTEMPTS


def forgotten_after(key: str) -> int:
    """How many seconds after a wait its failures are forgotten."""
    return FORGOTTEN_EVERYWHERE if key.startswith(EVERYWHERE) else FORGOTTEN_AFTER


def wait_after(key: str, count: int) -> int:
    """The seconds of a wait after so many failures."""
    beyond = count - free(key)
    return 0 if beyond < 0 else min(LONGEST_WAIT, 1 << min(beyond, 30))
