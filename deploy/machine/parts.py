"""The parts of a register that its status reports: where each is well, and how bad it is
otherwise."""
import typing


class Part(typing.NamedTuple):
    """A part in words."""

    well: str
    otherwise: str = "ATTENTION"


PARTS = {
    "register": Part(
        "the file is there, for its owner alone, and no takeover is unfinished",
        "FAILED; ATTENTION if others can read it, or a takeover is unfinished"),
    "desk": Part("the server answers: it has the register, and the application asks it", "FAILED"),
    "site": Part(
        "over TLS the site answers with the application's question who signs in, and with the"
        " certificate that is in site.crt; the file site-name is there",
        "FAILED; ATTENTION if it answers with another certificate"),
    "units": Part(
        "no upgrade was interrupted; server, nginx and the timers of backup and drill are active"
        " and enabled, and that of copies by the hour is active if it is enabled; the application,"
        " its socket and what waits for its requests are active; no backup, second copy, drill, or"
        " copy or restore for the application failed"),
    "people": Part("somebody with the role head may sign in: a person who is not locked"),
    "history": Part(
        "the application alone reads and writes it, no line was changed, it begins with each of its"
        " copies or that is acknowledged, the last entry is not dated ahead, and no request has"
        " been without a known answer for an hour",
        "ATTENTION. With a changed line the application does not start again, and then site has"
        " failed"),
    "copy": Part(
        "it is not older than 26 hours, with people, settings and history, and not dated ahead"),
    "second copy": Part(
        "no other machine has taken the register over, it is not older than 26 hours, and at the"
        " place that is named now, where nothing is of another register of this name. Where no"
        " second place is named, its file has the line none. A key is set, and its identity file"
        " is not on this machine alone",
        "ATTENTION; FAILED, with desk and site, if another machine has taken over"),
    "drill": Part(
        "it is not older than 35 days, nor is the last one that opened a copy of the second place"),
    "disk": Part(
        "the greatest of these is free: ten times the register, three times the newest archive of"
        " people and files, and 200 MB; where register, copies and application are, and at the"
        " second place if it is a folder of this machine",
        "ATTENTION, even if no room is left; desk has failed once the register could not be"
        " written"),
    "certificate": Part(
        "it is of the site's key and of its name, it was not signed by its own key, and it is valid"
        " for 21 days at least",
        "FAILED if it is not of the site's key, and from its last day on; else ATTENTION"),
    "deletion": Part("no day of deletion is kept, or the day is more than 14 days ahead"),
    "deleted": Part(
        "in place of all others where the register was deleted: that has ended, and no folder of"
        " the application has anything left. It says when, how much, and what remains at the second"
        " place"),
}
