"""Whether the application and the register answer, for a monitor without a sign-in; and how many
requests there were, and sign-ins that failed, for the machine alone.
"""
from typing import Any

import flask

from office.web.people.guard import PUBLIC, needs, parts, watch

screen = flask.Blueprint("health", __name__)


@screen.get("/healthz")
@needs(PUBLIC)
def health() -> tuple[dict[str, str], int]:
    """200 where the register answers, and 503 where it does not."""
    is_answered = watch().is_answered(parts().desk)
    return {"application": "ok", "register": "ok" if is_answered else "away"}, (
        200 if is_answered else 503)


@screen.get("/counts")
@needs(PUBLIC)
def counts() -> dict[str, Any]:
    """How many requests were answered with which status, and how many sign-ins failed, since so
    many seconds. The site names the address of whoever asks: they get nothing, and this is for the
    machine alone.
    """
    if "X-Real-IP" in flask.request.headers:
        flask.abort(404)
    found = watch()
    return {"requests": found.counts(), "sign_ins_failed": parts().failures.counts(),
            "seconds": round(found.clock() - found.began)}
