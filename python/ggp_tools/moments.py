"""Formats times of day for logs and journals."""

import datetime
import time

# The format of a time, which is in UTC.
MOMENT = r"\d{4}-\d\d-\d\dT\d\d:\d\d:\d\d\.\d{3}Z"


def moment_at(seconds: float) -> str:
    """Formats a time in seconds since 1970 as UTC, to the millisecond."""
    return datetime.datetime.fromtimestamp(seconds, datetime.timezone.utc).isoformat(timespec="milliseconds").replace("+00:00", "Z")


def moment() -> str:
    """Returns the current time in the format of `moment_at`."""
    return moment_at(time.time())
