"""What a keeper of the service wants to be told of, beside what is counted: `GET /metrics`, and `alerts.yml` for Prometheus."""

import os
import time
from collections.abc import Iterator
from contextlib import suppress

from .identifiers import MOST_IDENTIFIERS, Identifiers
from .metrics import head, one
from .senders import Tokens
from .service import Service

# Touched by `wagons-service backup`.
BACKED_UP = "backed-up"


def gauges(service: Service, tokens: Tokens | None, identifiers: Identifiers | None) -> Iterator[str]:
    office = service.office
    yield from office.room.gauges()
    yield from office.silence.gauges(office.answered)
    yield from one("wagons_is_first", "gauge", "1 where this service writes the replies, 0 where it is a standby", int(service.role != "standby"))
    if service.lease_until is not None:
        left = max(service.lease_until - time.monotonic(), 0)
        yield from one("wagons_lease_seconds", "gauge", "how long the lease lasts that this service holds", round(left, 3))
    if service.replicas is not None:
        yield from one("wagons_replicas", "gauge", "replicas of the Redis server that has the stream", service.replicas)
    if identifiers:
        yield from one("wagons_identifiers", "gauge", "textual identifiers that have numbers", identifiers.count)
        yield from one("wagons_identifiers_left", "gauge", "textual identifiers for which there is room", MOST_IDENTIFIERS - identifiers.count)
    disk = os.statvfs(service.folder.path)
    yield from one("wagons_disk_free_bytes", "gauge", "what is free on the journal's disk", disk.f_bavail * disk.f_frsize)
    with suppress(FileNotFoundError):
        backed_up = os.stat(f"{service.folder.path}/{BACKED_UP}").st_mtime
        yield from one("wagons_backup_timestamp_seconds", "gauge", "when the last backup was made", round(backed_up))
    yield from expiries(tokens)


def expiries(tokens: Tokens | None) -> Iterator[str]:
    """When tokens expire; of several with one name the last, so that a new one takes an old one's place."""
    moments: dict[str, float] = {}
    for sender in tokens.senders if tokens else ():
        moment = float("inf") if sender.until is None else sender.until.timestamp()
        moments[sender.name] = max(moment, moments.get(sender.name, 0))
    yield from head("wagons_token_expiry_timestamp_seconds", "gauge", "when a sender's last token expires, where it does")
    for name, moment in sorted(moments.items()):
        if moment != float("inf"):
            yield f'wagons_token_expiry_timestamp_seconds{{sender="{name}"}} {moment:.0f}'
