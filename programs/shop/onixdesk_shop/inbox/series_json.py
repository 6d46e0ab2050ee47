"""SERIES.json: what the buyers' page may know of an inbox. It has no text from others."""

import json
from typing import Any

from onixdesk_shop.desk import Gaps
from onixdesk_shop.inbox.context import Inbox
from onixdesk_shop.settings import NEXT

# How long the price types of messages are listed.
KINDS_SECONDS = 120 * 86_400


def members(inbox: Inbox, gaps: Gaps | None) -> dict[str, Any]:
    ledger, now = inbox.ledger, int(inbox.machine.now())
    return {
        "version": 1,
        "at": now,
        "numbered": inbox.settings.number != NEXT,
        "desk": gaps is not None,
        "silent": inbox.is_silent(),
        "waiting": ledger.count_waiting(gaps),
        "quarantined": ledger.value("SELECT count(*) FROM file WHERE state = 'quarantined'"),
        "refused": ledger.count_undecided(),
        "first": gaps.first if gaps else None,
        "next": gaps.next if gaps else None,
        "greatest": gaps.greatest if gaps else None,
        "taken_at": ledger.value("SELECT max(at) FROM file WHERE state = 'applied'"),
        "heard_at": ledger.heard_at(),
        "prices": ledger.kinds_since(now - KINDS_SECONDS),
        "older_terms": ledger.count_older_terms(inbox.terms),
    }


def write(inbox: Inbox, gaps: Gaps | None) -> None:
    text = json.dumps(members(inbox, gaps), separators=(",", ":"))
    inbox.machine.write_whole(inbox.places.state / f"{inbox.series}.json", text.encode("ascii"))
