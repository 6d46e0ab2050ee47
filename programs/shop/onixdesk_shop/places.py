"""Where the package keeps its files."""

from pathlib import Path

ETC = Path("/etc/onixdesk")
INBOX_SETTINGS = ETC / "inbox"
FETCH_SETTINGS = ETC / "fetch"
RULES = ETC / "rules.toml"
DESK_JSON = ETC / "page" / "desk.json"

LIB = Path("/var/lib")
DESK_FILE = LIB / "onixdesk" / "shop.db"
INCOMING = LIB / "onixdesk-incoming"
INBOXES = LIB / "onixdesk-inbox"
STATE = LIB / "onixdesk-state"

BATCHES = Path("/run/onixdesk/batches")

# A copy of a desk has the ledgers of its inboxes, each as SERIES.db.
LEDGERS = "ledgers"

LEDGER, STORE, WORK = "ledger.db", "store", "work"

PROGRAM = Path("onixdesk")
