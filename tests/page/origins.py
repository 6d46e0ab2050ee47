"""What the web server passes to the desk, and what another site makes a buyer's browser send."""

import contextlib
import socket
import ssl
import time
from collections.abc import Iterator
from pathlib import Path
from string import Template
from urllib.parse import urlsplit

from tests.page.browser import STRANGER, Browser
from tests.page.site import NAME, Site
from tests.page.week import ISBN, article, empty_message
from tests.program.serving import HOST, StandIn, standing_in
from tests.running import Outcome

PRICE = f"/desk/articles/{ISBN}/price?day=20250410&country=GB&currency=GBP&type=02"
GAPS = "/desk/series/north/gaps"

# A header field, by name and value.
Field = tuple[str, str]

DOCUMENT = [("Sec-Fetch-Mode", "navigate"), ("Sec-Fetch-Dest", "document")]
FRAME = [("Sec-Fetch-Mode", "navigate"), ("Sec-Fetch-Dest", "iframe")]
SCRIPT = [("Sec-Fetch-Mode", "no-cors"), ("Sec-Fetch-Dest", "script")]


def from_site(site: str, *fields: Field) -> list[Field]:
    return [("Sec-Fetch-Site", site), *fields]


def policies(site: Site) -> list[tuple[str, str, list[Field], int]]:
    """Requests with their fields, and the expected status of each."""
    own = site.address("")
    return [
        ("GET", GAPS, [], 200),
        # The desk takes a head of 16,384 bytes, and gets none of the browser's fields.
        ("GET", GAPS, [(f"X-Long-{number}", "a" * 6000) for number in range(3)], 200),
        ("GET", PRICE, [("Origin", own)], 200),
        ("GET", PRICE, [("Origin", "https://stranger.example.net")], 403),
        ("GET", PRICE, [("Origin", own.replace("https", "http"))], 403),
        ("GET", PRICE, [("Origin", f"https://{NAME}")], 403),
        ("GET", PRICE, [("Origin", f"{own}0")], 403),
        ("GET", PRICE, [("Origin", "null")], 403),
        ("GET", PRICE, from_site("same-origin"), 200),
        ("GET", PRICE, from_site("none", *DOCUMENT), 200),
        ("GET", PRICE, from_site("same-site"), 403),
        ("GET", PRICE, from_site("cross-site"), 403),
        ("GET", PRICE, from_site("cross-site", *DOCUMENT), 403),
        ("GET", PRICE, from_site("cross-site", *SCRIPT), 403),
        ("GET", "/", from_site("cross-site", *DOCUMENT), 200),
        ("GET", "/index.html", from_site("same-site", *DOCUMENT), 200),
        ("GET", "/", from_site("cross-site", *FRAME), 403),
        ("GET", "/main.js", from_site("cross-site", *SCRIPT), 403),
        ("GET", "/desk.json", from_site("cross-site"), 403),
        ("POST", "/desk/messages", [], 404),
        ("POST", "/desk/messages", [("Origin", own), *from_site("same-origin")], 404),
        ("GET", "/desk/messages", [], 404),
        ("POST", GAPS, [("Content-Length", "0")], 403),
        ("DELETE", GAPS, [], 403),
        ("POST", "/", [("Content-Length", "0")], 403),
        ("GET", "/desk/", [], 404),
        ("GET", "/desk/nowhere", [], 404),
        ("GET", "/desk/series/north/gaps/more", [], 404),
        ("GET", "/desk/series/../messages", [], 404),
        ("GET", "/desk/series/no%0d%0aGET/gaps", [], 404),
        ("GET", "/desk/series/north/catalogue", [], 404),
        ("GET", "/desk/series/nobody/gaps", [], 404),
        ("GET", "/nginx.conf", [], 404),
        ("GET", "/../passwords", [], 400),
        ("GET", "/state/north.json", [], 200),
        ("GET", "/state/south.json", [], 404),
        ("GET", "/state/north.json", from_site("cross-site"), 403),
        ("POST", "/state/north.json", [("Content-Length", "0")], 403),
        ("GET", "/state/../desk.json", [], 200),
        ("GET", "/state/%2e%2e/own/desk.json", [], 404),
        ("GET", "/state/titles/97812/97812345.json", [], 200),
        ("GET", "/state/titles/00000/00000000.json", [], 204),
        ("GET", "/state/titles/secret.json", [], 404),
    ]


# Those that reach the desk, by what it then writes.
THROUGH = ["200"] * 5 + ["404"]


def server_rules(site: Site, browser: Browser) -> Iterator[Outcome]:
    for name in ("north.json", "titles/97812/97812345.json", "titles/secret.json"):
        file = site.state / name
        file.parent.mkdir(parents=True, exist_ok=True)
        file.write_text("{}", encoding="utf-8")
    before = site.mark()
    for method, path, fields, wanted in policies(site):
        status, _, _ = site.fetch(path, method, fields=fields)
        yield Outcome(f"{method} {path} {str(fields)[:100]}", status, wanted)
    yield Outcome("what came to the desk", site.lines_since(before), THROUGH)


def hosts(site: Site, browser: Browser) -> Iterator[Outcome]:
    before = site.mark()
    for host, wanted in [(STRANGER, 421), (HOST, 421), ("localhost", 421), (NAME, 200)]:
        status, _, _ = site.fetch(GAPS, host=host)
        yield Outcome(f"the host {host}", status, wanted)
    context = ssl._create_unverified_context()
    try:
        with socket.create_connection((HOST, site.port)) as raw:
            context.wrap_socket(raw, server_hostname=STRANGER)
            came = "a certificate"
    except ssl.SSLError:
        came = "refused"
    yield Outcome("the certificate for a stranger's name", came, "refused")
    yield Outcome("of another host nothing comes to the desk", site.lines_since(before), ["200"])


FIELDS = {
    "X-Content-Type-Options": "nosniff",
    "Referrer-Policy": "no-referrer",
    "Cross-Origin-Opener-Policy": "same-origin",
    "Cross-Origin-Resource-Policy": "same-origin",
}
POLICY = {
    "default-src 'none'",
    "script-src 'self'",
    "style-src 'self'",
    "connect-src 'self'",
    "form-action 'none'",
    "base-uri 'none'",
    "frame-ancestors 'none'",
    "require-trusted-types-for 'script'",
    "trusted-types 'none'",
}


def reply_fields(site: Site, browser: Browser) -> Iterator[Outcome]:
    """A browser asks before it uses a file that it kept, and keeps no answer."""
    for path, cache in [
        ("/", "no-cache"),
        ("/desk.json", "no-cache"),
        ("/main.js", "no-cache"),
        ("/state/rules.json", "no-store"),
        (GAPS, "no-store"),
        ("/desk/messages", "no-store"),
    ]:
        _, fields, _ = site.fetch(path, fields=[("Accept-Encoding", "gzip")])
        policy = {part.strip() for part in fields["Content-Security-Policy"].split(";")}
        yield Outcome(f"the policy of {path}", policy, POLICY)
        yield Outcome(f"what {path} may use", "camera=()" in fields["Permissions-Policy"], True)
        came = {name: fields.get(name) for name in FIELDS}
        yield Outcome(f"the fields of {path}", came, FIELDS)
        yield Outcome(f"how long {path} is kept", fields["Cache-Control"], cache)
        if path == "/main.js":
            yield Outcome(f"{path} is packed", fields.get("Content-Encoding"), "gzip")


def slow_client(site: Site, browser: Browser) -> Iterator[Outcome]:
    """A buyer who sends a head byte by byte, or takes no reply, does not hold up the desk."""
    context = ssl._create_unverified_context()
    before = site.mark()
    with contextlib.ExitStack() as opened:
        for end in (b"", b"\r\n\r\n"):
            raw = opened.enter_context(socket.create_connection((HOST, site.port)))
            peer = opened.enter_context(context.wrap_socket(raw, server_hostname=NAME))
            peer.sendall(f"GET {GAPS} HTTP/1.1\r\nHost: {site.own_host()}".encode() + end)
        begun = time.monotonic()
        status, _, _ = site.fetch(GAPS)
        took = time.monotonic() - begun
    yield Outcome("beside slow buyers another one is answered", status, 200)
    # The desk itself waits 10 seconds for a slow client.
    yield Outcome(f"and at once, not in {took} s", took < 10, True)
    yield Outcome("slow buyers are not at the desk", site.lines_since(before), ["200"])


@contextlib.contextmanager
def strangers_site(text: str) -> Iterator[str]:
    """A site that is not the shop's, with that text on each page."""

    class Stranger(StandIn):
        kind = "text/html"

        def do_GET(self) -> None:
            self.reply(200, text.encode())

    with standing_in(Stranger) as port:
        yield f"http://{STRANGER}:{port}/"


def page(name: str, **given: str) -> str:
    """A stranger's page with this content."""
    return Template(Path(__file__).with_name(f"{name}.html").read_text(encoding="utf-8")).substitute(given)


def another_site(site: Site, browser: Browser) -> Iterator[Outcome]:
    """A page of another origin posts a message and asks for prices; nothing arrives."""
    text = page("strangers", site=site.address(""), message=empty_message(3), price=PRICE, view=article())
    gaps = site.ask_desk("/series/north/gaps")
    before = site.mark()
    asked = len(site.requests())
    with strangers_site(text) as address:
        browser.driver.get(address)
        done = browser.wait(lambda: browser.driver.title == "done")
        yield Outcome("the stranger's page has sent all", bool(done), True)
        stolen = browser.run("return window.stolen ?? null")
        yield Outcome("a stranger's script reads nothing", stolen, None)
        yield Outcome("nothing of it comes to the desk", site.lines_since(before), [])
        came = [line.split(" ")[:2] for line in site.requests()[asked:]]
        refused = [["403", "POST"]] * 2 + [["403", "GET"]] * 5
        yield Outcome("all of it came to the web server", sorted(came), sorted(refused))
        browser.one("#price").click()
        browser.wait(lambda: urlsplit(browser.driver.current_url).hostname == NAME)
        yield Outcome("a stranger's link to a price", "403 Forbidden" in browser.driver.page_source, True)
        yield Outcome("of the link nothing comes to the desk", site.lines_since(before), [])
        browser.driver.get(address)
        browser.wait(lambda: browser.driver.title == "done")
        browser.one("#page").click()
        browser.wait(lambda: browser.count("#offers tr"))
        yield Outcome("a link to a view opens it", len(browser.rows("#offers")), 3)
    yield Outcome("the desk is as before", site.ask_desk("/series/north/gaps"), gaps)


CASES = [server_rules, hosts, reply_fields, slow_client, another_site]
