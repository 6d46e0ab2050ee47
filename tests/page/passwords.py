"""The passwords of the web server: what is asked without one, and their file."""

import os
import re
import shutil
import stat
import subprocess
from collections.abc import Iterator

from tests.page.browser import Browser
from tests.page.origins import GAPS
from tests.page.site import PASSWORD, Site
from tests.running import Outcome
from tools.root import ROOT


def without(site: Site, browser: Browser) -> Iterator[Outcome]:
    # No page is open that asks each minute.
    browser.driver.get("about:blank")
    before = site.mark()
    for password in ("", "another", PASSWORD + "x"):
        for path in ("/", "/main.js", "/desk.json", GAPS):
            status, _, _ = site.fetch(path, password=password)
            yield Outcome(f"the password {password!r} for {path}", status, 401)
    yield Outcome("without its password nothing comes to the desk", site.lines_since(before), [])


# The lines that make the file, in both documents that have them.
README = ROOT / "examples/page/README.md"
FILE = "/etc/nginx/onixdesk.passwords"

# The password is filled in where the command would ask for it. nginx hashes each request anew: with openssl's own
# number of rounds that takes three times as long.
SALT = '-salt "rounds=1000\\$$(openssl rand -hex 8)"'
is_cheap = re.compile(r"\$6\$rounds=1000\$([0-9a-f]{16})\$[./0-9A-Za-z]{86}").fullmatch


def lines_for_file() -> list[str]:
    text = README.read_text(encoding="utf-8")
    return [line.strip() for line in re.findall(r"^    .*", text, re.M) if FILE in line]


def password_file(site: Site, browser: Browser) -> Iterator[Outcome]:
    """As the README makes it: only the server may read it from the first moment, and buyers are added."""
    folder = site.room.path("etc")
    folder.mkdir()
    path = folder / "passwords"
    begin, add = lines_for_file()

    def run(line: str, buyer: str = "buyer") -> None:
        here = line.replace(FILE, str(path)).replace("buyer:", f"{buyer}:")
        here = here.replace(SALT, f"{SALT} words")
        if os.geteuid() != 0:
            here = here.replace("-o root -g www-data", "")
        subprocess.run(["sh", "-ec", f"umask 022; {here}"], check=True)

    def readers() -> tuple[int, bool]:
        found = path.stat()
        return stat.S_IMODE(found.st_mode), found.st_size > 0

    run(begin)
    yield Outcome("the file is made without a password", readers(), (0o640, False))
    run(add, "anna")
    yield Outcome("with a password it is as closed", readers(), (0o640, True))
    run(begin)
    run(add, "bert")
    names, hashes = zip(*(line.split(":") for line in path.read_text().splitlines()), strict=True)
    yield Outcome("another buyer beside the first", names, ("anna", "bert"))
    salts = {found[1] for each in hashes if (found := is_cheap(each))}
    yield Outcome("each has a hash of few rounds, and a salt of its own", len(salts), 2)
    if os.geteuid() == 0:
        yield Outcome("its group", path.group(), "www-data")
    shutil.rmtree(folder)


CASES = [without, password_file]
