"""Pictures of the page of `host` in a real browser: page.py PROGRAM FOLDER

Names of bookmarks and branches that would be more than text stand on it. Chromium shows it, wide and narrow, light
and dark; each picture becomes a PNG in FOLDER, by pngquant. Whoever looks at them sees text alone, and nothing that runs.
"""
import os
import subprocess
import sys
import tempfile

FOLDER = os.path.abspath(sys.argv[2])
from bundles import CAPS, EMPTY, NULL, bundle, group, heads, node_of
from host import HOSTILE, Host, want

BROWSER = ["chromium", "--headless", "--no-sandbox", "--disable-gpu", "--hide-scrollbars", "--disable-dev-shm-usage"]
BRANCHES = (b"default", b"stable", b"<b>bold</b>", "Grüße \u202etfel".encode(), b"\xff\xfe")


def changeset(number, branch):
    extra = b" branch:" + branch if branch != b"default" else b""
    return b"%040d\nAnn <ann@example.org>\n%d 0%s\nf\n\nchange %d" % (0, number, extra, number)


def fill(host):
    """Some pushes: done, raced, and no bundle at all."""
    last = NULL
    for number in range(10):
        text = changeset(number, BRANCHES[number // 2])
        want("a push", b"reply:changegroup" in host.push(bundle(CAPS, group((text, last))))[2], True)
        last = node_of(text, last) if number % 2 == 0 else NULL
    last = node_of(changeset(0, b"default"))
    for name in ("release-1.0", "ann/fix", *HOSTILE):
        kind = ("content-type: application/mercurial-0.1",
                f"x-hgarg-1: namespace=bookmarks&key={name}&old=&new={tip_of(host)}")
        want(f"{name} is set", host.ask("/?cmd=pushkey", b"", kind)[2], b"1\n")
    host.push(EMPTY)
    host.push(bundle(CAPS, heads(last), group((changeset(99, b"default"), NULL))))
    host.push(b"HG10")


def tip_of(host):
    return host.ask("/?cmd=lookup&key=tip")[2].split()[1].decode()


def main():
    sizes = {"wide": "1100,900", "narrow": "500,1100"}
    with tempfile.TemporaryDirectory(prefix="page-") as room:
        host = Host(room)
        host.start()
        try:
            fill(host)
            for width, size in sizes.items():
                for scheme, number in (("light", 1), ("dark", 0)):
                    words = [*BROWSER, f"--window-size={size}", f"--blink-settings=preferredColorScheme={number}",
                             f"--user-data-dir={room}/browser", f"--screenshot={room}/page.png", host.url()]
                    subprocess.run(words, check=True, capture_output=True, timeout=120)
                    # 64 colours are enough, and a quarter of the size
                    subprocess.run(["pngquant", "--force", "--output", f"{FOLDER}/page-{width}-{scheme}.png", "64",
                                    f"{room}/page.png"], check=True)
        finally:
            host.kill()


if __name__ == "__main__":
    main()
