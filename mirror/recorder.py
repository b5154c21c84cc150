"""Pushes of a real `hg push`, recorded on their way to a real `hg serve`.

A small server stands between the two. It hands each request on, tells the capabilities that the push server
tells, and keeps the body of each `unbundle` whose answer brings no error.
"""

import contextlib
import http.client
import http.server
import threading
from urllib.parse import parse_qs, urlsplit

CAPABILITIES = (b"batch branchmap bundle2=HG20%0Abookmarks%0Achangegroup%3D01%2C02%0A"
                b"error%3Dabort%2Cunsupportedcontent%2Cpushraced%2Cpushkey%0A"
                b"obsmarkers%3DV0%0Aphases%3Dheads%0Apushkey getbundle httpheader=1024 known lookup pushkey unbundle")


class Handler(http.server.BaseHTTPRequestHandler):
    """One request: handed on, and its answer handed back."""

    def log_message(self, *_words):
        pass

    def handle_request(self):
        body = self.rfile.read(int(self.headers.get("content-length") or 0))
        onward = http.client.HTTPConnection("127.0.0.1", self.server.onward, timeout=60)
        onward.request(self.command, self.path, body or None, dict(self.headers))
        answer = onward.getresponse()
        told = answer.read()
        command = parse_qs(urlsplit(self.path).query).get("cmd", [""])[0]
        if command == "capabilities":
            told = CAPABILITIES
        if command == "unbundle" and answer.status == 200 and b"error:" not in told.lower():
            self.server.bundles.append(body)
        self.send_response(answer.status)
        self.send_header("content-type", answer.getheader("content-type"))
        self.send_header("content-length", str(len(told)))
        self.end_headers()
        self.wfile.write(told)
        onward.close()

    do_GET = do_POST = handle_request


@contextlib.contextmanager
def recorded(place, repository):
    """The address to push to, and the list of the pushes that were done."""
    served = place.start("serve", "-R", repository, "-a", "127.0.0.1", "-p", "0", "--print-url")
    try:
        url = served.stdout.readline().decode().strip()
        front = http.server.ThreadingHTTPServer(("127.0.0.1", 0), Handler)
        front.onward, front.bundles = urlsplit(url).port, []
        threading.Thread(target=front.serve_forever, daemon=True).start()
        try:
            yield f"http://127.0.0.1:{front.server_port}/", front.bundles
        finally:
            front.shutdown()
            front.server_close()
    finally:
        served.terminate()
        served.wait()
        served.stdout.close()
