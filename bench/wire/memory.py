"""How much memory `hg_pushd host` holds for one large push over HTTP: memory.py PROGRAM [MEBIBYTES].

Each push is made to a server of its own: of changesets with texts of 140 bytes, of few changesets with
texts of 1 MiB, of one changeset with a file whose revision has nearly all of the bytes, of a part that is
passed over, and of one small bundle after which the body goes on. Written: the bytes of the push, and the
resident bytes of the process before it, and beyond these at its most, after the answer and after the
connection's end, also as multiples of the push.
"""

import hashlib
import http.client
import os
import re
import shutil
import subprocess
import sys
import tempfile
import time

NULL = bytes(20)
MIB = 1 << 20


def number(value):
    return value.to_bytes(4, "big")


def part(kind, place, params, payload):
    header = bytes([len(kind)]) + kind + number(place) + bytes([len(params), 0])
    header += b"".join(bytes([len(key), len(value)]) for key, value in params)
    header += b"".join(key + value for key, value in params)
    pieces = [payload[at:at + 32768] for at in range(0, len(payload), 32768)]
    return number(len(header)) + header + b"".join(number(len(it)) + it for it in pieces) + number(0)


def chunk(node, parent, link, text):
    data = node + parent + NULL + NULL + link + number(0) + number(0) + number(len(text)) + text
    return number(len(data) + 4) + data


def changesets(size, length):
    """So many bytes of changesets, each on the one before, with texts of that length."""
    node, made, total, place = NULL, [], 0, 0
    while total + length + 120 <= size:
        text = b"0" * 40 + b"\ntest\n0 0\n\nchangeset %d" % place
        text += b"." * (length - len(text))
        before, node = node, hashlib.sha1(NULL + node + text).digest()
        made.append(chunk(node, before, node, text))
        total += len(made[-1])
        place += 1
    return made, node


def group(entries, rest=number(0) * 2):
    return part(b"CHANGEGROUP", 1, [(b"version", b"02")], b"".join(entries) + number(0) + rest)


def bundle(*parts):
    return b"HG20" + number(0) + part(b"REPLYCAPS", 0, [], b"") + b"".join(parts) + number(0)


def with_file(size):
    """A changeset, and a file of that size. What a file holds is not kept."""
    entries, node = changesets(400, 140)
    text = os.urandom(MIB) * (size // MIB)
    file = hashlib.sha1(NULL + NULL + text).digest()
    manifest = b"f\0" + file.hex().encode() + b"\n"
    own = hashlib.sha1(NULL + NULL + manifest).digest()
    rest = chunk(own, NULL, node, manifest) + number(0)
    rest += number(5) + b"f" + chunk(file, NULL, node, text) + number(0) + number(0)
    return bundle(group(entries, rest))


def kinds(size):
    yield "changesets of 140 bytes", bundle(group(changesets(size, 140)[0]))
    yield "changesets of 1 MiB", bundle(group(changesets(size, MIB)[0]))
    yield "a file of one changeset", with_file(size - MIB)
    passed_over = part(b"output", 1, [], os.urandom(MIB) * (size // MIB - 1))
    yield "a part that is passed over", bundle(passed_over)
    yield "bytes after a small bundle", bundle(group(changesets(400, 140)[0])) + bytes(size)


def held(process):
    with open(f"/proc/{process}/status", encoding="ascii") as status:
        told = dict(re.findall(r"^(VmHWM|VmRSS):\s+(\d+) kB", status.read(), re.M))
    return int(told["VmRSS"]) * 1024, int(told["VmHWM"]) * 1024


def started(program, store):
    server = subprocess.Popen([program, "host", "--store", store, "--listen", "127.0.0.1:0"],
                              stderr=subprocess.PIPE, encoding="ascii")
    return server, int(re.search(r"127\.0\.0\.1:(\d+)/", server.stderr.readline())[1])


def measure(program, name, body):
    folder = tempfile.mkdtemp()
    server, port = started(program, f"{folder}/store")
    try:
        line = http.client.HTTPConnection("127.0.0.1", port)
        line.request("GET", "/?cmd=heads")
        line.getresponse().read()
        before, _ = held(server.pid)
        line.request("POST", "/?cmd=unbundle", body,
                     {"content-type": "application/mercurial-0.1", "x-hgarg-1": "heads=666f726365"})
        told = line.getresponse().read()
        time.sleep(1)
        after, most = held(server.pid)
        line.close()
        time.sleep(1)
        closed, _ = held(server.pid)
    finally:
        server.kill()
        server.wait()
        shutil.rmtree(folder)
    is_done = b"ERROR" not in told and told.startswith(b"HG20")
    size = len(body)
    figures = [f"{(it - before) / MIB:7.1f} MiB {(it - before) / size:5.2f}" for it in (most, after, closed)]
    answer = "done" if is_done else told[:60]
    print(f"{name:28} {size / MIB:6.1f} MiB  {answer}  before {before / MIB:5.1f} MiB,"
          f"  most {figures[0]}, answered {figures[1]}, closed {figures[2]}", flush=True)


def main(program, mebibytes="60"):
    for name, body in kinds(int(mebibytes) * MIB):
        measure(program, name, body)


if __name__ == "__main__":
    main(*sys.argv[1:])
