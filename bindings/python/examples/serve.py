#!/usr/bin/env python3
"""Serves window queries of one layer over HTTP, to this machine only.

usage: serve.py FILE [PORT]   (8000 by default; 0 means any free port)

    GET /scan?x=10..30&y=35..45[&z=E..F][&m=G..H]   the hits, and how many bytes were read, of how many
    GET /blobs?x=10..30&y=35..45[&z=E..F][&m=G..H]  the bytes of the hits, which are a certified layer again
    GET /list                                       a row for each blob

In place of x and y a query may have bbox=XMIN,YMIN,XMAX,YMAX. Numbers are decimals of any length, or have an exponent, as
1e-7. /scan and /list answer in JSON, /blobs in bytes. If examples/scripts/publish_layer.sh wrote FILE, each hit and row has
its id. A query that can't be read gets 400, and any other path 404, each with a line that says
what is wrong. HEAD is answered as GET is, without the body. The layer is certified once, before the first query. All
threads share it and its directory, so a query reads as many bytes as if the blobs whose box misses the window weren't there.
"""
import json
import os
import sys
from functools import partial
from hashlib import sha256
from http.server import BaseHTTPRequestHandler, ThreadingHTTPServer
from pathlib import Path
from typing import Dict, Iterable, List, Optional, Tuple, Union
from urllib.parse import parse_qsl, urlsplit

from dozhemik import BadWindow, Directory, Hit, Layer, Range, Refused, Row, Window, certify

TEXT, JSON, BYTES = "text/plain; charset=utf-8", "application/json", "application/octet-stream"
FORMS = "?x=A..B&y=C..D[&z=E..F][&m=G..H], or bbox=XMIN,YMIN,XMAX,YMAX for x and y"


def opened(path: str) -> Tuple[Layer, Optional[List[str]]]:
    """The layer of a file, and the ids of its blobs, or None if it has no folder of ids."""
    real = os.path.realpath(path)
    folder, earlier = Path(f"{real}.ids"), ""
    while True:
        data = Path(real).read_bytes()
        if not folder.is_dir():
            return certify(data), None
        ids = folder / sha256(data).hexdigest()
        try:
            lines = ids.read_bytes().decode(errors="surrogateescape").split("\n")[:-1]
        except FileNotFoundError:
            # The layer was replaced meanwhile, unless it is still the one that was read.
            if ids.name == earlier:
                raise
            earlier = ids.name
            continue
        layer = certify(data)
        if len(lines) != layer.blobs:
            raise OSError(f"{ids} has {len(lines)} ids, and the layer has {layer.blobs} blobs")
        return layer, lines


def window_of(query: str) -> Window:
    """The window of a query. Raises BadWindow, which says what is wrong with it."""
    given: Dict[str, str] = {}
    for name, text in parse_qsl(query, keep_blank_values=True):
        if name not in ("x", "y", "z", "m", "bbox"):
            raise BadWindow(f"{name!r} is no part of a window: {FORMS}")
        if name in given:
            raise BadWindow(f"{name} is given twice")
        given[name] = text
    if "bbox" in given:
        given.update(box_of(given.pop("bbox"), given))
    missing = [name for name in "xy" if name not in given]
    if missing:
        raise BadWindow(f"{' and '.join(missing)} missing: {FORMS}")
    return Window(**{name: range_of(name, text) for name, text in given.items()})


def box_of(text: str, given: Iterable[str]) -> Dict[str, str]:
    """The ranges of x and y of a bbox."""
    ends = text.split(",")
    if "x" in given or "y" in given:
        raise BadWindow("a bbox says what x and y are, so neither is given beside it")
    if len(ends) != 4:
        raise BadWindow(f"bbox={text!r} isn't XMIN,YMIN,XMAX,YMAX")
    return {"x": f"{ends[0]}..{ends[2]}", "y": f"{ends[1]}..{ends[3]}"}


def range_of(name: str, text: str) -> Range:
    lo, dots, hi = text.partition("..")
    if not dots:
        raise BadWindow(f"{name}={text!r} is no range: {name}=A..B")
    return lo, hi


class Handler(BaseHTTPRequestHandler):
    # In seconds: a client that says nothing for longer is left.
    timeout = 30

    def __init__(self, layer: Layer, ids: Optional[List[str]], directory: Directory, *rest: object) -> None:
        self.layer, self.ids, self.directory = layer, ids, directory
        super().__init__(*rest)  # type: ignore[arg-type]

    def do_GET(self) -> None:
        try:
            address = urlsplit(self.path)
            if address.path == "/scan":
                self.tell(200, JSON, json.dumps(self.scanned(address.query)))
            elif address.path == "/blobs":
                self.answer(200, BYTES, self.blobs(address.query))
            elif address.path == "/list":
                self.tell(200, JSON, json.dumps({"rows": list(map(self.described, self.layer.list()))}))
            else:
                self.tell(404, TEXT, "there are /scan, /blobs and /list")
        except ValueError as why:
            self.tell(400, TEXT, str(why))

    do_HEAD = do_GET

    def scanned(self, query: str) -> Dict[str, object]:
        scan = self.directory.scan(window_of(query))
        return {"hits": list(map(self.described, scan)), "read": scan.bytes_read, "of": self.layer.size}

    def described(self, blob: Union[Hit, Row]) -> Dict[str, object]:
        return blob._asdict() if self.ids is None else {"id": self.ids[blob.blob], **blob._asdict()}

    def blobs(self, query: str) -> List[bytes]:
        return [self.layer.blob(hit) for hit in self.directory.scan(window_of(query))]

    def tell(self, status: int, kind: str, text: str) -> None:
        self.answer(status, kind, [f"{text}\n".encode()])

    def answer(self, status: int, kind: str, parts: List[bytes]) -> None:
        self.send_response(status)
        self.send_header("Content-Type", kind)
        self.send_header("Content-Length", str(sum(map(len, parts))))
        self.end_headers()
        if self.command != "HEAD":
            self.wfile.writelines(parts)


def main() -> int:
    if len(sys.argv) not in (2, 3) or not "".join(sys.argv[2:] or "0").isdecimal():
        print("usage: serve.py FILE [PORT]", file=sys.stderr)
        return 2
    path, port = sys.argv[1], int(sys.argv[2]) if len(sys.argv) == 3 else 8000
    try:
        layer, ids = opened(path)
        server = ThreadingHTTPServer(("127.0.0.1", port), partial(Handler, layer, ids, layer.directory()))
    except Refused as why:
        print(f"serve.py: {path} is refused: {why}", file=sys.stderr)
        return 1
    except (OSError, OverflowError, MemoryError) as why:
        print(f"serve.py: {str(why) or 'out of memory'}", file=sys.stderr)
        return 3
    print(f"{path} at http://127.0.0.1:{server.server_port}", flush=True)
    try:
        server.serve_forever()
    except KeyboardInterrupt:
        server.server_close()
    return 0


if __name__ == "__main__":
    sys.exit(main())
