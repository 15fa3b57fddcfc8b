"""What the studio's page gets of images, and what its web server refuses."""

import contextlib
import http.client
import io
import itertools
import json
import os
import re
import socket
import struct
import threading
import time
import unittest
from unittest import mock

from program import vx
from test_studio import INVERTING, contents, unpacked
from feqyldan import samples, thumbnails
from feqyldan.functions import FUNCTIONS
from feqyldan.studio import views
from feqyldan.studio.views import histogram, masks_in, part_of, thumb
from feqyldan.studio.web import PAGE, Packed, Site

numpy = samples.numpy_module()


def with_numpy(is_there):
    """Patches NumPy away, unless it is there."""
    module = numpy if is_there else None
    return mock.patch.multiple(views, numpy_module=lambda: module), mock.patch.multiple(
        thumbnails, numpy_module=lambda: module)


class TestViews(unittest.TestCase):
    """What the page gets of an image, with and without NumPy."""

    def picture(self, rows):
        if numpy is not None:
            return numpy.array(rows, numpy.uint8)
        return memoryview(bytes(sample for row in rows for sample in row)).cast(
            "B", (len(rows), len(rows[0])))

    def test_parts(self):
        rows = [[x + 20 * y for x in range(10)] for y in range(6)]
        flat = memoryview(bytes(sample for row in rows for sample in row)).cast("B", (6, 10))
        for part, place in (({}, [0, 0, 10, 6, 1]), ({"x0": 2, "y0": 1, "x1": 7, "y1": 3},
                                                     [2, 1, 5, 2, 1]),
                            ({"x0": -4, "x1": 99, "y1": "2", "step": None}, [0, 0, 10, 6, 1]),
                            ({"x0": 99, "y0": 99}, [9, 5, 1, 1, 1])):
            x0, y0, columns, lines, _ = place
            wanted = [row[x0 : x0 + columns] for row in rows[y0 : y0 + lines]]
            for given in (self.picture(rows), flat):
                of_views, of_thumbnails = with_numpy(given is not flat)
                with of_views, of_thumbnails:
                    found, content = part_of(given, part, False)
                self.assertEqual(found, place)
                self.assertEqual(content, bytes(sum(wanted, [])))

    def test_parts_with_a_step(self):
        rows = [[0] * 10 for _ in range(6)]
        rows[3][7] = 255
        place, content = part_of(self.picture(rows), {"step": 4}, True)
        self.assertEqual(place, [0, 0, 3, 2, 4])
        if numpy is not None:
            self.assertEqual(content, bytes([0, 255, 0, 0, 0, 0]))

    @unittest.skipIf(numpy is None, "NumPy isn't installed")
    def test_histograms(self):
        for kind, rows, valid in (
                ("uint8", [[0, 7, 255], [7, 0, 9]], [1, 0, 3, 2]), ("uint8", [[5]], [0, 0, 0, 0]),
                ("int16", [[-32768, 32767, 3], [-1, 0, 3]], [0, 0, 3, 2]),
                ("int16", [[-7, 400]], [0, 0, 2, 1]), ("uint32", [[2**32 - 1, 5]], [0, 0, 2, 1])):
            picture, (x0, y0, x1, y1) = numpy.array(rows, kind), valid
            inside = [sample for row in rows[y0:y1] for sample in row[x0:x1]]
            everything = [0, 255] if kind == "uint8" else sum(rows, [])
            low, high = min(everything), max(everything)
            bins = [0] * 256
            for sample in inside:
                bins[(sample - low) * 256 // (high - low + 1)] += 1
            self.assertEqual(histogram(picture, valid), {
                "bins": bins, "low": low, "high": high, "count": len(inside),
                "nonzero": len(inside) - inside.count(0), "least": min(inside, default=None),
                "most": max(inside, default=None),
                "mean": sum(inside) / len(inside) if inside else 0})
        with with_numpy(False)[0]:
            self.assertIsNone(histogram(picture, valid))

    def test_thumbnails(self):
        dark = self.picture([[0, 10], [20, 5]])
        self.assertEqual(thumb(dark, False)[2:], (12, bytes([0, 120, 240, 60])))
        self.assertEqual(thumb(dark, True)[2:], (1, bytes([0, 110, 110, 110])))
        self.assertEqual(thumb(self.picture([[0, 99]]), False).times, 1)

    def test_masks(self):
        told = contents({"function": "erode3x3", "input": "marks", "output": "core"}, INVERTING,
                        {"function": "threshold", "input": "camera", "threshold": "limit",
                         "output": "marks"}, {"function": "noth"}, 7)
        self.assertEqual(masks_in(told), {"marks", "core"})

    def test_a_packed_reply(self):
        head = {"a": "ü"}
        packed = Packed(head)
        self.assertEqual([packed.add(b"12345"), packed.add(b""), packed.add(b"678")], [0, 1, 2])
        self.assertEqual(unpacked(packed), ({**head, "parts": [[0, 5], [8, 0], [8, 3]]},
                                            [b"12345", b"", b"678"]))
        start = 4 + int.from_bytes(packed.content()[:4], "little")
        self.assertEqual(start % 8, 0)


class TestWeb(unittest.TestCase):
    """What the web server refuses."""

    def setUp(self):
        def fails(told):
            raise {"key": KeyError("a"), "system": OSError("no"), "client": vx.Closed("shut"),
                   "number": OverflowError("cannot convert float infinity to integer"),
                   "memory": MemoryError(),
                   "file": OSError(28, "No space left on device", "a.json")}[told["kind"]]

        self.asked = []
        self.site = Site(0, "a token", {"about": lambda told: self.asked.append(told) or {"a": 1},
                                        "fail": fails})
        self.addCleanup(self.site.server_close)
        thread = threading.Thread(target=self.site.serve_forever, daemon=True)
        thread.start()
        self.addCleanup(thread.join)
        self.addCleanup(self.site.shutdown)
        self.port = self.site.server_address[1]

    def ask(self, method="POST", path="/api/about", body="{}", **headers):
        """Returns the status, the body and the headers of a reply. A header that is None isn't
        sent."""
        connection = http.client.HTTPConnection("127.0.0.1", self.port, timeout=20)
        self.addCleanup(connection.close)
        connection.putrequest(method, path, skip_host=True, skip_accept_encoding=True)
        sent = {"Host": f"127.0.0.1:{self.port}"}
        if method == "POST":
            sent.update({"Content-Type": "application/json", "X-Studio-Token": "a token",
                         "Content-Length": str(len(body))})
        sent.update({name.replace("_", "-"): value for name, value in headers.items()})
        for name, value in sent.items():
            if value is not None:
                connection.putheader(name, value)
        connection.endheaders()
        if method == "POST":
            connection.send(body.encode())
        reply = connection.getresponse()
        return reply.status, reply.read(), dict(reply.getheaders())

    def refuses(self, status, *arguments, **named):
        found, body, _ = self.ask(*arguments, **named)
        self.assertEqual(found, status, (arguments, named, body))
        if found != 501:
            self.assertTrue(json.loads(body)["error"])
        self.assertEqual(self.asked, [])

    def test_a_call(self):
        self.assertEqual(self.ask(body='{"b": 2}')[:2], (200, b'{"a": 1}'))
        self.assertEqual(self.asked, [{"b": 2}])

    def test_tokens(self):
        for token in (None, "", "a toke", "a token ", "A token", "\xe9"):
            if token != "a token ":
                self.refuses(401, X_Studio_Token=token)

    def test_hosts(self):
        for host in (None, f"evil.example:{self.port}", "127.0.0.1", f"localhost:{self.port}",
                     f"127.0.0.1:{self.port}.evil.example", "127.0.0.1:1"):
            self.refuses(421, Host=host)
            self.refuses(421, "GET", "/", Host=host)

    def test_port_80(self):
        """Browsers leave it out."""
        self.site.server_port = 80
        for host in ("127.0.0.1", self.site.host):
            self.assertEqual(self.ask(Host=host, Origin=f"http://{host}")[0], 200)
        for host, origin in (("localhost", "http://localhost"), ("127.0.0.1", "null")):
            self.assertNotEqual(self.ask(Host=host, Origin=origin)[0], 200)

    def test_origins_and_sites(self):
        for origin in ("https://evil.example", "http://127.0.0.1:9", "null",
                       f"https://127.0.0.1:{self.port}"):
            self.refuses(403, Origin=origin)
        for site in ("cross-site", "same-site"):
            self.refuses(403, Sec_Fetch_Site=site)
            self.refuses(403, "GET", "/", Sec_Fetch_Site=site)
        status, *_ = self.ask(Origin=f"http://127.0.0.1:{self.port}", Sec_Fetch_Site="same-origin")
        self.assertEqual(status, 200)

    def test_forms_and_preflights(self):
        self.refuses(415, Content_Type="text/plain")
        self.refuses(415, Content_Type="application/x-www-form-urlencoded")
        self.refuses(501, "OPTIONS", "/api/about")
        self.refuses(501, "PUT", "/api/about")

    def test_paths(self):
        for path in ("/../web.py", "/..%2fweb.py", "/%2e%2e/web.py", "//etc/passwd",
                     "/main.js/../../web.py", "/.", "/page/main.js", "/main.py", "/api/about",
                     "/index.html/"):
            self.refuses(404, "GET", path)
        self.refuses(404, path="/api/none")

    def test_bodies(self):
        for length in (str(10**9), "9" * 5000):
            self.refuses(413, Content_Length=length)
        self.refuses(411, Content_Length=None, Transfer_Encoding="chunked")
        for length in ("-1", "\xb2"):
            self.refuses(411, Content_Length=length)
        for body in ("{", "[]", "1", "", "[" * 100_000):
            self.refuses(400, body=body)

    def test_clients_that_go(self):
        """They leave no words at the terminal, and half a call isn't made."""
        call = (f"POST /api/about HTTP/1.1\r\nHost: 127.0.0.1:{self.port}\r\n"
                "X-Studio-Token: a token\r\nContent-Type: application/json\r\n"
                "Content-Length: 9\r\n\r\n{}")
        reset = struct.pack("ii", 1, 0)
        with contextlib.redirect_stderr(io.StringIO()) as said:
            for text, linger in itertools.product(("GET / HT", call), (None, reset)):
                with socket.create_connection(("127.0.0.1", self.port)) as client:
                    client.sendall(text.encode())
                    if linger is not None:
                        client.setsockopt(socket.SOL_SOCKET, socket.SO_LINGER, linger)
            self.assertEqual(self.ask()[0], 200)
            time.sleep(0.5)
        self.assertEqual((said.getvalue(), self.asked), ("", [{}]))

    def test_errors_of_calls(self):
        for kind, status in (("key", 400), ("number", 400), ("system", 500), ("client", 500),
                             ("file", 500), ("memory", 500), ("none", 400)):
            self.refuses(status, path="/api/fail", body=json.dumps({"kind": kind}))
        _, body, _ = self.ask(path="/api/fail", body='{"kind": "file"}')
        self.assertEqual(json.loads(body), {"error": "a.json: No space left on device"})

    def test_the_page(self):
        """Each file of the page is served, and none has code or addresses from elsewhere."""
        for name in sorted(os.listdir(PAGE)):
            status, body, headers = self.ask("GET", f"/{name}")
            self.assertEqual(status, 200, name)
            self.assertIn("default-src 'none'; script-src 'self';",
                          headers["Content-Security-Policy"])
            self.assertEqual(headers["X-Content-Type-Options"], "nosniff")
            self.assertEqual(headers["X-Frame-Options"], "DENY")
            text = body.decode().replace("http://www.w3.org/", "")
            self.assertNotRegex(text, r"https?://|//[a-z]+\.|innerHTML|eval\(|\son\w+=\"", name)
            # The marks of code in these documents would be shown as they are.
            self.assertNotRegex(text, "'`|`'", name)
        self.assertEqual(self.ask("GET", "/")[1], self.ask("GET", "/index.html")[1])

    def test_the_palette_has_each_function(self):
        with open(os.path.join(PAGE, "palette.js"), encoding="utf-8") as file:
            groups = file.read().partition("const GROUPS = {")[2].partition("\n}")[0]
        self.assertEqual(sorted(re.findall(r"[\[ ]'(\w+)'", groups)), sorted(FUNCTIONS))

    def test_only_this_machine(self):
        self.assertEqual(self.site.socket.getsockname()[0], "127.0.0.1")
        with self.assertRaises(OSError):
            Site(self.port, "a token", {})

    def test_the_address(self):
        self.assertEqual(self.site.address, f"http://127.0.0.1:{self.port}/#a token")


if __name__ == "__main__":
    unittest.main()
