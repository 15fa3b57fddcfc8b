"""
The studio: a page in the browser that shows a graph file with the image at each node, and edits the
file.

    python3 -m feqyldan studio station.json 'parts/*.png'
"""

from __future__ import annotations

import contextlib
import secrets
import webbrowser
from typing import Mapping, Sequence

from .calls import Studio
from .web import Call, Site


def serve(path: str, pictures: Sequence[str], port: int = 0, opens_browser: bool = True) -> None:
    """Serves the page for a graph file and pictures until it is interrupted. Prints the page's
    address."""
    with contextlib.closing(Studio(path, pictures)) as studio, site_at(
            port, secrets.token_urlsafe(24), studio.calls) as site:
        print(f"feqyldan studio: {site.address}\nCtrl-C ends it.", flush=True)
        if opens_browser:
            webbrowser.open(site.address)
        site.serve_forever()


def site_at(port: int, token: str, calls: Mapping[str, Call]) -> Site:
    try:
        return Site(port, token, calls)
    except OSError as error:
        raise OSError(f"port {port} at 127.0.0.1: {error.strerror}: give another one by --port, or "
                      "none") from None
