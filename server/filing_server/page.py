"""The page: files of this package, which fetch nothing from elsewhere."""

from __future__ import annotations

from pathlib import Path
from typing import Awaitable, Callable

from aiohttp import web

STATIC = Path(__file__).resolve().parent / "static"
FILES = {
    "/": ("index.html", "text/html"),
    "/page.css": ("page.css", "text/css"),
    "/page.js": ("page.js", "text/javascript"),
    "/favicon.ico": ("icon.svg", "image/svg+xml"),
}


def add_routes(app: web.Application) -> None:
    """Each file of the page under its path."""
    for path, (name, kind) in FILES.items():
        app.router.add_get(path, serving((STATIC / name).read_bytes(), kind))


def serving(body: bytes, kind: str) -> Callable[[web.Request], Awaitable[web.Response]]:
    """What serves one file."""

    async def serve(request: web.Request) -> web.Response:
        return web.Response(body=body, content_type=kind, charset="utf-8", headers={"Cache-Control": "no-cache"})

    return serve
