"""Starts filing on a journal, and the server before it; stops both in order."""

from __future__ import annotations

import asyncio
import logging
import resource
import signal
import sys

try:
    from aiohttp import web
except ImportError:
    sys.exit("filing_server: aiohttp is missing; on Debian: apt-get install python3-aiohttp")

from .connections import Door
from .http import Interface
from .notes import NotesInUse
from .office import STOP_WAIT, Office, ProgramEnded
from .problems import Words
from .settings import Settings, read_settings
from .sockets import serve_lines

LOG = logging.getLogger("filing_server")


async def serve(settings: Settings) -> int:
    """Runs the office until a signal stops it, or the program ends."""
    words = Words(settings.filing)
    office = Office(settings)
    try:
        await office.start()
    except ProgramEnded as ended:
        return ended.status or 1
    loop = asyncio.get_running_loop()
    stopped = asyncio.Event()
    for name in (signal.SIGINT, signal.SIGTERM):
        loop.add_signal_handler(name, stopped.set)
    runner = web.AppRunner(Interface(office, words).app(), access_log=None, handle_signals=False)
    await runner.setup()
    assert runner.server is not None
    http = await loop.create_server(
        Door(runner.server, 2 * settings.clients, settings.stall), settings.bind, settings.port, backlog=1024
    )
    lines = await serve_lines(office)
    idle = asyncio.ensure_future(office.close_idle())
    host = f"[{settings.bind}]" if ":" in settings.bind else settings.bind
    print(f"http://{host}:{http.sockets[0].getsockname()[1]}/", flush=True)
    running = asyncio.ensure_future(office.run())
    await asyncio.wait({running, asyncio.ensure_future(stopped.wait())}, return_when=asyncio.FIRST_COMPLETED)
    for server in (http, lines):
        if server is not None:
            server.close()
    idle.cancel()
    await office.stop()
    await runner.server.shutdown(STOP_WAIT)
    await runner.cleanup()
    if settings.unix:
        settings.unix.unlink(missing_ok=True)
    office.close()
    return await running


def allow_connections(clients: int) -> None:
    """As many open files as the clients want, as far as the system allows."""
    soft, hard = resource.getrlimit(resource.RLIMIT_NOFILE)
    wanted = 4 * clients + 256
    if soft < wanted:
        resource.setrlimit(resource.RLIMIT_NOFILE, (min(wanted, hard), hard))


def main() -> int:
    logging.basicConfig(format="filing_server: %(message)s", level=logging.WARNING)
    settings = read_settings()
    allow_connections(settings.clients)
    try:
        status = asyncio.run(serve(settings))
    except NotesInUse as used:
        LOG.error("another server has this journal: %s is in use", used)
        return 1
    except OSError as fault:
        LOG.error("%s", fault)
        return 1
    return status if status >= 0 else 128 - status


if __name__ == "__main__":
    sys.exit(main())
