"""HTTP: what is there, what changed, and amendments, for whoever has no session. Errors are problem details."""

from __future__ import annotations

import asyncio
import json
import logging
import re
from typing import Awaitable, Callable, Iterator
from urllib.parse import unquote_to_bytes

from aiohttp import web

from . import page
from .amendments import Amendments
from .connections import Connection
from .events import ALIVE, Listener, event
from .lines import decode, encode, is_too_deep
from .office import Office
from .openapi import description
from .problems import Problem, Words, of_reply, problem_response
from .views import Fact, Report, Views
from .websocket import serve_socket

LOG = logging.getLogger("filing_server")
Handler = Callable[[web.Request], Awaitable[web.StreamResponse]]
USER = re.compile(r"[^\x00-\x1f\x7f]{1,64}")
MOST_FACTS = 1000
MOST_VERSIONS = 1000
BODIES = 4
"""So many of the longest bodies are held at once."""
HELD = "held"
GUEST = "guest"
"""Who comes by HTTP where no proxy says who."""
HEADERS = {
    "X-Content-Type-Options": "nosniff",
    "Referrer-Policy": "no-referrer",
    "Cross-Origin-Resource-Policy": "same-origin",
    "X-Frame-Options": "DENY",
    "Content-Security-Policy": "default-src 'none'; script-src 'self'; style-src 'self'; img-src 'self'; connect-src 'self'; "
    "form-action 'none'; base-uri 'none'; frame-ancestors 'none'",
}


def json_response(body: object, status: int = 200) -> web.Response:
    return web.Response(body=encode(body), status=status, content_type="application/json")


class Interface:
    """The handlers of one office."""

    def __init__(self, office: Office, words: Words) -> None:
        self.office = office
        self.words = words
        self.views = Views(office)
        self.amendments = Amendments(office)
        self.streams = 0
        self.requests = 0
        self.held = 0

    def app(self) -> web.Application:
        settings = self.office.settings
        app = web.Application(middlewares=[self.answered, self.admitted], client_max_size=settings.body)
        for method, path, handler in self.routes():
            app.router.add_route(method, path, handler)
        page.add_routes(app)
        app.on_response_prepare.append(self.add_headers)
        return app

    def routes(self) -> Iterator[tuple[str, str, Handler]]:
        yield "GET", "/reports", self.get_reports
        yield "GET", "/reports/{name}", self.get_report
        yield "PUT", "/reports/{name}", self.put_report
        yield "GET", "/reports/{name}/facts", self.get_facts
        yield "GET", "/reports/{name}/facts/{id}/history", self.get_history
        yield "GET", "/versions", self.get_versions
        yield "GET", "/versions/{number}", self.get_version
        yield "GET", "/diff/{from}/{to}", self.get_diff
        yield "GET", "/log", self.get_log
        yield "GET", "/log.svg", self.get_picture
        yield "GET", "/journal", self.get_journal
        yield "GET", "/seal", self.get_seal
        yield "GET", "/events", self.get_events
        yield "GET", "/lines", self.get_lines
        yield "POST", "/amendments", self.post_amendment
        yield "GET", "/openapi.json", self.get_description

    # What holds for each request.

    async def add_headers(self, request: web.Request, response: web.StreamResponse) -> None:
        for name, value in HEADERS.items():
            response.headers.setdefault(name, value)
        response.headers.setdefault("Cache-Control", "no-store")

    @web.middleware
    async def answered(self, request: web.Request, handler: Handler) -> web.StreamResponse:
        """Each error is a problem with a word."""
        try:
            return await handler(request)
        except Problem as problem:
            return problem_response(problem, self.words)
        except web.HTTPRequestEntityTooLarge:
            return problem_response(Problem("too-large"), self.words)
        except web.HTTPMethodNotAllowed as refused:
            response = problem_response(Problem("not-allowed"), self.words)
            response.headers["Allow"] = ", ".join(sorted(refused.allowed_methods))
            return response
        except web.HTTPNotFound:
            return problem_response(Problem("not-found"), self.words)
        except web.HTTPException as refused:
            return problem_response(Problem("bad-request", refused.reason), self.words)
        except (ConnectionError, asyncio.CancelledError):
            raise
        except Exception:
            LOG.exception("%s %s failed", request.method, request.path)
            return problem_response(Problem("fault"), self.words)

    @web.middleware
    async def admitted(self, request: web.Request, handler: Handler) -> web.StreamResponse:
        """A page of another origin asks for nothing, and no more requests are served at once than clients."""
        if isinstance(request.protocol, Connection):
            request.protocol.was_asked = True
        self.check_origin(request)
        try:
            unquote_to_bytes(request.raw_path).decode()
        except UnicodeDecodeError:
            raise Problem("bad-request", "the path is not UTF-8") from None
        if self.requests >= self.office.settings.clients:
            raise Problem("too-many-clients")
        self.requests += 1
        try:
            return await handler(request)
        finally:
            self.requests -= 1
            self.held -= request.get(HELD, 0)

    def check_origin(self, request: web.Request) -> None:
        host, origin = request.headers.get("Host", ""), request.headers.get("Origin")
        settings = self.office.settings
        names = {settings.bind, "127.0.0.1", "localhost", "[::1]", *settings.hosts}
        if host not in names and (host not in settings.hosts and re.sub(r":\d+$", "", host) not in names):
            raise Problem("another-origin")
        if origin is not None and origin.partition("://")[2] != host:
            raise Problem("another-origin")

    def user(self, request: web.Request) -> str:
        """Who asks: whom the proxy says, or a guest where there is none."""
        header = self.office.settings.user_header
        if header is None:
            return GUEST
        user = request.headers.get(header)
        if user is None:
            raise Problem("no-user")
        if not USER.fullmatch(user) or not user.isprintable() or not user.strip():
            raise Problem("bad-user")
        return user

    async def body(self, request: web.Request) -> bytes:
        """The body of a request, within bounds of size, of time, and of what is held of all at once."""
        if request.content_type != "application/json":
            raise Problem("not-json-type")
        most = self.office.settings.body
        size = most if request.content_length is None else request.content_length
        if size > most:
            raise Problem("too-large")
        if self.held + size > BODIES * most:
            raise Problem("busy")
        self.held += size
        request[HELD] = size
        try:
            return await asyncio.wait_for(request.read(), 2 * self.office.settings.stall)
        except asyncio.TimeoutError:
            raise Problem("too-slow") from None

    # What the path and the query of a request say.

    def number(self, text: str, name: str, least: int = 0, most: int = 10**15) -> int:
        if not re.fullmatch(r"[0-9]{1,15}", text) or not least <= int(text) <= most:
            raise Problem("bad-request", f"{name} is a whole number from {least} to {most}")
        return int(text)

    def asked(self, request: web.Request, name: str, otherwise: int, least: int = 0, most: int = 10**15) -> int:
        return self.number(request.query[name], name, least, most) if name in request.query else otherwise

    def existing(self, text: str) -> int:
        """The number of a version that there is."""
        self.office.catch_up()
        version = self.number(text, "a version")
        if version > self.office.version:
            raise Problem("no-version", f"the last version is {self.office.version}")
        return version

    def version(self, request: web.Request) -> int:
        """The version that is asked for, or the current one."""
        return self.existing(request.query.get("at", str(self.office.version)))

    # Reports.

    async def get_reports(self, request: web.Request) -> web.Response:
        version = self.version(request)
        return json_response({"version": version, "reports": await self.views.reports(version)})

    async def report(self, request: web.Request) -> Report:
        name = request.match_info["name"]
        return await self.views.report(name, self.version(request))

    async def get_report(self, request: web.Request) -> web.Response:
        report = await self.report(request)
        return web.Response(
            body=report.text, content_type="application/json", headers={"Filing-Version": str(report.version)}
        )

    async def get_facts(self, request: web.Request) -> web.Response:
        """Facts by concept, period and text, in byte order of their identifiers, behind one that was read."""
        limit = self.asked(request, "limit", 100, 1, MOST_FACTS)
        report, query = await self.report(request), request.query
        words, after = query.get("text", "").lower().split(), query.get("after")

        def is_asked(fact: Fact) -> bool:
            if "concept" in query and fact.concept != query["concept"]:
                return False
            if "period" in query and (fact.period or "") != query["period"]:
                return False
            return all(word in fact.text for word in words)

        found = [fact for fact in report.facts if is_asked(fact)]
        behind = found if after is None else [fact for fact in found if fact.id.encode() > after.encode()]
        return json_response(
            {
                "version": report.version,
                "facts": [{"id": fact.id, "fact": fact.body} for fact in behind[:limit]],
                "more": len(behind) > limit,
                "found": len(found),
                "of": len(report.facts),
            }
        )

    async def get_history(self, request: web.Request) -> web.Response:
        """Each version that put, changed or removed a fact, with who and when."""
        report, name = request.match_info["name"], request.match_info["id"]
        self.office.catch_up()
        ledger, past = self.office.ledger, []
        if report not in ledger.loads:
            raise Problem("no-report")
        loaded = await self.views.report(report, ledger.loads[report])
        past += [self.past(loaded.version, "loaded", fact.body) for fact in loaded.facts if fact.id == name]
        for change in ledger.changes.get((report, name), []):
            past.append(
                self.past(change.version, change.kind, None if change.kind == "removed" else ledger.fact_at(change))
            )
        if not past:
            raise Problem("no-fact")
        return json_response({"report": report, "id": name, "history": past})

    def past(self, version: int, kind: str, fact: object) -> dict[str, object]:
        return self.office.described(self.office.ledger.versions[version - 1]) | {"change": kind, "fact": fact}

    async def put_report(self, request: web.Request) -> web.Response:
        """Loads a report under a name."""
        user, name, body = self.user(request), request.match_info["name"], await self.body(request)
        try:
            text = body.decode()
        except UnicodeDecodeError:
            raise Problem("bad-report", "the body is not UTF-8", reply=["bad-report", "not-json"]) from None
        loop = asyncio.get_running_loop()
        if await loop.run_in_executor(None, is_too_deep, body):
            raise Problem("too-deep")
        line = encode(["load", name, text])
        if not self.office.is_open:
            raise Problem("restarting")
        coming: asyncio.Future[bytes | None] = loop.create_future()

        def told(reply: bytes | None) -> None:
            if reply is not None:
                self.office.told_end(reply, user)
            if not coming.done():
                coming.set_result(reply)

        self.office.send(line, told)
        answer = await asyncio.shield(coming)
        if answer is None:
            raise Problem("restarting")
        reply = json.loads(answer)
        if reply[0] != "loaded":
            raise of_reply(reply)
        return json_response({"outcome": "loaded", "version": reply[1]}, 201)

    # Versions and sessions.

    async def get_versions(self, request: web.Request) -> web.Response:
        """The versions before one, the last first."""
        self.office.catch_up()
        limit = self.asked(request, "limit", 100, 1, MOST_VERSIONS)
        before = min(self.asked(request, "before", self.office.ledger.version + 1, 1), self.office.ledger.version + 1)
        versions = self.office.ledger.versions[max(0, before - 1 - limit) : before - 1]
        told = [self.office.described(version) for version in reversed(versions)]
        return json_response({"version": self.office.ledger.version, "versions": told})

    async def get_version(self, request: web.Request) -> web.Response:
        number = self.existing(request.match_info["number"])
        if number == 0:
            raise Problem("no-version", "version 0 is empty, and nobody made it")
        return json_response(self.office.described(self.office.ledger.versions[number - 1]))

    async def get_diff(self, request: web.Request) -> web.Response:
        start, end = self.existing(request.match_info["from"]), self.existing(request.match_info["to"])
        differences = await self.views.differences(start, end, request.query.get("report"))
        return json_response({"from": start, "to": end, "differences": differences})

    async def get_log(self, request: web.Request) -> web.Response:
        """The sessions before one, the last first."""
        self.office.catch_up()
        limit = self.asked(request, "limit", 100, 1, MOST_VERSIONS)
        log = await self.views.log()
        before = min(self.asked(request, "before", len(log) + 1, 1), len(log) + 1)
        return json_response({"sessions": log[max(0, before - 1 - limit) : before - 1][::-1], "of": len(log)})

    async def get_picture(self, request: web.Request) -> web.Response:
        self.office.catch_up()
        picture = await self.views.picture(self.asked(request, "first", 1, 1))
        return web.Response(body=picture, content_type="image/svg+xml")

    async def get_journal(self, request: web.Request) -> web.StreamResponse:
        """The acknowledged bytes from an offset on, up to the gate."""
        self.office.catch_up()
        start, follower = self.asked(request, "from", 0), self.office.ledger.follower
        end = follower.bytes
        response = web.StreamResponse(headers={"Content-Type": "application/x-ndjson"})
        response.content_length = max(0, end - start)
        await response.prepare(request)
        for data in follower.copy(start, end):
            await self.written(response, data)
        return response

    async def get_seal(self, request: web.Request) -> web.Response:
        """What `filing seal` prints of the journal: `filing verify --seal` finds it in each that goes on from this one."""
        self.office.catch_up()
        ledger = self.office.ledger
        follower = ledger.follower
        return json_response(
            {
                "batches": follower.batches,
                "entries": follower.entries,
                "version": ledger.version,
                "sha256": follower.seal,
            }
        )

    async def post_amendment(self, request: web.Request) -> web.Response:
        user, text = self.user(request), await self.body(request)
        key = request.headers.get("Idempotency-Key")
        if key is not None and not re.fullmatch(r"[\x21-\x7e]{1,128}", key):
            raise Problem("bad-request", "an Idempotency-Key has 1 to 128 printing characters")
        try:
            body = decode(text)
        except ValueError as fault:
            raise Problem("bad-request", f"the body is no JSON: {fault}") from None
        if is_too_deep(text):
            raise Problem("too-deep")
        outcome, is_repeated = await self.amendments.take(text, body, user, key)
        response = json_response(outcome.result())
        if is_repeated:
            response.headers["Idempotent-Replayed"] = "true"
        return response

    # Streams.

    async def written(self, response: web.StreamResponse, data: bytes) -> None:
        """Writes a part of a stream; one who does not read is dropped."""
        try:
            await asyncio.wait_for(response.write(data), self.office.settings.stall)
        except asyncio.TimeoutError:
            raise ConnectionResetError("the client does not read") from None

    def missed(self, request: web.Request) -> list[bytes]:
        """The events behind the last that a client has, which it says where it comes back."""
        last, versions = request.headers.get("Last-Event-ID", ""), self.office.ledger.versions
        if not re.fullmatch(r"[0-9]{1,15}", last):
            return []
        start = max(int(last), len(versions) - MOST_VERSIONS)
        return [event(version.number, self.office.described(version)) for version in versions[start:]]

    async def get_events(self, request: web.Request) -> web.StreamResponse:
        """Each version as it comes, by server-sent events."""
        if self.streams + len(self.office.clients) >= self.office.settings.clients:
            raise Problem("too-many-clients")
        self.office.catch_up()
        response = web.StreamResponse(headers={"Content-Type": "text/event-stream"})
        listener, missed = Listener(), self.missed(request)
        self.streams += 1
        self.office.hub.listeners.add(listener)
        try:
            await response.prepare(request)
            for data in [ALIVE, *missed]:
                await self.written(response, data)
            while (text := await listener.next()) is not None:
                await self.written(response, text)
        except ConnectionError:
            if request.transport is not None:
                request.transport.abort()
        finally:
            self.office.hub.listeners.discard(listener)
            self.streams -= 1
        return response

    async def get_lines(self, request: web.Request) -> web.StreamResponse:
        """The WebSocket of lines."""
        user = self.user(request)
        if not self.office.is_open:
            raise Problem("restarting")
        if self.streams + len(self.office.clients) >= self.office.settings.clients:
            raise Problem("too-many-clients")
        if not web.WebSocketResponse().can_prepare(request):
            raise Problem("bad-request", "this path takes a WebSocket")
        return await serve_socket(self.office, user, request)

    async def get_description(self, request: web.Request) -> web.Response:
        return json_response(description(self.office.settings))
