"""Clients of the WebSocket."""

from __future__ import annotations

import asyncio
import json
from typing import Any, Awaitable, Callable

import aiohttp
import pytest
from conftest import WAIT, Office, fact, report


def run(work: Callable[[aiohttp.ClientSession], Awaitable[None]]) -> None:
    async def main() -> None:
        async with aiohttp.ClientSession() as session:
            await asyncio.wait_for(work(session), WAIT)

    asyncio.run(main())


async def ask(socket: aiohttp.ClientWebSocketResponse, *lines: Any) -> list[Any]:
    for line in lines:
        await socket.send_str(line if isinstance(line, str) else json.dumps(line))
    return [json.loads(await socket.receive_str()) for _ in lines]


def test_each_message_is_a_line(shared: Office) -> None:
    async def work(session: aiohttp.ClientSession) -> None:
        async with session.ws_connect(shared.url + "lines") as anna, session.ws_connect(shared.url + "lines") as ben:
            assert await ask(anna, ["load", "r1", report()], ["open", "s", "amend"]) == [["loaded", 1], ["opened"]]
            assert await ask(ben, ["open", "s", "review"], ["get", "s", "r1", "f"]) == [["opened"], ["none"]]
            assert await ask(anna, ["add", "s", "r1", "f", fact("A", "ä\u2028")], ["commit", "s"]) == [
                ["staged"],
                ["committed", 2],
            ]
            assert await ask(ben, ["get", "s", "r1", "f"], "x", "[") == [["none"], ["bad-line"], ["bad-line"]]

    run(work)
    assert {it["user"] for it in shared.log()} == {"guest"}


def test_a_message_may_have_several_lines(shared: Office) -> None:
    async def work(session: aiohttp.ClientSession) -> None:
        async with session.ws_connect(shared.url + "lines") as socket:
            await socket.send_bytes(b'["open","s","review"]\n\n \n["close","s"]\n')
            assert [json.loads(await socket.receive_str()) for _ in range(2)] == [["opened"], ["closed"]]

    run(work)


def test_many_messages(shared: Office) -> None:
    async def work(session: aiohttp.ClientSession) -> None:
        async with session.ws_connect(shared.url + "lines") as socket:
            lines = [
                ["open", "s", "review"],
                *[["get", "s", "none", f"f{number}"] for number in range(3000)],
                ["close", "s"],
            ]
            sending = asyncio.ensure_future(socket.send_str("\n".join(json.dumps(line) for line in lines)))
            replies = [json.loads(await socket.receive_str()) for _ in lines]
            await sending
            assert replies == [["opened"], *[["no-report"]] * 3000, ["closed"]]

    run(work)


def test_another_origin_is_refused(shared: Office) -> None:
    async def work(session: aiohttp.ClientSession) -> None:
        for headers in ({"Origin": "http://evil.example"}, {"Host": "evil.example"}):
            with pytest.raises(aiohttp.WSServerHandshakeError) as refused:
                await session.ws_connect(shared.url + "lines", headers=headers)
            assert refused.value.status == 403
        async with session.ws_connect(shared.url + "lines", headers={"Origin": shared.url.rstrip("/")}) as socket:
            assert await ask(socket, "x") == [["bad-line"]]

    run(work)


def test_a_message_that_is_too_long_ends_the_connection(start: Callable[..., Office]) -> None:
    office = start("--body", "10000")

    async def work(session: aiohttp.ClientSession) -> None:
        async with session.ws_connect(office.url + "lines") as socket:
            await socket.send_str("x" * 20000)
            message = await socket.receive()
            assert message.type in (aiohttp.WSMsgType.CLOSE, aiohttp.WSMsgType.CLOSED) and socket.close_code == 1009

    run(work)


def test_replies_that_nobody_reads_are_bounded(start: Callable[..., Office]) -> None:
    office = start("--unread", "1000000", "--stall", "600")
    facts = {f"{number:04}{'i' * 2000}": fact("A", "v") for number in range(500)}
    assert office.load("r1", report(facts)).status == 201
    page = json.dumps(["page", "s", "r1", "ex:A", True, None, 500])

    async def work(session: aiohttp.ClientSession) -> None:
        async with session.ws_connect(office.url + "lines") as socket:
            await socket.send_str('["open","s","review"]\n' + "\n".join([page] * 60))
            loop = asyncio.get_running_loop()
            while (await loop.run_in_executor(None, office.log))[-1]["end"] != ["closed"]:
                await asyncio.sleep(0.05)

    run(work)


def test_a_stop_tells_replies_and_says_why(start: Callable[..., Office]) -> None:
    office = start()

    async def work(session: aiohttp.ClientSession) -> None:
        async with session.ws_connect(office.url + "lines") as socket:
            assert await ask(socket, ["open", "s", "amend"]) == [["opened"]]
            stopping = asyncio.get_running_loop().run_in_executor(None, office.stop)
            message = await socket.receive()
            assert message.type == aiohttp.WSMsgType.CLOSE and message.data == 1001
            await socket.close()
            assert await stopping == 0

    run(work)
