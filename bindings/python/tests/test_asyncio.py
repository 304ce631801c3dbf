"""The examples of asyncio: a client and a node, each also against bytes that were written by hand."""

import asyncio
import contextlib
import importlib.util
import io
import sys
import unittest
import warnings
from typing import Any, AsyncIterator, List, Tuple
from unittest import mock

import cqlp
from cqlp import messages

from .streams import BINDINGS

STARTUP = b"\4\0\0\0\1\0\0\0\26\0\1\0\13CQL_VERSION\0\0053.0.0"
READY = b"\x84\0\0\0\2\0\0\0\0"


class Exited(Exception):
    """Takes the place of SystemExit, which ends the loop of asyncio at once."""

    @classmethod
    def exit(cls, why: str) -> None:
        raise cls(why)


def example(name: str) -> Any:
    """An example as a module, without what it does as a program."""
    spec = importlib.util.spec_from_file_location(name, BINDINGS / "python/examples" / (name + ".py"))
    assert spec is not None and spec.loader is not None
    module = importlib.util.module_from_spec(spec)
    with mock.patch.object(asyncio, "run", lambda main: main.close()), mock.patch.object(sys, "argv", [name, "0"]):
        spec.loader.exec_module(module)
    return module


@contextlib.asynccontextmanager
async def listening(serve: Any) -> AsyncIterator[int]:
    """The port at which this function serves."""
    async with await asyncio.start_server(serve, "127.0.0.1", 0) as listener:
        yield listener.sockets[0].getsockname()[1]


async def asked(data: bytes, size: int) -> Tuple[bytes, str]:
    """What the node answers to these bytes, in pieces of this size, and what it prints."""
    printed = io.StringIO()
    with contextlib.redirect_stderr(printed):
        async with listening(example("serve").serve) as port:
            reader, writer = await asyncio.open_connection("127.0.0.1", port)
            for at in range(0, len(data), size):
                writer.write(data[at : at + size])
                await writer.drain()
                await asyncio.sleep(0)
            if writer.can_write_eof():
                writer.write_eof()
            answer = await asyncio.wait_for(reader.read(), 30)
            writer.close()
            await writer.wait_closed()
    return answer, printed.getvalue()


class Quiet(unittest.IsolatedAsyncioTestCase):
    """Without the warnings of transports that are closing as the loop ends, which would be printed among what is looked at."""

    def setUp(self) -> None:
        caught = warnings.catch_warnings()
        caught.__enter__()
        warnings.simplefilter("ignore", ResourceWarning)
        self.addCleanup(caught.__exit__, None, None, None)


class Node(Quiet):
    async def test_it_answers_requests_in_pieces(self) -> None:
        requests: List[messages.Message] = [
            messages.Options(),
            messages.Startup(),
            messages.Register(["STATUS_CHANGE"]),
            messages.Query("SELECT * FROM system.local WHERE key='local'"),
            messages.Query("select * from shop.orders"),
            messages.Query("SELECT * FROM system_schema.tables"),
            messages.Query("nothing"),
            messages.Prepare("SELECT * FROM shop.orders"),
            messages.Execute(b"SELECT * FROM shop.orders"),
            messages.Execute(b"\xff"),
        ]
        data = b"".join(cqlp.encode(request, at) for at, request in enumerate(requests))
        for size in (1, 50, 10_000):
            answer, printed = await asked(data, size)
            found = list(cqlp.frames(answer))
            self.assertEqual([frame.stream for frame in found], list(range(len(requests))))
            kinds = [type(frame.message).__name__ for frame in found]
            self.assertEqual(kinds, "Supported Ready Ready Rows Rows Rows Error Prepared Rows Error".split())
            self.assertEqual(found[4].message.rows, [(1, "tea"), (2, "salt")])
            self.assertEqual(found[7].message.result.columns, found[8].message.metadata.columns)
            self.assertEqual((len(found[3].message.rows), len(found[5].message.rows), printed), (1, 0, ""))

    async def test_it_says_its_version(self) -> None:
        answer, printed = await asked(b"\5\0\0\2\5\0\0\0\0", 4)
        self.assertEqual((answer, printed), (cqlp.version_error(b"\5\0\0\2\5\0\0\0\0"), ""))

    async def test_it_closes_for_a_bad_request(self) -> None:
        answer, printed = await asked(STARTUP + b"\4\0\0\1\7\0\0\0\12\0\0\0\3b\303d\0\1\0", 10_000)
        self.assertEqual((answer, printed), (READY, "refused at 40: BadUtf8\n"))
        answer, printed = await asked(STARTUP + STARTUP, 10_000)
        self.assertEqual((answer, printed), (READY, "BadPhase\n"))


class Client(Quiet):
    async def ask(self, answer: bytes, *statements: str) -> Tuple[bytes, str]:
        """What the client sends to a server that answers with these bytes, and what it prints."""
        sent, done = bytearray(), asyncio.Event()

        async def serve(reader: asyncio.StreamReader, writer: asyncio.StreamWriter) -> None:
            sent.extend(await reader.readexactly(len(STARTUP)))
            for at in range(len(answer)):
                writer.write(answer[at : at + 1])
                await writer.drain()
                await asyncio.sleep(0)
            if not statements:
                writer.close()
            sent.extend(await reader.read())
            writer.close()
            done.set()

        printed = io.StringIO()
        with contextlib.redirect_stdout(printed):
            async with listening(serve) as port:
                try:
                    await asyncio.wait_for(example("ask").main(str(port), *statements), 30)
                finally:
                    await asyncio.wait_for(done.wait(), 30)
        return bytes(sent), printed.getvalue()

    async def test_it_asks_and_prints(self) -> None:
        page = messages.Rows.of([("id", "int")], [(5,)])
        sent, printed = await self.ask(READY + cqlp.encode(messages.Void(), 1) + cqlp.encode(page, 0), "A", "B")
        self.assertEqual(sent[: len(STARTUP)], STARTUP)
        asked = [(frame.stream, frame.message.query) for frame in cqlp.frames(sent[len(STARTUP) :])]
        self.assertEqual(asked, [(0, "A"), (1, "B")])
        self.assertEqual(printed, "STARTUP -> Ready()\nB -> Void()\nA -> [(5,)]\n")

    async def test_other_answers(self) -> None:
        for answer, why in ((READY[:4], "the server closed the connection"), (b"\x83\0\0\0\2\0\0\0\0", "the server speaks version 3")):
            with self.assertRaises(Exited) as ended, mock.patch.object(sys, "exit", Exited.exit):
                await self.ask(answer)
            self.assertEqual(str(ended.exception), why)
        with self.assertRaises(cqlp.BadCall) as refused:
            await self.ask(READY[:3] + b"\5" + READY[4:])
        self.assertEqual(refused.exception.code, cqlp.Code.NO_SUCH_STREAM)


if __name__ == "__main__":
    unittest.main()
