"""A client: it sends STARTUP and then all statements at once, and prints the replies: python3 ask.py PORT STATEMENT.."""

import asyncio
import sys

import cqlp
from cqlp import messages


async def main(port: str, *statements: str) -> None:
    reader, writer = await asyncio.open_connection("127.0.0.1", int(port))
    with cqlp.MessageDecoder(longest=1 << 20) as decoder, cqlp.Client() as client:

        def send(name: str, message: messages.Message) -> None:
            """The client gives a stream id to the request, and returns `name` with its reply."""
            writer.write(cqlp.encode(message, client.begin(message.opcode, name).id))

        send("STARTUP", messages.Startup())
        open_requests = 1 + len(statements)
        while open_requests:
            data = await reader.read(65536)
            if not data:
                sys.exit("the server closed the connection")
            for frame in decoder.feed(data):
                if isinstance(frame, cqlp.OtherVersion):
                    sys.exit("the server speaks version %d" % frame.version)
                reply = client.reply(frame)
                print(reply.carried, "->", frame.message.rows if isinstance(frame.message, messages.Rows) else frame.message)
                if reply.request == cqlp.Opcode.STARTUP:
                    for statement in statements:
                        send(statement, messages.Query(statement))
                open_requests -= 1
    writer.close()
    await writer.wait_closed()


asyncio.run(main(*sys.argv[1:]))
