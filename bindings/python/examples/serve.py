"""A server with one table in memory, to which drivers connect: python3 serve.py PORT; 0 takes a port that is free. The port is printed."""

import asyncio
import re
import sys
from ipaddress import IPv4Address
from uuid import UUID

import cqlp
from cqlp import messages

NAMES = "key cluster_name data_center rack release_version partitioner host_id schema_version rpc_address broadcast_address tokens"
TYPES = ["text"] * 6 + ["uuid"] * 2 + ["inet"] * 2 + ["set<text>"]
HERE, PARTITIONER = IPv4Address("127.0.0.1"), "org.apache.cassandra.dht.Murmur3Partitioner"
NODE = ["local", "shop", "one", "one", "3.11.4", PARTITIONER, UUID(int=7), UUID(int=1), HERE, HERE, {"0"}]
LOCAL = messages.Rows.of(zip(NAMES.split(), TYPES), [NODE], keyspace="system", table="local")
ORDERS = messages.Rows.of([("id", "int"), ("item", "text")], [(1, "tea"), (2, "salt")], keyspace="shop", table="orders")
NONE = messages.Rows.of(LOCAL.metadata.columns, [])  # of the other nodes and of the schema, for which drivers ask


def answer(message: messages.Message) -> messages.Message:
    if isinstance(message, messages.Options):
        return messages.Supported({"COMPRESSION": [], "CQL_VERSION": ["3.4.4"]})
    if isinstance(message, (messages.Startup, messages.Register)):
        return messages.Ready()
    statement = message.id.decode("utf-8", "replace") if isinstance(message, messages.Execute) else getattr(message, "query", "")
    name = "".join(re.findall(r"(?i)\bfrom\s+([\w.]+)", statement)[:1])
    page = {"system.local": LOCAL, "shop.orders": ORDERS}.get(name, NONE if name.startswith("system") else None)
    if page is None:
        return messages.Error(cqlp.ErrorCode.INVALID, "%s is not served" % (name or type(message).__name__))
    if isinstance(message, messages.Prepare):  # without values to bind; its id is its text
        return messages.Prepared.of(statement.encode(), result=page.metadata.columns)
    return page


async def serve(reader: asyncio.StreamReader, writer: asyncio.StreamWriter) -> None:
    try:
        with cqlp.MessageDecoder(longest=1 << 20) as decoder, cqlp.Server() as server:
            while data := await reader.read(65536):
                for frame in decoder.feed(data):
                    if isinstance(frame, cqlp.OtherVersion):
                        return writer.write(frame.reply)  # the driver tries version 4 then
                    server.accept(frame)
                    reply = answer(frame.message)
                    server.answer(frame.stream, reply.opcode)
                    writer.write(cqlp.encode(reply, frame.stream))
                await writer.drain()
    except (cqlp.Error, OSError) as error:
        print(error, file=sys.stderr)
    finally:
        writer.close()


async def main() -> None:
    async with await asyncio.start_server(serve, "127.0.0.1", int(sys.argv[1])) as listener:
        print(listener.sockets[0].getsockname()[1], flush=True)
        await listener.serve_forever()


asyncio.run(main())
