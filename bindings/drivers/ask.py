"""Asks a server for the rows of a table by the driver of Apache Cassandra for Python, as it comes: ask.py PORT TABLE. It tries greater versions
first, and reads the schema. The pages that it asks for have at most 1,000 rows."""

import sys

from cassandra.cluster import Cluster

cluster = Cluster(["127.0.0.1"], port=int(sys.argv[1]))
table = sys.argv[2]
session = cluster.connect()
session.default_fetch_size = 1000
print("version", cluster.protocol_version)
print(len(list(session.execute("SELECT * FROM " + table))), "rows")
prepared = session.prepare("SELECT * FROM " + table)
print(len(list(session.execute(prepared))), "rows of a prepared statement")
try:
    session.execute("SELECT * FROM shop.nothing")
except Exception as error:
    print("refused", type(error).__name__)
cluster.shutdown()
