"""Does the operations and the queries of a script of measure.sh over tables of Python's sqlite3 in memory, a transaction a line,
and prints how many processor seconds that took. What it answers is not compared.

Usage: beside.py SCRIPT
"""

import json
import sqlite3
import sys
import time

start = time.process_time()
database = sqlite3.connect(":memory:", isolation_level=None)
database.execute("create table film(id text primary key, year integer not null) without rowid")
database.execute("create table edge(source text, target text, primary key(source, target)) without rowid")
database.execute("create index incoming on edge(target)")


def ask(pattern):
    """The record of a vertex, or how many vertices one or two hops from it reach."""
    hop = pattern.get("_out_edge")
    if hop is None:
        return database.execute("select id, year from film where id = ?", (pattern["id"],)).fetchall()
    if "_out_edge" in hop["_vertex"]:
        reached = "select distinct two.target from edge one join edge two on two.source = one.target where one.source = ?"
    else:
        reached = "select distinct target from edge where source = ?"
    return database.execute(f"select count(*) from film where id in ({reached})", (pattern["id"],)).fetchone()


answers = []
for stamp, line in enumerate(open(sys.argv[1]), start=2):
    request = json.loads(line[2:])
    if "ask" in request:
        answers.append('1 {"at":%d,"rows":%s}' % (stamp, json.dumps(ask(request["ask"]))))
        continue
    database.execute("begin")
    for operation in request["do"]:
        if "put" in operation:
            values = operation["put"]["v"]
            database.execute("insert into film values(?, ?)", (values["id"], values["year"]))
        elif "set" in operation:
            named = operation["set"]
            database.execute("update film set year = ? where id = ?", (named["v"]["year"], named["id"]))
        elif "link" in operation:
            named = operation["link"]
            database.execute("insert into edge values(?, ?)", (named["from"]["id"], named["to"]["id"]))
        elif "drop" in operation:
            key = operation["drop"]["id"]
            database.execute("delete from edge where source = ? or target = ?", (key, key))
            database.execute("delete from film where id = ?", (key,))
    database.execute("commit")
    answers.append('1 {"ok":%d}' % stamp)
print(f"sqlite3 beside it: {time.process_time() - start:.2f} processor seconds")
