#!/usr/bin/env python3
"""An independent reader of the files idb.0 and idb.1, which shares nothing with the program but docs/FORMATS.md (batches are read by
batch_reader.py beside it).

    docs/area_reader.py FOLDER     the state of each area, the batches of the live one, and the databases that they give
    docs/area_reader.py rounds N   N random scripts of puts, deletes and clears run in new folders: what this reader finds in the files
                                   there has to be what the next run of the program reports of its databases; it ends with 1 where not

The program has to be built for `rounds` (one call of ./idbrun builds it)."""
import json
import os
import random
import re
import subprocess
import sys
import tempfile

from batch_reader import NoBatch, Reader

PROGRAM = os.path.dirname(os.path.dirname(os.path.realpath(__file__))) + "/crates/idbrun/out/current/idbrun"
OPEN = 0xA5


class Damaged(Exception):
    """A fault of an area, at a place."""


def area(data):
    """None for a blank area; else its generation and its payloads, each with the place of its gate."""
    if not data or data[0] != OPEN or len(data) == 1:
        return None
    if data[1:9] != b"IDBLOG01":
        raise Damaged(1)
    generation = int.from_bytes(data[9:17], "big")
    if len(data) < 17 or generation == 0:
        raise Damaged(9)
    if len(data) < 18:
        raise Damaged(17)
    payloads, at = [], 17
    while data[at] == OPEN and at + 1 < len(data):
        size = int.from_bytes(data[at + 1:at + 9], "big")
        if len(data) < at + 9 or len(data) <= at + 9 + size:
            raise Damaged(at + 1)
        payloads.append((at, data[at + 9:at + 9 + size]))
        at += 9 + size
    return generation, payloads


def live(areas):
    """The payloads of the live area, as (number of the area, payloads); None where both are blank."""
    read = []
    for number, data in enumerate(areas):
        try:
            read.append(area(data))
        except Damaged as fault:
            raise Damaged(number, *fault.args) from None
    if read[0] and read[1] and read[0][0] == read[1][0]:
        raise Damaged(1, 9)
    open_ones = [(it[0], number, it[1]) for number, it in enumerate(read) if it]
    return max(open_ones)[1:] if open_ones else None


def applied(databases, delta):
    """One change more. A database is its version and its stores; a store its path, current number, indexes and records."""
    kind, names, *rest = delta
    name = names[0]
    if kind == "version":
        databases.setdefault(name, {"version": 0, "stores": {}})["version"] = rest[0]
        return
    stores = databases[name]["stores"]
    if kind == "drop database":
        del databases[name]
    elif kind == "create store":
        if names[1] in stores:
            raise NoBatch
        stores[names[1]] = {"path": rest[0], "auto": rest[1], "current": 1, "indexes": {}, "records": {}}
    elif kind == "drop store":
        del stores[names[1]]
    elif kind == "create index":
        if names[2] in stores[names[1]]["indexes"]:
            raise NoBatch
        stores[names[1]]["indexes"][names[2]] = rest
    elif kind == "drop index":
        del stores[names[1]]["indexes"][names[2]]
    elif kind == "put":
        stores[names[1]]["records"][repr(rest[0])] = rest
    elif kind == "remove":
        del stores[names[1]]["records"][repr(rest[0])]
    elif kind == "clear":
        stores[names[1]]["records"].clear()
    else:
        stores[names[1]]["current"] = rest[0]


def databases_of(areas):
    found = live(areas)
    databases = {}
    if found:
        number, payloads = found
        for gate, payload in payloads:
            try:
                for _, deltas in Reader(payload).batch():
                    for delta in deltas:
                        applied(databases, delta)
            except (NoBatch, KeyError):
                raise Damaged(number, gate + 9) from None
    return databases


def areas_in(folder):
    found = []
    for number in (0, 1):
        try:
            with open(f"{folder}/idb.{number}", "rb") as it:
                found.append(it.read())
        except FileNotFoundError:
            found.append(b"")
    return found


# ---- random scripts
def client(rng, name):
    """One client on its database: an upgrade that makes two stores, and transactions of puts, deletes and clears of number keys."""
    blocks = {"main": [{"op": "open", "db": name, "upgrade": "up", "success": "go"}], "up": [], "go": []}
    blocks["up"] = [{"op": "createObjectStore", "store": it} for it in "st"]
    for t in range(rng.randrange(1, 12)):
        body = []
        for _ in range(rng.randrange(1, 8)):
            store, key = rng.choice("st"), rng.randrange(20)
            kind = rng.choice(["put", "put", "put", "put", "delete", "clear"])
            if kind == "put":
                body.append({"op": "put", "store": store, "key": key, "value": rng.randrange(1000)})
            elif kind == "delete":
                body.append({"op": "delete", "store": store, "query": key})
            else:
                body.append({"op": "clear", "store": store})
        if rng.randrange(5) == 0:
            body.append({"op": "abort"})
        blocks[f"b{t}"] = body
        durability = rng.choice(["relaxed", "strict"])
        blocks["go"].append({"op": "transaction", "scope": ["s", "t"], "mode": "readwrite", "durability": durability, "body": f"b{t}"})
    return {"blocks": blocks}


def reading(name):
    body = [{"op": op, "store": it} for it in "st" for op in ("getAllKeys", "getAll")]
    return {"blocks": {"main": [{"op": "open", "db": name, "success": "go"}],
                       "go": [{"op": "transaction", "scope": ["s", "t"], "mode": "readonly", "body": "b"}], "b": body}}


def run(folder, sessions):
    ran = subprocess.run([PROGRAM, "run"], input=json.dumps({"sessions": sessions}).encode(), cwd=folder, capture_output=True)
    return ran.returncode, ran.stdout.decode(), ran.stderr.decode()


def round_of(seed):
    rng = random.Random(seed)
    names = [f"d{it}" for it in range(rng.randrange(1, 4))]
    sessions = [{"clients": [client(rng, it) for it in names], "end": rng.choice(["flush", "drop"])} for _ in range(rng.randrange(1, 4))]
    with tempfile.TemporaryDirectory() as folder:
        status, _, said = run(folder, sessions)
        if status:
            return f"status {status}: {said}"
        for name in names:
            here = databases_of(areas_in(folder)).get(name)
            if here is None:
                continue
            status, text, said = run(folder, [{"clients": [reading(name)]}])
            told = re.findall(r"^tx \d+ req \d+ success \[(.*)\]$", text, re.M)
            wanted = []
            for store in "st":
                records = sorted(here["stores"][store]["records"].values(), key=lambda it: it[0][1])
                wanted += [",".join(str(it[0][1]) for it in records), ",".join(str(it[1][1]) for it in records)]
            if status or told != wanted:
                return f"{name}: status {status} {said}\nthe program: {told}\nthis reader: {wanted}"
    return ""


def main():
    if len(sys.argv) == 3 and sys.argv[1] == "rounds":
        for seed in range(int(sys.argv[2])):
            why = round_of(seed)
            if why:
                sys.exit(f"round {seed}: {why}")
        print(sys.argv[2], "rounds, all well")
        return
    areas = areas_in(sys.argv[1])
    for number, data in enumerate(areas):
        try:
            read = area(data)
            print("area", number, f"generation {read[0]}, {len(read[1])} batches" if read else "blank")
        except Damaged as fault:
            print("area", number, "damaged at", *fault.args)
    try:
        databases = databases_of(areas)
    except Damaged as fault:
        sys.exit("damaged: area {} at {}".format(*fault.args))
    for name, database in sorted(databases.items()):
        print("database", name, database["version"])
        for store, it in sorted(database["stores"].items()):
            print("  store", store, f"{len(it['records'])} records, path {it['path']}, current {it['current'] if it['auto'] else None}, indexes {sorted(it['indexes'])}")


if __name__ == "__main__":
    main()
