#!/usr/bin/env python3
"""A plain slow reader of scripts, written from the grammar of FORMATS.md alone: it lists every faulty node with its number and takes
the least one. It reads a document from standard input and prints its place, 0 where it is no document, or ok. The places of the
documents in the tests of `script_reading` were counted by hand or by it."""
import json
import re
import sys


class NoDoc(Exception): pass

class Num:
    """A number: whole is its value where it is written without fraction and exponent, else None."""
    def __init__(self, text, whole): self.text, self.whole = text, whole

def parse(data):
    """The document, with objects as dicts in the order of their names' bytes, or NoDoc."""
    try: text = data.decode("utf-8")
    except UnicodeDecodeError: raise NoDoc
    def no(x): raise NoDoc
    def pairs(ps):
        d = dict(ps)                       # the last of one name stands
        return {k: d[k] for k in sorted(d, key=lambda s: s.encode("utf-8"))}
    def whole(t):
        if t == "-0": return Num(t, None)  # read as a number with a fraction
        v = int(t)
        return Num(t, v if -2**63 <= v < 2**64 else None)
    def frac(t):
        if float(t) in (float("inf"), float("-inf")): raise NoDoc
        return Num(t, None)
    try: doc = json.loads(text, parse_constant=no, object_pairs_hook=pairs, parse_int=whole, parse_float=frac)
    except (ValueError, RecursionError, UnicodeEncodeError): raise NoDoc
    def surrogate(s): return any(0xd800 <= ord(c) < 0xe000 for c in s)
    def depth(x):
        if isinstance(x, str):
            if surrogate(x): raise NoDoc
            return 0
        if isinstance(x, list): return 1 + max([depth(y) for y in x], default=0)
        if isinstance(x, dict):
            for k in x:
                if surrogate(k): raise NoDoc
            return 1 + max([depth(y) for y in x.values()], default=0)
        return 0
    if depth(doc) > 127: raise NoDoc
    return doc

# ---- numbering: preorder from 1, members in the object's order
def count(x):
    if isinstance(x, list): return 1 + sum(count(y) for y in x)
    if isinstance(x, dict): return 1 + sum(count(y) for y in x.values())
    return 1

def children(n, x):
    """(key, number, node) of each child of node number n."""
    m = n + 1
    for k, y in (enumerate(x) if isinstance(x, list) else x.items()):
        yield k, m, y
        m += count(y)

# ---- forms that count as a whole
def is_name(x): return isinstance(x, str)
def is_list(x, n=None): return isinstance(x, list) and (n is None or len(x) == n)
def is_bool(x): return x is True or x is False

def is_path_string(s):
    """The empty string, or 1 to 99 identifiers joined by full stops."""
    if s == "": return True
    parts = s.split(".")
    def start(c): return c in "$_" or (c.isidentifier())
    def go(c): return c in "$_\u200c\u200d" or ("a" + c).isidentifier()
    return len(parts) <= 99 and all(p != "" and start(p[0]) and all(go(c) for c in p[1:]) for p in parts)

def names_ok(pairs, array):
    if not all(is_list(p, 2) and isinstance(p[0], str) for p in pairs): return False
    names = [p[0] for p in pairs]
    if len(set(names)) != len(names): return False
    if array and any(n == "length" or re.fullmatch("[0-9]+", n) for n in names): return False
    return all(is_expr(p[1]) for p in pairs)

def is_expr(x):
    if x is None or is_bool(x) or isinstance(x, str): return True
    if isinstance(x, Num): return x.whole is not None and -2**53 <= x.whole <= 2**53
    if isinstance(x, list): return all(is_expr(y) for y in x)
    dollars = [k for k in x if k.startswith("$")]
    if not dollars: return all(is_expr(y) for y in x.values())
    keys = set(x)
    if keys in ({"$array"}, {"$array", "$named"}):
        return is_list(x["$array"]) and all(is_expr(y) for y in x["$array"]) and (
            "$named" not in x or (is_list(x["$named"]) and names_ok(x["$named"], True)))
    if len(x) != 1: return False
    (k, v), = x.items()
    if k in ("$undefined", "$function"): return v is None
    if k == "$date": return isinstance(v, Num) and v.whole is not None and abs(v.whole) <= 8640000000000000
    if k == "$bytes": return isinstance(v, str) and re.fullmatch("([0-9a-fA-F]{2})*", v) is not None
    if k == "$object": return is_list(v) and names_ok(v, False)
    if k == "$map": return is_list(v) and all(is_list(p, 2) and is_expr(p[0]) and is_expr(p[1]) for p in v)
    if k == "$set": return is_list(v) and all(is_expr(y) for y in v)
    if k == "$var": return isinstance(v, str)
    if k in ("$plus", "$same"): return is_list(v, 2) and all(is_expr(y) for y in v)
    if k == "$prop": return is_list(v, 2) and is_expr(v[0]) and isinstance(v[1], str) and is_path_string(v[1])
    if k == "$with": return is_list(v, 3) and is_expr(v[0]) and isinstance(v[1], str) and is_expr(v[2])
    return False

def is_range(x):
    if not isinstance(x, dict): return False
    if not set(x) <= {"lower", "upper", "lowerOpen", "upperOpen"}: return False
    if "lower" not in x and "upper" not in x: return False
    return (all(is_expr(x[k]) for k in ("lower", "upper") if k in x)
            and all(is_bool(x[k]) for k in ("lowerOpen", "upperOpen") if k in x))

def is_key_path(x): return isinstance(x, str) or (is_list(x) and all(isinstance(y, str) for y in x))
def is_scope(x): return is_list(x) and all(isinstance(y, str) for y in x)
def is_conn(x): return isinstance(x, Num) and x.whole is not None and 0 <= x.whole < 2**64
def is_times(x): return isinstance(x, Num) and x.whole is not None and 0 <= x.whole <= 100000
def one_of(*words): return lambda x: isinstance(x, str) and x in words

MODE = one_of("readonly", "readwrite", "versionchange")
DURABILITY = one_of("strict", "relaxed", "default")
DIRECTION = one_of("next", "nextunique", "prev", "prevunique")
BLOCK = "block"
N, E, R, B = is_name, is_expr, is_range, BLOCK
def fields(text, **forms):
    """'db version? ..': names, a ? behind those that may be absent; the form of each by its name."""
    known = dict(db=N, store=N, index=N, name=N, version=E, value=E, key=E, primaryKey=E, query=E, range=R, count=E, test=E,
                 conn=is_conn, scope=is_scope, mode=MODE, durability=DURABILITY, direction=DIRECTION, times=is_times,
                 keyPath=is_key_path, autoIncrement=is_bool, unique=is_bool, multiEntry=is_bool)
    for b in "upgrade blocked success error versionchange closed complete abort body do then else".split(): known[b] = B
    return {f.rstrip("?"): (known[f.rstrip("?")], not f.endswith("?")) for f in text.split()}
READ = "store index? query? range? success? error?"
OPS = {
 "open": "db version? upgrade? blocked? success? error? versionchange? closed?",
 "deleteDatabase": "db blocked? success? error?",
 "close": "conn?",
 "transaction": "conn? scope mode durability? body complete? abort?",
 "post": "do", "repeat": "times do", "if": "test then? else?", "let": "name value", "say": "value", "throw": "",
 "add": "store value key? success? error?", "put": "store value key? success? error?",
 "get": READ, "getKey": READ, "count": READ,
 "getAll": READ + " count?", "getAllKeys": READ + " count?",
 "delete": "store query? range? success? error?",
 "clear": "store success? error?",
 "openCursor": READ + " direction?", "openKeyCursor": READ + " direction?",
 "continue": "key?", "continuePrimaryKey": "key primaryKey", "advance": "count",
 "update": "value success? error?", "deleteHere": "success? error?",
 "commit": "", "abort": "", "prevent": "",
 "createObjectStore": "store keyPath? autoIncrement?", "deleteObjectStore": "store",
 "createIndex": "store index keyPath unique? multiEntry?", "deleteIndex": "store index",
}
OPS = {op: fields(t) for op, t in OPS.items()}

def faults(doc):
    """The numbers of all faulty nodes."""
    bad = []
    def obj(n, x, required, optional, each):
        """An object with these members; each(key, number, node) looks at a known one."""
        if not isinstance(x, dict): bad.append(n); return
        if any(k not in x for k in required): bad.append(n)
        for k, m, y in children(n, x):
            if k in required or k in optional: each(k, m, y)
            else: bad.append(m)
    def lst(n, x, low, high, each):
        if not isinstance(x, list): bad.append(n); return
        if not (low <= len(x) <= high): bad.append(n)
        for _, m, y in children(n, x): each(m, y)
    def statement(n, x, blocks):
        if not isinstance(x, dict): bad.append(n); return
        op = x.get("op")
        if not isinstance(op, str) or op not in OPS: bad.append(n); return    # its fields aren't looked at
        f = OPS[op]
        if any(need and k not in x for k, (_, need) in f.items()): bad.append(n)
        if "query" in f and "query" in x and "range" in x: bad.append(n)
        for k, m, y in children(n, x):
            if k == "op": continue
            if k not in f: bad.append(m)
            elif f[k][0] is BLOCK:
                if not (isinstance(y, str) and y in blocks): bad.append(m)
            elif not f[k][0](y): bad.append(m)
    def client_blocks(n, x):
        if not isinstance(x, dict): bad.append(n); return
        if "main" not in x: bad.append(n)
        for k, m, y in children(n, x):
            lst(m, y, 0, 10**9, lambda i, s: statement(i, s, set(x)))
    def client(n, x):
        obj(n, x, ["blocks"], [], lambda k, m, y: client_blocks(m, y))
    def session(n, x):
        def each(k, m, y):
            if k == "clients": lst(m, y, 1, 64, client)
            elif not (isinstance(y, str) and y in ("flush", "drop")): bad.append(m)
        obj(n, x, ["clients"], ["end"], each)
    obj(1, doc, ["sessions"], [], lambda k, m, y: lst(m, y, 1, 16, session))
    return bad

def place(data):
    if isinstance(data, str): data = data.encode("utf-8", "surrogatepass")
    try: doc = parse(data)
    except NoDoc: return 0
    bad = faults(doc)
    return min(bad) if bad else "ok"


if __name__ == "__main__":
    print(place(sys.stdin.buffer.read()))
