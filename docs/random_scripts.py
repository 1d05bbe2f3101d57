#!/usr/bin/env python3
"""Runs random scripts through the program and compares each client's lines with those of session_model.py.

    random_scripts.py PROGRAM [FIRST COUNT]     the scripts of COUNT seeds from FIRST on; else of 1 to 100

Each script runs in a new temporary folder, as `PROGRAM run` with the script as its input. Each difference is
printed with its seed and the first lines that differ; the last line has the counts. The status is 0 exactly
where all agree. A seed gives the same script in each run, whatever FIRST is. Nothing here is shared with the
program.

A script has one session, of one kind: a client that reads and writes the records of a database, one that
upgrades it again, one that opens, closes and deletes databases over many connections, or two clients with a
database each. Where there are two, transactions are numbered anew in each client before lines are compared,
since the clients may take other turns. Many calls are meant to be refused: keys that are none, faulty key
paths, names of nothing, calls at the wrong time.

Left out are several sessions, clients that share a database, limits of size and depth, faults of the disk, a
stop of the program, and `commit` in an upgrade that creates indexes."""
import copy
import json
import os
import random
import subprocess
import sys
import tempfile
from dataclasses import dataclass, field

import session_model

GREATEST = 2 ** 53
UNDEFINED = {"$undefined": None}
FUNCTION = {"$function": None}
SECONDS = 60
SHOWN = 3


def date(time):
    return {"$date": time}


def binary(digits):
    return {"$bytes": digits}


def variable(name):
    return {"$var": name}


def prop(value, path):
    return {"$prop": [value, path]}


RESULT = variable("result")
W = variable("w")
RESULT_KEY = prop(RESULT, "key")
RESULT_PRIMARY_KEY = prop(RESULT, "primaryKey")
IS_AT_END = {"$same": [RESULT, None]}
PREVENT = {"op": "prevent"}
SAY_ERROR = {"op": "say", "value": variable("error")}

COMMON_KEYS = [0, 1, 2, 3, 4, 5, "a", "b", 1, 2, 3]
KEYS = [
    0, 1, 2, 3, 4, 5, 7, -1, -3, 10, 100, GREATEST, GREATEST - 1, -GREATEST,
    date(0), date(1), date(-1), date(8640000000000000), date(-8640000000000000),
    "", "a", "b", "ab", "aa", "\u00e9", "\uff61", "\U00010000", "\ufffd", "\u0000", "1", "A", "\U0001f600",
    binary(""), binary("00"), binary("ff"), binary("0001"), binary("7f80"),
    [], [1], [1, 2], ["a"], [[1]], [[]], [date(1)], [binary("00")], [2], [1, [2]], ["a", 1], [1, 1],
    {"$array": [1], "$named": [["x", 1]]}, {"$array": [], "$named": [["length2", FUNCTION]]},
]
NO_KEYS = [
    None, True, False, {}, {"a": 1}, {"$map": []}, {"$set": [1]}, [None], [1, {}],
    FUNCTION, [FUNCTION], {"$map": [[1, 2]]}, [1, UNDEFINED], [True], [[1, [None]]],
]
NO_KEYS_OF_VALUES = NO_KEYS[:9]
NO_QUERIES_OF_ALL = [[None], [1, {}], [[FUNCTION]], None, UNDEFINED, [1, True]]
INDEX_PATHS = [
    "x", "y", "x", "k", "a.b", "", "x.length", "length", "a.b.c", "y.x", "$v", "_u", "\u00e9", "x.x",
]
INDEX_PATH_LISTS = [["x", "y"], ["x"], ["x", "x"], ["y", "a.b"], ["x", ""]]
FAULTY_PATHS = ["1a", "a..b", " ", "a b", ".", "a.", "-", [], ["x", "0"], ["", "a."], "a.1", "x-y"]
STORE_NAMES = ["s", "t", "u", "", "\u00fc", "length"]
NO_NAME = "zz"

PRIMITIVES = [
    None, True, False, 0, 1, -7, GREATEST, "x", "", "\u2028\"\\\n\u001f\u007f", UNDEFINED, "\U00010000",
    12345678901,
]
SMALL_VALUES = [date(5), binary("c0ff"), date(-62135596800000), {"$map": []}, {"$set": []}, {}, []]
INDEXED_VALUES = [
    "ab", "\U00010000b", [1, 2, 1], [date(1), "a", None, "a"],
    {"$array": [3, 3, 4], "$named": [["x", 2], ["b", 1]]}, UNDEFINED,
]
VALUES_WITH_FUNCTION = [
    FUNCTION, {"a": FUNCTION}, [FUNCTION], {"$map": [[FUNCTION, 1]]}, {"$set": [FUNCTION]},
    {"$array": [], "$named": [["f", FUNCTION]]},
]
VALUES_ON_THE_PATH = [1, {}, [], date(1), "s", {"$map": []}, binary("00"), None, UNDEFINED]
ARRAY_NAMES = ["a", "$b", "", "x", "k", "-1", "01x", "\uff61", "\U00010000"]
OBJECT_NAMES = ["a", "b", "x", "k", "length", "", "10", "9", "\uff61", "\U00010000", "__q"]
DOLLAR_NAMES = ["$a", "$date", "b", "$", "1"]

INNERMOST = 9          # a depth at which no handlers, loops and cursors are made
SECOND_CLIENT = 500_000
LAST_WILD_SEED = 3_000


@dataclass
class KnownStore:
    """What the maker of a script knows of an object store."""
    key_path: object
    auto_increment: bool
    indexes: list = field(default_factory=list)     # their names


@dataclass
class Place:
    """Where statements are made for: the stores that they may name, and the kind of their transaction."""
    stores: list
    in_upgrade: bool = False
    is_read_only: bool = False


class Values:
    """Draws keys and values. The scripts of the later seeds are mild: fewer of their calls are refused."""
    def __init__(self, seed):
        self.random = random.Random(seed)
        self.blocks = {}
        self.block_count = 0
        self.budget = self.random.randint(10, 40)     # how many statements are still to be made, about
        self.is_mild = seed % SECOND_CLIENT > LAST_WILD_SEED
        self.stores = {}                              # the known ones by name
        self.may_continue_to_null = self.chance(.06)

    def chance(self, share, mild_share=None):
        """Whether a thing of that share comes; the second share is that of mild scripts."""
        if self.is_mild and mild_share is not None:
            share = mild_share
        return self.random.random() < share

    def pick(self, choices):
        """One of them, as a copy, since scripts are changed while they are made."""
        return copy.deepcopy(self.random.choice(choices))

    def below(self, count):
        return self.random.randrange(count)

    def some(self, choices, least, most):
        return self.random.sample(choices, self.random.randint(least, most))

    def block(self, letter, statements):
        """Adds a block and gives its name."""
        self.block_count += 1
        name = f"{letter}{self.block_count}"
        self.blocks[name] = statements
        return name

    # -- keys
    def key(self):
        if not self.chance(.6, .75):
            return self.pick(KEYS)
        if self.is_mild and self.chance(.6):
            return self.below(8)
        return self.pick(COMMON_KEYS)

    def key_or_none(self):
        """A key, or a value that is no key."""
        return self.pick(NO_KEYS) if self.chance(.08, .02) else self.key()

    # -- values
    def value(self, depth=0):
        share = self.random.random()
        if depth > 3 or share < .3:
            return self.pick(PRIMITIVES)
        if share < .45:
            return self.key()
        forms = [self.list, self.array, self.object, self.dollar_object, self.map, self.set]
        form = self.below(7)
        return forms[form](depth + 1) if form < 6 else self.pick(SMALL_VALUES)

    def list(self, depth):
        return [self.value(depth) for _ in range(self.below(4))]

    def array(self, depth):
        items = [self.value(depth) for _ in range(self.below(3))]
        props = [[name, self.value(depth)] for name in self.some(ARRAY_NAMES, 1, 2)]
        return {"$array": items, "$named": props}

    def object(self, depth):
        return {name: self.value(depth) for name in self.some(OBJECT_NAMES, 0, 3)}

    def dollar_object(self, depth):
        return {"$object": [[name, self.value(depth)] for name in self.some(DOLLAR_NAMES, 1, 2)]}

    def map(self, depth):
        return {"$map": [[self.value(depth), self.value(depth)] for _ in range(self.below(4))]}

    def set(self, depth):
        return {"$set": self.list(depth)}

    def field(self):
        """The value of a property that an index may stand on."""
        share = self.random.random()
        if share < .5:
            return self.key()
        if share < .65:
            return [self.key_or_none() for _ in range(self.below(4))]
        if share < .72:
            return self.pick(NO_KEYS_OF_VALUES)
        if share < .8:
            return {name: self.key_or_none() for name in self.some(["x", "b", "length", "c"], 0, 2)}
        if share < .86:
            return self.pick(INDEXED_VALUES)
        return self.value(2)

    # -- records
    def record(self, store):
        """A value to be stored in a store, None where it isn't known."""
        if self.chance(.07, .03):
            return self.value()
        if self.chance(.03, .008):
            return self.pick(VALUES_WITH_FUNCTION)
        record = self.fields()
        for path in paths_of(store):
            if self.chance(.4 if store.auto_increment else .85, .4 if store.auto_increment else .97):
                if path == "":
                    return self.key_or_none() if self.chance(.9) else record
                self.put_key(record, path)
            elif self.chance(.3):
                put_at(record, path.split(".")[0], self.pick(VALUES_ON_THE_PATH))
        if any(name.startswith("$") for name in record):
            return {"$object": [[name, value] for name, value in record.items()]}
        if self.chance(.04):
            return {"$with": [record, self.pick(["x", "y", "w"]), self.field()]}
        return record

    def fields(self):
        record = {}
        for name in ("x", "y"):
            if self.chance(.7):
                record[name] = self.field()
        if self.chance(.25):
            record["a"] = {"b": self.field()} if self.chance(.7) else self.field()
        if self.chance(.2):
            record["k"] = self.field()
        if self.chance(.15):
            record["v"] = self.value(1)
        for name in ("\u00e9", "_u"):
            if self.chance(.05):
                record[name] = self.key()
        return record

    def put_key(self, record, path):
        """Puts a key where a store's key path leads."""
        if path.split(".")[-1] == "length":
            put_at(record, path.rsplit(".", 1)[0], self.pick(["abc", [1, 2], 3]))
        else:
            put_at(record, path, self.key_or_none())


def paths_of(store):
    """The strings of a store's key path."""
    if store is None or store.key_path is None:
        return []
    return [store.key_path] if isinstance(store.key_path, str) else store.key_path


def put_at(record, path, value):
    """Puts a value where a path leads, with objects on the way; `length` is never put."""
    if path == "" or "length" in path:
        return
    *front, last = path.split(".")
    for name in front:
        inner = record.get(name)
        if not isinstance(inner, dict) or any(it.startswith("$") for it in inner):
            record[name] = {}
        record = record[name]
    record[last] = value


class Statements(Values):
    """Makes the statements of handlers and of transactions' bodies."""

    # -- queries
    def put_query(self, statement, may_lack, is_of_all=False):
        """Gives a call its query or range."""
        share = self.random.random()
        if share < .25 and may_lack or .57 <= share < .6:
            return statement
        if share < .5:
            statement["query"] = self.key()
        elif share < .57:
            statement["query"] = self.faulty_query(is_of_all)
        else:
            statement["range"] = self.range()
        return statement

    def faulty_query(self, is_of_all):
        if is_of_all:
            return self.pick(NO_QUERIES_OF_ALL)
        return self.pick(NO_KEYS) if self.chance(.7) else self.pick([None, UNDEFINED])

    def bounds(self):
        lower, upper = self.key(), self.key()
        if self.chance(.06):
            lower = self.pick(NO_KEYS)
        if self.chance(.04):
            upper = self.pick(NO_KEYS + [UNDEFINED])
        are_ints = isinstance(lower, int) and isinstance(upper, int) and not isinstance(lower, bool)
        if are_ints and self.chance(.8):
            lower, upper = min(lower, upper), max(lower, upper)
        return lower, upper

    def range(self):
        lower, upper = self.bounds()
        bounds = {}
        share = self.random.random()
        if share < .75:
            bounds["lower"] = lower
        if share > .3:
            bounds["upper"] = upper
        for name in ("lower", "upper"):
            if name in bounds and self.chance(.35):
                bounds[name + "Open"] = self.chance(.8)
        if self.chance(.05):
            bounds["lowerOpen"] = True
        return bounds

    def store_name(self, place):
        if self.chance(.03) or not place.stores:
            return NO_NAME
        return self.pick(place.stores)

    def put_source(self, statement, place, index_share=.5):
        """Gives a reading call its object store and perhaps its index."""
        statement["store"] = self.store_name(place)
        store = self.stores.get(statement["store"])
        if store and store.indexes and self.chance(index_share):
            statement["index"] = self.pick(store.indexes)
        elif self.chance(.02):
            statement["index"] = "nix"
        return statement

    # -- handlers
    def put_handlers(self, statement, place, depth, success_share, error_share):
        if depth < 3 and self.chance(success_share):
            count = self.random.randint(1, 2)
            statement["success"] = self.block("b", self.statements(place, depth + 1, count, "success"))
        if self.chance(error_share):
            statement["error"] = self.block("e", self.error_handler(place, depth))
        return statement

    def error_handler(self, place, depth):
        statements = [PREVENT] if self.chance(.78) else []
        if self.chance(.35):
            statements.append({"op": "say", "value": [variable("error"), W]})
        if depth < 3 and self.chance(.2):
            statements += self.statements(place, depth + 1, 1, "error")
        for op, share in (("throw", .03), ("abort", .02), ("commit", .02)):
            if self.chance(share):
                statements.append({"op": op})
        return statements

    # -- calls on object stores
    def storing(self, place, depth, in_loop=False):
        """An add or put; in a loop only one whose key is given, so that no loop feeds itself."""
        op = self.pick(["put", "put", "put", "add", "add"])
        statement = {"op": op, "store": self.store_name(place)}
        store = self.stores.get(statement["store"])
        statement["value"] = self.record(store)
        if store and store.key_path is not None and store.auto_increment and in_loop:
            return {"op": "get", "store": statement["store"], "query": 1}
        has_no_path = store and store.key_path is None
        takes_key = has_no_path and (not store.auto_increment or in_loop or self.chance(.4))
        if takes_key and (in_loop or self.chance(.95, .99)):
            statement["key"] = self.key() if in_loop else self.key_or_none()
        elif not in_loop and (self.chance(.05, .01) or store is None):
            statement["key"] = self.pick([self.key(), UNDEFINED, None, FUNCTION])
        return self.put_handlers(statement, place, depth, 0 if in_loop else .15, .7)

    def reading(self, place, depth):
        op = self.pick(["get", "getKey", "count", "getAll", "getAllKeys"])
        is_of_all = op.startswith("getAll")
        statement = self.put_source({"op": op}, place)
        self.put_query(statement, op not in ("get", "getKey"), is_of_all)
        if is_of_all and self.chance(.4):
            statement["count"] = self.limit()
        return self.put_handlers(statement, place, depth, .12, .3)

    def limit(self):
        """The count of a getAll or getAllKeys."""
        if self.chance(.85):
            return self.pick([0, 1, 2, 3, 4294967295, UNDEFINED, 1, 2])
        return self.pick([-1, 4294967296, "1", None, GREATEST, []])

    def deletion(self, place):
        return self.put_query({"op": "delete", "store": self.store_name(place)}, False)

    # -- cursors
    def cursor(self, place, depth):
        op = self.pick(["openCursor", "openCursor", "openKeyCursor"])
        statement = self.put_source({"op": op}, place, .6)
        self.put_query(statement, True)
        if "query" in statement and self.chance(.5):
            del statement["query"]
        if self.chance(.8):
            statement["direction"] = self.pick(["next", "nextunique", "prev", "prevunique"])
        if self.chance(.3):
            statement["error"] = self.block("e", self.error_handler(place, depth))
        if not self.chance(.04):
            statement["success"] = self.cursor_handler(place, depth, statement)
        return statement

    def cursor_handler(self, place, depth, statement):
        visit = self.visit(place, depth + 1, statement)
        if self.chance(.85):
            visit = [{"op": "if", "test": IS_AT_END, "else": self.block("m", visit)}]
        return self.block("c", visit)

    def visit(self, place, depth, cursor):
        """What a cursor's handler does at each place."""
        statements = []
        for _ in range(self.below(3)):
            statements += self.visit_statement(place, depth, cursor)
        if self.chance(.92):
            statements.append(self.move(cursor))
        if self.chance(.12, .04):
            statements.append(self.move(cursor))
        if self.chance(.12):
            statements.append(self.update(cursor) if self.chance(.5) else {"op": "deleteHere"})
        self.budget -= len(statements)
        return statements

    def visit_statement(self, place, depth, cursor):
        """One statement in a list, or none."""
        share = self.random.random()
        if share < .3:
            return [self.update(cursor)]
        if share < .55:
            return [self.delete_here()]
        if share < .7:
            return [self.storing(place, INNERMOST, True)]
        if share < .85:
            return [self.reading(place, INNERMOST)]
        if share < .9:
            path = self.pick(["key", "value", "value.x", "primaryKey", "key.length"])
            return [{"op": "say", "value": prop(RESULT, path)}]
        if share < .93:
            return [{"op": "clear", "store": self.store_name(place)}]
        if share < .97:
            return [self.deletion(place)]
        if place.in_upgrade:
            return [self.schema_call(place)]
        return [{"op": self.pick(["abort", "commit", "throw"])}] if depth < 2 else []

    def update(self, cursor):
        value = prop(RESULT, "value")
        share = self.random.random()
        if share < .55:
            value = {"$with": [value, self.pick(["x", "y", "w"]), self.field()]}
        elif share < .65 and "index" not in cursor:
            value = {"$with": [value, "x", {"$plus": [prop(value, "x"), 1]}]}
        elif share < .9:
            value = self.record(self.stores.get(cursor["store"]))
        statement = {"op": "update", "value": value}
        if self.chance(.5):
            statement["error"] = self.block("e", [PREVENT])
        return statement

    def delete_here(self):
        statement = {"op": "deleteHere"}
        if self.chance(.15):
            statement["error"] = self.block("e", [PREVENT])
        return statement

    def move(self, cursor):
        share = self.random.random()
        has_rows = "index" in cursor and "unique" not in cursor.get("direction", "")
        if self.is_mild and has_rows and self.chance(.35):
            return self.move_near()
        if share < .55:
            return {"op": "continue"}
        if share < .7:
            return {"op": "continue", "key": self.key_to_continue()}
        if share < .87:
            key = self.key_or_none() if self.chance(.4) else RESULT_KEY
            return self.continue_pair(key, self.key_or_none() if self.chance(.6) else RESULT_PRIMARY_KEY)
        if self.chance(.85):
            return {"op": "advance", "count": self.pick([1, 2, 1, 3, 2])}
        return {"op": "advance", "count": self.pick([0, -1, 4294967295, 4294967296, "1", UNDEFINED, None])}

    def continue_pair(self, key, primary_key):
        return {"op": "continuePrimaryKey", "key": key, "primaryKey": primary_key}

    def move_near(self):
        key = self.below(8) if self.chance(.5) else RESULT_KEY
        if self.chance(.5):
            return self.continue_pair(key, {"$plus": [RESULT_PRIMARY_KEY, self.pick([1, 2, -1, -2, 0])]})
        return self.continue_pair(key, self.key())

    def key_to_continue(self):
        key = self.key() if self.chance(.9) else self.pick(NO_KEYS[1:] + [UNDEFINED])
        if self.may_continue_to_null and self.chance(.5):
            key = None
        if self.chance(.15):
            key = {"$plus": [RESULT_KEY, self.pick([-1, 0, 1, 2])]}
        return key

    # -- calls of an upgrade
    def schema_call(self, place, is_sure=False):
        """One call of an upgrade; what it does is noted where it is sure to run."""
        share = self.random.random()
        if share < .25:
            return self.create_store(place, is_sure)
        if share < .4:
            return self.delete_store(place, is_sure)
        if share < .8:
            return self.create_index(place, is_sure)
        return self.delete_index(place, is_sure)

    def create_store(self, place, is_sure):
        name = self.pick(STORE_NAMES[:4])
        statement = {"op": "createObjectStore", "store": name}
        self.put_store_arguments(statement)
        if is_sure:
            self.note_store(statement)
            if name not in place.stores:
                place.stores.append(name)
        return statement

    def delete_store(self, place, is_sure):
        name = self.store_name(place)
        if is_sure and name in self.stores:
            del self.stores[name]
            place.stores = [it for it in place.stores if it != name] or [NO_NAME]
        return {"op": "deleteObjectStore", "store": name}

    def create_index(self, place, is_sure):
        statement = {"op": "createIndex", "store": self.store_name(place)}
        self.put_index_arguments(statement)
        if is_sure:
            self.note_index(statement)
        return statement

    def delete_index(self, place, is_sure):
        statement = {"op": "deleteIndex", "store": self.store_name(place)}
        store = self.stores.get(statement["store"])
        is_known = store and store.indexes and self.chance(.9)
        statement["index"] = self.pick(store.indexes) if is_known else "nix"
        if is_sure and is_known:
            store.indexes.remove(statement["index"])
        return statement

    def put_store_arguments(self, statement):
        share = self.random.random()
        if .4 <= share < .62:
            statement["keyPath"] = "k"
        elif .62 <= share < .72:
            statement["keyPath"] = self.pick(["a.b", "a.b.c", "k.x", "_u", "\u00e9"])
        elif .72 <= share < .78:
            statement["keyPath"] = self.pick([["k", "x"], ["x"], ["k", "k"], ["", "x"]])
        elif .78 <= share < .83:
            statement["keyPath"] = self.pick(["", "length", "k.length"])
        elif .83 <= share < .88:
            statement["keyPath"] = self.pick(FAULTY_PATHS)
        if self.chance(.35):
            statement["autoIncrement"] = True
        elif self.chance(.05):
            statement["autoIncrement"] = False

    def put_index_arguments(self, statement):
        is_odd = self.chance(.3)
        statement["index"] = self.pick(["i", "j", "m", "", "\u00e9"]) if is_odd else f"i{self.below(5)}"
        share = self.random.random()
        paths = INDEX_PATHS if share < .75 else INDEX_PATH_LISTS if share < .93 else FAULTY_PATHS
        statement["keyPath"] = self.pick(paths)
        if self.chance(.3):
            statement["unique"] = True
        if self.chance(.4):
            statement["multiEntry"] = True

    def note_store(self, statement):
        """Notes a new store, unless its call is refused."""
        name, path = statement["store"], statement.get("keyPath")
        auto_increment = statement.get("autoIncrement", False)
        is_misfit = auto_increment and (path == "" or isinstance(path, list))
        if name not in self.stores and path not in FAULTY_PATHS and not is_misfit:
            self.stores[name] = KnownStore(path, auto_increment)

    def note_index(self, statement):
        """Notes a new index, unless its call is refused."""
        store, name, path = self.stores.get(statement["store"]), statement["index"], statement["keyPath"]
        is_misfit = statement.get("multiEntry") and isinstance(path, list)
        if store and name not in store.indexes and path not in FAULTY_PATHS and not is_misfit:
            store.indexes.append(name)

    # -- statements of all kinds
    def statements(self, place, depth, count, where):
        """So many statements, as far as the budget goes. Where is body, success, error, loop or upgrade."""
        made = []
        for _ in range(count):
            if self.budget <= 0 and depth > 0:
                break
            self.budget -= 1
            made.append(self.statement(place, depth, where))
        return made

    def statement(self, place, depth, where):
        share = self.random.random()
        stores_to, reads_to, cursors_to = (.1, .55, .85) if place.is_read_only else (.33, .56, .72)
        if share < stores_to:
            return self.storing(place, depth, depth >= INNERMOST)
        if share < reads_to:
            return self.reading(place, depth)
        if share < cursors_to and depth < 2:
            return self.cursor(place, depth)
        if share < .8:
            return self.put_handlers(self.deletion(place), place, depth, .1, .3)
        if share < .82:
            statement = {"op": "clear", "store": self.store_name(place)}
            return self.put_handlers(statement, place, depth, .2, .2)
        if place.in_upgrade and share < .92:
            return self.schema_call(place, depth == 0)
        return self.other_statement(place, depth, where)

    def other_statement(self, place, depth, where):
        """A statement of the script itself, or a call that is mostly refused where it stands."""
        share = self.random.random()
        if share < .22:
            name = "w" if where == "upgrade" else self.pick(["result", "error", "w", "turn"])
            return {"op": "say", "value": variable(name)}
        if share < .34:
            return self.let(where)
        if share < .42 and depth < 3:
            return self.repeat(place)
        if share < .5 and depth < 3:
            return self.choice(place)
        if share < .6:
            return {"op": "post", "do": self.block("p", [{"op": "say", "value": ["post", W]}])}
        if share < .66:
            return PREVENT
        if share < .74:
            op = self.pick(["open", "close", "deleteDatabase"])
            return {"op": op} if op == "close" else {"op": op, "db": "d"}
        if share < .8:
            return self.pick([{"op": "continue"}, {"op": "advance", "count": 1}, {"op": "deleteHere"},
                              {"op": "update", "value": 1}, self.continue_pair(1, 1)])
        if share < .86:
            return self.schema_call(place)
        if where == "loop":
            return {"op": "count", "store": self.store_name(place)}
        return {"op": "abort" if share < .905 else "commit" if share < .96 else "throw"}

    def let(self, where):
        value = self.value()
        if where != "upgrade":
            value = self.pick([RESULT, value, {"$plus": [W, 1]}])
        return {"op": "let", "name": "w", "value": value}

    def repeat(self, place):
        times = self.pick([0, 2, 3])
        body = self.statements(place, INNERMOST, 1, "loop")
        if self.chance(.3):
            body.append({"op": "say", "value": variable("turn")})
        return {"op": "repeat", "times": times, "do": self.block("r", body)}

    def choice(self, place):
        statement = {"op": "if", "test": {"$same": [W, self.pick([UNDEFINED, 1, None])]}}
        for name in ("then", "else"):
            statement[name] = self.block("i", self.statements(place, INNERMOST, 1, "loop"))
        return statement


class Client(Statements):
    """Makes the blocks of one client."""

    # -- transactions and what stands beside them
    def store_list(self):
        """All known stores; a scope is never empty by this."""
        return list(self.stores) or ["s"]

    def transaction(self, then, is_read_only=None):
        """A transaction, with a block to run behind it."""
        scope = self.some(list(self.stores), 1, len(self.stores)) if self.stores else ["s"]
        if is_read_only is None:
            is_read_only = self.chance(.25)
        mode = "readonly" if is_read_only else "readwrite"
        statement = {"op": "transaction", "scope": list(scope), "mode": mode}
        place = Place(scope, is_read_only=is_read_only)
        if len(self.stores) > len(scope) and self.chance(.1):
            place.stores = list(self.stores)
        if self.chance(.05):
            statement["scope"].append(scope[0])
        if self.chance(.4):
            statement["durability"] = self.pick(["strict", "relaxed", "default"])
        statement["body"] = self.block("b", self.statements(place, 0, self.random.randint(2, 6), "body"))
        if then:
            statement["complete"] = then
            statement["abort"] = then
        return statement

    def refused_transaction(self):
        scope = self.pick([[], [NO_NAME], ["s", NO_NAME], list(self.stores)])
        mode = self.pick(["versionchange", "readonly", "readwrite"])
        statement = {"op": "transaction", "scope": scope, "mode": mode, "body": self.block("b", [])}
        if self.chance(.4):
            statement["conn"] = self.pick([0, 1, 2, 9])
        return statement

    def task_statement(self):
        """A statement outside of transactions, mostly one that is refused there."""
        share = self.random.random()
        if share < .2:
            return {"op": "say", "value": RESULT}
        if share < .3:
            return {"op": self.pick(["prevent", "commit", "abort", "deleteHere", "continue"])}
        if share < .4:
            return {"op": self.pick(["clear", "count", "get"]), "store": "s"}
        if share < .6:
            return self.refused_transaction()
        if share < .7:
            return {"op": "open", "db": "d", "version": self.pick([0, -1, GREATEST, "2", None, {}, GREATEST])}
        if share < .8:
            return {"op": "post", "do": self.block("p", [{"op": "say", "value": "p"}])}
        return {"op": "let", "name": "w", "value": self.value()}

    def chain(self, count, last):
        """So many transactions one behind the other, and a last block; the name of the first block."""
        then = last
        for _ in range(count):
            tasks = [self.transaction(then)]
            if self.chance(.12):
                rival = self.transaction(None, False)
                rival["scope"] = self.store_list()
                tasks[0]["mode"] = "readwrite"
                tasks.insert(0, rival)
            if self.chance(.25):
                tasks.insert(self.below(len(tasks) + 1), self.task_statement())
            if self.chance(.05):
                tasks.append({"op": "close"})
            then = self.block("g", tasks)
        return then

    def look(self):
        """A block that reports all records and index rows."""
        body = []
        for name, store in self.stores.items():
            body += [{"op": "getAll", "store": name}, {"op": "getAllKeys", "store": name}]
            for index in store.indexes:
                if self.chance(.6):
                    body.append({"op": "getAllKeys", "store": name, "index": index})
                else:
                    body.append({"op": "openKeyCursor", "store": name, "index": index, "success": "walk"})
        self.blocks["walk"] = [{"op": "if", "test": IS_AT_END, "else": "walk2"}]
        self.blocks["walk2"] = [{"op": "continue"}]
        body = self.block("k", body)
        transaction = {"op": "transaction", "scope": self.store_list(), "mode": "readonly", "body": body}
        return self.block("l", [transaction])

    def first_upgrade(self):
        """The statements that make stores, indexes and first records."""
        statements = []
        for _ in range(self.pick([1, 1, 2, 2, 3])):
            name = self.pick(STORE_NAMES[:3]) if self.chance(.9) else self.pick(STORE_NAMES)
            statements.append({"op": "createObjectStore", "store": name})
            self.put_store_arguments(statements[-1])
            self.note_store(statements[-1])
        if not self.stores:
            statements.append({"op": "createObjectStore", "store": "s"})
            self.note_store(statements[-1])
        for _ in range(self.below(4)):
            statements.append({"op": "createIndex", "store": self.pick(list(self.stores))})
            self.put_index_arguments(statements[-1])
            self.note_index(statements[-1])
        return statements + self.first_records()

    def first_records(self):
        place = Place(list(self.stores), in_upgrade=True)
        statements = []
        for _ in range(self.random.randrange(5, 14) if self.is_mild else self.random.randrange(2, 9)):
            statement = self.storing(place, INNERMOST)
            if self.chance(.7):
                statement["error"] = "keep"
            statements.append(statement)
            self.budget -= 1
        if self.chance(.15):
            statements += self.statements(place, 1, 2, "upgrade")
        return statements

    # -- the kinds of clients
    def data(self):
        """One upgrade, then transactions."""
        first = self.first_upgrade()
        last = self.look()
        then = self.chain(self.pick([1, 1, 2, 2, 3]), last)
        self.blocks["up"] = first
        self.blocks["keep"] = [PREVENT]
        error = self.block("e", [SAY_ERROR])
        statement = {"op": "open", "db": "d", "upgrade": "up", "success": then, "error": error}
        if self.chance(.3):
            statement["version"] = self.pick([1, 2, 7, UNDEFINED, 9007199254740991])
        self.blocks["main"] = [statement]

    def upgrade(self):
        """One or two upgrades more, some of which end badly."""
        first = self.first_upgrade()
        self.blocks["keep"] = [PREVENT]
        self.blocks["up"] = first
        upgrades = [self.later_upgrade() for _ in range(self.pick([1, 1, 2]))]
        then = self.after_upgrades()
        error = self.block("e", [SAY_ERROR, {"op": "open", "db": "d", "success": then}])
        for version in range(len(upgrades) + 1, 1, -1):
            then = self.reopen(version, upgrades[version - 2], then, error)
        error = self.block("e", [SAY_ERROR])
        self.blocks["main"] = [
            {"op": "open", "db": "d", "version": 1, "upgrade": "up", "success": then, "error": error}]

    def later_upgrade(self):
        place = Place(list(self.stores), in_upgrade=True)
        body = self.statements(place, 0, self.random.randint(3, 9), "upgrade")
        for op, share in (("throw", .08), ("abort", .12), ("commit", .08)):
            if self.chance(share):
                body.insert(self.below(len(body) + 1), {"op": op})
        return self.block("u", body)

    def after_upgrades(self):
        if not self.chance(.8):
            return self.look()
        count = self.pick([0, 1])
        return self.chain(count, self.look())

    def reopen(self, version, upgrade, then, error):
        """A block that closes the connection and opens one of a higher version."""
        statement = {"op": "open", "db": "d", "version": version, "upgrade": upgrade}
        statement.update(success=then, error=error)
        tasks = [{"op": "close"}]
        if self.chance(.15):
            self.spare_block(version)
        if self.chance(.1):
            tasks.append(self.task_statement())
        return self.block("v", tasks + [statement])

    def spare_block(self, version):
        """A draw and a block that no statement names: they keep a seed's script what it was."""
        self.pick([1, version - 1, 0])
        self.block("e", [SAY_ERROR])

    # -- clients of many connections
    def connections(self):
        """Opens, closes and deletions of one or two databases, from each other's events."""
        names = ["d"] if self.chance(.8) else ["d", "e"]
        self.blocks["body"] = [
            {"op": "put", "store": "s", "value": 1, "key": 1}, {"op": "get", "store": "s", "query": 1}]
        self.blocks["ups"] = [{"op": "createObjectStore", "store": "s"}]
        self.blocks["cl"] = [{"op": "close"}]
        self.blocks["upx"] = self.pick([
            [], [{"op": "throw"}], [{"op": "abort"}], [{"op": "commit"}],
            [{"op": "createObjectStore", "store": "t"}, {"op": "deleteObjectStore", "store": "s"}],
            [{"op": "put", "store": "s", "value": 1, "key": 2}]])
        statement = {"op": "open", "db": "d", "upgrade": "ups", "success": self.connection_block(names, 0)}
        statement["versionchange"] = self.pick(["cl", self.connection_block(names, 1)])
        self.blocks["main"] = [statement] + self.connection_tasks(names, 1)

    def connection_block(self, names, depth):
        return self.block("b", self.connection_tasks(names, depth + 1))

    def connection_tasks(self, names, depth):
        statements = []
        for _ in range(self.random.randrange(0 if depth else 1, 3)):
            if self.budget <= 0:
                break
            self.budget -= 2
            statements.append(self.connection_task(names, depth))
        return statements

    def connection_task(self, names, depth):
        share = self.random.random()
        if share < .4 and depth < 4:
            return self.open(names, depth)
        if share < .6 and depth < 4:
            statement = {"op": "deleteDatabase", "db": self.pick(names)}
            return self.put_connection_handlers(statement, names, depth, {"success": .5, "blocked": .4})
        if share < .8:
            return self.put_connection({"op": "close"}, .6, 4)
        if share < .86:
            return {"op": "say", "value": variable(self.pick(["result", "error"]))}
        if share < .93:
            statement = {"op": "transaction", "scope": ["s"], "mode": "readwrite", "body": "body"}
            return self.put_connection(statement, .5, 3)
        return {"op": "post", "do": self.connection_block(names, depth)}

    def open(self, names, depth):
        statement = {"op": "open", "db": names[0] if self.chance(.9) else self.pick(names)}
        if self.chance(.6):
            statement["version"] = self.random.randint(1, 4)
        shares = {"success": .7, "error": .4, "versionchange": .5, "blocked": .4}
        self.put_connection_handlers(statement, names, depth, shares)
        if self.chance(.7):
            statement["upgrade"] = self.pick(["ups", "ups", "upx"])
        return statement

    def put_connection_handlers(self, statement, names, depth, shares):
        for name, share in shares.items():
            if self.chance(share):
                closes = name == "versionchange" and self.chance(.5)
                statement[name] = "cl" if closes else self.connection_block(names, depth)
        return statement

    def put_connection(self, statement, share, most):
        if self.chance(share):
            statement["conn"] = self.random.randint(1, most)
        return statement


# ---- whole scripts
def client_of(kind, seed, name="d"):
    client = Client(seed)
    getattr(client, kind)()
    take_out_commits(client.blocks)
    for statements in client.blocks.values():
        for it in statements:
            if it.get("db") == "d":
                it["db"] = name
    return {"blocks": client.blocks}


def blocks_of_upgrades(blocks):
    """The names of all blocks that an upgrade may run."""
    waiting = [it["upgrade"] for statements in blocks.values() for it in statements if "upgrade" in it]
    found = set()
    while waiting:
        name = waiting.pop()
        if name not in found:
            found.add(name)
            words = ("success", "error", "do", "then", "else")
            waiting += [it[word] for it in blocks[name] for word in words if word in it]
    return found


def take_out_commits(blocks):
    """Puts `prevent` in the place of `commit` in upgrades, where they create indexes."""
    names = blocks_of_upgrades(blocks)
    if any(it["op"] == "createIndex" for name in names for it in blocks[name]):
        for name in names:
            blocks[name] = [PREVENT if it["op"] == "commit" else it for it in blocks[name]]


def script_of(seed):
    """The script of a seed."""
    rng = random.Random(seed * 7919 + 1)
    share = rng.random()
    if share < .92:
        kind = "data" if share < .6 else "upgrade" if share < .82 else "connections"
        clients = [client_of(kind, seed)]
    else:
        kinds = rng.choice(["data", "upgrade"]), rng.choice(["data", "upgrade"])
        clients = [client_of(kinds[0], seed), client_of(kinds[1], seed + SECOND_CLIENT, "e")]
    return {"sessions": [{"clients": clients}]}


# ---- running and comparing
def run(program, script):
    """The program's status, report and messages."""
    text = json.dumps(script, ensure_ascii=False).encode()
    with tempfile.TemporaryDirectory() as folder:
        try:
            words = [program, "run"]
            ran = subprocess.run(words, input=text, cwd=folder, capture_output=True, timeout=SECONDS)
        except subprocess.TimeoutExpired:
            return None, "", f"no answer in {SECONDS} seconds"
    return ran.returncode, ran.stdout.decode("utf-8", "replace"), ran.stderr.decode("utf-8", "replace")


def client_lines(report):
    """The lines of a report that name sessions and clients, and those of clients."""
    lines = []
    inside = False
    for line in report.splitlines():
        word = line.split(" ", 1)[0]
        if word in ("session", "client", "order"):
            inside = word == "client"
        if inside or word == "session":
            lines.append(line)
    return lines


def renumbered(lines):
    """The lines with transactions numbered anew in each client, in the order in which it names them."""
    found = []
    numbers = {}
    for line in lines:
        words = line.split(" ")
        if words[0] == "client":
            numbers = {}
        elif words[0] == "tx":
            words[1] = numbers.setdefault(words[1], f"#{len(numbers) + 1}")
        elif words[0] in ("open", "delete") and words[-2] == "tx":
            words[-1] = numbers.setdefault(words[-1], f"#{len(numbers) + 1}")
        found.append(" ".join(words))
    return found


def difference(told, wanted):
    """The first lines that differ, as a text; empty where none does."""
    both = zip(told + [None], wanted + [None])
    at = next((i for i, (one, other) in enumerate(both) if one != other), None)
    if at is None:
        return ""
    lines = [f"    line {at + 1}"]
    for name, side in (("the program", told), ("the model", wanted)):
        lines += [f"    {name}: {line}" for line in side[at:at + SHOWN] or ["(no more)"]]
    return "\n".join(lines)


def difference_of(program, seed):
    """How the program and the model differ on a seed's script, as a text; empty where they agree."""
    script = script_of(seed)
    status, report, message = run(program, script)
    if status != 0:
        return f"    status {status}: {message.strip()[-200:]}"
    told, wanted = client_lines(report), client_lines(session_model.report(script))
    if len(script["sessions"][0]["clients"]) > 1:
        told, wanted = renumbered(told), renumbered(wanted)
    return difference(told, wanted)


def main():
    if len(sys.argv) not in (2, 4):
        sys.exit(__doc__)
    program = os.path.realpath(sys.argv[1])
    first, count = map(int, sys.argv[2:]) if len(sys.argv) == 4 else (1, 100)
    differing = 0
    for seed in range(first, first + count):
        found = difference_of(program, seed)
        if found:
            differing += 1
            print(f"seed {seed}\n{found}", flush=True)
    print(f"{count} scripts: {count - differing} agree, {differing} differ")
    sys.exit(1 if differing else 0)


if __name__ == "__main__":
    main()
