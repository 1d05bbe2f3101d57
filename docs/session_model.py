#!/usr/bin/env python3
"""A plain slow model of the sessions of an IndexedDB engine: the lines that each client of a script reports.

    session_model.py SCRIPT.json     prints each client's lines

It shares nothing with the program. Scripts and lines have the forms of docs/FORMATS.md; what a line says
follows the rules of the Indexed Database API and of HTML's StructuredSerializeForStorage. The model keeps
whole databases as dictionaries, sorts the rows of an index anew for each request, and copies a database
before each transaction.

It covers values and their spelling, keys and key paths, key ranges, key generators, object stores, indexes,
requests, cursors, event handlers, transactions, upgrade transactions, and the queues of connections. It runs
the clients in their order, the first that has something to do, and the transactions one by one in the order
of their numbers; so clients that share a database may rightly report other lines where they take other turns.

It leaves out:
- several sessions: each begins with all that the one before committed, however that one ended;
- limits of size, depth and number, of values, key paths, requests, transactions, databases and statements;
- the joiners U+200C and U+200D in key paths;
- faults of the disk, want of memory, and a stop of the program;
- the lines of a report that no client prints.
A script is taken to be in the grammar; that isn't checked."""
import copy
import itertools
import json
import sys
from dataclasses import dataclass, field, replace
from functools import partial
from typing import NamedTuple

GREATEST_INT = 2 ** 53
GREATEST_COUNT = 2 ** 32 - 1
GREATEST_STEPS = 60_000      # of a session; the model gives up behind it
IDS = itertools.count(1)     # of object stores and indexes


class Refusal(Exception):
    """A call is refused, with the name of an error."""


class RequestFailed(Exception):
    """A request's work ends with the name of an error."""


class Thrown(Exception):
    """A script threw."""


# ---- values: a tuple that begins with the kind
UNDEFINED = ("undefined",)
NULL = ("null",)
FUNCTION = ("function",)
TRUE = ("bool", True)
PRIMITIVES = ("undefined", "null", "bool", "int", "text")


def in_order(props):
    """Properties by the UTF-8 bytes of their names; the last of one name stands."""
    return tuple(sorted(dict(props).items(), key=lambda it: it[0].encode()))


def array_of(items, props=()):
    return ("array", tuple(items), in_order(props))


def set_of(items):
    """A Set: a primitive stands once, at its first place."""
    members = []
    for item in items:
        if item[0] not in PRIMITIVES or item not in members:
            members.append(item)
    return ("set", tuple(members))


def map_of(pairs):
    """A Map: a primitive key stands once, at its first place, with its last value."""
    members = []
    for key, value in pairs:
        places = [i for i, (other, _) in enumerate(members) if other == key and key[0] in PRIMITIVES]
        if places:
            members[places[0]] = (key, value)
        else:
            members.append((key, value))
    return ("map", tuple(members))


def props_of(value):
    """The named properties of an Array or Object; None of any other value."""
    if value[0] == "array":
        return dict(value[2])
    return dict(value[1]) if value[0] == "object" else None


def has_function(value):
    kind, *parts = value
    if kind == "array":
        return any(map(has_function, parts[0])) or any(has_function(it) for _, it in parts[1])
    if kind == "object":
        return any(has_function(it) for _, it in parts[0])
    if kind == "map":
        return any(has_function(key) or has_function(it) for key, it in parts[0])
    if kind == "set":
        return any(map(has_function, parts[0]))
    return value == FUNCTION


# ---- the spelling of values
def quoted(text):
    return json.dumps(text, ensure_ascii=False)


def spelled_list(values):
    return "[" + ",".join(map(spelled, values)) + "]"


def spelled_pairs(pairs):
    """A list of pairs, each of two texts that are JSON already."""
    return "[" + ",".join(f"[{first},{second}]" for first, second in pairs) + "]"


def spelled_props(props):
    return spelled_pairs((quoted(name), spelled(value)) for name, value in props)


def spelled_array(items, props):
    if not props:
        return spelled_list(items)
    return '{"$array":' + spelled_list(items) + ',"$named":' + spelled_props(props) + "}"


def spelled_object(props):
    if any(name.startswith("$") for name, _ in props):
        return '{"$object":' + spelled_props(props) + "}"
    return "{" + ",".join(f"{quoted(name)}:{spelled(value)}" for name, value in props) + "}"


SPELLINGS = {
    "undefined": lambda: '{"$undefined":null}',
    "function": lambda: '{"$function":null}',
    "null": lambda: "null",
    "bool": lambda truth: "true" if truth else "false",
    "int": str,
    "text": quoted,
    "date": lambda time: '{"$date":%d}' % time,
    "bytes": lambda digits: '{"$bytes":"%s"}' % digits,
    "array": spelled_array,
    "object": spelled_object,
    "map": lambda pairs: '{"$map":' + spelled_pairs((spelled(key), spelled(it)) for key, it in pairs) + "}",
    "set": lambda items: '{"$set":' + spelled_list(items) + "}",
}


def spelled(value):
    return SPELLINGS[value[0]](*value[1:])


# ---- keys: pairs of the type's place and the content, which Python compares in the order of keys
NUMBER, DATE, STRING, BINARY, ARRAY = range(1, 6)


def code_units(text):
    """UTF-16 code units as bytes that compare in their order."""
    return text.encode("utf-16-be")


def key_of(value):
    """The algorithm "convert a value to a key"; None where the value is invalid."""
    kind = value[0]
    if kind == "int":
        return (NUMBER, value[1])
    if kind == "date":
        return (DATE, value[1])
    if kind == "text":
        return (STRING, code_units(value[1]))
    if kind == "bytes":
        return (BINARY, bytes.fromhex(value[1]))
    if kind == "array":
        members = [key_of(item) for item in value[1]]
        return None if None in members else (ARRAY, tuple(members))
    return None


def multi_entry_keys(array):
    """The algorithm "convert a value to a multiEntry key", as a list of keys."""
    keys = []
    for item in array[1]:
        key = key_of(item)
        if key is not None and key not in keys:
            keys.append(key)
    return keys


def value_of(key):
    """The algorithm "convert a key to a value"."""
    kind, content = key
    if kind == NUMBER:
        return ("int", content)
    if kind == DATE:
        return ("date", content)
    if kind == STRING:
        return ("text", content.decode("utf-16-be"))
    if kind == BINARY:
        return ("bytes", content.hex())
    return array_of(map(value_of, content))


def needed_key(value):
    key = key_of(value)
    if key is None:
        raise Refusal("DataError")
    return key


# ---- key paths
FAILURE = "failure"
INVALID = "invalid"


def is_identifier(text):
    return text.replace("$", "_").isidentifier()


def is_key_path(path):
    if isinstance(path, list):
        return path != [] and all(map(is_key_path, path))
    return path == "" or all(map(is_identifier, path.split(".")))


def at_step(value, name):
    """The value one identifier further; None where there is none, or Undefined."""
    if name == "length" and value[0] == "text":
        return ("int", len(code_units(value[1])) // 2)
    if name == "length" and value[0] == "array":
        return ("int", len(value[1]))
    found = (props_of(value) or {}).get(name, UNDEFINED)
    return None if found == UNDEFINED else found


def at_path(path, value):
    """The algorithm "evaluate a key path on a value"; None for failure."""
    if isinstance(path, list):
        items = [at_path(it, value) for it in path]
        return None if None in items else array_of(items)
    for name in path.split(".") if path else []:
        value = at_step(value, name)
        if value is None:
            return None
    return value


def extracted(path, multi_entry, value):
    """The algorithm "extract a key from a value using a key path": a key, a list, FAILURE or INVALID."""
    found = at_path(path, value)
    if found is None:
        return FAILURE
    if multi_entry and found[0] == "array":
        return multi_entry_keys(found)
    key = key_of(found)
    return INVALID if key is None else key


def could_inject(path, value):
    """The algorithm "check that a key could be injected into a value"."""
    if path == "" or isinstance(path, list):
        return False
    for name in path.split(".")[:-1]:
        props = props_of(value)
        if props is None or value[0] == "array" and name == "length":
            return False
        if name not in props:
            return True
        value = props[name]
    return props_of(value) is not None


def injected(names, value, key):
    """The algorithm "inject a key into a value using a key path", over a list of identifiers."""
    name, *rest = names
    props = props_of(value)
    props[name] = injected(rest, props.get(name, ("object", ())), key) if rest else value_of(key)
    return array_of(value[1], props) if value[0] == "array" else ("object", in_order(props))


# ---- expressions of scripts
def plus(left, right):
    """The sum of two Ints, where Undefined counts as 0; Undefined where there is none."""
    numbers = [0 if it == UNDEFINED else it[1] for it in (left, right) if it == UNDEFINED or it[0] == "int"]
    if len(numbers) < 2 or abs(sum(numbers)) > GREATEST_INT:
        return UNDEFINED
    return ("int", sum(numbers))


def with_property(target, name, value):
    if target[0] != "object":
        return UNDEFINED
    return ("object", in_order({**dict(target[1]), name: value}))


def property_at(value, path):
    found = at_path(path, value)
    return UNDEFINED if found is None else found


# each form takes what stands behind its word, and the function that evaluates a part
FORMS = {
    "$plus": lambda operands, of: plus(*map(of, operands)),
    "$prop": lambda operands, of: property_at(of(operands[0]), operands[1]),
    "$with": lambda operands, of: with_property(of(operands[0]), operands[1], of(operands[2])),
    "$same": lambda operands, of: ("bool", of(operands[0]) == of(operands[1])),
    "$undefined": lambda _, of: UNDEFINED,
    "$function": lambda _, of: FUNCTION,
    "$date": lambda time, of: ("date", time),
    "$bytes": lambda digits, of: ("bytes", digits.lower()),
    "$object": lambda props, of: ("object", in_order((name, of(it)) for name, it in props)),
    "$map": lambda pairs, of: map_of((of(key), of(it)) for key, it in pairs),
    "$set": lambda items, of: set_of(map(of, items)),
}


def evaluated_object(expression, variables):
    """The value of an expression that is a JSON object."""
    of = partial(evaluated, variables=variables)
    if "$var" in expression:
        return variables.get(expression["$var"], UNDEFINED)
    if "$array" in expression:
        props = [(name, of(it)) for name, it in expression.get("$named", [])]
        return array_of(map(of, expression["$array"]), props)
    for word, form in FORMS.items():
        if word in expression:
            return form(expression[word], of)
    return ("object", in_order((name, of(it)) for name, it in expression.items()))


def evaluated(expression, variables):
    """The value of an expression of a script."""
    if expression is None:
        return NULL
    if isinstance(expression, bool):
        return ("bool", expression)
    if isinstance(expression, int):
        return ("int", expression)
    if isinstance(expression, str):
        return ("text", expression)
    if isinstance(expression, list):
        return array_of(evaluated(it, variables) for it in expression)
    return evaluated_object(expression, variables)


class Surroundings:
    """What a block's statements see: variables, the connection's number, and the cursor at hand."""
    def __init__(self, variables=(), connection=None, cursor=None):
        self.variables = dict(variables)
        self.connection = connection
        self.cursor = cursor

    def copy(self, **more):
        """A copy with more variables."""
        return Surroundings({**self.variables, **more}, self.connection, self.cursor)

    def value(self, expression):
        return evaluated(expression, self.variables)

    def optional(self, statement, name):
        """The value of a statement's field; None where it is absent or Undefined."""
        value = self.value(statement[name]) if name in statement else UNDEFINED
        return None if value == UNDEFINED else value


# ---- key ranges
class KeyRange(NamedTuple):
    lower: tuple = None
    lower_open: bool = False
    upper: tuple = None
    upper_open: bool = False

    def holds(self, key):
        if self.lower is not None and (key < self.lower or self.lower_open and key == self.lower):
            return False
        return self.upper is None or key < self.upper or not self.upper_open and key == self.upper


def only(key):
    return KeyRange(key, False, key, False)


def bounded(bounds, around):
    """The range of two bounds, refused where it can be seen to be empty from them."""
    lower = needed_key(around.value(bounds["lower"])) if "lower" in bounds else None
    upper = needed_key(around.value(bounds["upper"])) if "upper" in bounds else None
    found = KeyRange(lower, bounds.get("lowerOpen", False), upper, bounds.get("upperOpen", False))
    if lower is not None and upper is not None:
        if lower > upper or lower == upper and (found.lower_open or found.upper_open):
            raise Refusal("DataError")
    return found


def range_of(statement, around, is_needed):
    """The algorithm "convert a value to a key range", on a statement's range or query."""
    if "range" in statement:
        return bounded(statement["range"], around)
    query = around.value(statement["query"]) if "query" in statement else UNDEFINED
    if query not in (UNDEFINED, NULL):
        return only(needed_key(query))
    if is_needed:
        raise Refusal("DataError")
    return KeyRange()


# ---- databases
class Index(NamedTuple):
    id: int
    name: str
    key_path: object
    unique: bool
    multi_entry: bool

    def keys_of(self, value):
        """The keys of the rows that a record's value has in the index."""
        found = extracted(self.key_path, self.multi_entry, value)
        if found in (FAILURE, INVALID):
            return []
        return found if isinstance(found, list) else [found]


@dataclass
class Definition:
    """What a transaction's calls know of an object store."""
    id: int
    key_path: object
    auto_increment: bool
    indexes: list = field(default_factory=list)

    def index_named(self, name):
        """The index of that name; None where there is none."""
        return next((it for it in self.indexes if it.name == name), None)


@dataclass
class Store(Definition):
    """An object store: its records are values by key; current is the number of its key generator."""
    records: dict = field(default_factory=dict)
    current: int = 1

    def rows(self, index_id):
        """Pairs of key and primary key in order, of an index or the records; None without that index."""
        if index_id is None:
            return sorted((key, key) for key in self.records)
        for index in self.indexes:
            if index.id == index_id:
                return sorted((it, key) for key, value in self.records.items() for it in index.keys_of(value))
        return None

    def breaks_unique(self, key, value):
        """Whether a unique index would have two rows of one key, were the value stored under the key."""
        others = [it for other, it in self.records.items() if other != key]
        for index in self.indexes:
            keys = index.keys_of(value) if index.unique else []
            if any(it in keys for other in others for it in index.keys_of(other)):
                return True
        return False

    def generated(self, value):
        """The key that the key generator gives, the value with it, and the generator's next number."""
        if self.current > GREATEST_INT:
            raise RequestFailed("ConstraintError")
        key = (NUMBER, self.current)
        if self.key_path is not None:
            value = injected(self.key_path.split("."), value, key)
        return key, value, self.current + 1

    def raised(self, key):
        """The algorithm "possibly update the key generator": its number behind a key that was given."""
        if not self.auto_increment or key[0] != NUMBER:
            return self.current
        return max(self.current, min(key[1], GREATEST_INT) + 1)

    def store(self, value, key, no_overwrite):
        """The algorithm "store a record into an object store"; a failure leaves the generator's number."""
        if key is None:
            key, value, current = self.generated(value)
        else:
            current = self.raised(key)
        if no_overwrite and key in self.records or self.breaks_unique(key, value):
            raise RequestFailed("ConstraintError")
        self.records[key] = value
        self.current = current
        return value_of(key)

    def delete(self, key_range):
        self.records = {key: it for key, it in self.records.items() if not key_range.holds(key)}
        return UNDEFINED

    def clear(self):
        self.records = {}
        return UNDEFINED


@dataclass
class Database:
    version: int
    stores: dict = field(default_factory=dict)

    def store_of(self, store_id):
        """The object store of that id; None where there is none."""
        return next((it for it in self.stores.values() if it.id == store_id), None)


class Source(NamedTuple):
    """The ids of an object store and, where it is one, of its index."""
    store: int
    index: int = None


# ---- the work of requests: each takes the database first and answers a value
def work_on_store(database, store_id, work):
    store = database.store_of(store_id)
    return UNDEFINED if store is None else work(store)


def rows_in_range(database, source, key_range):
    """The object store of a source, and its rows in a range; None without rows where either is missing."""
    store = database.store_of(source.store)
    rows = None if store is None else store.rows(source.index)
    return store, None if rows is None else [row for row in rows if key_range.holds(row[0])]


def read(database, op, source, key_range, limit):
    """What `get`, `getKey`, `count`, `getAll` or `getAllKeys` answers; a limit of None or 0 is none."""
    store, rows = rows_in_range(database, source, key_range)
    if rows is None:
        return UNDEFINED
    if op == "count":
        return ("int", len(rows))
    keys = [primary_key for _, primary_key in rows]
    answers = [value_of(key) if op in ("getKey", "getAllKeys") else store.records[key] for key in keys]
    if op in ("get", "getKey"):
        return answers[0] if answers else UNDEFINED
    return array_of(answers[:limit] if limit else answers)


@dataclass
class Cursor:
    """A cursor; its place is the row that it took last."""
    source: Source
    direction: str
    key_range: KeyRange
    keys_only: bool
    place: tuple = None
    has_got: bool = False
    request: object = None

    def is_unique(self):
        return self.direction.endswith("unique")

    def is_beyond(self, one, other):
        """Whether one key or row lies beyond the other in the cursor's direction."""
        return one > other if self.direction.startswith("next") else one < other

    def may_take(self, row, place, key, primary_key):
        """Whether a row in range isn't before what was asked for, and lies beyond a place."""
        if key is not None and self.is_beyond(key, row[0]):
            return False
        if self.is_unique():
            return place is None or self.is_beyond(row[0], place[0])
        if primary_key is not None and self.is_beyond((key, primary_key), row):
            return False
        return place is None or self.is_beyond(row, place)

    def turn(self, rows, place, key, primary_key):
        """The row that one turn takes from a place; None where there is none."""
        rows = [row for row in rows if self.may_take(row, place, key, primary_key)]
        if not rows:
            return None
        if self.direction == "prevunique":
            return next(row for row in rows if row[0] == rows[-1][0])
        return rows[-1] if self.direction == "prev" else rows[0]

    def shown(self, store):
        """What the cursor's request answers at its place."""
        props = [("key", value_of(self.place[0])), ("primaryKey", value_of(self.place[1]))]
        if not self.keys_only:
            props.append(("value", store.records[self.place[1]]))
        return ("object", tuple(props))


def iterate(database, cursor, turns, key=None, primary_key=None):
    """The algorithm "iterate a cursor"."""
    store, rows = rows_in_range(database, cursor.source, cursor.key_range)
    place = cursor.place
    for _ in range(turns):
        place = cursor.turn(rows or [], place, key, primary_key)
        if place is None:
            cursor.has_got = False
            return NULL
    cursor.place = place
    cursor.has_got = True
    return cursor.shown(store)


# ---- the work of an upgrade's calls
def create_store(database, name, definition):
    database.stores[name] = Store(definition.id, definition.key_path, definition.auto_increment)


def delete_store(database, name):
    del database.stores[name]


def create_index(database, store_id, index):
    store = database.store_of(store_id)
    keys = [key for value in store.records.values() for key in index.keys_of(value)]
    if index.unique and len(keys) != len(set(keys)):
        raise RequestFailed("ConstraintError")
    store.indexes.append(index)


def delete_index(database, store_id, index):
    database.store_of(store_id).indexes.remove(index)


# ---- transactions as a script sees them
@dataclass
class Request:
    """A placed request. A call of an upgrade waits as one without number and statement, and has no event."""
    work: object
    number: int = None
    statement: dict = None
    around: Surroundings = None
    cursor: Cursor = None


def whole_number(value, least, greatest):
    if value[0] != "int" or not least <= value[1] <= greatest:
        raise Refusal("TypeError")
    return value[1]


def cursor_at_hand(around):
    if around.cursor is None:
        raise Refusal("InvalidStateError")
    return around.cursor


class Transaction:
    """Its phase is inactive, active, committing or aborted; its schema is as the calls have left it."""
    def __init__(self, number, client, connection, mode="readwrite", scope=(), durability="strict"):
        self.number = number
        self.client = client
        self.connection = connection
        self.mode = mode
        self.scope = scope
        self.durability = durability
        self.open = None             # the open request of an upgrade transaction
        self.deletion = None         # the delete request that it carries out
        self.statement = {}
        self.around = Surroundings()
        self.phase = "inactive"
        self.error = None
        self.has_started = False
        self.before = None           # a copy of the database
        self.request_count = 0
        self.waiting = []            # the request list
        self.schema = {}             # definitions by name
        self.dropped = set()         # ids of deleted object stores and indexes

    def see_schema(self, database):
        for name, store in database.stores.items():
            indexes = list(store.indexes)
            self.schema[name] = Definition(store.id, store.key_path, store.auto_increment, indexes)

    # -- checks
    def need_active(self):
        if self.phase != "active":
            raise Refusal("TransactionInactiveError")

    def need_writable(self):
        self.need_active()
        if self.mode == "readonly":
            raise Refusal("ReadOnlyError")

    def need_upgrade(self):
        if self.open is None:
            raise Refusal("InvalidStateError")
        self.need_active()

    def is_dropped(self, source):
        return source.store in self.dropped or source.index in self.dropped

    def store_named(self, name):
        if self.phase == "aborted":
            raise Refusal("InvalidStateError")
        if name not in (self.scope if self.open is None else self.schema):
            raise Refusal("NotFoundError")
        return self.schema[name]

    def source_of(self, statement):
        definition = self.store_named(statement["store"])
        if "index" not in statement:
            return Source(definition.id)
        index = definition.index_named(statement["index"])
        if index is None:
            raise Refusal("NotFoundError")
        return Source(definition.id, index.id)

    # -- placing
    def place(self, statement, around, work, cursor=None):
        """The algorithm "asynchronously execute a request": one request more at the end of the list."""
        self.request_count += 1
        request = Request(work, self.request_count, statement, around.copy(), cursor)
        self.waiting.append(request)
        return request

    def place_on_store(self, statement, around, store_id, work):
        self.place(statement, around, partial(work_on_store, store_id=store_id, work=work))

    def place_storing(self, statement, around, store_id, value, key):
        no_overwrite = statement["op"] == "add"
        self.place_on_store(statement, around, store_id, lambda store: store.store(value, key, no_overwrite))

    def place_upgrade(self, work, *arguments):
        self.waiting.append(Request(lambda database: work(database, *arguments)))

    # -- calls on object stores and indexes
    def add_or_put(self, statement, around):
        """The algorithm "add or put"."""
        definition = self.store_named(statement["store"])
        value = around.value(statement["value"])
        self.need_writable()
        key = self.key_to_store(definition, around.optional(statement, "key"), value)
        self.place_storing(statement, around, definition.id, value, key)

    def key_to_store(self, definition, key, value):
        """The key of a record, given or in its value; None where the key generator gives it."""
        has_path = definition.key_path is not None
        if has_path and key is not None:
            raise Refusal("DataError")
        if not has_path and key is None and not definition.auto_increment:
            raise Refusal("DataError")
        if key is not None:
            key = needed_key(key)
        if has_function(value):
            raise Refusal("DataCloneError")
        return self.key_in_line(definition, value) if has_path else key

    def key_in_line(self, definition, value):
        key = extracted(definition.key_path, False, value)
        if key == INVALID:
            raise Refusal("DataError")
        if key != FAILURE:
            return key
        if definition.auto_increment and could_inject(definition.key_path, value):
            return None
        raise Refusal("DataError")

    def read(self, statement, around):
        op = statement["op"]
        source = self.source_of(statement)
        limit = around.optional(statement, "count") if op in ("getAll", "getAllKeys") else None
        if limit is not None:
            limit = whole_number(limit, 0, GREATEST_COUNT)
        self.need_active()
        key_range = range_of(statement, around, op in ("get", "getKey"))
        self.place(statement, around, partial(read, op=op, source=source, key_range=key_range, limit=limit))

    def delete(self, statement, around):
        definition = self.store_named(statement["store"])
        self.need_writable()
        key_range = range_of(statement, around, True)
        self.place_on_store(statement, around, definition.id, lambda store: store.delete(key_range))

    def clear(self, statement, around):
        definition = self.store_named(statement["store"])
        self.need_writable()
        self.place_on_store(statement, around, definition.id, lambda store: store.clear())

    # -- calls on cursors
    def open_cursor(self, statement, around):
        source = self.source_of(statement)
        self.need_active()
        key_range = range_of(statement, around, False)
        keys_only = statement["op"] == "openKeyCursor"
        cursor = Cursor(source, statement.get("direction", "next"), key_range, keys_only)
        cursor.request = self.place(statement, around, partial(iterate, cursor=cursor, turns=1), cursor)

    def place_again(self, cursor, turns=1, key=None, primary_key=None):
        """Places the cursor's own request again, under its number."""
        cursor.has_got = False
        work = partial(iterate, cursor=cursor, turns=turns, key=key, primary_key=primary_key)
        self.waiting.append(replace(cursor.request, work=work))

    def need_source(self, cursor):
        self.need_active()
        if self.is_dropped(cursor.source):
            raise Refusal("InvalidStateError")

    def need_got(self, cursor):
        self.need_source(cursor)
        if not cursor.has_got:
            raise Refusal("InvalidStateError")

    def advance(self, statement, around):
        cursor = cursor_at_hand(around)
        turns = whole_number(around.value(statement["count"]), 1, GREATEST_COUNT)
        self.need_got(cursor)
        self.place_again(cursor, turns)

    def continue_cursor(self, statement, around):
        cursor = cursor_at_hand(around)
        self.need_got(cursor)
        key = around.optional(statement, "key")
        if key is not None:
            key = needed_key(key)
            if not cursor.is_beyond(key, cursor.place[0]):
                raise Refusal("DataError")
        self.place_again(cursor, 1, key)

    def continue_primary_key(self, statement, around):
        cursor = cursor_at_hand(around)
        self.need_source(cursor)
        if cursor.source.index is None or cursor.is_unique():
            raise Refusal("InvalidAccessError")
        self.need_got(cursor)
        key = needed_key(around.value(statement["key"]))
        primary_key = needed_key(around.value(statement["primaryKey"]))
        if not cursor.is_beyond((key, primary_key), cursor.place):
            raise Refusal("DataError")
        self.place_again(cursor, 1, key, primary_key)

    def need_record(self, cursor):
        """That the cursor stands at a record that may be changed."""
        self.need_writable()
        self.need_got(cursor)
        if cursor.keys_only:
            raise Refusal("InvalidStateError")

    def update(self, statement, around):
        cursor = cursor_at_hand(around)
        self.need_record(cursor)
        value = around.value(statement["value"])
        if has_function(value):
            raise Refusal("DataCloneError")
        store_id, key = cursor.source.store, cursor.place[1]
        path = next(it.key_path for it in self.schema.values() if it.id == store_id)
        if path is not None and extracted(path, False, value) != key:
            raise Refusal("DataError")
        self.place_storing(statement, around, store_id, value, key)

    def delete_here(self, statement, around):
        cursor = cursor_at_hand(around)
        self.need_record(cursor)
        key_range = only(cursor.place[1])
        self.place_on_store(statement, around, cursor.source.store, lambda store: store.delete(key_range))

    # -- calls of an upgrade transaction
    def create_object_store(self, statement, around):
        self.need_upgrade()
        name, path = statement["store"], statement.get("keyPath")
        auto_increment = statement.get("autoIncrement", False)
        if path is not None and not is_key_path(path):
            raise Refusal("SyntaxError")
        if name in self.schema:
            raise Refusal("ConstraintError")
        if auto_increment and (path == "" or isinstance(path, list)):
            raise Refusal("InvalidAccessError")
        self.schema[name] = Definition(next(IDS), path, auto_increment)
        self.place_upgrade(create_store, name, self.schema[name])

    def delete_object_store(self, statement, around):
        self.need_upgrade()
        name = statement["store"]
        if name not in self.schema:
            raise Refusal("NotFoundError")
        definition = self.schema.pop(name)
        self.dropped.add(definition.id)
        self.dropped.update(index.id for index in definition.indexes)
        self.place_upgrade(delete_store, name)

    def create_index(self, statement, around):
        definition = self.store_named(statement["store"])
        self.need_upgrade()
        name, path, multi_entry = statement["index"], statement["keyPath"], statement.get("multiEntry", False)
        if definition.index_named(name) is not None:
            raise Refusal("ConstraintError")
        if not is_key_path(path):
            raise Refusal("SyntaxError")
        if multi_entry and isinstance(path, list):
            raise Refusal("InvalidAccessError")
        index = Index(next(IDS), name, path, statement.get("unique", False), multi_entry)
        definition.indexes.append(index)
        self.place_upgrade(create_index, definition.id, index)

    def delete_index(self, statement, around):
        definition = self.store_named(statement["store"])
        self.need_upgrade()
        index = definition.index_named(statement["index"])
        if index is None:
            raise Refusal("NotFoundError")
        definition.indexes.remove(index)
        self.dropped.add(index.id)
        self.place_upgrade(delete_index, definition.id, index)

    # -- calls on the transaction itself
    def commit(self, statement, around):
        if self.phase != "active":
            raise Refusal("InvalidStateError")
        self.phase = "committing"

    def abort(self, statement, around):
        if self.phase in ("committing", "aborted"):
            raise Refusal("InvalidStateError")
        self.phase = "aborted"
        self.error = None


TRANSACTION_CALLS = {
    "add": Transaction.add_or_put,
    "put": Transaction.add_or_put,
    "get": Transaction.read,
    "getKey": Transaction.read,
    "count": Transaction.read,
    "getAll": Transaction.read,
    "getAllKeys": Transaction.read,
    "delete": Transaction.delete,
    "clear": Transaction.clear,
    "openCursor": Transaction.open_cursor,
    "openKeyCursor": Transaction.open_cursor,
    "continue": Transaction.continue_cursor,
    "continuePrimaryKey": Transaction.continue_primary_key,
    "advance": Transaction.advance,
    "update": Transaction.update,
    "deleteHere": Transaction.delete_here,
    "commit": Transaction.commit,
    "abort": Transaction.abort,
    "createObjectStore": Transaction.create_object_store,
    "deleteObjectStore": Transaction.delete_object_store,
    "createIndex": Transaction.create_index,
    "deleteIndex": Transaction.delete_index,
}


@dataclass
class Event:
    """What a handler is called for; it may prevent that an error aborts the transaction."""
    transaction: Transaction
    is_prevented: bool = False


# ---- connections
@dataclass
class Connection:
    client: object
    opened: object                      # the open request that it is of
    close_pending: bool = False
    is_closed: bool = False
    upgrade: Transaction = None         # while it runs
    is_told: bool = False               # of a version change that it hasn't handled

    @property
    def name(self):
        return self.opened.name


@dataclass
class ConnectionRequest:
    """An open or delete request in its name's queue. Its state is new, announced, blocked or running."""
    client: object
    number: int
    name: str
    statement: dict
    around: Surroundings
    is_open: bool
    version: int = None                 # that an open asks for; None for a deletion
    old_version: int = 0
    state: str = "new"
    told: list = field(default_factory=list)
    connection: Connection = None

    @property
    def word(self):
        """The request's name in lines."""
        return f"open {self.number}" if self.is_open else f"delete {self.number}"


# ---- clients
class Client:
    """A client: its blocks, the lines that it printed, the blocks and the events that it is still to run."""
    def __init__(self, session, number, blocks):
        self.session = session
        self.number = number
        self.blocks = blocks
        self.lines = []
        self.tasks = [partial(self.run_task, "main", Surroundings())]
        self.events = []
        self.request_count = 0
        self.connections = {}

    def line(self, text):
        self.lines.append(text)

    def run_task(self, block, around):
        self.handle(block, around.copy(), None)

    def handle(self, block, around, event):
        """Runs a block, if there is one; whether it threw."""
        try:
            if block is not None:
                self.run_block(block, around, event)
        except Thrown:
            return True
        return False

    def run_block(self, block, around, event):
        for statement in self.blocks[block]:
            self.run_statement(statement, around, event)

    def run_statement(self, statement, around, event):
        op = statement["op"]
        if op in SCRIPT_STATEMENTS:
            SCRIPT_STATEMENTS[op](self, statement, around, event)
            return
        try:
            self.call(op, statement, around, event)
        except Refusal as refusal:
            self.line(f"refused {op} {refusal}")

    def call(self, op, statement, around, event):
        """A call of the API: those of TASK_CALLS outside of transactions, the others in their handlers."""
        if (op in TASK_CALLS) != (event is None):
            raise Refusal("InvalidStateError")
        if event is None:
            TASK_CALLS[op](self, statement, around)
        elif op == "prevent":
            event.is_prevented = True
        else:
            TRANSACTION_CALLS[op](event.transaction, statement, around)

    # -- statements of the script itself
    def let(self, statement, around, event):
        around.variables[statement["name"]] = around.value(statement["value"])

    def say(self, statement, around, event):
        self.line("say " + spelled(around.value(statement["value"])))

    def throw(self, statement, around, event):
        self.line("throw")
        raise Thrown

    def post(self, statement, around, event):
        later = around.copy()
        later.cursor = None
        self.tasks.append(partial(self.run_task, statement["do"], later))

    def repeat(self, statement, around, event):
        before = around.variables.get("turn", UNDEFINED)
        for turn in range(statement["times"]):
            around.variables["turn"] = ("int", turn)
            self.run_block(statement["do"], around, event)
        around.variables["turn"] = before

    def choose(self, statement, around, event):
        block = statement.get("then" if around.value(statement["test"]) == TRUE else "else")
        if block is not None:
            self.run_block(block, around, event)

    # -- calls outside of transactions
    def ask(self, statement, around, is_open, version=None):
        """Puts an open or delete request into its queue."""
        self.request_count += 1
        around = around.copy()
        if is_open:
            around.connection = self.request_count
        name = statement["db"]
        request = ConnectionRequest(self, self.request_count, name, statement, around, is_open, version)
        self.session.queues.setdefault(name, []).append(request)
        self.session.process_queue(name)

    def open(self, statement, around):
        version = around.optional(statement, "version")
        if version is not None:
            version = whole_number(version, 1, GREATEST_INT - 1)
        self.ask(statement, around, True, version)

    def delete_database(self, statement, around):
        self.ask(statement, around, False)

    def connection_of(self, statement, around):
        connection = self.connections.get(statement.get("conn", around.connection))
        if connection is None:
            raise Refusal("InvalidStateError")
        return connection

    def close(self, statement, around):
        connection = self.connection_of(statement, around)
        connection.close_pending = True
        self.session.close_if_idle(connection)

    def transaction(self, statement, around):
        """The algorithm of `transaction()`: creates a transaction and runs its body."""
        connection = self.connection_of(statement, around)
        self.check_transaction(connection, statement)
        durability = "strict" if statement.get("durability") == "strict" else "relaxed"
        what = (statement["mode"], statement["scope"], durability)
        transaction = self.session.create_transaction(self, connection, *what)
        transaction.statement = statement
        transaction.around = around.copy()
        self.line(f"tx {transaction.number} create {transaction.mode} {durability}")
        transaction.phase = "active"
        self.handle(statement["body"], around.copy(), Event(transaction))
        rest(transaction)

    def check_transaction(self, connection, statement):
        if connection.upgrade is not None or connection.close_pending:
            raise Refusal("InvalidStateError")
        stores = self.session.databases[connection.name].stores
        if any(name not in stores for name in statement["scope"]):
            raise Refusal("NotFoundError")
        if not statement["scope"]:
            raise Refusal("InvalidAccessError")
        if statement["mode"] == "versionchange":
            raise Refusal("TypeError")


SCRIPT_STATEMENTS = {
    "let": Client.let,
    "say": Client.say,
    "throw": Client.throw,
    "post": Client.post,
    "repeat": Client.repeat,
    "if": Client.choose,
}
TASK_CALLS = {
    "open": Client.open,
    "deleteDatabase": Client.delete_database,
    "close": Client.close,
    "transaction": Client.transaction,
}


def rest(transaction):
    """Behind a handler an active transaction is inactive."""
    if transaction.phase == "active":
        transaction.phase = "inactive"


# ---- sessions
class Session:
    """One session over databases by name."""
    def __init__(self, clients, databases):
        self.databases = databases
        self.queues = {}             # connection requests by name
        self.connections = []
        self.transactions = []       # the unfinished ones, by number
        self.transaction_count = 0
        self.clients = [Client(self, i, it["blocks"]) for i, it in enumerate(clients, 1)]

    def run(self):
        for _ in range(GREATEST_STEPS):
            if not self.step():
                return
        raise RuntimeError("the session takes too many steps")

    def step(self):
        """The first client with a task or an event runs one; else the first transaction makes a step.
        False where none is left."""
        for client in self.clients:
            waiting = client.tasks or client.events
            if waiting:
                waiting.pop(0)()
                return True
        if not self.transactions:
            return False
        self.step_transaction(self.transactions[0])
        return True

    # -- connections and their queues
    def open_connections(self, name):
        found = [it for it in self.connections if it.name == name and not it.is_closed]
        return sorted(found, key=lambda it: (it.client.number, it.opened.number))

    def connect(self, request):
        request.connection = Connection(request.client, request)
        self.connections.append(request.connection)

    def close_if_idle(self, connection):
        """The algorithm "close a database connection", once its transactions are finished."""
        has_transactions = any(it.connection is connection for it in self.transactions)
        is_used = connection.upgrade is not None or has_transactions
        if connection.close_pending and not connection.is_closed and not is_used:
            connection.is_closed = True
            self.process_queue(connection.name)

    def process_queue(self, name):
        """Moves the queue of a name as far as it can."""
        queue = self.queues.get(name, [])
        while queue and self.process(queue[0]):
            pass

    def process(self, request):
        """One step of the request in front of its queue; whether there was one."""
        if request.state == "new":
            self.begin(request)
            return True
        if request.state == "announced":
            return self.tell_blocked(request)
        return request.state == "blocked" and self.carry_out(request)

    def answer(self, request, event, *arguments):
        """Takes the request out of its queue and tells its client."""
        self.queues[request.name].pop(0)
        request.client.events.append(partial(event, request, *arguments))

    def begin(self, request):
        """The algorithm "open a database connection" or "delete a database", up to the version change."""
        current = self.databases[request.name].version if request.name in self.databases else 0
        request.old_version = current
        if request.is_open:
            request.version = request.version or current or 1
        if not request.is_open and current == 0:
            self.answer(request, self.deletion_succeeded)
        elif request.is_open and request.version < current:
            self.answer(request, self.open_failed, "VersionError")
        elif request.is_open and request.version == current:
            self.connect(request)
            self.answer(request, self.open_succeeded)
        else:
            self.announce(request)

    def announce(self, request):
        """Tells each open connection of the version change."""
        request.state = "announced"
        for connection in self.open_connections(request.name):
            if not connection.close_pending:
                event = partial(self.version_changes, connection, request.old_version, request.version)
                connection.client.events.append(event)
                connection.is_told = True
                request.told.append(connection)

    def tell_blocked(self, request):
        if any(it.is_told and not it.is_closed for it in request.told):
            return False
        if self.open_connections(request.name):
            request.client.events.append(partial(self.blocked, request))
        request.state = "blocked"
        return True

    def carry_out(self, request):
        if self.open_connections(request.name):
            return False
        request.state = "running"
        if request.is_open:
            self.connect(request)
        event = self.upgrade if request.is_open else self.start_deletion
        request.client.events.append(partial(event, request))
        return True

    # -- events of connections and their requests
    def tell(self, request, line, handler, **variables):
        """Prints a line of the request's client and runs a handler of it outside of transactions."""
        request.client.line(line)
        request.client.run_task(request.statement.get(handler), request.around.copy(**variables))

    def version_changes(self, connection, old, new):
        if not connection.close_pending:
            opened = connection.opened
            line = f"versionchange {opened.number} {old} {'null' if new is None else new}"
            self.tell(opened, line, "versionchange")
        connection.is_told = False
        self.process_queue(connection.name)

    def blocked(self, request):
        versions = f"{request.old_version} {request.version}" if request.is_open else f"{request.old_version}"
        self.tell(request, f"{request.word} blocked {versions}", "blocked")

    def open_failed(self, request, error):
        self.tell(request, f"{request.word} error {error}", "error", error=("text", error))

    def open_succeeded(self, request):
        request.client.connections[request.number] = request.connection
        version = request.version
        self.tell(request, f"{request.word} success {version}", "success", result=("int", version))

    def deletion_succeeded(self, request):
        old = request.old_version
        self.tell(request, f"{request.word} success {old}", "success", result=("int", old))

    def upgrade(self, request):
        """The algorithm "upgrade a database", up to the end of the handler of `upgradeneeded`."""
        client, connection = request.client, request.connection
        client.connections[request.number] = connection
        transaction = self.create_transaction(client, connection)
        transaction.open = request
        transaction.before = copy.deepcopy(self.databases.get(request.name))
        connection.upgrade = transaction
        self.databases.setdefault(request.name, Database(0)).version = request.version
        client.line(f"{request.word} upgrade {request.old_version} {request.version} tx {transaction.number}")
        transaction.phase = "active"
        threw = client.handle(request.statement.get("upgrade"), request.around.copy(), Event(transaction))
        if threw and transaction.phase != "aborted":
            transaction.phase = "aborted"
            transaction.error = "AbortError"
        rest(transaction)

    def start_deletion(self, request):
        transaction = self.create_transaction(request.client, None)
        transaction.deletion = request
        request.client.line(f"{request.word} tx {transaction.number}")

    # -- transactions
    def create_transaction(self, client, connection, *what):
        """A new transaction, an upgrade transaction or a deletion where nothing more is said."""
        self.transaction_count += 1
        transaction = Transaction(self.transaction_count, client, connection, *what)
        if connection is not None and connection.name in self.databases:
            transaction.see_schema(self.databases[connection.name])
        self.transactions.append(transaction)
        return transaction

    def step_transaction(self, transaction):
        if transaction.deletion is not None:
            self.finish_deletion(transaction)
        elif transaction.phase == "aborted":
            self.finish(transaction)
        elif not transaction.has_started:
            self.start(transaction)
        elif transaction.waiting:
            self.run_request(transaction, transaction.waiting.pop(0))
        else:
            self.finish(transaction)

    def start(self, transaction):
        transaction.has_started = True
        if transaction.open is None:
            transaction.before = copy.deepcopy(self.databases[transaction.connection.name])

    def run_request(self, transaction, request):
        result = error = None
        try:
            result = request.work(self.databases[transaction.connection.name])
        except RequestFailed as failed:
            error = str(failed)
        if request.number is not None:
            self.fire_event(transaction, request, result, error)
        elif error is not None:
            self.abort(transaction, error)

    def fire_event(self, transaction, request, result, error):
        """The algorithms "fire a success event" and "fire an error event", and what comes of them."""
        event = Event(transaction)
        if transaction.phase == "inactive":
            transaction.phase = "active"
        threw = self.tell_error(event, request, error) if error else self.tell_success(event, request, result)
        rest(transaction)
        if transaction.phase == "aborted":
            self.abort(transaction, transaction.error)
        elif threw:
            self.abort(transaction, "AbortError")
        elif error and not event.is_prevented:
            self.abort(transaction, error)

    def tell_success(self, event, request, result):
        transaction = event.transaction
        transaction.client.line(f"tx {transaction.number} req {request.number} success {spelled(result)}")
        around = request.around.copy(result=result)
        if request.cursor is not None:
            around.cursor = request.cursor
        return transaction.client.handle(request.statement.get("success"), around, event)

    def tell_error(self, event, request, error):
        transaction = event.transaction
        transaction.client.line(f"tx {transaction.number} req {request.number} error {error}")
        around = request.around.copy(error=("text", error))
        return transaction.client.handle(request.statement.get("error"), around, event)

    def abort(self, transaction, error):
        """The algorithm "abort a transaction", but for the transaction's own event."""
        transaction.phase = "aborted"
        transaction.error = error
        self.restore(transaction)
        for request in transaction.waiting:
            if request.number is not None:
                self.tell_error(Event(transaction), request, "AbortError")
        transaction.waiting = []

    def restore(self, transaction):
        """The transaction's database as it was before it."""
        name = transaction.connection.name
        if transaction.before is not None:
            self.databases[name] = transaction.before
        elif transaction.open is not None:
            del self.databases[name]

    def finish_deletion(self, transaction):
        request = transaction.deletion
        self.transactions.remove(transaction)
        del self.databases[request.name]
        self.answer(request, self.deletion_succeeded)
        self.process_queue(request.name)

    def finish(self, transaction):
        self.transactions.remove(transaction)
        is_aborted = transaction.phase == "aborted"
        if is_aborted and not transaction.has_started:
            self.abort(transaction, transaction.error)
        end = f"abort {transaction.error or 'null'}" if is_aborted else "complete"
        transaction.client.line(f"tx {transaction.number} {end}")
        if transaction.open is not None:
            self.finish_upgrade(transaction, is_aborted)
        else:
            self.tell_end(transaction, is_aborted)
            self.close_if_idle(transaction.connection)

    def finish_upgrade(self, transaction, is_aborted):
        """An upgrade that was aborted, or whose connection was closed in it, is an open that failed."""
        request, connection = transaction.open, transaction.connection
        connection.upgrade = None
        if is_aborted or connection.close_pending:
            connection.close_pending = True
            self.answer(request, self.open_failed, "AbortError")
        else:
            self.answer(request, self.open_succeeded)
        self.close_if_idle(connection)
        self.process_queue(request.name)

    def tell_end(self, transaction, is_aborted):
        """Runs the transaction's own handler."""
        around = transaction.around
        if is_aborted and transaction.error is not None:
            around = around.copy(error=("text", transaction.error))
        transaction.client.run_task(transaction.statement.get("abort" if is_aborted else "complete"), around)


def report(script):
    """The lines of each client of each session, under the lines that name them."""
    lines = []
    databases = {}
    for number, part in enumerate(script["sessions"], 1):
        session = Session(part["clients"], databases)
        session.run()
        lines.append(f"session {number}")
        for client in session.clients:
            lines += [f"client {client.number}"] + client.lines
    return "\n".join(lines) + "\n"


def main():
    if len(sys.argv) != 2:
        sys.exit(__doc__)
    with open(sys.argv[1], encoding="utf-8") as it:
        script = json.load(it)
    sys.stdout.buffer.write(report(script).encode("utf-8", "surrogatepass"))


if __name__ == "__main__":
    main()
