"""Databases that the program did not write so: rows that stand for no state, tables that are absent, further ones."""
import itertools
import sqlite3

import command_line
import signed_documents as make
import tables
from denials import Denied
from names import LARGEST_NUMBER
from program import World, insert_rows, read_rows
from repository import MAXIMUM_BLOB_LENGTH
from scenes import LIVE, NOW, RULES, SNAPSHOT_SIGNERS, TIMESTAMP_SIGNERS, ZEROS, granting_state, signed_document
from test_keys import KEYS

ROOT_SIGNERS = KEYS[0:3]
DAMAGED = command_line.fault("damaged")
REFUSED = command_line.fault("database")
NO_ROOT = command_line.denied_line(Denied("NoRoot"))
BLOB = b"abc"
STORED = (command_line.DONE, make.digest(BLOB).encode() + b"\n", b"")


def held_state():
    state = granting_state()
    state.roots.append(signed_document("root", make.root(4, LIVE, RULES), ROOT_SIGNERS))
    state.blobs[make.digest(BLOB)] = BLOB
    return state


def insert_root(table, version, root_version=None, rules=None, signers=ROOT_SIGNERS, profile=1, required=None):
    text = make.signed_file(make.root(root_version or version, LIVE, rules or RULES, required=required), signers)
    row = (version, text) if table == "root" else (version, profile, text)
    return f"INSERT INTO {table} VALUES ({', '.join('?' * len(row))})", row


def root_changes(table):
    """Changes of the roots, in the table that holds them."""
    def changes(state):
        yield f"DELETE FROM {table}"
        yield f"DELETE FROM {table} WHERE version = 4"
        yield f"DELETE FROM {table} WHERE version = 3"
        yield f"UPDATE {table} SET version = 5 WHERE version = 4"
        yield f"UPDATE {table} SET version = 9 WHERE version = 3"
        yield f"UPDATE {table} SET bytes = ? WHERE version = 4", (state.timestamp.bytes,)
        yield f"UPDATE {table} SET bytes = x'00' WHERE version = 3"
        yield f"UPDATE {table} SET bytes = '{{}}' WHERE version = 3"
        yield f"UPDATE {table} SET bytes = CAST(bytes AS TEXT) WHERE version = 3"
        for version in (6, 5, 2):
            yield insert_root(table, version)
        for version in (0, -1):
            yield insert_root(table, version, 2)
        yield insert_root(table, 5, signers=ROOT_SIGNERS[:1])
        for rules in (
            {"timestamp": (KEYS[12:13], 1)}, {"timestamp": (KEYS[3:5], 2)}, {"targets": (KEYS[12:13], 1)},
            {"root": (KEYS[12:14], 2)},
        ):
            yield insert_root(table, 5, rules={**RULES, **rules})
        yield insert_root(table, 5, rules={**RULES, "root": (KEYS[12:14], 2)}, signers=ROOT_SIGNERS + KEYS[12:14])
        for profile in (1, 2):
            for required in (None, [], ["a", "b/*"]):
                yield insert_root(table, 5, profile=profile, required=required)

    return changes


def profile_changes(_state):
    """Changes of the profiles, and rows in `root`, where none may be."""
    for profile in (0, 2, 3, -1, 2**32 + 1, "'1'", "'x'", "1.0", "1.5", "x'01'"):
        yield f"UPDATE root2 SET profile = {profile} WHERE version = 3"
    yield "UPDATE root2 SET profile = 2"
    yield "INSERT INTO root SELECT version, bytes FROM root2 WHERE version = 3"
    yield insert_root("root", 5)


def current_changes(state):
    for slot in ("timestamp", "snapshot"):
        yield f"DELETE FROM current WHERE slot = '{slot}'"
    yield "DELETE FROM current"
    for version in ("6", "'x'", "5.0", "5.5", "'5'"):
        yield f"UPDATE current SET version = {version} WHERE slot = 'timestamp'"
    yield "UPDATE current SET version = 9 WHERE slot = 'snapshot'"
    yield "INSERT INTO current VALUES ('targets', 4, x'00')"
    yield "INSERT INTO current VALUES ('root', 4, ?)", (state.roots[-1].bytes,)
    for slot in ("'Timestamp'", "''", "x'74696d657374616d70'"):
        yield f"UPDATE current SET slot = {slot} WHERE slot = 'timestamp'"
    changed = [
        ("snapshot", state.timestamp.bytes),
        ("timestamp", make.signed_file(make.timestamp(5, LIVE, 8), [])),
        ("timestamp", make.signed_file(make.timestamp(5, 0, 99), TIMESTAMP_SIGNERS)),
        ("snapshot", make.signed_file(make.snapshot(8, LIVE, {"targets": (4,)}), SNAPSHOT_SIGNERS[:1])),
        ("snapshot", make.signed_file(make.snapshot(8, 0, {"targets": (44,)}), SNAPSHOT_SIGNERS)),
    ]
    for slot, text in changed:
        yield f"UPDATE current SET bytes = ? WHERE slot = '{slot}'", (text,)


def shelf_changes(state):
    def targets(version):
        return make.signed_file(make.targets(version, 1, {}), [])

    roles = ["targets", "zeta", "root", "timestamp", "snapshot", "Zeta", "a" * 32, "a" * 33, "", 7, b"a"]
    rows = [(role, 9, targets(9)) for role in roles]
    rows += [("zeta", 8, targets(9)), ("a", 9, b""), ("a", 8, state.snapshot.bytes), ("a", 9, targets(9).decode())]
    rows += [("a", -9, targets(9)), ("a", "q", targets(9)), ("a", LARGEST_NUMBER, targets(LARGEST_NUMBER))]
    for row in rows:
        yield "INSERT INTO shelf VALUES (?, ?, ?)", row
    yield "DELETE FROM shelf"


def blob_changes(_state):
    yield "UPDATE blob SET bytes = x'00'"
    digest = make.digest(b"q")
    keys = [ZEROS, digest.upper(), digest, digest[1:], digest.encode()]
    rows = [(digest, "q"), *((key, b"q") for key in keys)]
    for length in (MAXIMUM_BLOB_LENGTH, MAXIMUM_BLOB_LENGTH + 1):
        blob = b"q" * length
        rows.append((make.digest(blob), blob))
    for row in rows:
        yield "INSERT INTO blob VALUES (?, ?)", row
    yield "DELETE FROM blob"


def schema_changes(_state):
    yield "DELETE FROM schema"
    for version in (0, -1, 1, 2, 3):
        yield f"UPDATE schema SET version = {version}"
    for version in (1, 2, 3):
        yield f"INSERT OR IGNORE INTO schema VALUES ({version})"


def emptied(roots):
    """Lists of tables that lose all their rows."""
    data = [roots, "current", "shelf", "blob"]
    yield data
    yield data + ["schema"]
    yield data[1:]
    yield data[:3]
    yield [roots, "current", "blob"]


# From schema 2 back to schema 1, as it was before there was `root2`, and with an empty `root2`.
BACK = ["INSERT INTO root SELECT version, bytes FROM root2", "DROP TABLE root2", "UPDATE schema SET version = 1"]
BACK_EMPTY = [BACK[0], "DELETE FROM root2", BACK[2]]


def compare_damaged(session, _random):
    """Rows that are those of no state are refused, and left as they are; others go on."""
    state = held_state()
    cases = []
    for roots, begun in (("root2", []), ("root", BACK), ("root", BACK_EMPTY)):
        cases.append(begun)
        for changes in (root_changes(roots), current_changes, shelf_changes, blob_changes, schema_changes):
            cases += [[*begun, change] for change in changes(state)]
        cases += [[*begun, *(f"DELETE FROM {table}" for table in listed)] for listed in emptied(roots)]
    cases += [[change] for change in profile_changes(state)]
    cases.append([*BACK, "CREATE TABLE further(a)"])
    for case in cases:
        world = World(session, state)
        connection = sqlite3.connect(world.database)
        for change in case:
            connection.execute(*((change,) if isinstance(change, str) else change))
        connection.commit()
        connection.close()
        compare_put(session, world.database, f"damaged by {[str(change)[:100] for change in case]}")


def compare_put(session, database, label):
    """A put of one blob: what it prints, and the rows that it leaves."""
    before, _ = read_rows(database)
    after = {table: list(rows) for table, rows in before.items()}
    if not tables.are_opened(tables_in(database)):
        wanted = REFUSED
    elif not tables.stand_for_a_state(before):
        wanted = DAMAGED
    else:
        after = tables.migrated(before)
        wanted = STORED if after["root2"] else NO_ROOT
        if after["root2"]:
            after["blob"] = sorted({*before["blob"], (make.digest(BLOB), BLOB)})
    session.check(label, wanted, put_blob(session, database))
    session.check(f"{label}, rows", str(after), str(read_rows(database)[0]))


def tables_in(database):
    """The tables in the order in which they were made."""
    connection = sqlite3.connect(database)
    found = [name for (name,) in connection.execute("SELECT name FROM sqlite_master WHERE type = 'table'")]
    connection.close()
    return found


def put_blob(session, database):
    file = session.folder / "blob"
    file.write_bytes(BLOB)
    return session.run("put", "--db", str(database), "--at", str(NOW), str(file))


def build(session, listed, rows, before=(), after=(), statements=None):
    """A database with these tables in this order, and these rows."""
    database = session.folder / "built.db"
    for suffix in ("", "-wal", "-shm"):
        database.with_name(database.name + suffix).unlink(missing_ok=True)
    statements = statements or session.empty_database()[1]
    connection = sqlite3.connect(database, isolation_level=None)
    for statement in before:
        connection.execute(statement)
    for table in listed:
        connection.execute(statements[table])
    for table in listed:
        insert_rows(connection, table, rows.get(table, []))
    for statement in after:
        connection.execute(statement)
    connection.close()
    return database


def compare_absent(session, _random):
    """Every choice of the six tables, empty or with rows: only a beginning of the six is opened."""
    state = held_state()
    versions = ({}, *({"schema": [(version,)]} for version in (1, 2, 3)))
    for count in range(len(tables.TABLES) + 1):
        for listed in itertools.combinations(tables.TABLES, count):
            for rows in (*versions, tables.rows_of(state), tables.first_rows_of(state)):
                there = {table: rows.get(table, []) if table in listed else [] for table in tables.TABLES}
                if not tables.are_opened(listed):
                    wanted = REFUSED
                elif not tables.stand_for_a_state(there):
                    wanted = DAMAGED
                else:
                    wanted = STORED if tables.migrated(there)["root2"] else NO_ROOT
                database = build(session, listed, there)
                session.check(f"tables {listed}", wanted, put_blob(session, database))


OTHER_STATEMENTS = {
    "root": "CREATE TABLE root(version INTEGER PRIMARY KEY NOT NULL, bytes BLOB NOT NULL)",
    "current": "CREATE TABLE current(slot TEXT PRIMARY KEY NOT NULL, version INTEGER NOT NULL, bytes BLOB NOT NULL)",
    "shelf": "CREATE TABLE shelf(role TEXT NOT NULL, version INTEGER NOT NULL, bytes BLOB NOT NULL,"
             " PRIMARY KEY(role, version))",
    "blob": "CREATE TABLE blob(digest TEXT PRIMARY KEY NOT NULL, bytes BLOB NOT NULL)",
    "schema": "CREATE TABLE schema(version INTEGER PRIMARY KEY NOT NULL)",
    "root2": "CREATE TABLE root2(version INTEGER PRIMARY KEY NOT NULL, profile INTEGER NOT NULL, bytes BLOB NOT NULL)",
}
FURTHER = [
    "CREATE TABLE further(a)", "CREATE INDEX further ON blob(digest)", "CREATE VIEW further AS SELECT 1",
    "CREATE VIEW further AS SELECT digest FROM blob", "CREATE UNIQUE INDEX further ON blob(digest, bytes)",
    "CREATE TABLE further(a PRIMARY KEY, b REFERENCES further(a))",
]
REFUSED_FURTHER = [
    "CREATE TABLE further(a REFERENCES blob(digest))", "CREATE TABLE further(a, b, FOREIGN KEY (b) REFERENCES Root(version))",
    "CREATE TRIGGER further AFTER INSERT ON blob BEGIN SELECT 1; END",
]
HARMLESS_AFTER = ["VACUUM", "ANALYZE", "PRAGMA user_version = 7", "PRAGMA application_id = 7"]
HARMLESS_BEFORE = [
    "PRAGMA page_size = 1024", "PRAGMA page_size = 8192", "PRAGMA page_size = 65536", "PRAGMA journal_mode = WAL",
]


# What stands in the way of `root2` where it is to be made after the first five tables.
REFUSED_BEFORE_SECOND = [
    "CREATE TABLE root2(a)", "CREATE INDEX root2 ON blob(digest)", "CREATE VIEW root2 AS SELECT 1",
    "CREATE TABLE further(a REFERENCES root2(version))", "CREATE TABLE further(a, FOREIGN KEY (a) REFERENCES ROOT2(version))",
]


def compare_first_schema(session):
    """Rows of schema 1 with others after its tables, which stay where they are."""
    rows = tables.first_rows_of(held_state())
    listed = [table for table in tables.TABLES if table != "root2"]
    for statement in [*REFUSED_FURTHER, *REFUSED_BEFORE_SECOND]:
        database = build(session, listed, rows, after=[statement])
        session.check(f"schema 1, further {statement}", REFUSED, put_blob(session, database))
        session.check(f"schema 1, further {statement}, rows", str({**rows, "root2": []}), str(rows_in(database)))
    for statement in [*FURTHER, "CREATE TABLE further(a INTEGER PRIMARY KEY AUTOINCREMENT, b)"]:
        database = build(session, listed, rows, after=[statement, *(["INSERT INTO further DEFAULT VALUES"] if " TABLE " in statement else [])])
        others = others_in(database)
        session.check(f"schema 1, further {statement}", STORED, put_blob(session, database))
        session.check(f"schema 1, further {statement}, again", STORED, put_blob(session, database))
        session.check(f"schema 1, further {statement}, others", others, others_in(database))
        wanted = tables.migrated({**rows, "root2": []})
        wanted["blob"] = sorted({*wanted["blob"], (make.digest(BLOB), BLOB)})
        session.check(f"schema 1, further {statement}, rows", str(wanted), str(rows_in(database)))


def rows_in(database):
    """The rows of the six tables, of one that is absent or another none."""
    connection = sqlite3.connect(database)
    rows = {}
    for table, order in tables.TABLES.items():
        try:
            rows[table] = connection.execute(f"SELECT * FROM {table} ORDER BY {order}").fetchall()
        except sqlite3.OperationalError:
            rows[table] = []
    connection.close()
    return rows


def others_in(database):
    """What others there are, and the rows of the table `further`."""
    connection = sqlite3.connect(database)
    found = connection.execute("SELECT type, name, sql FROM sqlite_master WHERE name = 'further' OR name = 'sqlite_sequence'").fetchall()
    if any(kind == "table" and name == "further" for kind, name, _ in found):
        found += connection.execute("SELECT * FROM further").fetchall()
    connection.close()
    return found


def compare_forms(session, _random):
    """The same rows in other files: further tables, another order, other pages, other spelling of the tables."""
    rows = tables.rows_of(held_state())
    listed = list(tables.TABLES)
    for order in (listed[::-1], ["schema", *[table for table in listed if table != "schema"]]):
        session.check(f"order {order}", REFUSED, put_blob(session, build(session, order, rows)))
    for statement in REFUSED_FURTHER:
        database = build(session, listed, rows, after=[statement])
        session.check(f"further {statement}", REFUSED, put_blob(session, database))
    for statement in FURTHER:
        database = build(session, listed, rows, after=[statement])
        session.check(f"further {statement}", STORED, put_blob(session, database))
        session.check(f"further {statement}, again", STORED, put_blob(session, database))
        if " INDEX " not in statement:
            session.check(f"before {statement}", REFUSED, put_blob(session, build(session, listed, rows, before=[statement])))
    for statement in HARMLESS_AFTER:
        session.check(statement, STORED, put_blob(session, build(session, listed, rows, after=[statement])))
    for statement in HARMLESS_BEFORE:
        session.check(statement, STORED, put_blob(session, build(session, listed, rows, before=[statement])))
    for table, statement in OTHER_STATEMENTS.items():
        statements = {**session.empty_database()[1], table: statement}
        database = build(session, listed, rows, statements=statements)
        session.check(f"{table} spelled otherwise", STORED, put_blob(session, database))
    compare_first_schema(session)
    database = session.folder / "no bytes.db"
    database.write_bytes(b"")
    session.check("a file of no bytes", NO_ROOT, put_blob(session, database))
