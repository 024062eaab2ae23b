"""The six tables of a database: the rows of a state, and which rows and tables stand for one.

Under schema 1 the roots stood in `root`, and there was no `root2`.
"""
import hashlib

import repository
from documents import is_document, meets, read_document
from names import is_hex, is_role_name

# The tables in the order in which they are made, each with the columns that its rows are sorted by.
TABLES = {
    "root": "version", "current": "slot", "shelf": "role, version", "blob": "digest", "schema": "version", "root2": "version",
}
SCHEMA_VERSION = 2
FIRST_SCHEMA = 1


def rows_of(state):
    current = []
    if state.snapshot:
        current.append(("snapshot", state.snapshot.version, state.snapshot.bytes))
    if state.timestamp:
        current.append(("timestamp", state.timestamp.version, state.timestamp.bytes))
    return {
        "root": [],
        "current": current,
        "shelf": sorted((role, version, held.bytes) for (role, version), held in state.shelf.items()),
        "blob": sorted(state.blobs.items()),
        "schema": [(SCHEMA_VERSION,)],
        "root2": [(root.version, root.profile, root.bytes) for root in state.roots],
    }


def first_rows_of(state):
    """The same under schema 1, for roots of profile 1."""
    roots = [(root.version, root.bytes) for root in state.roots]
    return {**rows_of(state), "root": roots, "schema": [(FIRST_SCHEMA,)], "root2": []}


def migrated(rows):
    """Rows under schema 2, as an opening leaves them."""
    roots = [(version, 1, text) for version, text in rows["root"]]
    return {**rows, "root": [], "schema": [(SCHEMA_VERSION,)], "root2": roots or rows["root2"]}


def roots_stand(rows):
    """Versions rise by one, profiles do not fall and are those of the bytes, and each root meets its own rule and its predecessor's."""
    last = None
    for version, profile, text in rows:
        if type(version) is not int or type(text) is not bytes or not is_document("root", text):
            return False
        root = read_document("root", text)
        if root.version != version or root.profile != profile or not meets(root.rules["root"], root):
            return False
        if last and (version != last.version + 1 or root.profile < last.profile or not meets(last.rules["root"], root)):
            return False
        last = root
    return len(rows) <= repository.MAXIMUM_ROOTS


def current_stands(rows, last_root):
    """The timestamp and the snapshot meet the last root's rules."""
    for slot, version, text in rows:
        if slot not in ("timestamp", "snapshot") or type(version) is not int or type(text) is not bytes:
            return False
        if not is_document(slot, text) or read_document(slot, text).version != version:
            return False
        if not meets(last_root.rules[slot], read_document(slot, text)):
            return False
    return True


def shelf_stands(rows):
    """Each file stands at its version under the name of a role that is none of the other three."""
    for role, version, text in rows:
        if type(role) is not str or not is_role_name(role) or role in ("root", "timestamp", "snapshot"):
            return False
        if type(version) is not int or type(text) is not bytes or not is_document("targets", text):
            return False
        if read_document("targets", text).version != version:
            return False
    return len(rows) <= repository.MAXIMUM_SHELF


def blobs_stand(rows):
    """Each blob stands under its SHA-256."""
    for digest, text in rows:
        if not is_hex(digest, 64) or type(text) is not bytes or len(text) > repository.MAXIMUM_BLOB_LENGTH:
            return False
        if hashlib.sha256(text).hexdigest() != digest:
            return False
    return len(rows) <= repository.MAXIMUM_BLOBS


def stand_for_a_state(rows):
    """Whether rows, as a table's name with its rows in order, are those of a state."""
    if not any(rows.values()):
        return True
    if rows["schema"] == [(FIRST_SCHEMA,)] and not rows["root2"]:
        return stand_for_a_state(migrated(rows))
    if rows["schema"] != [(SCHEMA_VERSION,)] or rows["root"] or not roots_stand(rows["root2"]):
        return False
    if not rows["root2"]:
        return not any(rows[table] for table in TABLES if table != "schema")
    last_root = read_document("root", rows["root2"][-1][2])
    return current_stands(rows["current"], last_root) and shelf_stands(rows["shelf"]) and blobs_stand(rows["blob"])


def are_opened(tables):
    """Some of the first five tables in their order and nothing else, or all five and others after them, `root2` among these or not
    (docs/DECISIONS.md, "Which databases are opened")."""
    five = list(TABLES)[:5]
    return list(tables)[:5] == five[:len(tables)]
