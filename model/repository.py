"""What a repository trusts, and what each command does to it (TUF 1.0, section 5, as a server goes by it)."""
import hashlib
import re

import delegations
import layouts
from denials import Denied, deny_unless
from documents import is_live, meets, read_document
from names import asked, is_target_path
from patterns import matches_segmented

MAXIMUM_ROOTS = 4096
MAXIMUM_SHELF = 4096
MAXIMUM_BLOBS = 4096
MAXIMUM_BLOB_LENGTH = 1048576
# What a command answers that leaves the state as it is, since it holds these bytes already.
SAME = "same"


class State:
    """Roots in order, the timestamp and the snapshot held, targets metadata by role and version, target files."""

    def __init__(self):
        self.roots = []
        self.timestamp = None
        self.snapshot = None
        self.shelf = {}
        self.blobs = {}

    def copy(self):
        other = State()
        other.roots = list(self.roots)
        other.timestamp = self.timestamp
        other.snapshot = self.snapshot
        other.shelf = dict(self.shelf)
        other.blobs = dict(self.blobs)
        return other

    def rule(self, role):
        return self.roots[-1].rules[role]


def begin(state, text):
    """The first root is trusted where it meets its own rule."""
    deny_unless(not state.roots, "RootExists")
    root = read_document("root", text)
    deny_unless(meets(root.rules["root"], root), "NewThreshold")
    after = state.copy()
    after.roots = [root]
    return after


def offer_root(state, text):
    """Section 5.3. A new timestamp or snapshot rule empties what stands under the old ones."""
    last = state.roots[-1]
    if text == last.bytes:
        return SAME
    root = read_document("root", text)
    deny_unless(root.version == last.version + 1, "RootVersion")
    deny_unless(root.profile >= last.profile, "ProfileLowered")
    deny_unless(meets(last.rules["root"], root), "OldThreshold")
    deny_unless(meets(root.rules["root"], root), "NewThreshold")
    deny_unless(len(state.roots) < MAXIMUM_ROOTS, "Full")
    after = state.copy()
    after.roots.append(root)
    if not all(last.rules[role].same_as(root.rules[role]) for role in ("timestamp", "snapshot")):
        after.timestamp = None
        after.snapshot = None
        after.shelf = {}
    return after


def offer_timestamp(state, text, now):
    """Section 5.4."""
    timestamp = read_document("timestamp", text)
    deny_unless(is_live(state.roots[-1], now), "RootExpired")
    deny_unless(meets(state.rule("timestamp"), timestamp), "TimestampThreshold")
    if state.timestamp:
        deny_unless(timestamp.version >= state.timestamp.version, "TimestampRollback")
        if timestamp.version == state.timestamp.version:
            return SAME
        deny_unless(timestamp.snapshot.version >= state.timestamp.snapshot.version, "NamedSnapshotRollback")
    deny_unless(is_live(timestamp, now), "TimestampExpired")
    after = state.copy()
    after.timestamp = timestamp
    return after


def live_timestamp(state, now):
    deny_unless(is_live(state.roots[-1], now), "RootExpired")
    deny_unless(state.timestamp, "NoTimestamp")
    deny_unless(is_live(state.timestamp, now), "TimestampExpired")


def offer_snapshot(state, text, now):
    """Section 5.5."""
    snapshot = read_document("snapshot", text)
    live_timestamp(state, now)
    entry = state.timestamp.snapshot
    deny_unless(entry.has_length(snapshot), "SnapshotLength")
    deny_unless(entry.has_digest(snapshot), "SnapshotHash")
    deny_unless(meets(state.rule("snapshot"), snapshot), "SnapshotThreshold")
    deny_unless(snapshot.version == entry.version, "SnapshotVersion")
    if state.snapshot:
        held = state.snapshot.roles
        kept = [role for role in held if role in snapshot.roles]
        deny_unless(all(snapshot.roles[role].version >= held[role].version for role in kept), "SnapshotRollback")
        deny_unless(len(kept) == len(held), "RoleDropped")
    deny_unless(is_live(snapshot, now), "SnapshotExpired")
    if state.snapshot and state.snapshot.bytes == text:
        return SAME
    after = state.copy()
    after.snapshot = snapshot
    return after


def live_snapshot(state, now):
    live_timestamp(state, now)
    deny_unless(state.snapshot, "NoSnapshot")
    deny_unless(state.timestamp.snapshot.names(state.snapshot), "SnapshotStale")
    deny_unless(is_live(state.snapshot, now), "SnapshotExpired")


def offer_targets(state, role, text, now):
    """Section 5.6."""
    targets = read_document("targets", text)
    live_snapshot(state, now)
    deny_unless(role in state.snapshot.roles, "RoleUnlisted")
    entry = state.snapshot.roles[role]
    deny_unless(entry.has_length(targets), "RoleLength")
    deny_unless(entry.has_digest(targets), "RoleHash")
    deny_unless(targets.version == entry.version, "RoleVersion")
    deny_unless(delegations.is_vouched(state, role, targets, now), "RoleThreshold")
    deny_unless(is_live(targets, now), "RoleExpired")
    place = (role, targets.version)
    if place in state.shelf:
        deny_unless(state.shelf[place].bytes == text, "VersionTaken")
        return SAME
    deny_unless(len(state.shelf) < MAXIMUM_SHELF, "Full")
    after = state.copy()
    after.shelf[place] = targets
    return after


def offer(state, role, text, now):
    """One document under a role's name: the state with it, or SAME, or a denial."""
    deny_unless(state.roots, "NoRoot")
    if role == "root":
        return offer_root(state, text)
    if role == "timestamp":
        return offer_timestamp(state, text, now)
    if role == "snapshot":
        return offer_snapshot(state, text, now)
    return offer_targets(state, role, text, now)


def is_coherent(state):
    """The timestamp names the snapshot, and the shelf holds every file that the snapshot names; or both are absent."""
    if not state.timestamp and not state.snapshot:
        return True
    if not (state.timestamp and state.snapshot and state.timestamp.snapshot.names(state.snapshot)):
        return False
    for role, entry in state.snapshot.roles.items():
        held = state.shelf.get((role, entry.version))
        if held is None or not entry.names(held):
            return False
    return True


def batch(state, offered, now):
    """All documents or none: the state, how many were accepted and how many are held already."""
    after = state
    accepted = same = 0
    for index, (role, text) in enumerate(offered):
        try:
            answer = offer(after, role, text, now)
        except Denied as denied:
            raise Denied(denied.name, index) from None
        if answer is SAME:
            same += 1
        else:
            after = answer
            accepted += 1
    if not is_coherent(after):
        raise Denied("Incoherent", len(offered))
    return after, accepted, same


def put_blob(state, digest, text):
    """A target file under its SHA-256."""
    deny_unless(state.roots, "NoRoot")
    deny_unless(len(text) <= MAXIMUM_BLOB_LENGTH, "BlobLength")
    deny_unless(hashlib.sha256(text).hexdigest() == digest, "DigestMismatch")
    if digest in state.blobs:
        return SAME
    deny_unless(len(state.blobs) < MAXIMUM_BLOBS, "Full")
    after = state.copy()
    after.blobs[digest] = text
    return after


def prune(state):
    """Leaves the files at the versions that the snapshot lists, and the blobs that these list; without a snapshot none.

    Gives the state, and how many blobs and how many rows of the shelf are gone.
    """
    deny_unless(state.roots, "NoRoot")
    listed = {(role, entry.version) for role, entry in state.snapshot.roles.items()} if state.snapshot else set()
    after = state.copy()
    after.shelf = {place: held for place, held in state.shelf.items() if place in listed}
    digests = {digest for held in after.shelf.values() for _, digest in held.listings.values()}
    after.blobs = {digest: blob for digest, blob in state.blobs.items() if digest in digests}
    return after, len(state.blobs) - len(after.blobs), len(state.shelf) - len(after.shelf)


def listed_file(state, path, now):
    """The bytes of a target, its digest, and what refers it to a layout."""
    role, (length, digest) = delegations.search(state, path, now)
    reference = delegations.named_document(state, role).references.get(path)
    required = any(matches_segmented(pattern, path) for pattern in state.roots[-1].required)
    deny_unless(reference is not None or not required, "LayoutRequired")
    if digest not in state.blobs:
        raise Denied("BlobMissing", missing=(path, digest, length))
    deny_unless(len(state.blobs[digest]) == length, "BlobLength")
    return state.blobs[digest], digest, reference


def supporting_file(state, path, now):
    """The bytes of a layout or a link, which has no layout of its own."""
    try:
        blob, _, reference = listed_file(state, path, now)
    except Denied as denied:
        raise denied if denied.name in ("RoleMissing", "BlobMissing") else Denied("SupportDenied") from None
    deny_unless(reference is None, "LayoutNested")
    return blob


def supporting_document(kind, blob):
    try:
        return read_document(kind, blob)
    except Denied:
        raise Denied("LayoutShape") from None


def judge_layout(state, reference, digest, now):
    """All files that a target refers to, then their shapes, then whether the layout allows the target."""
    files = [supporting_file(state, path, now) for path in (reference.path, *reference.links)]
    layout = supporting_document("layout", files[0])
    links = [supporting_document("link", blob) for blob in files[1:]]
    layouts.judge(layout, reference.owners, links, reference.step, reference.product, digest, now)


def target(state, text, now):
    """The bytes of the target that a text asks for, which may say its digest."""
    return target_at(state, *asked(text), now)


def target_at(state, path, digest_asked, now):
    """The bytes of a target (section 5.7; in-toto 1.0, section 5.2)."""
    deny_unless(is_target_path(path), "BadPath")
    deny_unless(state.roots, "NoRoot")
    live_snapshot(state, now)
    blob, digest, reference = listed_file(state, path, now)
    if reference is not None:
        judge_layout(state, reference, digest, now)
    deny_unless(digest_asked in (None, digest), "DigestMismatch")
    return blob


def metadata_file(state, name):
    """The file of a name of a consistent snapshot (section 6.2), or None. The timestamp's name has no version."""
    if name == "timestamp.json":
        return state.timestamp.bytes if state.timestamp else None
    parts = re.fullmatch(r"([1-9][0-9]{0,9})\.(.+)\.json", name, re.DOTALL)
    if parts is None:
        return None
    version, role = int(parts[1]), parts[2]
    if role == "root":
        held = {root.version: root for root in state.roots}.get(version)
    elif role == "snapshot":
        held = state.snapshot if state.snapshot and state.snapshot.version == version else None
    else:
        held = state.shelf.get((role, version))
    return held.bytes if held else None
