"""The denials of the repository: each has a number and a name."""

NAMES = dict(enumerate(
    """
    TooLong NotCanonical WrongShape WrongType BadKeyId NoRoot RootExists RootVersion OldThreshold NewThreshold
    RootExpired
    TimestampThreshold TimestampRollback NamedSnapshotRollback TimestampExpired NoTimestamp SnapshotLength SnapshotHash
    SnapshotThreshold SnapshotVersion SnapshotRollback RoleDropped SnapshotExpired NoSnapshot SnapshotStale RoleUnlisted
    RoleLength RoleHash RoleVersion RoleThreshold RoleExpired VersionTaken RoleMissing TooManyRoles NotFound BadPath
    BlobMissing BlobLength DigestMismatch Full SupportDenied LayoutNested LayoutShape LayoutThreshold LayoutExpired
    StepThreshold LinksDisagree Disallowed Required ProductMismatch Incoherent
    LayoutRequired ProfileLowered
    """.split(),
    1,
))
NUMBERS = {name: number for number, name in NAMES.items()}
# Denials that only a search over delegations ends with.
OF_DELEGATIONS = {"TooManyRoles"}


class Denied(Exception):
    """A command that is refused: by which rule, in a batch at which document, and what is missing, where that is the reason.

    A file of a role is missing as its role and version, a target file as its path, digest and length.
    """

    def __init__(self, name, index=None, missing=()):
        super().__init__(name)
        self.name = name
        self.number = NUMBERS[name]
        self.index = index
        self.missing = missing


def deny_unless(condition, name):
    if not condition:
        raise Denied(name)
