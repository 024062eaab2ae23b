"""Targets with layouts, by hand: what is answered for one (in-toto 1.0, section 5.2)."""
import http_requests
import repository
import signed_documents as make
from denials import Denied
from layout_cases import BUILD, BUILDER, OTHER_BUILDER, OWNER, PACK, PACKER
from program import World
from prune_rows import SIGNER
from scenes import LIVE, NOW, simple_state, signed_document
from test_keys import KEYS

TOOL, SOURCE, OBJECT = b"the tool", make.digest(b"source"), make.digest(b"object")
LINK_PATHS = ("links/a", "links/b", "links/c")


def layout_file(signers=(OWNER,), expires=LIVE):
    return make.signed_file(make.layout(expires, KEYS[2:5], [BUILD, PACK]), signers)


def link_file(name, materials, products, signer):
    return make.signed_file(make.link(name, materials, products), [signer])


def good_files():
    """The target `tool`, its layout and its links, each by its path."""
    built = {"a": OBJECT}
    return {
        "tool": TOOL,
        "layout": layout_file(),
        "links/a": link_file("build", {"src/a": SOURCE}, built, BUILDER),
        "links/b": link_file("build", {"src/a": SOURCE}, built, OTHER_BUILDER),
        "links/c": link_file("pack", built, {"a.tgz": make.digest(TOOL)}, PACKER),
    }


def reference(links=LINK_PATHS):
    return make.layout_reference([OWNER], 1, links, "layout", "a.tgz", "pack")


def state_of(files, unlisted=(), unheld=(), longer=(), nested=(), said=None):
    """`targets` lists the files but those unlisted; some are not held, some longer than listed, and some have a layout themselves."""
    state = simple_state()
    listings = {path: (len(file) + (path in longer), make.digest(file)) for path, file in files.items() if path not in unlisted}
    targets = make.targets(1, LIVE, listings)
    for path in ("tool", *nested):
        targets["targets"][path]["custom"] = {"layout": said or reference()}
    state.shelf["targets", 1] = signed_document("targets", targets, SIGNER)
    state.snapshot = signed_document("snapshot", make.snapshot(1, LIVE, {"targets": (1,)}), SIGNER)
    state.timestamp = signed_document("timestamp", make.timestamp(1, LIVE, 1), SIGNER)
    state.blobs = {make.digest(file): file for path, file in files.items() if path not in unheld}
    return state


def with_file(path, file):
    return {**good_files(), path: file}


OTHER_DIGEST = f"{'0' * 64}.tool"
TWO_SIGNATURES = make.signed_file(make.link("build", {}, {}), [BUILDER, OTHER_BUILDER])
# What is asked for, the state, and the denial, or None where the target is answered.
SERVED = [
    ("all good", "tool", state_of(good_files()), None),
    ("a layout and links are targets too", "layout", state_of(good_files()), None),
    ("the layout is not listed", "tool", state_of(good_files(), unlisted=["layout"]), "SupportDenied"),
    ("a link is not listed", "tool", state_of(good_files(), unlisted=["links/b"]), "SupportDenied"),
    ("the layout is not held", "tool", state_of(good_files(), unheld=["layout"]), "BlobMissing"),
    ("a link is not held", "tool", state_of(good_files(), unheld=["links/c"]), "BlobMissing"),
    ("a link is longer than held", "tool", state_of(good_files(), longer=["links/a"]), "SupportDenied"),
    ("the layout has a layout", "tool", state_of(good_files(), nested=["layout"]), "LayoutNested"),
    ("a link has a layout", "tool", state_of(good_files(), nested=["links/b"]), "LayoutNested"),
    ("the first link has a layout, the second is not listed", "tool", state_of(good_files(), nested=["links/a"], unlisted=["links/b"]), "LayoutNested"),
    ("the first link is not listed, the second has a layout", "tool", state_of(good_files(), nested=["links/b"], unlisted=["links/a"]), "SupportDenied"),
    ("the layout has a layout and is not held", "tool", state_of(good_files(), nested=["layout"], unheld=["layout"]), "BlobMissing"),
    ("a link is no link, the last is not listed", "tool", state_of(with_file("links/a", b"x"), unlisted=["links/c"]), "SupportDenied"),
    ("the layout is no layout", "tool", state_of(with_file("layout", b"x")), "LayoutShape"),
    ("a link is no link", "tool", state_of(with_file("links/c", b"x")), "LayoutShape"),
    ("a link with two signatures", "tool", state_of(with_file("links/a", TWO_SIGNATURES)), "LayoutShape"),
    ("a link is no link, and nobody signed the layout", "tool", state_of({**with_file("links/c", b"x"), "layout": layout_file(())}), "LayoutShape"),
    ("nobody signed the layout", "tool", state_of(with_file("layout", layout_file(()))), "LayoutThreshold"),
    ("two links are the same", "tool", state_of(good_files(), said=reference(("links/a", "links/c"))), "StepThreshold"),
    ("the target is no product", "tool", state_of(with_file("tool", b"another")), "ProductMismatch"),
    ("another digest is asked for", OTHER_DIGEST, state_of(good_files()), "DigestMismatch"),
    ("another digest, and nobody signed the layout", OTHER_DIGEST, state_of(with_file("layout", layout_file(()))), "LayoutThreshold"),
    ("the target is not held, nor the layout", "tool", state_of(good_files(), unheld=["tool", "layout"]), "BlobMissing"),
    ("the target is longer than held, and the layout is not listed", "tool", state_of(good_files(), longer=["tool"], unlisted=["layout"]), "BlobLength"),
]


def denial_of(state, text):
    try:
        repository.target(state, text, NOW)
    except Denied as denied:
        return denied.name
    return None


def compare_by_hand(session, _random):
    for label, text, state, wanted in SERVED:
        session.check(f"served with a layout: {label}", wanted, denial_of(state, text))


def compare_served(session, _random):
    """Each of them before the program."""
    for label, text, state, _ in SERVED:
        World(session, state).serve(NOW, [(f"served with a layout: {label}", http_requests.get(f"/targets/{text}"))])
