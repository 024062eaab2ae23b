"""All groups of comparisons in their order, each a name, a function of a session and a random source, and further arguments."""
import broken_checks
import canon_cases
import chain_drafting_cases
import client_cases
import client_histories
import databases
import delegation_histories
import delegation_rows
import delegation_scenes
import delegation_shapes
import document_shapes
import draft_signing_cases
import drafting_cases
import following
import histories
import http_cases
import layout_cases
import layout_histories
import layout_scenes
import limits
import pattern_cases
import peers
import prune_rows
import rule_cases
import scenes
import signature_cases
import shown_changes_cases
import several
import signing_cases
import words
from documents import DELEGATIONS_ARE_READ


def by_hand(chosen):
    """The model alone."""
    yield "test keys beside straight.py", signature_cases.compare_keys
    yield "test keys of a seed with two levels", signature_cases.compare_made
    yield "delegations by hand: searches", delegation_rows.compare_searches
    yield "delegations by hand: who vouches", delegation_rows.compare_vouchers
    yield "delegations by hand: what is covered", delegation_rows.compare_covered
    yield "delegations by hand: what is read", delegation_shapes.compare_reading
    yield "delegations by hand: both forms", delegation_rows.compare_forms, chosen.graphs
    yield "layouts by hand: artifact rules", rule_cases.compare_by_hand
    yield "layouts by hand: what is allowed", layout_cases.compare_by_hand
    yield "layouts by hand: what is served", layout_scenes.compare_by_hand
    yield "prunes by hand", prune_rows.compare_by_hand
    yield "clients by hand", client_cases.compare_by_hand


def of_keys_and_readers(chosen):
    """Signatures, patterns, rules and files of layouts."""
    yield "odd signatures", signature_cases.compare_odd_signatures
    yield "odd keys", signature_cases.compare_odd_keys
    yield "odd levels", signature_cases.compare_odd_levels
    yield "keys over one key", signature_cases.compare_wrappings
    yield "sixteen keys", signature_cases.compare_sixteen_keys
    yield "patterns", pattern_cases.compare_patterns, chosen.patterns
    yield "artifact rules", rule_cases.compare_rules, chosen.rules
    yield "artifact rules: shapes", rule_cases.compare_shapes
    for kind in ("layout", "link", "targets"):
        yield f"layouts: the reader, {kind}", layout_cases.compare_reader, kind


def of_requests(chosen):
    """Broken checks, shapes of files, and all that goes over a connection."""
    for name in scenes.SCENES:
        yield f"broken checks: {name}", broken_checks.compare_scene, name, chosen.sets
    for kind in ("timestamp", "snapshot", "targets", "root"):
        yield f"shapes: {kind}", document_shapes.compare_shapes, kind
    yield "http by hand", http_cases.compare_by_hand
    yield "http before the first root", http_cases.compare_before_first_root
    yield "http of a server that only reads", http_cases.compare_reading
    yield "http in pieces", http_cases.compare_in_pieces
    yield "http changed at random", http_cases.compare_changed, chosen.requests
    yield "prunes", prune_rows.compare_prunes
    yield "peers", peers.compare_peers


def of_databases_and_words(chosen):
    """Limits, rows, the command line, signing, and random histories."""
    yield "limit of roots", limits.compare_roots
    yield "limit of blobs", limits.compare_blobs
    yield "limit of the shelf", limits.compare_shelf
    yield "largest versions", limits.compare_versions
    yield "long batches", limits.compare_long_batches
    yield "first and last moments", limits.compare_moments
    yield "damaged rows", databases.compare_damaged
    yield "absent tables", databases.compare_absent
    yield "forms of a database", databases.compare_forms
    yield "arguments", words.compare_arguments
    yield "through a port", words.compare_port
    yield "order of faults", words.compare_fault_order
    yield "faults of the line", words.compare_usage
    yield "full output", words.compare_full_output
    yield "canon", canon_cases.compare_canon, chosen.texts
    yield "keys printed", signing_cases.compare_keys
    yield "signing by hand", signing_cases.compare_by_hand
    yield "signing: order of faults", signing_cases.compare_faults
    yield "signing: several keys over one book", signing_cases.compare_histories, 2 * chosen.histories
    yield "signing: widths and heights of one seed", signing_cases.compare_trees, 2 * chosen.histories
    yield "drafts: keys that are made", signing_cases.compare_new_keys, 1 + chosen.histories // 10
    yield "drafts: roots", drafting_cases.compare_roots, chosen.histories
    yield "drafts: targets metadata", drafting_cases.compare_targets, chosen.histories
    yield "drafts: delegations", drafting_cases.compare_delegations, chosen.histories
    yield "drafts: targets that are spread", drafting_cases.compare_spreads, 2 * chosen.histories
    yield "drafts: seals", drafting_cases.compare_seals, 4 * chosen.histories
    yield "drafts: long ones", drafting_cases.compare_long, chosen.histories
    yield "drafts: layouts", chain_drafting_cases.compare_layouts, chosen.histories
    yield "drafts: links", chain_drafting_cases.compare_links, chosen.histories
    yield "drafts: what is taken", chain_drafting_cases.compare_takes, chosen.histories
    yield "drafts: what is shown", shown_changes_cases.compare, 4 * chosen.histories
    yield "drafts: what is signed", draft_signing_cases.compare_signing, chosen.histories
    yield "random histories", histories.compare_histories, chosen.histories


def of_delegations(chosen):
    """Delegated roles, layouts and clients."""
    for name in delegation_scenes.SCENES:
        yield f"broken checks: {name}", broken_checks.compare_scene, name, chosen.sets
    yield "delegations: the reader", delegation_shapes.compare_reader
    yield "shapes: delegations", delegation_shapes.compare_shapes
    yield "delegations: those by hand", delegation_histories.compare_rows
    yield "delegations: random graphs", delegation_histories.compare_graphs, chosen.graphs // 10
    yield "delegations: random histories", delegation_histories.compare_histories, chosen.histories
    yield "layouts: those by hand", layout_scenes.compare_served
    yield "layouts: random chains", layout_histories.compare_chains, chosen.chains
    yield "layouts: random histories", layout_histories.compare_histories, chosen.histories
    yield "clients: random histories", client_histories.compare_histories, chosen.histories
    yield "clients: random chains", client_histories.compare_chains, chosen.chains // 10
    yield "clients: agreement with their server", following.compare_histories, chosen.histories
    yield "clients: one honest mirror", several.compare_histories, chosen.histories


def groups(chosen):
    yield from by_hand(chosen)
    yield from of_keys_and_readers(chosen)
    yield from of_requests(chosen)
    yield from of_databases_and_words(chosen)
    if DELEGATIONS_ARE_READ:
        yield from of_delegations(chosen)
