"""Which role answers for a path, and who vouches for the file of a role (TUF 1.0, sections 4.5 and 5.6).

Both are told of whole lists: of all chains of delegations at once. A chain of roles that delegate to one another has a
list of indexes, the places of its delegations in their roles' lists; lists of indexes are ordered as words in a
dictionary, and so are the chains. There are as many chains as there are ways through the roles, so for a state with
many roles the same is told by a walk. That the two agree is compared by `delegation_rows.py`.
"""
from denials import Denied
from documents import Delegation, is_live, meets

MAXIMUM_VISITS = 32
# With so many roles, each of which delegates to all, there are 13,700 chains.
MOST_ROLES_OF_CHAINS = 8


def edge_of_root(state):
    """The edge into `targets`: the root's rule."""
    return Delegation("targets", state.rule("targets"))


def named_document(state, role):
    """The file on the shelf that the snapshot names for a role, or None."""
    entry = state.snapshot.roles.get(role)
    held = state.shelf.get((role, entry.version)) if entry else None
    return held if held and entry.names(held) else None


def failing_check(state, edge, now):
    """The denial of the first check that fails of the file to which an edge leads, or None where it is good."""
    entry = state.snapshot.roles.get(edge.role)
    if entry is None:
        return "RoleUnlisted"
    held = state.shelf.get((edge.role, entry.version))
    if held is None:
        return "RoleMissing"
    if not entry.has_length(held):
        return "RoleLength"
    if not entry.has_digest(held):
        return "RoleHash"
    if not meets(edge.rule, held):
        return "RoleThreshold"
    return None if is_live(held, now) else "RoleExpired"


def is_good(state, edge, now):
    return failing_check(state, edge, now) is None


class Graph:
    """The delegations of a state's files of which something holds, by the role that delegates, each with its index."""

    def __init__(self, state, holds):
        self.start = edge_of_root(state)
        self.followed = {}
        for role in state.snapshot.roles:
            document = named_document(state, role)
            delegations = enumerate(document.delegations) if document else ()
            self.followed[role] = [(index, delegation) for index, delegation in delegations if holds(delegation)]

    def edges(self, role):
        return self.followed.get(role, [])

    def chains(self):
        """The edges of each chain from `targets` through distinct roles, by its list of indexes."""
        found = {}
        of_one_length = {(): [self.start]}
        while of_one_length:
            found.update(of_one_length)
            of_one_length = {
                (*indexes, index): [*edges, edge]
                for indexes, edges in of_one_length.items()
                for index, edge in self.edges(edges[-1].role)
                if edge.role not in [earlier.role for earlier in edges]
            }
        return found


def graph_for(state, path):
    """Of the delegations that cover a path."""
    return Graph(state, lambda delegation: delegation.covers(path))


def whole_graph(state):
    return Graph(state, lambda delegation: True)


def has_few_roles(state):
    return len(state.snapshot.roles) <= MOST_ROLES_OF_CHAINS


def first_chains(chains):
    """The least list of indexes that leads to each role."""
    return {
        role: min(indexes for indexes, edges in chains.items() if edges[-1].role == role)
        for role in {edges[-1].role for edges in chains.values()}
    }


def is_cut(indexes, ends):
    """After a terminating delegation, and not in what stands below it."""
    return any(indexes > end and indexes[:len(end)] != end for end in ends)


def visits_of_chains(graph):
    """Each role that is reached, by the last edge of its first chain, in the order of these chains.

    Left out is what a terminating delegation cuts off. It does so from where a first chain ends, wherever it leads,
    to a role that was visited before as well.
    """
    chains = graph.chains()
    firsts = first_chains(chains)
    ends = [
        (*indexes, index)
        for role, indexes in firsts.items()
        for index, edge in graph.edges(role)
        if edge.terminating
    ]
    return [chains[indexes][-1] for indexes in sorted(firsts.values()) if not is_cut(indexes, ends)]


def visits_of_walk(graph):
    """The same edges as the standard tells it: each delegation with its whole subtree before the next."""
    visited = {}

    def goes_on_behind(edge):
        """Visits the subtree of an edge, and says whether the search goes on after it."""
        visited[edge.role] = edge
        for _, delegation in graph.edges(edge.role):
            if delegation.role not in visited and not goes_on_behind(delegation):
                return False
            if delegation.terminating:
                return False
        return True

    goes_on_behind(graph.start)
    return list(visited.values())


def visits(state, path):
    """The edges by which roles are visited for a path, in order, as if each file were good and none listed the path."""
    graph = graph_for(state, path)
    return visits_of_chains(graph) if has_few_roles(state) else visits_of_walk(graph)


def search(state, path, now):
    """The role that answers for a path, and its listing; or the denial at which the search ends."""
    edges = visits(state, path)
    for edge in edges[:MAXIMUM_VISITS]:
        failing = failing_check(state, edge, now)
        if failing == "RoleMissing":
            raise Denied(failing, missing=(edge.role, state.snapshot.roles[edge.role].version))
        if failing is not None:
            raise Denied(failing)
        listings = named_document(state, edge.role).listings
        if path in listings:
            return edge.role, listings[path]
    raise Denied("TooManyRoles" if len(edges) > MAXIMUM_VISITS else "NotFound")


def is_vouched_by_chain(state, graph, role, document, now):
    """Some chain ends at the role: all files before it are good by their edges, and the new one meets the last rule."""
    return any(
        edges[-1].role == role
        and meets(edges[-1].rule, document)
        and all(is_good(state, edge, now) for edge in edges[:-1])
        for edges in graph.chains().values()
    )


def is_vouched_by_reach(state, graph, role, document, now):
    """The same by the roles that good edges reach without the role itself, which comes once in a chain."""
    reached = set()
    edges = [graph.start]
    while edges:
        edge = edges.pop()
        if edge.role not in reached | {role} and is_good(state, edge, now):
            reached.add(edge.role)
            edges += [further for _, further in graph.edges(edge.role)]
    into_role = [edge for other in reached for _, edge in graph.edges(other) if edge.role == role]
    return any(meets(edge.rule, document) for edge in into_role)


def is_vouched(state, role, document, now):
    """Whether a new file of a role is signed as the root, or delegations of good files, ask for.

    The paths of the delegations play no part, nor whether they are terminating.
    """
    if role == "targets":
        return meets(edge_of_root(state).rule, document)
    graph = whole_graph(state)
    by = is_vouched_by_chain if has_few_roles(state) else is_vouched_by_reach
    return by(state, graph, role, document, now)
