"""Each check of each command broken alone, in all pairs, and in larger random sets.

The first check that fails is answered.
"""
import itertools

import delegation_scenes
import http_requests
import http_server
import tables
from program import World
from scenes import NOW, SCENES


def sets_to_break(random, names, larger_sets):
    sets = [(), *((name,) for name in names), *itertools.combinations(names, 2)]
    for _ in range(larger_sets):
        sets.append(tuple(random.sample(names, random.choice((3, 3, 3, 4, 4, 5, 6)))))
    return sets


def requests_of(random, state, role, text):
    """The document alone, and at times after a document that is held, before one that is refused, or twice."""
    if role is None:
        return [text]
    offered = (role, text)
    requests = [http_requests.post(offered)]
    if random.random() < 0.25 and state.roots:
        requests.append(http_requests.post(("root", state.roots[-1].bytes), offered))
    if random.random() < 0.1:
        requests.append(http_requests.post(offered, ("timestamp", b"")))
    if random.random() < 0.1:
        requests.append(http_requests.post(offered, offered))
    return requests


def compare_scene(session, random, name, larger_sets):
    """Requests that change nothing share one server for each state; one that changes it is sent again."""
    scene, names = {**SCENES, **delegation_scenes.SCENES}[name]
    shared = {}
    alone = []
    for broken in map(set, sets_to_break(random, names, larger_sets)):
        state, role, text = scene(broken)
        label = f"{name} with {', '.join(sorted(broken)) or 'nothing'} broken"
        for request in requests_of(random, state, role, text):
            _, after = http_server.response(state, request, NOW)
            if after is state:
                shared.setdefault(repr(tables.rows_of(state)), (state, []))[1].append((label, request))
            else:
                alone.append((state, [(label, request), (label + ", again", request)]))
    for state, requests in [*shared.values(), *alone]:
        World(session, state).serve(NOW, requests)
