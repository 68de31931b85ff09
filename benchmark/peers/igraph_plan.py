"""The plan of a network file with all pairs by igraph. `peer_plan` says how it is run."""

import igraph

import peer_plan


def build(network):
    """The directed graph of a network, with the costs as its weights."""
    arcs = network.arcs()
    graph = igraph.Graph(n=network.routers, edges=[arc[:2] for arc in arcs], directed=True)
    graph.es["weight"] = [cost for _, _, cost in arcs]
    return graph


CALLS = {
    "distances": (
        lambda graph: graph.distances(weights="weight", mode="out"),
        lambda network, answer: answer,
    ),
}

if __name__ == "__main__":
    peer_plan.run(build, CALLS)
