"""The plan of a network file with all pairs by NetworkX. `peer_plan` says how it is run."""

import math

import networkx

import peer_plan


def build(network):
    """The directed graph of a network, with its routers in ascending order."""
    graph = networkx.DiGraph()
    graph.add_nodes_from(range(network.routers))
    graph.add_weighted_edges_from(network.arcs())
    return graph


def rows_of_dicts(network, answer):
    """Rows of numbers, out of dicts that leave out what cannot be reached."""
    return [[answer[x].get(y, math.inf) for y in range(network.routers)] for x in range(network.routers)]


CALLS = {
    "all_pairs_dijkstra_path_length": (
        lambda graph: dict(networkx.all_pairs_dijkstra_path_length(graph)),
        rows_of_dicts,
    ),
    "floyd_warshall_numpy": (
        networkx.floyd_warshall_numpy,
        lambda network, answer: answer.tolist(),
    ),
}

if __name__ == "__main__":
    peer_plan.run(build, CALLS)
