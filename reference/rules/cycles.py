"""The cycles of dependency edges, counted: their strongly connected components, and the wires that cut them."""

from __future__ import annotations

Edges = list[tuple[int, int]]


def left_order(count: int, nexts: list[list[int]]) -> list[int]:
    """The nodes in the order in which a depth-first search leaves them, from each node in turn along its edges."""
    order: list[int] = []
    met = [False] * count
    for root in range(count):
        path = [] if met[root] else [(root, iter(nexts[root]))]
        met[root] = True
        while path:
            node, rest = path[-1]
            for after in rest:
                if not met[after]:
                    met[after] = True
                    path.append((after, iter(nexts[after])))
                    break
            else:
                order.append(node)
                path.pop()
    return order


def strong_components(count: int, edges: Edges) -> list[int]:
    """A number for each node, the same for two nodes that are on one cycle (Kosaraju's two searches)."""
    nexts: list[list[int]] = [[] for _ in range(count)]
    backs: list[list[int]] = [[] for _ in range(count)]
    for a, b in edges:
        nexts[a].append(b)
        backs[b].append(a)
    part = [-1] * count
    for number, root in enumerate(reversed(left_order(count, nexts))):
        todo = [root] if part[root] < 0 else []
        while todo:
            node = todo.pop()
            if part[node] < 0:
                part[node] = number
                todo += backs[node]
    return part


def cycle_counts(count: int, edges: Edges) -> tuple[int, int]:
    """How many components have a cycle, and how many nodes are entered by an edge from one that the search leaves no later."""
    edges = sorted(edges)
    nexts: list[list[int]] = [[] for _ in range(count)]
    for a, b in edges:
        nexts[a].append(b)
    left = {node: place for place, node in enumerate(left_order(count, nexts))}
    part = strong_components(count, edges)
    inner = [(a, b) for a, b in edges if part[a] == part[b]]
    cuts = {b for a, b in inner if left[b] >= left[a]}
    return len({part[a] for a, _ in inner}), len(cuts)
