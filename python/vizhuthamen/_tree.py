"""The tree beside a deal: a buffer with every inner node of the deal's tree."""
from __future__ import annotations

from ._codes import accepted
from ._library import Readable, Writable, byte_view, call


def tree_length(size: int) -> int:
    """The length of the tree of a deal of that many bytes."""
    return max(size - 32, 0)


def tree_fill(deal: Readable, tree: Writable) -> None:
    """Writes every inner node of a deal into its tree, heights from the bottom, left to right. Refusals: 2, 11, 12.
    What holds of calls that take a tree is said in vizhuthamen.h."""
    accepted(call("vz_tree_fill", deal, tree))


def tree_row(below: Readable, above: Writable) -> None:
    """Writes the nodes over the pairs of nodes of `below` into `above`, which is half as long. Refusals: 12."""
    accepted(call("vz_tree_row", below, above))


def filled_tree(deal: Readable) -> bytearray:
    """A new tree, filled for a deal. Refusals: 2, 11."""
    tree = bytearray(tree_length(byte_view(deal).nbytes))
    tree_fill(deal, tree)
    return tree
