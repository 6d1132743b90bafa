"""Which folders are one, and which lie in another."""

from __future__ import annotations

import os

from .homes import folder_of, is_remote
from .shapes import PLACES

Chain = list[tuple[int, int]]  # what tells a folder from others, and the same of all that it lies in, from itself upwards


def chain_of(folder: str) -> Chain:
    """The chain of a folder. Raises OSError where it is not there."""
    path, chain = os.path.realpath(folder), []
    while True:
        status = os.stat(path)
        chain.append((status.st_dev, status.st_ino))
        if path == os.path.dirname(path):
            return chain
        path = os.path.dirname(path)


def provider_chains(home: str) -> dict[str, Chain]:
    """Of each provider of a home that has a folder here the chain, by the folder's path."""
    paths = [folder_of(home, place) for place in range(PLACES) if not is_remote(home, place)]
    return {path: chain_of(path) for path in paths if os.path.isdir(path)}


def shared(chains: dict[str, Chain]) -> tuple[str, str] | None:
    """Two paths of which the first leads to the folder of the second or into it, if there are any."""
    for one, chain in chains.items():
        for other, its in chains.items():
            if one != other and its[0] in chain:
                return one, other
    return None
