"""Commitments to a set of ids: the tree of hashes over it, its root, and the first bucket in which two trees differ."""
from ledger import sha


def bucket_hashes(ids):
    """The hash of each bucket: of the ids that begin with each byte."""
    hashes = []
    for byte in range(256):
        own = sorted(one for one in set(ids) if one[0] == byte)
        hashes.append(sha(b'\x08', len(own).to_bytes(4, 'big'), *own))
    return hashes


def root(ids):
    """The root of the tree over the ids: above two hashes side by side stands one, level by level."""
    level = bucket_hashes(ids)
    while len(level) > 1:
        level = [sha(b'\x09', left, right) for left, right in zip(level[::2], level[1::2])]
    return level[0]


def first_difference(mine, theirs):
    """The first bucket whose hashes differ, and None where the roots are equal."""
    if root(mine) == root(theirs):
        return None
    return [one == other for one, other in zip(bucket_hashes(mine), bucket_hashes(theirs))].index(False)
