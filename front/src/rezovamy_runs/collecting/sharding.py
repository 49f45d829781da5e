"""Says which tests a shard of a run has."""

from __future__ import annotations

import dataclasses
import hashlib

from rezovamy_runs.collecting.collect import Listed
from rezovamy_runs.store.notes import Shard

BYTES_OF_HASH = 8


def has_test(shard: Shard, binary_id: str, test_name: str) -> bool:
    """Tell whether a shard has a test.

    Only the names of binary and test decide: the first eight bytes of the SHA-256 of
    `BINARY NUL TEST`, as a number with the highest byte first, modulo the number of shards. So a
    test is in the same shard on each machine, whatever other tests there are.
    """
    names = f"{binary_id}\0{test_name}".encode("utf-8", "surrogateescape")
    number = int.from_bytes(hashlib.sha256(names).digest()[:BYTES_OF_HASH], "big")
    return number % shard.total == shard.number - 1


def of_shard(listed: Listed, shard: Shard) -> Listed:
    """Return a binary with those of its tests alone, run or ignored, that a shard has."""
    binary_id = listed.binary.target.id
    return dataclasses.replace(
        listed,
        jobs=tuple(job for job in listed.jobs if has_test(shard, binary_id, job.test_name)),
        ignored=tuple(name for name in listed.ignored if has_test(shard, binary_id, name)),
    )
