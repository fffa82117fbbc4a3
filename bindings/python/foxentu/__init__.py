"""Foxentu for Python: the residual path of H.265 over the proved archive.

    import foxentu
    coefficients = foxentu.scale([2] + [0] * 15, n=4, qp_prime=4, depth=8)
    foxentu.inverse_transform(coefficients, n=4, depth=8)      # sixteen ones
    block = foxentu.EditedBlock(coefficients, n=4, depth=8)
    block.edit(0, 1, 100)
    block.undo()

A refused call raises foxentu.Refused, with the number, text and place of its row in docs/RULES.md.
The archive is built at the first call where it has to be (see foxentu.build).
"""
from .build import BuildError
from .library import Refused, call, header, refusal_text, version
from .residual import (
    DEFAULTS,
    LISTS,
    EditedBlock,
    checksum,
    coefficient_range,
    contributions,
    feed_text,
    find_edits,
    find_level_edits,
    find_levels,
    inverse_transform,
    listing_text,
    qp_prime,
    read_scaling_lists,
    rebuild_block,
    rounding_bound,
    scale,
    scaled,
    skipped,
    transform_skip,
    write_scaling_lists,
)

__all__ = [
    "BuildError",
    "DEFAULTS",
    "EditedBlock",
    "LISTS",
    "Refused",
    "call",
    "checksum",
    "coefficient_range",
    "contributions",
    "feed_text",
    "find_edits",
    "find_level_edits",
    "find_levels",
    "header",
    "inverse_transform",
    "listing_text",
    "qp_prime",
    "read_scaling_lists",
    "rebuild_block",
    "refusal_text",
    "rounding_bound",
    "scale",
    "scaled",
    "skipped",
    "transform_skip",
    "version",
    "write_scaling_lists",
]
