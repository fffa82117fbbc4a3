"""The picture of a block as PNG: tiles of samples side by side, in grey, where the middle grey is zero."""
import struct
import zlib

GAP, EDGE = 8, 160


def tile_scale(n):
    """Pixels of one sample: a tile is 160 pixels wide or a little less."""
    return EDGE // n


def grey(value, peak):
    """Black for -peak, white for peak, 128 for zero."""
    return 128 + (127 * value + peak // 2) // peak if value >= 0 else 128 - (128 * -value + peak // 2) // peak


def png(tiles, n, about):
    """A PNG of n * n samples each, and a line of text in it. All tiles have one scale: the largest size of a sample is black or white."""
    peak = max(1, max(abs(value) for tile in tiles for value in tile))
    scale = tile_scale(n)
    gap = bytes((128, 128, 128, 0)) * GAP
    wide = len(tiles) * scale * n + (len(tiles) - 1) * GAP
    lines = []
    for row in range(n):
        parts = []
        for tile in tiles:
            parts.append(b"".join(bytes((g, g, g, 255)) * scale for g in (grey(value, peak) for value in tile[row * n:row * n + n])))
        lines.append((b"\0" + gap.join(parts)) * scale)
    body = zlib.compress(b"".join(lines), 6)
    head = struct.pack(">IIBBBBB", wide, scale * n, 8, 6, 0, 0, 0)
    told = f"{about}; grey 128 is 0, black -{peak}, white {peak}"
    text = b"Description\0" + told.encode("latin-1", "replace")
    return b"\x89PNG\r\n\x1a\n" + b"".join(_chunk(name, data) for name, data in ((b"IHDR", head), (b"tEXt", text), (b"IDAT", body), (b"IEND", b"")))


def _chunk(name, data):
    return struct.pack(">I", len(data)) + name + data + struct.pack(">I", zlib.crc32(name + data))
