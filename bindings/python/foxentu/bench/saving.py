"""A case with the edits of the bench put into it: a text keeps its lines and comments, bytes stay bytes; a file is written whole or not at all."""
import os
import stat

from .. import feedtext
from .case import edit_record
from .opened import Unwilling


def plan(block, edits):
    """How many of a block's items stay, and which items follow those: edits, and readings as None."""
    if list(edits) == block.edits:
        return len(block.items), []
    kept, made = 0, 0
    for item in block.items:
        if len(item) > 1:
            if made >= len(edits) or tuple(edits[made]) != tuple(item[1:]):
                break
            made += 1
        kept += 1
    more = [tuple(edit) for edit in edits[made:]]
    last_is_reading = not more and kept and len(block.items[kept - 1]) == 1
    return kept, more + ([None] if edits and not last_is_reading else [])


def saved(case, edited):
    """The bytes of the case with its blocks edited: `edited` has the edits of each block that was opened, by its number."""
    changes = []
    for number, edits in sorted(edited.items()):
        block = case.blocks[number]
        kept, more = plan(block, edits)
        if more or kept < len(block.items):
            changes.append((block, kept, more))
    wanted = _saved_bytes(case, changes)
    if case.feed is None:
        return wanted
    text = _saved_text(case, changes)
    if feedtext.read(text, case.name).bytes != wanted:
        raise Unwilling("the text with the edits in it does not read back as these edits: nothing was saved")
    return text


def _saved_bytes(case, changes):
    parts, at = [], 0
    for block, kept, more in changes:
        start = _end_of_bytes(block, kept)
        parts += [case.data[at:start]] + [b"\x09" if item is None else edit_record(*item) for item in more]
        at = _end_of_bytes(block, len(block.items))
    return b"".join(parts + [case.data[at:]])


def _end_of_bytes(block, items):
    """Where the first items of a block end in the feed."""
    if items == 0:
        return block.at + 1 + len(block.body)
    item = block.items[items - 1]
    return item[0] + (7 if len(item) > 1 else 1)


def _saved_text(case, changes):
    """The lines of the text stay: an edit that is gone leaves its line without it, a new one has a line of its own behind the last that stays."""
    source, records = case.feed.source, {record.at: index for index, record in enumerate(case.feed.records)}
    line_end = b"\r\n" if b"\r\n" in source.data else b"\r" if b"\r" in source.data and b"\n" not in source.data else b"\n"
    parts, at = [], 0
    for block, kept, more in changes:
        offsets = [block.at] + [item[0] for item in block.items]
        spans = [_span(case.feed, records[offset]) for offset in offsets]
        begin, whole_line = _behind(source, spans[kept][1])
        parts.append(source.data[at:begin])
        for item in more:
            words = "show" if item is None else "edit {} {} {}".format(*item)
            parts.append(line_end + words.encode())
        if more and not whole_line:
            parts.append(line_end)
        at = begin
        for start, end in spans[kept + 1:]:
            parts.append(source.data[at:start])
            at = end
    parts.append(source.data[at:])
    mark = feedtext.MARK if case.file[:3] == feedtext.MARK else b""
    return mark + b"".join(parts)


def _span(feed, index):
    """Where the words of a record begin and end in the text."""
    start = feed.records[index].start
    end = feed.records[index + 1].start if index + 1 < len(feed.records) else len(feed.source.bare)
    return start, start + len(feed.source.bare[start:end].rstrip())


def _behind(source, end):
    """Behind a record that ends at `end`: the end of its line where nothing but a comment follows on it."""
    stops = [at for at in (source.data.find(b"\n", end), source.data.find(b"\r", end)) if at >= 0]
    stop = min(stops, default=len(source.data))
    return (end, False) if source.bare[end:stop].strip() else (stop, True)


def write(path, data):
    """Puts a file in the place of another, or anew: the old one stays until the new one is whole on the disk."""
    path = os.path.realpath(path)
    mode = 0o666
    if os.path.lexists(path):
        kept = os.stat(path)
        if not stat.S_ISREG(kept.st_mode):
            raise Unwilling(f"{path} is no file that could be replaced")
        mode = stat.S_IMODE(kept.st_mode)
    room = f"{path}.saving"
    made = os.open(room, os.O_WRONLY | os.O_CREAT | os.O_EXCL, mode)
    try:
        with os.fdopen(made, "wb") as file:
            file.write(data)
            file.flush()
            os.fsync(file.fileno())
        os.replace(room, path)
    except BaseException:
        os.unlink(room)
        raise
