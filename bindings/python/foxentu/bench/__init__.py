"""The bench: a local page on which a tester looks at a block of a feed, changes levels and sees what that does.

The numbers are the archive's and the programs'.
"""
import signal

from .. import build, library
from .journal import Foreign
from .opened import Unwilling
from .server import Server
from .session import Session

__all__ = ["Foreign", "Server", "Session", "Unwilling", "begin", "run"]


def begin(path, save=None, targets=(), discard=False):
    """A session with the edits that were kept beside the case; `discard` begins without them."""
    # what has to be built is built before the page is there
    library.load()
    build.program("scale_trace_main")
    session = Session(path, save, targets)
    if discard:
        session.journal.discard()
    else:
        session.replay()
    return session


def run(path, save, targets, port, discard, out):
    """Serves until it is stopped, and says how many changes are kept and not saved. `out` takes the line with the address."""
    session = begin(path, save, targets, discard)
    server = Server(session, port)
    if session.replayed:
        build.note(f"bench: {session.replayed} changes kept in {session.journal.path} were made again")
    if session.case.refusal:
        build.note(session.case.refusal)
    out.line(f"bench: {server.address}")
    out.close()
    build.note("bench: the address is for this user alone, since it has the token; Ctrl-C ends the bench")
    signal.signal(signal.SIGTERM, signal.default_int_handler)
    try:
        server.serve_forever()
    except KeyboardInterrupt:
        pass
    finally:
        server.server_close()
    with session.lock:
        kept = session.end()
    if kept:
        build.note(f"bench: {kept} changes are not saved; they are kept in {session.journal.path} and will be made again")
