"""A run from beginning to end: one thread follows the journal, one takes connections, and a signal ends all."""
from __future__ import annotations

import signal
import sys
import threading
import time

from nrm.journal.choosing_store import using
from nrm.server.notify import Manager
from nrm.web.http_listening import Listening, Site
from nrm.web.routes import Web, WebSettings

ENDS = (signal.SIGTERM, signal.SIGINT, signal.SIGHUP)
SECOND = 1.0


class Signs:
    """Tells a manager of services, once a second at most, that both threads are at work."""

    def __init__(self, manager: Manager, web: Web) -> None:
        self.manager, self.web = manager, web
        self.told_at, self.turns = time.monotonic(), 0

    def status(self) -> str:
        """What a manager of services shows of this process."""
        return f"{len(self.web.following.networks)} networks followed"

    def turned(self) -> None:
        """The thread that takes connections calls this at each turn; that the other one turns too is seen by its
        count."""
        turns, now = self.web.following.turns, time.monotonic()
        if turns != self.turns and now - self.told_at >= SECOND:
            self.turns, self.told_at = turns, now
            self.manager.works(self.status())


def serve(settings: WebSettings, listening: Listening) -> int:
    """Answers until this process is told to end, and gives the status."""
    with using(settings.journal):
        pass  # it is one
    web, is_over, manager = Web(settings), threading.Event(), Manager()
    signs = Signs(manager, web)
    with Site(listening, web.answer, signs.turned) as site:
        follower = threading.Thread(target=web.following.follow, args=(is_over, web.tidy), daemon=True)
        follower.start()
        for it in ENDS:
            signal.signal(it, lambda *_: threading.Thread(target=site.shutdown, daemon=True).start())
        for said in (f"listening on {site.where()}", *web.lacks()):
            print(f"nrm-tools web: {said}", file=sys.stderr, flush=True)
        manager.ready(signs.status())
        site.serve_forever(poll_interval=0.1)
        manager.stops()
        is_over.set()
        follower.join()
        web.kept.end()
    return 0
