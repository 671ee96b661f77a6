#!/usr/bin/env python3
"""Serves an auction to many clients, in the protocol of Redis: redis-cli, redis-benchmark and the client libraries of
Redis can ask it.

    examples/front.py [--port 7379] [--log FILE] [--audit FOLDER] PROGRAM [OPTION..]

PROGRAM is rubis_auction; the options go to it. A command is a request without its worker, such as BID 1 0.0 500 3,
with * for the server's time in milliseconds; its reply is the text that docs/FORMATS.md lists. Other commands are those
that clients of Redis send when they connect, INFO, and PLACES: then replies begin with START.WORKER.INDEX, which is
their place in the histories of --audit. docs/SERVING.md says what clients may rely on, and what each status means."""

from front.program import Engine
from front.server import main, parser, read

if __name__ == "__main__":
    main(Engine, read(parser(__doc__)))
