"""A server of Redis's protocol around rubis_auction, for examples/front.py and examples/front_quorum.py.

`resp` is the protocol; `clients` a connection and what it may ask for; `program` the auction's program, started again
when it ends; `log` the file and the clock that outlast it; `audit` what the referee judges; `server` the options and
the sockets."""
