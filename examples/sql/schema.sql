-- The rows of an auction as tables, for PostgreSQL and what speaks its SQL. An id is a worker and a serial.
-- Amounts and times are below 2^64, for which bigint is too short: hence numeric.
-- What the views count is kept beside what is counted: bids and pieces left in an item's row, rating and comments in a user's.

CREATE TABLE users (id bigint PRIMARY KEY, rating bigint NOT NULL DEFAULT 0, comments bigint NOT NULL DEFAULT 0);

CREATE TABLE categories (id bigint PRIMARY KEY);

CREATE TABLE items (
    worker int, serial int,
    seller bigint NOT NULL REFERENCES users,
    category bigint NOT NULL REFERENCES categories,
    name text NOT NULL,
    start numeric(20) NOT NULL, -- the least amount that may be bid
    closes numeric(20) NOT NULL, -- the time from which on nothing is bid or bought
    time numeric(20) NOT NULL,
    quantity int NOT NULL CHECK (quantity BETWEEN 1 AND 1000000),
    remaining int NOT NULL DEFAULT 0, -- the pieces that are left
    bids bigint NOT NULL DEFAULT 0,
    PRIMARY KEY (worker, serial));

CREATE TABLE bids (
    worker int, serial int,
    bidder bigint NOT NULL REFERENCES users,
    item_worker int NOT NULL, item_serial int NOT NULL,
    amount numeric(20) NOT NULL,
    time numeric(20) NOT NULL,
    PRIMARY KEY (worker, serial),
    FOREIGN KEY (item_worker, item_serial) REFERENCES items);

CREATE TABLE comments (
    worker int, serial int,
    author bigint NOT NULL REFERENCES users,
    about bigint NOT NULL REFERENCES users,
    item_worker int NOT NULL, item_serial int NOT NULL,
    stars int NOT NULL CHECK (stars BETWEEN -5 AND 5),
    PRIMARY KEY (worker, serial),
    FOREIGN KEY (item_worker, item_serial) REFERENCES items);

CREATE TABLE purchases (
    worker int, serial int,
    buyer bigint NOT NULL REFERENCES users,
    item_worker int NOT NULL, item_serial int NOT NULL,
    quantity int NOT NULL CHECK (quantity BETWEEN 1 AND 1000000),
    time numeric(20) NOT NULL,
    PRIMARY KEY (worker, serial),
    FOREIGN KEY (item_worker, item_serial) REFERENCES items);

-- The serial of each worker's next item, bid, comment and purchase. A sequence would leave gaps after a rollback, a crash or a failover.
CREATE TABLE serials (worker int, kind text, next int NOT NULL, PRIMARY KEY (worker, kind));

CREATE FUNCTION take_serial(session int, of_kind text) RETURNS int LANGUAGE sql AS $$
    INSERT INTO serials VALUES (session, of_kind, 1)
    ON CONFLICT (worker, kind) DO UPDATE SET next = serials.next + 1 RETURNING next - 1
$$;

-- What the views and load.py look for: an item's bids from the highest down, a category's items from the latest down, a user's comments, an item's purchases.
CREATE INDEX ON bids (item_worker, item_serial, amount DESC, time DESC, worker DESC, serial DESC);
CREATE INDEX ON items (category, time DESC, worker DESC, serial DESC);
CREATE INDEX ON comments (about);
CREATE INDEX ON purchases (item_worker, item_serial);
