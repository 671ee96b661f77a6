-- The auction in PostgreSQL, for bench/run alone: its tables, and what a record of the input does. One request is one transaction, a call of act(), which
-- calls the functions of examples/sql/transactions.sql.
--
-- Nothing is durable: tables are unlogged, and the server runs without fsync. Tables have no foreign keys, since the functions look for what is named.

CREATE UNLOGGED TABLE users (id int PRIMARY KEY, rating bigint NOT NULL DEFAULT 0, comments bigint NOT NULL DEFAULT 0)
    WITH (fillfactor = 50);
CREATE UNLOGGED TABLE categories (id int PRIMARY KEY);
CREATE UNLOGGED TABLE items (
    worker int, serial int, seller int NOT NULL, category int NOT NULL, name text NOT NULL, start bigint NOT NULL,
    closes bigint NOT NULL, time bigint NOT NULL, quantity int NOT NULL, remaining int NOT NULL, bids bigint NOT NULL DEFAULT 0,
    PRIMARY KEY (worker, serial)) WITH (fillfactor = 50);
CREATE INDEX latest ON items (category, time DESC, worker DESC, serial DESC);
CREATE UNLOGGED TABLE bids (
    worker int, serial int, bidder int NOT NULL, item_worker int NOT NULL, item_serial int NOT NULL, amount bigint NOT NULL,
    time bigint NOT NULL, PRIMARY KEY (worker, serial));
CREATE INDEX greatest_bids ON bids (item_worker, item_serial, amount DESC, time DESC, worker DESC, serial DESC);
CREATE UNLOGGED TABLE comments (
    worker int, serial int, author int NOT NULL, about int NOT NULL, item_worker int NOT NULL, item_serial int NOT NULL,
    stars int NOT NULL, PRIMARY KEY (worker, serial));
CREATE UNLOGGED TABLE purchases (
    worker int, serial int, buyer int NOT NULL, item_worker int NOT NULL, item_serial int NOT NULL, quantity int NOT NULL,
    time bigint NOT NULL, PRIMARY KEY (worker, serial));

-- Serials by sequences, which are faster than the rows of examples/sql/schema.sql, and leave no gaps as long as no transaction fails.
CREATE FUNCTION make_serials(workers int) RETURNS void LANGUAGE plpgsql AS $$
DECLARE kind text;
BEGIN
    FOREACH kind IN ARRAY ARRAY['item', 'bid', 'comment', 'buynow'] LOOP
        FOR session IN 0 .. workers - 1 LOOP
            EXECUTE format('CREATE SEQUENCE %I MINVALUE 0', kind || '_' || session);
        END LOOP;
    END LOOP;
END $$;

CREATE FUNCTION take_serial(session int, of_kind text) RETURNS int LANGUAGE sql AS $$
    SELECT nextval((of_kind || '_' || session)::regclass)::int
$$;

-- The input: rows have the place of their record, requests their index in their worker's script.
CREATE UNLOGGED TABLE input (
    is_row boolean, worker int, place int, kind text, who int, other int, item_worker int, item_serial int, number int,
    amount bigint, time bigint, name text, start bigint, closes bigint, PRIMARY KEY (is_row, worker, place));

-- What a request or a row of the input does, and its reply.
CREATE FUNCTION act(r input) RETURNS text LANGUAGE plpgsql AS $$
BEGIN
    CASE r.kind
        WHEN 'bid' THEN RETURN store_bid(r.worker, r.who, r.item_worker, r.item_serial, r.amount, r.time);
        WHEN 'viewitem' THEN RETURN view_item(r.item_worker, r.item_serial);
        WHEN 'viewbids' THEN RETURN view_bids(r.item_worker, r.item_serial);
        WHEN 'viewcategory' THEN RETURN view_category(r.who);
        WHEN 'viewuser' THEN RETURN view_user(r.who);
        WHEN 'comment' THEN RETURN store_comment(r.worker, r.who, r.other, r.item_worker, r.item_serial, r.number);
        WHEN 'buynow' THEN RETURN buy(r.worker, r.who, r.item_worker, r.item_serial, r.number, r.time);
        WHEN 'item' THEN RETURN store_item(r.worker, r.who, r.other, r.name, r.start, r.closes, r.time, r.number);
    END CASE;
END $$;

CREATE FUNCTION act(of_worker int, at int) RETURNS text LANGUAGE plpgsql AS $$
DECLARE r input;
BEGIN
    SELECT * INTO STRICT r FROM input WHERE is_row = false AND worker = of_worker AND place = at;
    RETURN act(r);
END $$;
