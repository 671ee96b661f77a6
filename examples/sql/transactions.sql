-- The requests of the auction over the tables of schema.sql: a function each, to be called as a transaction, which replies as the program does.
--
-- At "read committed" a transaction changes at most one row that other workers change too, an item's or a user's, and holds it until it commits. What else it
-- reads never changes, except how many pieces are left, which only falls, so that a refusal stays right; a view is STABLE, so that it reads one snapshot. So
-- the transactions are serializable: stores in the order of their commits, views and refusals as of what they read.
--
-- take_serial comes from schema.sql. Two sessions that write as one worker wait for each other's commits.

CREATE FUNCTION store_item(session int, by_user bigint, in_category bigint, title text, first_price numeric, closing numeric, moment numeric, pieces int)
RETURNS text LANGUAGE plpgsql AS $$
DECLARE own int;
BEGIN
    IF NOT EXISTS (SELECT FROM users WHERE id = by_user) THEN RETURN 'refused 1 NoSuchUser'; END IF;
    IF NOT EXISTS (SELECT FROM categories WHERE id = in_category) THEN RETURN 'refused 2 NoSuchCategory'; END IF;
    own := take_serial(session, 'item');
    INSERT INTO items (worker, serial, seller, category, name, start, closes, time, quantity, remaining)
        VALUES (session, own, by_user, in_category, title, first_price, closing, moment, pieces, pieces);
    RETURN 'item ' || session || '.' || own;
END $$;

CREATE FUNCTION store_bid(session int, by_user bigint, of_worker bigint, of_serial bigint, price numeric, moment numeric)
RETURNS text LANGUAGE plpgsql AS $$
DECLARE own int; found_item items;
BEGIN
    IF NOT EXISTS (SELECT FROM users WHERE id = by_user) THEN RETURN 'refused 1 NoSuchUser'; END IF;
    UPDATE items SET bids = bids + 1 WHERE worker = of_worker AND serial = of_serial AND price >= start AND moment < closes AND remaining > 0;
    IF FOUND THEN
        own := take_serial(session, 'bid');
        INSERT INTO bids (worker, serial, bidder, item_worker, item_serial, amount, time)
            VALUES (session, own, by_user, of_worker, of_serial, price, moment);
        RETURN 'bid ' || session || '.' || own;
    END IF;
    SELECT * INTO found_item FROM items WHERE worker = of_worker AND serial = of_serial;
    IF NOT FOUND THEN RETURN 'refused 3 NoSuchItem'; END IF;
    IF price < found_item.start THEN RETURN 'refused 4 BelowStart'; END IF;
    IF moment >= found_item.closes THEN RETURN 'refused 5 Closed'; END IF;
    -- An item with pieces left was put up after the update had looked for it.
    RETURN CASE WHEN found_item.remaining > 0 THEN 'refused 3 NoSuchItem' ELSE 'refused 6 SoldOut' END;
END $$;

CREATE FUNCTION store_comment(session int, by_user bigint, about_user bigint, of_worker bigint, of_serial bigint, given int)
RETURNS text LANGUAGE plpgsql AS $$
DECLARE own int;
BEGIN
    IF NOT EXISTS (SELECT FROM users WHERE id = by_user) OR NOT EXISTS (SELECT FROM users WHERE id = about_user) THEN
        RETURN 'refused 1 NoSuchUser';
    END IF;
    IF NOT EXISTS (SELECT FROM items WHERE worker = of_worker AND serial = of_serial) THEN RETURN 'refused 3 NoSuchItem'; END IF;
    own := take_serial(session, 'comment');
    INSERT INTO comments (worker, serial, author, about, item_worker, item_serial, stars)
        VALUES (session, own, by_user, about_user, of_worker, of_serial, given);
    UPDATE users SET rating = rating + given, comments = comments + 1 WHERE id = about_user;
    RETURN 'comment ' || session || '.' || own;
END $$;

-- Without "FOR UPDATE" two buyers read what is left, and both get the last piece.
CREATE FUNCTION buy(session int, by_user bigint, of_worker bigint, of_serial bigint, pieces int, moment numeric)
RETURNS text LANGUAGE plpgsql AS $$
DECLARE own int; found_item items;
BEGIN
    IF NOT EXISTS (SELECT FROM users WHERE id = by_user) THEN RETURN 'refused 1 NoSuchUser'; END IF;
    SELECT * INTO found_item FROM items WHERE worker = of_worker AND serial = of_serial FOR UPDATE;
    IF NOT FOUND THEN RETURN 'refused 3 NoSuchItem'; END IF;
    IF moment >= found_item.closes THEN RETURN 'refused 5 Closed'; END IF;
    IF pieces > found_item.remaining THEN RETURN 'refused 7 NotEnough'; END IF;
    UPDATE items SET remaining = found_item.remaining - pieces WHERE worker = of_worker AND serial = of_serial;
    own := take_serial(session, 'buynow');
    INSERT INTO purchases (worker, serial, buyer, item_worker, item_serial, quantity, time)
        VALUES (session, own, by_user, of_worker, of_serial, pieces, moment);
    RETURN 'buynow ' || session || '.' || own;
END $$;

CREATE FUNCTION view_item(of_worker bigint, of_serial bigint) RETURNS text LANGUAGE plpgsql STABLE AS $$
BEGIN
    RETURN coalesce((
        SELECT format('viewitem seller=%s category=%s start=%s closes=%s highest=%s bidder=%s bids=%s left=%s name=%s', seller, category, start,
            closes, coalesce(highest::text, '-'), coalesce(bidder::text, '-'), bids, remaining, name)
        FROM item_shown WHERE worker = of_worker AND serial = of_serial), 'refused 3 NoSuchItem');
END $$;

CREATE FUNCTION view_bids(of_worker bigint, of_serial bigint) RETURNS text LANGUAGE plpgsql STABLE AS $$
BEGIN
    RETURN CASE WHEN EXISTS (SELECT FROM items WHERE worker = of_worker AND serial = of_serial)
        THEN 'bids' || coalesce((
            SELECT string_agg(format(' %s:%s:%s:%s.%s', amount, time, bidder, worker, serial), ''
                ORDER BY amount DESC, time DESC, worker DESC, serial DESC)
            FROM bids_shown WHERE item_worker = of_worker AND item_serial = of_serial), '')
        ELSE 'refused 3 NoSuchItem' END;
END $$;

CREATE FUNCTION view_category(in_category bigint) RETURNS text LANGUAGE plpgsql STABLE AS $$
BEGIN
    RETURN CASE WHEN EXISTS (SELECT FROM categories WHERE id = in_category)
        THEN 'latest' || coalesce((
            SELECT string_agg(format(' %s:%s.%s', time, worker, serial), '' ORDER BY time DESC, worker DESC, serial DESC)
            FROM latest_items WHERE category = in_category), '')
        ELSE 'refused 2 NoSuchCategory' END;
END $$;

CREATE FUNCTION view_user(of_user bigint) RETURNS text LANGUAGE plpgsql STABLE AS $$
BEGIN
    RETURN coalesce((SELECT format('user rating=%s comments=%s', rating, comments) FROM users WHERE id = of_user), 'refused 1 NoSuchUser');
END $$;
