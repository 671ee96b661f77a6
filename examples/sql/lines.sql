-- What the program replies to a view of each item, then of each item's bids, of each category and of each user, a line each.

SELECT view_item(worker, serial) FROM items ORDER BY worker, serial;
SELECT view_bids(worker, serial) FROM items ORDER BY worker, serial;
SELECT view_category(id) FROM categories ORDER BY id;
SELECT view_user(id) FROM users ORDER BY id;
