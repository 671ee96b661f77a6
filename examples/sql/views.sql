-- The auction's views over these tables; that of a user is the user's row. Of equal bids the later leads, and of those at one time that with the greater id.

CREATE VIEW item_shown AS
SELECT items.*, leader.amount AS highest, leader.bidder
FROM items LEFT JOIN LATERAL (
    SELECT amount, bidder FROM bids WHERE (item_worker, item_serial) = (items.worker, items.serial)
    ORDER BY amount DESC, time DESC, worker DESC, serial DESC LIMIT 1) AS leader ON true;

-- The ten highest bids of each item.
CREATE VIEW bids_shown AS
SELECT items.worker AS item_worker, items.serial AS item_serial, ten.*
FROM items CROSS JOIN LATERAL (
    SELECT worker, serial, bidder, amount, time FROM bids WHERE (item_worker, item_serial) = (items.worker, items.serial)
    ORDER BY amount DESC, time DESC, worker DESC, serial DESC LIMIT 10) AS ten;

-- The ten latest items of each category.
CREATE VIEW latest_items AS
SELECT categories.id AS category, ten.*
FROM categories CROSS JOIN LATERAL (
    SELECT worker, serial, name, time FROM items WHERE category = categories.id
    ORDER BY time DESC, worker DESC, serial DESC LIMIT 10) AS ten;
