-- The database of shop.py: what there is, who buys, and what was ordered. Prices are in cents.
CREATE TABLE customers (id INTEGER PRIMARY KEY, name VARCHAR(40) NOT NULL, town VARCHAR(40));
CREATE TABLE items (sku VARCHAR(8) PRIMARY KEY NOT NULL, price INTEGER NOT NULL, stock INTEGER NOT NULL);
CREATE TABLE orders (
    id INTEGER PRIMARY KEY,
    customer INTEGER NOT NULL REFERENCES customers (id),
    item VARCHAR(8) NOT NULL REFERENCES items (sku),
    pieces INTEGER NOT NULL,
    placed DATE NOT NULL
);
INSERT INTO customers VALUES (1, 'Ada', 'Bergen'), (2, 'Bo', 'Oslo'), (3, 'Cy', NULL);
INSERT INTO items VALUES ('ink', 350, 12), ('nib', 120, 40), ('pad', 495, 3), ('pen', 1250, 7);
INSERT INTO orders VALUES
    (1, 1, 'pen', 1, '2024-03-01'), (2, 1, 'ink', 2, '2024-03-01'), (3, 2, 'pad', 1, '2024-03-04'),
    (4, 3, 'nib', 10, '2024-03-09');
