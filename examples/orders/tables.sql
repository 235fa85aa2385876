CREATE TABLE customers (id INTEGER NOT NULL PRIMARY KEY, name TEXT NOT NULL);
CREATE TABLE items (sku TEXT NOT NULL PRIMARY KEY, price INTEGER NOT NULL);
CREATE TABLE orders (
    id INTEGER NOT NULL PRIMARY KEY,
    customer INTEGER NOT NULL,
    sku TEXT NOT NULL,
    qty INTEGER
);
INSERT INTO customers VALUES (1, 'Ada'), (2, 'Bo'), (3, 'Cy'), (4, 'Di');
INSERT INTO items VALUES ('ink', 4), ('pen', 2), ('cap', 9), ('nib', 1);
INSERT INTO orders VALUES (10, 1, 'pen', 3), (11, 2, 'ink', 1), (12, 1, 'ink', 2);
