-- A small library. sqlite3 library.db < library.sql makes the database.
CREATE TABLE members (
    id INTEGER PRIMARY KEY,
    name VARCHAR(40) NOT NULL,
    joined DATE,
    fee REAL DEFAULT 12.5
);
CREATE TABLE loans (
    book TEXT,
    lent DATE,
    member INTEGER NOT NULL REFERENCES members (id),
    back DATE,
    PRIMARY KEY (book, lent)
);
CREATE VIEW late AS SELECT * FROM loans WHERE back IS NULL AND lent < '2024-05-01';

INSERT INTO members VALUES
    (1, 'Ada', '2019-03-01', 12.5),
    (2, 'Bo', '2021-11-15', 7.25),
    (3, 'Cy', NULL, NULL);
INSERT INTO loans VALUES
    ('Emma', '2024-03-02', 1, '2024-03-20'),
    ('Emma', '2024-04-11', 2, NULL),
    ('Ulysses', '2024-04-30', 3, NULL),
    ('Middlemarch', '2024-05-02', 1, NULL),
    ('Ulysses', '2023-01-09', 2, '2023-06-01');
