-- The database of study.py: who was measured when, and the pulse at rest.
CREATE TABLE people (
    id INTEGER PRIMARY KEY,
    name TEXT NOT NULL,
    born INTEGER,
    site TEXT NOT NULL,
    weight REAL
);
CREATE TABLE measures (
    id INTEGER PRIMARY KEY,
    person INTEGER NOT NULL REFERENCES people (id),
    day DATE NOT NULL,
    pulse INTEGER
);
CREATE TABLE letters (person INTEGER, address TEXT);
INSERT INTO people VALUES
    (1, 'Ada', 1985, 'north', 61.5), (2, 'Bo', 1990, 'south', 74.0), (3, 'Cy', NULL, 'north', 80.25),
    (4, 'Di', 1978, 'south', 58.75), (5, 'Eve', 2001, 'west', NULL), (6, 'Finn', 1969, 'north', 91.0);
INSERT INTO measures VALUES
    (1, 1, '2018-11-20', 66), (2, 2, '2018-12-03', 71), (3, 1, '2019-01-14', 64), (4, 2, '2019-01-14', 70),
    (5, 3, '2019-01-15', 82), (6, 4, '2019-02-02', NULL), (7, 1, '2019-02-11', 62), (8, 3, '2019-02-12', 79),
    (9, 4, '2019-03-01', 60), (10, 5, '2019-03-02', 75), (11, 2, '2019-03-02', 69), (12, 6, '2020-01-09', 88);
INSERT INTO letters VALUES (1, '4 Mill Road'), (2, '17 Quay'), (3, '2 High Street');
