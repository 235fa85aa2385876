-- what was lent before May and isn't back?
SELECT * FROM loans WHERE back IS NULL AND lent < '2024-05-01';

-- who pays more than 10.00, or whose fee isn't known?
SELECT * FROM members WHERE cents > 1000 OR cents IS NULL;
