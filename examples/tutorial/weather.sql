-- where was it just above freezing, at 0.3 degrees?
SELECT * FROM weather WHERE tenths = 3;

-- which days after the 15th were colder than -6 degrees, and where?
SELECT * FROM weather
WHERE day > '2019-01-15' AND tenths < -60;
