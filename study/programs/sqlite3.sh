# A database in a file: 1,000 parts, an index and 300 photos go in; 2,000 queries of which nine in ten ask for one of 150 parts; scans.
# Debian: sqlite3
traced sqlite3 -batch shop.db <<'SQL'
PRAGMA cache_size = 300;
CREATE TABLE part(id INTEGER PRIMARY KEY, name TEXT, amount INTEGER, note BLOB);
CREATE TABLE photo(id INTEGER PRIMARY KEY, shot BLOB);
WITH RECURSIVE n(i) AS (SELECT 1 UNION ALL SELECT i + 1 FROM n WHERE i < 1000)
INSERT INTO part SELECT i, printf('part %04d', i * 7919 % 1009), i, zeroblob(600) FROM n;
CREATE INDEX part_name ON part(name);
WITH RECURSIVE n(i) AS (SELECT 1 UNION ALL SELECT i + 1 FROM n WHERE i < 300)
INSERT INTO photo SELECT i, zeroblob(4000) FROM n;
WITH RECURSIVE n(i, r) AS (SELECT 1, 1 UNION ALL SELECT i + 1, r * 48271 % 2147483647 FROM n WHERE i < 2000)
SELECT sum((SELECT amount FROM part WHERE name = printf('part %04d', CASE WHEN i % 10 THEN r % 150 ELSE r % 1009 END))) FROM n;
SELECT amount % 10, count(*), sum(length(note)) FROM part GROUP BY 1;
SELECT count(*) FROM photo WHERE substr(shot, 3990, 1) = x'00';
UPDATE part SET amount = amount + 1 WHERE name < 'part 0150';
SQL
