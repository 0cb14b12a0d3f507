CREATE TABLE archive(id INTEGER PRIMARY KEY, scan BLOB);
WITH RECURSIVE n(i) AS (SELECT 1 UNION ALL SELECT i + 1 FROM n WHERE i < 80)
INSERT INTO archive SELECT i, zeroblob(4000) FROM n;
CREATE TABLE stock(id INTEGER PRIMARY KEY, part TEXT, amount INTEGER, note BLOB);
CREATE INDEX stock_part ON stock(part);
WITH RECURSIVE n(i) AS (SELECT 1 UNION ALL SELECT i + 1 FROM n WHERE i < 200)
INSERT INTO stock SELECT i, printf('part %040d', i * 37 % 200), i, zeroblob(200) FROM n;
WITH RECURSIVE n(i) AS (SELECT 1 UNION ALL SELECT i + 1 FROM n WHERE i < 450)
SELECT sum((SELECT amount FROM stock WHERE part = printf('part %040d', i * 31 % 200))) FROM n;
