# A server for one user: 800 parts with an index go in; 1,000 queries of which nine in ten ask for one of 80 parts; sums, changes, a vacuum.
# Debian: postgresql-15
# The server runs as nobody where the caller is root, which it refuses.
if [ "$(id -u)" = 0 ]; then
    as="setpriv --reuid=65534 --regid=65534 --clear-groups"
    chown 65534 .
fi
postgres=/usr/lib/postgresql/15/bin
clean $postgres/initdb -D data --no-sync --locale=C -A trust -U nobody > initdb.log
traced $postgres/postgres --single -D data -c shared_buffers=4MB -c fsync=off -c max_connections=5 -c jit=off template1 <<'SQL'
CREATE TABLE part(id int PRIMARY KEY, name text, amount int, note text)
INSERT INTO part SELECT i, 'part ' || i, i, repeat('x', 600) FROM generate_series(1, 800) i
CREATE INDEX part_name ON part(name)
DO $$ BEGIN FOR i IN 1 .. 1000 LOOP PERFORM amount FROM part WHERE name = 'part ' || CASE WHEN i % 10 > 0 THEN i * 7919 % 80 ELSE i * 7919 % 800 END; END LOOP; END $$
SELECT amount % 10, count(*), sum(length(note)) FROM part GROUP BY 1
UPDATE part SET amount = amount + 1 WHERE id < 80
VACUUM part
SQL
