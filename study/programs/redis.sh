# Loads 2,000 keys with values of 400 bytes, then sets and gets: first all keys, then 100 of them, then all again, and a list.
# Debian: redis-server redis-tools
ask() { clean "$@" > /dev/null; }
load() { ask redis-benchmark -s redis.sock -c 1 -P 8 -d 400 "$@"; }
traced redis-server --port 0 --unixsocket redis.sock --save '' --hz 1 --maxclients 50 --activerehashing no &
until [ -S redis.sock ]; do sleep 0.1; done
load -t set -n 4000 -r 2000
load -t get -n 3000 -r 100
load -t set,get -n 500 -r 2000
load -t lpush,lpop -n 500
clean redis-cli -s redis.sock shutdown nosave
wait
