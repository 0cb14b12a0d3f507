#!/bin/sh
# Records a program: `study/record.sh study/programs/NAME.sh [FILE]` runs what the script says under valgrind's lackey.
# The trace is kept, cut into intervals, in FILE or study/traces/NAME.cut; what was recorded stands in a text beside it.
set -eu

study=$(cd "$(dirname "$(readlink -f "$0")")" && pwd)
program=$(realpath "$1")
name=$(basename "$program" .sh)
kept=$(realpath -m "${2:-$study/traces/$name.cut}")
began=$(date +%s)
folder=$(mktemp -d /tmp/study.XXXXXX)
trap 'rm -rf "$folder"' EXIT
cd "$folder"

# The same environment on each machine, and no random addresses. A script may set `as` to have the program run by another user.
as=
clean() {
    env -i PATH=/usr/bin:/bin LC_ALL=C TZ=UTC HOME=/nonexistent PYTHONHASHSEED=0 PERL_HASH_SEED=0 OMP_NUM_THREADS=1 setarch -R $as "$@"
}

# Intervals of 1000 accesses, of which a study takes multiples. The script of damon is not needed.
kept_cut() { "$study/../tools/trace_to_script.py" --interval 100000 --grain 1000 --keep "$kept" > script; }

# Runs a program under lackey. Its input is that of the function; what it prints is dropped, and so are the instructions of the trace.
traced() {
    { clean valgrind --tool=lackey --trace-mem=yes --log-fd=9 "$@" 9>&1 > /dev/null 2> errors || mv errors failed; } |
        LC_ALL=C grep -v "^I" | kept_cut
}

# So many lines like those of a web server's log: most ask for a few of 2,000 pages. The random words of perl are the same everywhere.
log() {
    perl -e 'srand 1; for (1 .. shift) {
        printf "10.0.%d.%d - - [%02d:%02d:%02d] \"GET /page/%04d.html\" %d %d\n", rand 4, rand 200, $_ / 3600, $_ / 60 % 60, $_ % 60,
            2000 * rand() ** 4, rand() < 0.9 ? 200 : 404, 100 + rand 50000 }' "$1"
}

. "$program"

if [ -e failed ]; then
    cat failed >&2
    rm "$kept"
    exit 1
fi
packages=$(sed -n 's/^# Debian: //p' "$program")
echo "$(dpkg-query -W -f '${Package} ${Version}, ' $packages valgrind)$(($(date +%s) - began)) seconds" > "${kept%.cut}.txt"
