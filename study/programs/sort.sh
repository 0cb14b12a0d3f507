# Sorts 10,000 lines like those of a log by size and page, with room for a quarter of them, so that the rest goes to files and is merged.
# Debian: coreutils
log 10000 > log.txt
traced sort --parallel=1 -S 200K -T . -k8n -k6 log.txt
