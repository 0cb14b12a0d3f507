# Compresses 12,000 lines like those of a log.
# Debian: zstd
log 12000 > log.txt
traced zstd --single-thread -3 -c log.txt
