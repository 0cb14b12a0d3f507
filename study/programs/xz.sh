# Compresses 1,000 lines like those of a log.
# Debian: xz-utils
log 1000 > log.txt
traced xz -T1 -3 -c log.txt
