# Compiles two functions behind 2,000 lines of the system's headers, with -O1.
# Debian: gcc-12 libc6-dev
for header in assert ctype errno inttypes math regex signal stdio stdlib string sys/stat time unistd; do
    echo "#include <$header.h>"
done > sorts.c
for number in 1 2; do
    echo "int sort_$number(int *a, int n) {"
    echo "    int moved = 0;"
    echo "    for (int i = $number; i < n; i++)"
    echo "        for (int j = i; j >= $number && a[j - $number] > a[j]; j -= $number, moved++) {"
    echo "            int kept = a[j];"
    echo "            a[j] = a[j - $number];"
    echo "            a[j - $number] = kept;"
    echo "        }"
    echo "    return moved;"
    echo "}"
done >> sorts.c
gcc-12 -E -P sorts.c > sorts.i
# How often cc1 collects what it no longer needs depends on the memory of the machine, where nothing is said.
traced "$(gcc-12 -print-prog-name=cc1)" -quiet -O1 --param ggc-min-expand=30 --param ggc-min-heapsize=4096 sorts.i -o sorts.s
