# Reads 1,500 lines like those of a log, counts hosts and pages in hashes, keeps the lines of each host, and reports the busiest in order.
# Debian: perl
log 1500 > log.txt
cat > report.pl <<'PERL'
my (%visits, %bytes, %lines);
while (<>) {
    my ($host, $page, $size) = m{^(\S+) .*"GET (\S+)" 200 (\d+)} or next;
    $visits{$page}++;
    $bytes{$host} += $size;
    push @{$lines{$host}}, $_;
}
my @pages = sort { $visits{$b} <=> $visits{$a} || $a cmp $b } keys %visits;
print "$_ $visits{$_}\n" for @pages[0 .. 99];
for my $host ((sort { $bytes{$b} <=> $bytes{$a} || $a cmp $b } keys %bytes)[0 .. 99]) {
    print "$host $bytes{$host}\n", grep { m{/page/0[0-4]\d\d} } @{$lines{$host}};
}
PERL
traced perl report.pl log.txt
