#!/usr/bin/env perl
# read_cases.pl FILE..: what read_cases.py is, in Perl. Both print the same.
use strict;
use warnings;

# The columns of each case.
sub read_cases {
    open my $file, "<", shift or die $!;
    return map { [map { s/^\s+|\s+$//gr } split / \|(?= |$)/, $_, -1] } grep { /^[^#]/ } map { s/^\s+|\s+$//gr } <$file>;
}

# The bytes that a column spells, or undef if it spells none.
sub read_bytes {
    my ($column, $found) = (shift, "");
    while ($column =~ s/^(?:(\d+)\*)?(?:"([^"\\]*(?:\\.[^"\\]*)*)"|((?:[0-9a-f]{2})+))(?:\s+|$)//) {
        my ($times, $text, $digits) = ($1 // 1, $2, $3);
        my $plain = defined $digits ? pack "H*", $digits : $text =~ s/\\(?:x([0-9a-f]{2})|(["\\]))/defined $1 ? chr hex $1 : $2/ger;
        $found .= $plain x $times;
    }
    return $column eq "" ? $found : undef;
}

for my $path (@ARGV) {
    my @cases = read_cases($path);
    my @spelled = grep { defined } map { read_bytes($_) } grep { $_ ne "" } map { @$_[1 .. $#$_] } @cases;
    my ($columns, $sum) = (scalar @{$cases[0]}, unpack "%32C*", join "", @spelled);
    print "$path: ", scalar @cases, " cases of $columns columns, ", scalar @spelled, " of them bytes, whose sum is $sum\n";
}
