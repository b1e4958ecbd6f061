#!/usr/bin/perl
# Runs the lent state, check_file, fill_file and fill_whole, which neither program calls.
# tests/lent_cases.txt is the source of a test program and tests/lent_cases.out what it is to print.
# The program is run unproved, from the sources of the crates, which are proved: `rt try` runs it on
# the interpreter and compiled with checks, and compares what the two print.
# Run at the top of the repository: perl tests/lent.pl
use strict;
use warnings;
use File::Path qw(make_path);
use File::Temp qw(tempdir);

my $tree = tempdir(CLEANUP => 1);

# A file of the repository as one of the tree, with a text after it.
sub copy {
    my ($from, $to, $more) = @_;
    open(my $in, '<', $from) or die "$from: $!\n";
    open(my $out, '>', "$tree/$to") or die "$to: $!\n";
    print {$out} <$in>, $more;
    close($out);
}

system("find crates -path '*/out' -prune -o -type f -print0 | xargs -0 cp --parents -t $tree") == 0
    or die "no copy of the tree\n";
make_path("$tree/crates/lent_cases/src");
copy('crates.txt', 'crates.txt', "lent_cases: checker stream fillfile field memory text\n");
copy('tests/lent_cases.txt', 'crates/lent_cases/src/main.rt', '');

my $wanted = do { local (@ARGV, $/) = ('tests/lent_cases.out'); <> };
my $printed = qx{cd $tree/crates/lent_cases && rt try 2>$tree/said};
if ($? == 0 && $printed eq $wanted) {
    print "1 passed, 0 failed\n";
    exit 0;
}
system('cat', "$tree/said");
print $printed, "0 passed, 1 failed\n";
exit 1;
