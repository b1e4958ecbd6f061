#!/usr/bin/perl
# Runs each command that README.md shows with what it prints, and compares. A command stands in an indented block behind "$ ", and the lines
# below it, up to the next command or the end of the block, are what it prints. A row of the table of samples is a sample and the second line
# that bin/check prints of it. Every file of examples/ is to be named.
# Run at the top of the repository, after ./build: perl tests/readme.pl
use strict;
use warnings;

open(my $in, '<', 'README.md') or die "README.md: $!\n";
my (@shown, $open);
while (my $line = <$in>) {
    if ($line =~ /^    \$ (.*)$/) {
        push @shown, { command => $1, printed => '' };
        $open = 1;
    } elsif ($open && $line =~ /^    (.*\n)$/) {
        $shown[-1]{printed} .= $1;
    } elsif ($line =~ /^\| `(examples\/\S+)` \| `(\S+)` \|/) {
        push @shown, { command => "bin/check < $1", printed => "answer,line,inputs,mults\n$2\n" };
    } else {
        $open = 0;
    }
}
close($in);

my ($passed, $failed) = (0, 0);
for my $example (@shown) {
    my $got = qx{$example->{command}};
    if ($got eq $example->{printed}) {
        $passed++;
    } else {
        $failed++;
        print "FAILED: $example->{command}\nexpected:\n$example->{printed}got:\n$got";
    }
}
my $named = join("\n", map { $_->{command} } @shown);
for my $sample (glob 'examples/*') {
    if (index($named, $sample) >= 0) {
        $passed++;
    } else {
        $failed++;
        print "FAILED: README.md runs no command on $sample\n";
    }
}
print "$passed passed, $failed failed\n";
exit($failed ? 1 : 0);
