#!/usr/bin/perl
# Counts by itself what crates/algebra/proofs/SmallCounts.antt states of small lists of vectors, and
# compares with the numbers there.
# `balanced`: a challenge is r and k coefficients s, each below q; a vector x of length k has the
# factor r - (s[0]*x[0] + ... + s[k-1]*x[k-1]) modulo q; two lists balance where the products of
# their factors are equal.
# `hashed`: a choice is r and d coefficients w, each below q; a vector x is hashed as w[0]*x[0] +
# ... + w[d-1]*x[d-1]; a list of them x1 .. xm has the hash x1*r^(m-1) + ... + xm modulo q; counted
# is where the hashes of two lists are equal.
# Run at the top of the repository: perl tests/small_counts.pl
use strict;
use warnings;

my $file = 'crates/algebra/proofs/SmallCounts.antt';
open(my $in, '<:encoding(UTF-8)', $file) or die "$file: $!\n";
my $text = do { local $/; <$in> };
close($in);

# A list of vectors, as ((1 ∷ 2 ∷ []) ∷ []), or [].
sub vectors {
    my ($list) = @_;
    my @vectors;
    while ($list =~ /\(((?:\d+ \x{2237} )+)\[\]\)/g) {
        push @vectors, [$1 =~ /(\d+)/g];
    }
    return \@vectors;
}

sub product {
    my ($q, $challenge, $vectors) = @_;
    my ($r, @s) = @$challenge;
    my $product = 1;
    for my $x (@$vectors) {
        my $factor = $r;
        $factor -= $s[$_] * $x->[$_] for 0 .. $#s;
        $product = $product * ($factor % $q) % $q;
    }
    return $product;
}

# The hash, as a sum of powers of r.
sub hash {
    my ($q, $choice, $vectors) = @_;
    my ($r, @w) = @$choice;
    my $hash = 0;
    my $power = 1;
    for my $x (reverse @$vectors) {
        for (0 .. $#w) {
            $hash += $w[$_] * $x->[$_] * $power;
        }
        $power = $power * $r % $q;
    }
    return $hash % $q;
}

# How many of the q ** (k + 1) challenges give two lists the same value.
sub agreements {
    my ($value, $q, $k, $xs, $ys) = @_;
    my $count = 0;
    for my $number (0 .. $q**($k + 1) - 1) {
        my ($rest, @challenge) = ($number);
        for (0 .. $k) {
            push @challenge, $rest % $q;
            $rest = int($rest / $q);
        }
        $count++ if $value->($q, \@challenge, $xs) == $value->($q, \@challenge, $ys);
    }
    return $count;
}

my $list = qr/\[\]|\((?:\((?:\d+ \x{2237} )+\[\]\) \x{2237} )+\[\]\)/;
my ($stated, $wrong) = (0, 0);
while ($text =~ /^pub (\S+) :\s+(balanced|hashed) (\d+) (\d+) ($list) ($list) \x{2261} (\d+)$/mg) {
    my ($name, $kind, $q, $k, $xs, $ys, $number) = ($1, $2, $3, $4, $5, $6, $7);
    my $found = agreements($kind eq 'hashed' ? \&hash : \&product, $q, $k, vectors($xs), vectors($ys));
    $stated++;
    $wrong++ if $found != $number;
    print "$name: $found of ", $q**($k + 1), ", stated $number\n";
}
my $facts = () = $text =~ /^pub \S+ :\s+(?:balanced|hashed) /mg;
print "$stated of $facts statements read\n" if $stated != $facts;
exit($wrong == 0 && $stated == $facts && $stated > 0 ? 0 : 1);
