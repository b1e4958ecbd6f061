#!/usr/bin/perl
# The values that the program field_cases prints, computed here by a second way: products by the
# octal digits of one factor, and every sum and difference reduced at once. They are the products of
# all pairs of edges modulo 2⁶¹ − 1, and digests of every operation of each field, and of each of
# three moduli: on all triples of edges, then on blocks of 1,000 random triples of wide numbers and
# as many of narrow ones. Run at the top of the repository: perl tests/field_values.pl [blocks]. It
# compares that many blocks of the program's stored output, 100 where no number is given, and says
# which line differs.
use strict;
use warnings;

my $p31 = 2147483647;
my $p61 = 2305843009213693951;

# A product modulo a number of at most 61 binary digits. No sum or product exceeds 64.
sub product {
    my ($q, $x, $y) = @_;
    $x %= $q;
    $y %= $q;
    return $x * $y % $q if $q < 4294967296;
    my $product = 0;
    for (my $digit = 60; $digit >= 0; $digit -= 3) {
        $product = ($product * 8 % $q + $x * ($y >> $digit & 7) % $q) % $q;
    }
    return $product;
}

sub plus  { my ($q, $x, $y) = @_; return ($x % $q + $y % $q) % $q; }
sub minus { my ($q, $x, $y) = @_; return ($x % $q + ($q - $y % $q)) % $q; }

# h·r + x
sub horner { my ($q, $h, $r, $x) = @_; return plus($q, product($q, $h, $r), $x); }

# r − (a·x + b·y), and r − (a·x + b·y + c·z)
sub pair {
    my ($q, $r, $a, $b, $x, $y) = @_;
    return minus($q, $r, plus($q, product($q, $a, $x), product($q, $b, $y)));
}

sub triple {
    my ($q, $r, $a, $b, $c, $x, $y, $z) = @_;
    return minus($q, pair($q, $r, $a, $b, $x, $y), product($q, $c, $z));
}

# A step of a random generator, and a digest with more numbers.
sub step { my ($x) = @_; $x ^= $x << 13; $x ^= $x >> 7; $x ^= $x << 17; return $x; }

sub digest { my ($d, @numbers) = @_; $d = step($d ^ $_) for @numbers; return $d; }

# What every operation gives: the first number reduced, sum, difference, product, a step of the
# hash, the factor of a triple and that of a pair.
sub operations {
    my ($q, $x, $y, $z) = @_;
    return (
        $x % $q, plus($q, $x, $y), minus($q, $x, $y), product($q, $x, $y), horner($q, $x, $y, $z),
        triple($q, $x, $y, $z, $x, $z, $x, $y), pair($q, $x, $y, $z, $x, $y),
    );
}

# A modulus gives a third number times each factor.
sub of_modulus {
    my ($q, $d, $z, @values) = @_;
    return digest($d, $q, @values[0 .. 4], map { product($q, $z, $_) } @values[5, 6]);
}

my $blocks = shift // 100;
open(my $stored, '<', 'crates/field_cases/stdout') or die "crates/field_cases/stdout: $!\n";
my $lines = 0;

# The next line of the stored output is this number.
sub expect {
    my ($number) = @_;
    my $line = <$stored> // '';
    chomp $line;
    $lines++;
    die "line $lines: stored $line, computed $number\n" if $line ne $number;
}

my @edges = (
    0, 1, 2, 1073741824, 2147483646, 2147483647, 2147483648, 4294967295, 4294967296,
    2305843009213693950, 2305843009213693951, 2305843009213693952, 4611686018427387902,
    4611686018427387903, 9223372036854775808, 18446744073709551615,
);
# The digests of both fields, each with its modulus and its element count, and of three moduli, and
# what one triple more makes of them. The smaller field takes the last 32 bits of each number, but
# reduces the whole first one.
my ($smaller, $larger, $first, $second, $small) = (1 .. 5);

sub more {
    my ($q, @numbers) = @_;
    $q = 2 if $q < 2;
    my ($reduced, @narrow) = operations($p31, map { $_ % 4294967296 } @numbers);
    my @wide = operations($p61, @numbers);
    $smaller = digest($smaller, $p31, $p31, $numbers[0] % $p31, @narrow);
    $larger = digest($larger, $p61, $p61, @wide);
    $first = of_modulus($p31, $first, $numbers[2], operations($p31, @numbers));
    $second = of_modulus($p61, $second, $numbers[2], @wide);
    $small = of_modulus($q, $small, $numbers[2], operations($q, @numbers));
}

for my $x (@edges) {
    for my $j (0 .. 15) {
        expect(product($p61, $x, $edges[$j]));
        more($_, $x, $edges[$j], $edges[$_]) for 0 .. 15;
    }
    expect($_) for $smaller, $larger, $first, $second, $small;
}
my $at = 88172645463325252;
for (1 .. $blocks) {
    for (1 .. 1000) {
        my $x = step($at);
        my $y = step($x);
        my $z = $at = step($y);
        more($z % 256, $x, $y, $z);
        more($z % 256, map { $_ % 4294967296 } $x, $y, $z);
    }
    expect($_) for $smaller, $larger, $first, $second, $small;
}
print "$lines passed, 0 failed\n";
