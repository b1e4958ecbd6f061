# A second implementation of document 01, for the tests: the checker and the filling program, written from the document's sentences and
# from nothing else of this repository. It keeps all rows in memory and makes no attempt to be fast.
package Reference;
use strict;
use warnings;
use Exporter 'import';
our @EXPORT_OK = qw(check_file fill_file);

my $P     = 2147483647;
my $LIMIT = 65536;

my %OPERATIONS = (
    ram   => ['access'],
    rom   => ['look'],
    set   => ['member'],
    stack => ['push', 'pop'],
    queue => ['enqueue', 'dequeue'],
);

# "Columns used", among guard addr value old time version
my %USED = (
    init    => 'value',
    access  => 'guard addr value old time version',
    look    => 'addr old version',
    member  => 'value version',
    push    => 'guard value',
    enqueue => 'guard value',
    pop     => 'guard old time version',
    dequeue => 'guard old',
    range   => 'version',
);
my %USED_END = (
    ram   => 'old time',
    stack => 'old time',
    rom   => 'value version',
    set   => 'value version',
    queue => 'old',
);

# "Other columns hold 0."
sub others {
    my ($used) = @_;
    return [grep { " $used " !~ / $_ / } qw(guard addr value old time version)];
}
my %UNUSED     = map { $_ => others($USED{$_}) } keys %USED;
my %UNUSED_END = map { $_ => others($USED_END{$_}) } keys %USED_END;

# The lines of a file: [text, ended].
sub lines_of {
    my ($bytes) = @_;
    my @lines;
    local $/ = "\n";
    for my $text (split /^/m, $bytes) {
        my $ended = chomp $text;
        push @lines, [$text, $ended];
    }
    return @lines;
}

# The fields of a line that has to have this many, all but the first of them numbers; or undef, for fault 2.
sub fields_of {
    my ($line, $count) = @_;
    my ($text, $ended) = @$line;
    return undef if !$ended || length($text) > 80;
    my $numbers = $count - 1;
    return undef if $text !~ /\A[^,]*(?:,(?:0|[1-9][0-9]{0,9})){$numbers}\z/;
    my ($name, @numbers) = split /,/, $text, -1;
    return [$name, map { $_ + 0 } @numbers];
}

sub names_fault {
    my ($line, $names) = @_;
    return 1 if $line->[0] ne $names;
    return $line->[1] ? 0 : 2;
}

sub size_allowed {
    my ($memory, $size, $count, $limit) = @_;
    return 0 if $count > $limit || $size > $limit;
    return 0 if ($memory eq 'stack' || $memory eq 'queue') && $size != 0;
    return 1;
}

# 6: "guard above 1, or an unused column not 0". A row of the filler's input has no columns old, time and version.
sub well_formed {
    my ($memory, $row) = @_;
    return 0 if $row->{guard} > 1;
    for my $column (@{ $row->{op} eq 'end' ? $UNUSED_END{$memory} : $UNUSED{ $row->{op} } }) {
        return 0 if defined $row->{$column} && $row->{$column} != 0;
    }
    return 1;
}

sub modulo { my ($x) = @_; $x %= $P; return $x; }

# The product of the factors of records [x, y] or [x, y, z].
sub product {
    my ($challenge, @records) = @_;
    my ($r, $a, $b, $c) = @$challenge;
    my $product = 1;
    for my $record (@records) {
        my ($x, $y, $z) = (@$record, 0);
        my $sum = ($a * $x % $P + $b * $y % $P + $c * $z % $P) % $P;
        $product = $product * modulo($r - $sum) % $P;
    }
    return $product;
}

sub hash_of {
    my ($r, @elements) = @_;
    my $hash = 0;
    $hash = ($hash * $r + $_) % $P for @elements;
    return $hash;
}

# Whether depth product or depth refuses the operations: 8.
sub sunk {
    my ($memory, @operations) = @_;
    my ($depth, $product) = (0, 1);
    for my $row (@operations) {
        if ($row->{op} eq 'push' || $row->{op} eq 'enqueue') {
            $depth += $row->{guard};
        } else {
            $product = $product * modulo($depth + 1 - $row->{guard}) % $P;
            $depth -= $row->{guard};
        }
    }
    return $memory eq 'stack' ? $depth < 0 : $memory eq 'queue' ? $product == 0 : 0;
}

sub depth_after {
    my $depth = 0;
    for my $row (@_) {
        $depth += $row->{guard} if $row->{op} eq 'push' || $row->{op} eq 'enqueue';
        $depth -= $row->{guard} if $row->{op} eq 'pop'  || $row->{op} eq 'dequeue';
    }
    return $depth;
}

# 9, 10 or 0, of complete rows
sub balance {
    my ($memory, $count, $challenge, $inits, $operations, $ends, $ranges) = @_;
    my (@written, @read, @looked, @in, @out);
    if ($memory eq 'rom') {
        @written = map { [$_, $inits->[$_]{value}, 0] } 0 .. $#$inits;
        for my $row (@$operations) {
            push @read,    [$row->{addr}, $row->{old}, $row->{version}];
            push @written, [$row->{addr}, $row->{old}, $row->{version} + 1];
        }
        push @read, map { [$_, $ends->[$_]{value}, $ends->[$_]{version}] } 0 .. $#$ends;
    } elsif ($memory eq 'set') {
        @written = map { [$_->{value}, 0] } @$inits;
        for my $row (@$operations) {
            push @read,    [$row->{value}, $row->{version}];
            push @written, [$row->{value}, $row->{version} + 1];
        }
        push @read, map { [$_->{value}, $_->{version}] } @$ends;
    } elsif ($memory eq 'ram') {
        @written = map { [$_, $inits->[$_]{value}, 0] } 0 .. $#$inits;
        my $clock = 1;
        for my $row (@$operations) {
            push @read,    [$row->{addr}, $row->{old}, $row->{time}];
            push @looked,  [modulo($clock - $row->{time}), $row->{version}];
            push @written, [$row->{addr}, $row->{guard} ? $row->{value} : $row->{old}, $clock];
            $clock++;
        }
        push @read, map { [$_, $ends->[$_]{old}, $ends->[$_]{time}] } 0 .. $#$ends;
    } elsif ($memory eq 'stack') {
        my ($depth, $clock) = (0, 1);
        for my $row (@$operations) {
            if ($row->{op} eq 'push') {
                $depth = modulo($depth + $row->{guard});
                push @written, [$depth, $row->{value}, $clock] if $row->{guard};
                $clock += $row->{guard};
            } else {
                push @looked, [modulo($clock - $row->{time}), $row->{version}];
                push @read, [$depth, $row->{old}, $row->{time}] if $row->{guard};
                $depth = modulo($depth - $row->{guard});
            }
        }
        push @read, map { [$_ + 1, $ends->[$_]{old}, $ends->[$_]{time}] } 0 .. $#$ends;
    } else {
        for my $row (@$operations) {
            next if !$row->{guard};
            push @in,  $row->{value} if $row->{op} eq 'enqueue';
            push @out, $row->{old}   if $row->{op} eq 'dequeue';
        }
        push @out, map { $_->{old} } @$ends;
    }
    if ($memory eq 'ram' || $memory eq 'stack') {
        my @supplied = ((map { [$_, 0] } 1 .. $count), map { [$_->[0], $_->[1] + 1] } @looked);
        push @looked, map { [$_ + 1, $ranges->[$_]{version}] } 0 .. $#$ranges;
        return 9 if product($challenge, @supplied) != product($challenge, @looked);
    }
    return 10 if product($challenge, @written) != product($challenge, @read);
    return 10 if hash_of($challenge->[0], @in) != hash_of($challenge->[0], @out);
    return 0;
}

sub gates {
    my ($memory, $n, $t, $d, @operations) = @_;
    my $p = grep { $_->{op} eq 'push' || $_->{op} eq 'enqueue' } @operations;
    my $q = grep { $_->{op} eq 'pop'  || $_->{op} eq 'dequeue' } @operations;
    return (4 * $t + 2 * $n, 6 * $t + 2 * $n) if $memory eq 'ram';
    return (2 * $t + $n, 2 * $t + 2 * $n) if $memory eq 'rom';
    return ($t + $n, 2 * $t + 2 * $n) if $memory eq 'set';
    return (3 * $q + $t + 2 * $d, 2 * $p + 4 * $q + $t + $d) if $memory eq 'stack';
    return ($q + $d, 2 * $p + 3 * $q + $d);
}

# What `check` prints for a file, the second line: answer,line,inputs,mults.
sub check_file {
    my ($bytes) = @_;
    my $no = sub { "$_[0],$_[1],0,0" };
    my @lines = lines_of($bytes);
    return $no->(1, 1) if !@lines;
    my $fault = names_fault($lines[0], 'memory,size,count,r,a,b,c');
    return $no->($fault, 1) if $fault;
    return $no->(7, 2) if @lines < 2;
    my $values = fields_of($lines[1], 7);
    return $no->(2, 2) if !$values;
    my ($memory, $n, $t, @challenge) = @$values;
    return $no->(3, 2) if grep { $_ >= $P } $n, $t, @challenge;
    return $no->(4, 2) if !$OPERATIONS{$memory} || !size_allowed($memory, $n, $t, $LIMIT);
    return $no->(7, 3) if @lines < 3;
    $fault = names_fault($lines[2], 'op,guard,addr,value,old,time,version');
    return $no->($fault, 3) if $fault;

    my (@inits, @operations, @ends, @ranges);
    my $ranges_due = $memory eq 'ram' || $memory eq 'stack' ? $t : 0;
    my $ends_due = $memory eq 'stack' || $memory eq 'queue' ? undef : $n;
    my $number = 3;
    for my $line (splice @lines, 3) {
        $number++;
        $ends_due = depth_after(@operations) if !defined $ends_due && @operations == $t;
        my ($part, @due) =
            @inits < $n                                ? (\@inits, 'init')
            : @operations < $t                         ? (\@operations, @{ $OPERATIONS{$memory} })
            : @ends < $ends_due                        ? (\@ends, 'end')
            : @ranges < $ranges_due                    ? (\@ranges, 'range')
            :                                            ();
        return $no->(7, $number) if !$part;
        my $fields = fields_of($line, 7);
        return $no->(2, $number) if !$fields;
        my ($op, @numbers) = @$fields;
        return $no->(3, $number) if grep { $_ >= $P } @numbers;
        return $no->(5, $number) if !grep { $_ eq $op } @due;
        my %row;
        @row{qw(op guard addr value old time version)} = @$fields;
        return $no->(6, $number) if !well_formed($memory, \%row);
        push @$part, \%row;
        return $no->(8, $number) if $part == \@operations && @operations == $t && sunk($memory, @operations);
    }
    $ends_due = depth_after(@operations) if !defined $ends_due && @operations == $t;
    return $no->(7, $number + 1)
        if @inits < $n || @operations < $t || @ends < $ends_due || @ranges < $ranges_due;
    my $answer = balance($memory, $t, \@challenge, \@inits, \@operations, \@ends, \@ranges);
    return $no->($answer, $number) if $answer;
    my ($inputs, $mults) = gates($memory, $n, $t, scalar(@ends), @operations);
    return "0,0,$inputs,$mults";
}

# The advice rows of an honest run, or [number, row].
sub honest {
    my ($memory, $n, $t, @rows) = @_;
    my @inits = map { $_->{value} } @rows[0 .. $n - 1];
    my @operations = @rows[$n .. $#rows];
    my (@out, %seen, @cells);
    my ($place, $clock) = ($n, 1);
    push @out, { %$_, old => 0, time => 0, version => 0 } for @rows[0 .. $n - 1];
    @cells = map { [$_, 0] } @inits if $memory eq 'ram' || $memory eq 'rom';
    my %first;
    for my $i (0 .. $#inits) { $first{ $inits[$i] } //= $i; }
    for my $row (@operations) {
        $place++;
        my %filled = (%$row, old => 0, time => 0, version => 0);
        if ($memory eq 'ram') {
            return [11, $place] if $row->{addr} >= $n;
            my $cell = $cells[$row->{addr}];
            @filled{qw(old time)} = @$cell;
            $filled{version} = $seen{ $clock - $cell->[1] }++ // 0;
            $cells[$row->{addr}] = [$row->{guard} ? $row->{value} : $cell->[0], $clock];
            $clock++;
        } elsif ($memory eq 'rom') {
            return [11, $place] if $row->{addr} >= $n;
            $filled{old} = $inits[$row->{addr}];
            $filled{version} = $seen{ $row->{addr} }++ // 0;
        } elsif ($memory eq 'set') {
            return [13, $place] if !exists $first{ $row->{value} };
            $filled{version} = $seen{ $row->{value} }++ // 0;
        } elsif ($row->{op} eq 'push') {
            if ($row->{guard}) { push @cells, [$row->{value}, $clock]; $clock++; }
        } elsif ($row->{op} eq 'pop') {
            return [12, $place] if $row->{guard} && !@cells;
            my $cell = $row->{guard} ? pop @cells : [0, $clock - 1];
            @filled{qw(old time)} = @$cell;
            $filled{version} = $seen{ $clock - $cell->[1] }++ // 0;
        } elsif ($row->{op} eq 'enqueue') {
            push @cells, [$row->{value}, 0] if $row->{guard};
        } else {
            return [12, $place] if $row->{guard} && !@cells;
            $filled{old} = shift(@cells)->[0] if $row->{guard};
        }
        push @out, \%filled;
    }
    my %end = (op => 'end', guard => 0, addr => 0, value => 0, old => 0, time => 0, version => 0);
    if ($memory eq 'rom') {
        push @out, map { { %end, value => $inits[$_], version => $seen{$_} // 0 } } 0 .. $#inits;
    } elsif ($memory eq 'set') {
        push @out, map { { %end, value => $inits[$_], version => $first{ $inits[$_] } == $_ ? $seen{ $inits[$_] } // 0 : 0 } } 0 .. $#inits;
    } else {
        push @out, map { { %end, old => $_->[0], time => $_->[1] } } @cells;
    }
    if ($memory eq 'ram' || $memory eq 'stack') {
        push @out, map { { %end, op => 'range', version => $seen{$_} // 0 } } 1 .. $t;
    }
    return \@out;
}

# What `fill` prints for its input.
sub fill_file {
    my ($bytes) = @_;
    my $no = sub { "answer,line\n$_[0],$_[1]\n" };
    my @lines = lines_of($bytes);
    return $no->(1, 1) if !@lines;
    my $fault = names_fault($lines[0], 'memory,size,count');
    return $no->($fault, 1) if $fault;
    return $no->(7, 2) if @lines < 2;
    my $values = fields_of($lines[1], 3);
    return $no->(2, 2) if !$values;
    my ($memory, $n, $t) = @$values;
    return $no->(3, 2) if $n >= $P || $t >= $P;
    return $no->(4, 2) if !$OPERATIONS{$memory} || !size_allowed($memory, $n, $t, 128);
    return $no->(7, 3) if @lines < 3;
    $fault = names_fault($lines[2], 'op,guard,addr,value');
    return $no->($fault, 3) if $fault;
    my @rows;
    my $number = 3;
    for my $line (@lines[3 .. $#lines]) {
        $number++;
        return $no->(7, $number) if @rows == $n + $t;
        my $fields = fields_of($line, 4);
        return $no->(2, $number) if !$fields;
        my %row;
        @row{qw(op guard addr value)} = @$fields;
        return $no->(3, $number) if grep { $_ >= $P } @$fields[1 .. 3];
        my @due = @rows < $n ? ('init') : @{ $OPERATIONS{$memory} };
        return $no->(5, $number) if !grep { $_ eq $row{op} } @due;
        return $no->(6, $number) if !well_formed($memory, \%row);
        push @rows, \%row;
    }
    return $no->(7, $number + 1) if @rows < $n + $t;
    my $filled = honest($memory, $n, $t, @rows);
    return $no->($filled->[0], $filled->[1] + 3) if @$filled && !ref $filled->[0];
    my $text = "op,guard,addr,value,old,time,version\n";
    $text .= join(',', @$_{qw(op guard addr value old time version)}) . "\n" for @$filled;
    return $text;
}

1;
