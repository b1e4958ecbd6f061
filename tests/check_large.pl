#!/usr/bin/perl
# Tests of the program `check` on large files: long lines, lines cut where reads end, pipes, and the largest sizes and counts. Cases are as in tests/check.pl; three of the
# largest are not compared with the reference.
# Run at the top of the repository: perl tests/check_large.pl [program]
use strict;
use warnings;
use File::Basename qw(dirname);
use lib dirname(__FILE__);
use Harness qw($P header row rows with first_lines unended random compare finish);
use Checks qw($program report case through_pipe in_pieces in_large_ones spoilt @RAM @ROM @SET @STACK @QUEUE @EMPTIED @CHALLENGES);

# Long lines, with and without a line feed.

my $LONG = 100000;
for my $feed ("\n", '') {
    my $kind = $feed ? 'long' : 'long and unended';
    case "$kind: line 1 of one letter"                   => '1,1,0,0',  'x' x $LONG, $feed;
    case "$kind: line 1 of NULs"                         => '1,1,0,0',  "\0" x $LONG, $feed;
    case "$kind: line 1 that begins with the names"      => '1,1,0,0',  'memory,size,count,r,a,b,c', 'c' x $LONG, $feed;
    case "$kind: line 2"                                 => '2,2,0,0',  $RAM[0], 'ram,2,2,100,1,2,', '3' x $LONG, $feed;
    case "$kind: line 2 that begins with the values"     => '2,2,0,0',  $RAM[0], 'ram,2,2,100,1,2,3', ' ' x $LONG, $feed;
    case "$kind: line 3"                                 => '1,3,0,0',  first_lines(\@RAM, 2), 'op,guard,addr,value,old,time,version', ',' x $LONG, $feed;
    case "$kind: an init"                                => '2,4,0,0',  first_lines(\@RAM, 3), 'init,0,0,', '0' x $LONG, '5,0,0,0', $feed;
    case "$kind: an op name"                             => '2,4,0,0',  first_lines(\@RAM, 3), 'i' x $LONG, ',0,0,5,0,0,0', $feed;
    case "$kind: an access"                              => '2,7,0,0',  first_lines(\@RAM, 6), 'access,0,0,0,7,1,1', ',0' x ($LONG / 2), $feed;
    case "$kind: an end"                                 => '2,8,0,0',  first_lines(\@RAM, 7), 'end,0,0,0,7,2,0', "\r" x $LONG, $feed;
    case "$kind: a range"                                => '2,11,0,0', first_lines(\@RAM, 10), 'range,0,0,0,0,0,0', "\0" x $LONG, $feed;
    case "$kind: a surplus line"                         => '7,12,0,0', @RAM, 'x' x $LONG, $feed;
    case "$kind: a surplus line in a queue"              => '7,8,0,0',  @QUEUE, 'end,0,0,0,6,0,0,' x ($LONG / 16), $feed;
}
case 'long: an init, then all rows'                      => '2,4,0,0',  first_lines(\@RAM, 3), 'x' x $LONG, "\n", @RAM[3 .. 10];
# What follows the first 65536 bytes of a line is not a line of its own.
case 'long: rows behind 65536 bytes of line 4'           => '2,4,0,0',  first_lines(\@RAM, 3), 'x' x 65536, @RAM[3 .. 10];
case 'long: a file behind 65536 bytes of line 1'         => '1,1,0,0',  ' ' x 65536, @RAM;
case 'long: a file behind 80 bytes of line 1'            => '1,1,0,0',  ' ' x 80, @RAM;
case 'long: rows behind 80 bytes of line 4'              => '2,4,0,0',  first_lines(\@RAM, 3), ' ' x 80, @RAM[3 .. 10];
case 'long: rows behind 81 bytes of line 4'              => '2,4,0,0',  first_lines(\@RAM, 3), ' ' x 81, @RAM[3 .. 10];
case 'long: one million bytes without a line feed'       => '1,1,0,0',  'x' x 1000000;
case 'long: many blank lines'                            => '1,1,0,0',  "\n" x $LONG;
case 'long: many surplus blank lines'                    => '7,12,0,0', @RAM, "\n" x $LONG;

# Lines cut where one read of a file ends and the next begins. A read takes at most a block, so these edges are at the multiples of a block. What
# is printed is the same wherever reads end.

use constant BLOCK => 65536;
my @EDGES = (BLOCK, 2 * BLOCK);

# The files are roms of three cells at c = 0: a look then writes what it reads, whatever stands in it, so that looks of many bytes fill a block
# with few rows. The end rows are held against the init rows as ever.
my @CELLS = (1111111111, 1234567890, 2147483646);
my @ENDS  = map { "end,0,0,$_,0,0,0\n" } @CELLS;

# A look of so many bytes, 17 to 44.
sub look_of {
    my ($bytes) = @_;
    my ($addr, $old, $version) = map { 1 x int(($bytes - 14 + $_) / 3) } 0 .. 2;
    return row('look', 0, $addr, 0, $old, 0, $version);
}

# The beginning of such a rom, of exactly so many bytes: the header, the init rows, and looks. They are all that are due if no count is given.
sub beginning {
    my ($bytes, $count) = @_;
    my @inits = map { "init,0,0,$_,0,0,0\n" } @CELLS;
    my $left  = $bytes - length join('', header('rom', 3, 9999, 100, 1, 2, 0), @inits);
    my $looks = int(($left + 43) / 44);
    my ($each, $longer) = (int($left / $looks), $left % $looks);
    my @lines = (
        header('rom', 3, $count // $looks, 100, 1, 2, 0), @inits,
        (look_of($each)) x ($looks - $longer), $longer ? (look_of($each + 1)) x $longer : (),
    );
    my $length = length join('', @lines);
    die "the beginning has $length bytes, not $bytes\n" if $length != $bytes;
    return @lines;
}

# The values for an accepted rom that begins so: 2T + n and 2T + 2n for three cells. Header and init rows are six lines.
sub accepted_after {
    my $looks = @_ - 6;
    return join(',', 0, 0, 2 * $looks + 3, 2 * $looks + 6);
}

sub refused { my ($answer, $line) = @_; return "$answer,$line,0,0"; }

# A case at each edge: the fault is on the line after a beginning whose looks are not all there. The two texts are what stands behind the
# beginning, up to the edge and from there on.
sub at_edges {
    my ($name, $answer, $before, $after) = @_;
    for my $edge (@EDGES) {
        my @lines = beginning($edge - length $before, 9000);
        case "edge $edge: $name" => refused($answer, @lines + 1), @lines, $before, $after;
    }
}

for my $edge (@EDGES) {
    # An end row has 25 bytes. The edge is before and after each byte of the second, and of the last line feed.
    for my $bytes (25 .. 50, 74, 75) {
        my @lines = beginning($edge - $bytes);
        case "edge $edge: accepted, after byte $bytes of the end rows" => accepted_after(@lines), @lines, @ENDS;
    }
    my @lines = beginning($edge - 40);
    case "edge $edge: a false restatement cut by it"     => refused(10, @lines + 3), @lines, $ENDS[0], "end,0,0,1234567891,0,0,0\n", $ENDS[2];
    @lines = beginning($edge - 50);
    case "edge $edge: the last row is missing after it"  => refused(7, @lines + 3), @lines, @ENDS[0, 1];
    my @file = (beginning($edge - 75), @ENDS);
    my $last = @file;
    case "edge $edge: the last line feed is missing before it" => refused(2, $last), unended(@file);
    case "edge $edge: a false restatement before it"     => refused(10, $last), with(\@file, $last => 'end,0,0,2147483645,0,0,0');
    case "edge $edge: a surplus line feed after it"      => refused(7, $last + 1), @file, "\n";
    case "edge $edge: a surplus byte after it"           => refused(7, $last + 1), @file, 'x';
    @file = (beginning($edge - 77), @ENDS);
    $last = @file;
    case "edge $edge: a surplus line cut by it"          => refused(7, $last + 1), @file, "xxxx\n";
    @file = (beginning($edge - 74), @ENDS);
    case "edge $edge: the last line feed is missing after it" => refused(2, scalar @file), unended(@file);
    @lines = beginning($edge - 1, 9000);
    case "edge $edge: rows end a byte before it"         => refused(7, @lines + 1), @lines;
    @lines = beginning($edge + 1, 9000);
    case "edge $edge: rows end a byte after it"          => refused(7, @lines + 1), @lines;
    # The header of that ram has 81 bytes.
    case "edge $edge: a long line cut before a row"      => '2,4,0,0', first_lines(\@RAM, 3), 'x' x ($edge - 81), @RAM[3 .. 10];
    case "edge $edge: a long line ends before it"        => '2,4,0,0', first_lines(\@RAM, 3), 'x' x ($edge - 82), "\n", @RAM[3 .. 10];
    case "edge $edge: a long line ends a byte after it"  => '2,4,0,0', first_lines(\@RAM, 3), 'x' x ($edge - 81), "\n", @RAM[3 .. 10];
}
at_edges('rows end with it'                              => 7, '', '');
at_edges('one byte after it, unended'                    => 2, '', 'l');
at_edges('one byte before it, unended'                   => 2, 'l', '');
at_edges('an unended row cut by it'                      => 2, 'look,0', ',0,0,5,0,0');
at_edges('an unended row up to it'                       => 2, 'look,0,0,0,5,0,0', '');
at_edges('a blank line before it'                        => 2, "\n", '');
at_edges('a blank line after it'                         => 2, '', "\n");
at_edges('05 cut after the 0'                            => 2, 'look,0,0,0,0', "5,0,0\n");
at_edges('05 cut before the 0'                           => 2, 'look,0,0,0,', "05,0,0\n");
at_edges('an empty number cut before its comma'          => 2, 'look,0,0,0,', ",0,0\n");
at_edges('p cut after five digits'                       => 3, 'look,0,0,0,21474', "83647,0,0\n");
at_edges('p as the last number cut after one digit'      => 3, 'look,0,0,0,5,0,2', "147483647\n");
at_edges('11 digits cut after ten'                       => 2, 'look,0,0,0,1000000000', "0,0,0\n");
at_edges('an op cut after two letters'                   => 5, 'lo', "ox,0,0,0,5,0,0\n");
at_edges('an op that goes on after its first letters'    => 5, 'look', "s,0,0,0,5,0,0\n");
at_edges('an op of another memory, cut'                  => 5, 'acc', "ess,0,0,0,5,0,0\n");
at_edges('8 fields cut before the last comma'            => 2, 'look,0,0,0,5,0,0', ",0\n");
at_edges('6 fields cut before the line feed'             => 2, 'look,0,0,0,5,0', "\n");
at_edges('two rows on one line, cut between them'        => 2, 'look,0,0,0,5,0,0', "look,0,0,0,5,0,0\n");
at_edges('guard 1 before it'                             => 6, 'look,1', ",0,0,5,0,0\n");
at_edges('guard 1 after it'                              => 6, 'look,', "1,0,0,5,0,0\n");
# A line of 80 bytes with an op that is unknown is 5, one of 81 bytes 2, wherever the edge cuts it. Without its first or last byte the longer one would
# be 5 too. The last cut is after the line feed.
for my $text ('x' x 66 . ",0,0,0,0,0,100\n", 'x' x 67 . ",0,0,0,0,0,100\n") {
    my $length = length($text) - 1;
    for my $before (0, 1, 40, 79 .. $length + 1) {
        at_edges("$length bytes cut after $before"       => $length > 80 ? 2 : 5, substr($text, 0, $before), substr($text, $before));
    }
}
at_edges('a long line cut by it and a block later'       => 2, 'x' x 36, 'x' x (BLOCK + 100) . "\n" . $ENDS[0]);
my @BLOCKS = (beginning(2 * BLOCK - 75), @ENDS);
case 'edge: a refusal, then further blocks'              => '6,4,0,0', with(\@BLOCKS, 4 => 'init,1,0,5,0,0,0'), @BLOCKS;

# The same answers through a pipe that is written in small pieces.

in_pieces('pipe: empty file'                             => '1,1,0,0', '');
in_pieces('pipe: ram'                                    => '0,0,12,16', @RAM);
in_pieces('pipe: rom'                                    => '0,0,6,8', @ROM);
in_pieces('pipe: set'                                    => '0,0,4,8', @SET);
in_pieces('pipe: stack'                                  => '0,0,11,16', @STACK);
in_pieces('pipe: queue'                                  => '0,0,2,8', @QUEUE);
in_pieces('pipe: ram, a load of another value'           => '10,11,0,0', with(\@RAM, 7 => 'access,0,0,0,5,1,1'));
in_pieces('pipe: a wrong names line'                     => '1,3,0,0', with(\@RAM, 3 => 'op,guard,addr,value,old,time,versio'));
in_pieces('pipe: a leading zero'                         => '2,8,0,0', with(\@RAM, 8 => 'end,0,0,0,07,2,0'));
in_pieces('pipe: an unended last line'                   => '2,11,0,0', unended(@RAM));
in_pieces('pipe: 80 bytes'                               => '5,6,0,0', with(\@RAM, 6 => 'x' x 68 . ',0,0,0,0,0,0'));
in_pieces('pipe: 81 bytes'                               => '2,6,0,0', with(\@RAM, 6 => 'x' x 69 . ',0,0,0,0,0,0'));
in_pieces('pipe: a surplus line'                         => '7,12,0,0', @RAM, "\n");
in_pieces('pipe: 8, then garbage'                        => '8,4,0,0', @EMPTIED, "...\n" x 10);
in_large_ones('pipe: two blocks'                         => accepted_after(first_lines(\@BLOCKS, @BLOCKS - 3)), @BLOCKS);
in_large_ones('pipe: a long line'                        => '2,7,0,0', first_lines(\@RAM, 6), 'x' x $LONG, "\n", @RAM[6 .. 10]);

# A refusal does not end the reading. These files are several times what a pipe holds, so that a write fails if nobody reads on.

sub in_pages { through_pipe([4096], @_); }
in_pages('pipe: line 1 refused, then six blocks'         => '1,1,0,0', "x\n", (@BLOCKS) x 3);
in_pages('pipe: line 1 of six blocks, unended'           => '1,1,0,0', 'x' x (6 * BLOCK));
in_pages('pipe: line 2 refused, then six blocks'         => '4,2,0,0', with([header('tape', 0, 0)], 3 => 'x'), (@BLOCKS) x 3);
in_pages('pipe: a row refused, then six blocks'          => '6,4,0,0', with(\@RAM, 4 => 'init,1,0,5,0,0,0'), (@BLOCKS) x 3);
in_pages('pipe: 8, then six blocks'                      => '8,4,0,0', @EMPTIED, (@BLOCKS) x 3);
in_pages('pipe: a surplus line and six blocks'           => '7,12,0,0', @RAM, "\n", (@BLOCKS) x 3);

# A ram, a rom and a set of the largest size and count, filled honestly.

sub largest_ram {
    my $size  = 65536;
    my @cells = map { random($P) } 1 .. $size;
    my @times = (0) x $size;
    my @seen  = (0) x ($size + 1);
    my @file  = (header('ram', $size, $size, 1804289383, 846930886, 1681692777, 1714636915), map { "init,0,0,$_,0,0,0\n" } @cells);
    for my $clock (1 .. $size) {
        my ($guard, $addr, $value) = (random(2), random($size), random($P));
        my ($old, $time) = ($cells[$addr], $times[$addr]);
        my $version = $seen[$clock - $time]++;
        push @file, "access,$guard,$addr,$value,$old,$time,$version\n";
        $cells[$addr] = $value if $guard;
        $times[$addr] = $clock;
    }
    push @file, map { "end,0,0,0,$cells[$_],$times[$_],0\n" } 0 .. $size - 1;
    push @file, map { "range,0,0,0,0,0,$_\n" } @seen[1 .. $size];
    return @file;
}

# A rom or a set, without equal elements.
sub largest_table {
    my ($memory) = @_;
    my $size  = 65536;
    my @cells = map { 32767 * $_ - random(32767) } 1 .. $size;
    my @seen  = (0) x $size;
    my @file  = (header($memory, $size, $size, @{ $CHALLENGES[4] }), map { "init,0,0,$_,0,0,0\n" } @cells);
    for (1 .. $size) {
        my $cell = random($size);
        my $version = $seen[$cell]++;
        push @file, $memory eq 'rom' ? "look,0,$cell,0,$cells[$cell],0,$version\n" : "member,0,0,$cells[$cell],0,0,$version\n";
    }
    return join('', @file, map { "end,0,0,$cells[$_],0,0,$seen[$_]\n" } 0 .. $size - 1);
}

my @LARGEST = largest_ram();
case 'largest: ram'                                      => '0,0,393216,524288', @LARGEST;
case 'largest: ram with one value changed'               => '10,262147,0,0', spoilt(4, @LARGEST);
@LARGEST = ();
# The reference would take more than a second for each of the cases that are stated.
sub stated {
    my ($name, $values, @file) = @_;
    compare($name, $program, join('', @file), report($values), report($values));
}
stated 'largest: rom'                                    => '0,0,196608,262144', largest_table('rom');
stated 'largest: set'                                    => '0,0,131072,262144', largest_table('set');
# The depth reaches 65536.
case 'largest: queue of enqueues'                        => '0,0,65536,196608', header('queue', 0, 65536),
    (map { "enqueue,1,0,$_,0,0,0\n" } 1 .. 65536), (map { "end,0,0,0,$_,0,0\n" } 1 .. 65536);
stated 'largest: stack of pushes'                        => '0,0,196608,262144', header('stack', 0, 65536),
    (map { "push,1,0,$_,0,0,0\n" } 1 .. 65536), (map { "end,0,0,0,$_,$_,0\n" } 1 .. 65536), ("range,0,0,0,0,0,0\n") x 65536;
# The depth falls to -65536.
case 'largest: queue of dequeues'                        => '8,65539,0,0', header('queue', 0, 65536), ("dequeue,1,0,0,0,0,0\n") x 65536;
case 'largest: stack of pops'                            => '8,65539,0,0', header('stack', 0, 65536), ("pop,1,0,0,0,0,0\n") x 65536;

finish();
