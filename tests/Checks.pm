# What both test programs of `check` have: a case and how it is compared, an accepted file of each memory, and files with the filler's advice.
package Checks;
use strict;
use warnings;
use Exporter qw(import);
use File::Basename qw(dirname);
use lib dirname(__FILE__);
use Harness qw($P header row rows lines unended program_called compare);
use Reference ();

our @EXPORT_OK = qw(
    $program report case through_pipe in_pieces in_large_ones filled spoilt
    @RAM @ROM @SET @STACK @QUEUE @EMPTIED @CHALLENGES
);

# The program under test, by the command's first word.
our $program = program_called($ARGV[0] // 'bin/check');

sub report { my ($values) = @_; return "answer,line,inputs,mults\n$values\n"; }

# case NAME => VALUES, LINES..: the file is those lines, one after the other.
sub case {
    my ($name, $values, @file) = @_;
    my $bytes = join('', @file);
    compare($name, $program, $bytes, report($values), report(Reference::check_file($bytes)));
}

# The file through a pipe that is written in pieces: each a number of bytes, or 'line'.
sub through_pipe {
    my ($pieces, $name, $values, @file) = @_;
    my $bytes = join('', @file);
    my $reference = report(Reference::check_file($bytes));
    for my $piece (@$pieces) {
        my $size = $piece eq 'line' ? 'a line' : $piece == 1 ? '1 byte' : "$piece bytes";
        compare("$name, $size at a time", $program, $bytes, report($values), $reference, piece => $piece);
    }
}
sub in_pieces     { through_pipe([1, 7, 'line'], @_); }
sub in_large_ones { through_pipe([7, 1000, 4096, 65535, 65537, 'line'], @_); }

# An accepted file of each memory. Cases change their lines.

# Lines 4 and 5 init, 6 and 7 operations, 8 and 9 end, 10 and 11 range.
our @RAM = (
    header('ram', 2, 2),
    rows('init,0,0,5,0,0,0 init,0,0,9,0,0,0'),
    rows('access,1,0,7,5,0,0 access,0,0,0,7,1,1'),
    rows('end,0,0,0,7,2,0 end,0,0,0,9,0,0'),
    rows('range,0,0,0,0,0,2 range,0,0,0,0,0,0'),
);

# Lines 4 and 5 init, 6 and 7 operations, 8 and 9 end.
our @ROM = (
    header('rom', 2, 2),
    rows('init,0,0,5,0,0,0 init,0,0,9,0,0,0'),
    rows('look,0,1,0,9,0,0 look,0,1,0,9,0,1'),
    rows('end,0,0,5,0,0,0 end,0,0,9,0,0,2'),
);

# Lines 4 and 5 init, 6 and 7 operations, 8 and 9 end.
our @SET = (
    header('set', 2, 2),
    rows('init,0,0,5,0,0,0 init,0,0,9,0,0,0'),
    rows('member,0,0,5,0,0,0 member,0,0,5,0,0,1'),
    rows('end,0,0,5,0,0,2 end,0,0,9,0,0,0'),
);

# Lines 4 to 7 operations, 8 and 9 end, 10 to 13 range.
our @STACK = (
    header('stack', 0, 4),
    rows('push,1,0,5,0,0,0 push,1,0,6,0,0,0 pop,1,0,0,6,2,0 push,1,0,7,0,0,0'),
    rows('end,0,0,0,5,1,0 end,0,0,0,7,3,0'),
    rows('range,0,0,0,0,0,1 range,0,0,0,0,0,0 range,0,0,0,0,0,0 range,0,0,0,0,0,0'),
);

# Lines 4 to 6 operations, 7 end.
our @QUEUE = (
    header('queue', 0, 3),
    rows('enqueue,1,0,4,0,0,0 enqueue,1,0,6,0,0,0 dequeue,1,0,0,4,0,0'),
    rows('end,0,0,0,6,0,0'),
);

# A queue that meets 8 on its only operation.
our @EMPTIED = (header('queue', 0, 1), rows('dequeue,1,0,0,4,0,0'));

# The file to check of a filler's input, at a challenge.
sub filled {
    my ($input, @challenge) = @_;
    my @values = split /,/, unended($input->[1]);
    my @header = header(@values, @challenge);
    return (@header[0, 1], lines(Reference::fill_file(join('', @$input))));
}

# The same with the number in that field of the last end row raised by 1.
sub spoilt {
    my ($field, @file) = @_;
    my $at = $#file;
    $at-- while $file[$at] !~ /^end/;
    my @fields = split /,/, unended($file[$at]);
    $fields[$field] = ($fields[$field] + 1) % $P;
    $file[$at] = row(@fields);
    return @file;
}

our @CHALLENGES = (
    [100, 1, 2, 3],
    [0, 0, 0, 0],
    [2147483646, 2147483646, 2147483646, 2147483646],
    [1, 0, 0, 0],
    [1804289383, 846930886, 1681692777, 1714636915],
);

1;
