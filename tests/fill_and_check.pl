#!/usr/bin/perl
# Honest runs through both programs of document 01: an input goes to `fill`, what it prints goes to `check` behind a names line and a value
# line, and is accepted at every challenge, with the gates of the table. A run whose rows are then changed is refused.
# Run at the top of the repository: perl tests/fill_and_check.pl [fill [check]]
use strict;
use warnings;
use File::Basename qw(dirname);
use lib dirname(__FILE__);
use Harness qw(header given rows lines with unended honest_input program_called run_program compare counted finish);
use Reference ();

my $fill  = program_called(shift // 'bin/fill');
my $check = program_called(shift // 'bin/check');

my @CHALLENGES = (
    [100, 1, 2, 3],
    [0, 0, 0, 0],
    [2147483646, 2147483646, 2147483646, 2147483646],
    [0, 1, 2, 3],
    [1, 0, 0, 2147483646],
    [1804289383, 846930886, 1681692777, 1714636915],
);

sub report { my ($values) = @_; return "answer,line,inputs,mults\n$values\n"; }

# The first two lines of a file to check, for a filler's input.
sub front {
    my ($input, $challenge) = @_;
    my @values = split /,/, unended($input->[1]);
    return (header(@values, @$challenge))[0, 1];
}

# One honest run: its input filled, and the filled file checked at each challenge.
sub honest {
    my ($name, $gates, @input) = @_;
    my $given = join('', @input);
    my ($rows, $errors) = run_program($fill, $given);
    counted("$name: filled", $rows eq Reference::fill_file($given) && $errors eq '' ? () : 'the reference fills it otherwise');
    for my $challenge (@CHALLENGES) {
        my $bytes = join('', front(\@input, $challenge), $rows);
        compare("$name: accepted at @$challenge", $check, $bytes, report("0,0,$gates"), report(Reference::check_file($bytes)));
    }
    return lines($rows);
}

# A run with one row changed: the number of the row from 1, counted in the filled file, and its text.
sub changed {
    my ($name, $answer, $number, $text, @input) = @_;
    my ($rows) = run_program($fill, join('', @input));
    my @file = with([front(\@input, [100, 1, 2, 3]), lines($rows)], $number + 3 => $text);
    my $bytes = join('', @file);
    compare($name, $check, $bytes, report($answer), report(Reference::check_file($bytes)));
}

# Runs written out. The gates are inputs and multiplications.

honest('empty ram',   '0,0', given('ram', 0, 0));
honest('empty rom',   '0,0', given('rom', 0, 0));
honest('empty set',   '0,0', given('set', 0, 0));
honest('empty stack', '0,0', given('stack', 0, 0));
honest('empty queue', '0,0', given('queue', 0, 0));
honest('ram of document 01',   '12,16', given('ram', 2, 2), rows('init,0,0,5 init,0,0,9 access,1,0,7 access,0,0,0'));
honest('queue of document 01', '2,8',   given('queue', 0, 3), rows('enqueue,1,0,4 enqueue,1,0,6 dequeue,1,0,0'));
honest('set of document 01',   '2,4',   given('set', 1, 1), rows('init,0,0,5 member,0,0,5'));
honest('ram whose loads have values',   '18,26', given('ram', 1, 4), rows('init,0,0,5 access,0,0,8 access,1,0,7 access,0,0,9 access,0,0,7'));
honest('rom of equal contents',         '8,10',  given('rom', 2, 3), rows('init,0,0,5 init,0,0,5 look,0,1,0 look,0,0,0 look,0,1,0'));
honest('set of equal elements',         '6,12',  given('set', 3, 3), rows('init,0,0,5 init,0,0,9 init,0,0,5 member,0,0,5 member,0,0,9 member,0,0,5'));
honest('stack of skipped rows',         '9,13',  given('stack', 0, 3), rows('pop,0,0,0 push,0,0,5 pop,0,0,0'));
honest('stack of skipped and executed', '17,25', given('stack', 0, 6), rows('pop,0,0,0 push,1,0,5 pop,0,0,0 push,0,0,6 push,1,0,7 pop,1,0,0'));
honest('queue of skipped rows',         '2,8',   given('queue', 0, 3), rows('dequeue,0,0,0 enqueue,0,0,5 dequeue,0,0,0'));
honest('queue of skipped and executed', '4,16',  given('queue', 0, 6), rows('dequeue,0,0,0 enqueue,1,0,5 dequeue,0,0,0 enqueue,0,0,6 enqueue,1,0,7 dequeue,1,0,0'));

# Pseudo-random runs: size and count, or executed and skipped additions, executed and skipped removals.

honest('ram 1, 1',       '6,8',       honest_input('ram', 1, 1));
honest('ram 3, 20',      '86,126',    honest_input('ram', 3, 20));
honest('ram 128, 0',     '256,256',   honest_input('ram', 128, 0));
honest('ram 1, 128',     '514,770',   honest_input('ram', 1, 128));
honest('ram 128, 128',   '768,1024',  honest_input('ram', 128, 128));
honest('rom 1, 1',       '3,4',       honest_input('rom', 1, 1));
honest('rom 5, 20',      '45,50',     honest_input('rom', 5, 20));
honest('rom 128, 128',   '384,512',   honest_input('rom', 128, 128));
honest('set 1, 1',       '2,4',       honest_input('set', 1, 1));
honest('set 7, 20',      '27,54',     honest_input('set', 7, 20));
honest('set 128, 128',   '256,512',   honest_input('set', 128, 128));
honest('stack 10, 3, 7, 4',     '63,97',    honest_input('stack', 10, 3, 7, 4));
honest('stack 64, 0, 64, 0',    '320,512',  honest_input('stack', 64, 0, 64, 0));
honest('stack 50, 20, 38, 20',  '326,512',  honest_input('stack', 50, 20, 38, 20));
honest('stack 128, 0, 0, 0',    '384,512',  honest_input('stack', 128, 0, 0, 0));
honest('queue 10, 3, 7, 4',     '14,62',    honest_input('queue', 10, 3, 7, 4));
honest('queue 64, 0, 64, 0',    '64,320',   honest_input('queue', 64, 0, 64, 0));
honest('queue 50, 20, 38, 20',  '70,326',   honest_input('queue', 50, 20, 38, 20));
honest('queue 128, 0, 0, 0',    '128,384',  honest_input('queue', 128, 0, 0, 0));

# Changed rows are refused.

changed('ram: a load of another value'     => '10,11,0,0', 4, 'access,0,0,0,5,1,1',
    given('ram', 2, 2), rows('init,0,0,5 init,0,0,9 access,1,0,7 access,0,0,0'));
changed('ram: a range row'                 => '9,11,0,0', 7, 'range,0,0,0,0,0,1',
    given('ram', 2, 2), rows('init,0,0,5 init,0,0,9 access,1,0,7 access,0,0,0'));
changed('rom: a look at another value'     => '10,6,0,0', 2, 'look,0,0,0,6,0,0', given('rom', 1, 1), rows('init,0,0,5 look,0,0,0'));
changed('set: another member'              => '10,6,0,0', 2, 'member,0,0,6,0,0,0', given('set', 1, 1), rows('init,0,0,5 member,0,0,5'));
changed('stack: a pop of another value'    => '10,7,0,0', 2, 'pop,1,0,0,6,1,0', given('stack', 0, 2), rows('push,1,0,5 pop,1,0,0'));
changed('stack: a skipped pop executed'    => '8,4,0,0', 1, 'pop,1,0,0,0,0,0', given('stack', 0, 1), rows('pop,0,0,0'));
changed('queue: a dequeue of another value' => '10,5,0,0', 2, 'dequeue,1,0,0,6,0,0', given('queue', 0, 2), rows('enqueue,1,0,5 dequeue,1,0,0'));
changed('queue: a skipped dequeue executed' => '8,4,0,0', 1, 'dequeue,1,0,0,0,0,0', given('queue', 0, 1), rows('dequeue,0,0,0'));

finish();
