#!/usr/bin/perl
# Tests of the program `fill` of document 01: inputs go to its standard input, and what it prints is compared to the byte.
# A case is a name, what document 01 prescribes, worked out by hand, and the input. Of a refusal the two values are given, of a filled file
# the rows. What tests/Reference.pm prints for the input is compared with the same. After the named cases come mutated inputs, for which
# the reference alone says what is right.
# Run at the top of the repository: perl tests/fill.pl [program]
use strict;
use warnings;
use File::Basename qw(dirname);
use lib dirname(__FILE__);
use Harness qw(
    given rows with first_lines unended random honest_input mutated
    program_called compare counted unreadable_input unwritable_output finish
);
use Reference ();

my $program = program_called(shift // 'bin/fill');

my $ROW_NAMES = "op,guard,addr,value,old,time,version\n";

sub case {
    my ($name, $expected, $bytes, @more) = @_;
    compare($name, $program, $bytes, $expected, Reference::fill_file($bytes), @more);
}

# refused NAME => VALUES, LINES..: answer and line.
sub refused {
    my ($name, $values, @input) = @_;
    case($name, "answer,line\n$values\n", join('', @input));
}

# filled NAME => [LINES..], LINES..: the rows, and the input.
sub filled {
    my ($name, $rows, @input) = @_;
    case($name, join('', $ROW_NAMES, @$rows), join('', @input));
}

# An input of each memory and its rows. Cases below change their lines.

my @RAM = (given('ram', 2, 2), rows('init,0,0,5 init,0,0,9 access,1,0,7 access,0,0,0'));
my @RAM_ROWS = (
    rows('init,0,0,5,0,0,0 init,0,0,9,0,0,0 access,1,0,7,5,0,0 access,0,0,0,7,1,1'),
    rows('end,0,0,0,7,2,0 end,0,0,0,9,0,0 range,0,0,0,0,0,2 range,0,0,0,0,0,0'),
);
my @ROM = (given('rom', 2, 2), rows('init,0,0,5 init,0,0,9 look,0,1,0 look,0,1,0'));
my @ROM_ROWS = rows('init,0,0,5,0,0,0 init,0,0,9,0,0,0 look,0,1,0,9,0,0 look,0,1,0,9,0,1 end,0,0,5,0,0,0 end,0,0,9,0,0,2');
my @SET = (given('set', 2, 2), rows('init,0,0,5 init,0,0,9 member,0,0,5 member,0,0,5'));
my @SET_ROWS = rows('init,0,0,5,0,0,0 init,0,0,9,0,0,0 member,0,0,5,0,0,0 member,0,0,5,0,0,1 end,0,0,5,0,0,2 end,0,0,9,0,0,0');
my @STACK = (given('stack', 0, 4), rows('push,1,0,5 push,1,0,6 pop,1,0,0 push,1,0,7'));
my @STACK_ROWS = (
    rows('push,1,0,5,0,0,0 push,1,0,6,0,0,0 pop,1,0,0,6,2,0 push,1,0,7,0,0,0 end,0,0,0,5,1,0 end,0,0,0,7,3,0'),
    rows('range,0,0,0,0,0,1 range,0,0,0,0,0,0 range,0,0,0,0,0,0 range,0,0,0,0,0,0'),
);
my @QUEUE = (given('queue', 0, 3), rows('enqueue,1,0,4 enqueue,1,0,6 dequeue,1,0,0'));
my @QUEUE_ROWS = rows('enqueue,1,0,4,0,0,0 enqueue,1,0,6,0,0,0 dequeue,1,0,0,4,0,0 end,0,0,0,6,0,0');

# Filled files.

filled 'ram, the example of document 01'           => \@RAM_ROWS, @RAM;
filled 'rom'                                       => \@ROM_ROWS, @ROM;
filled 'set'                                       => \@SET_ROWS, @SET;
filled 'stack'                                     => \@STACK_ROWS, @STACK;
filled 'queue, the example of document 01'         => \@QUEUE_ROWS, @QUEUE;
filled 'ram of size 0 and count 0'                 => [], given('ram', 0, 0);
filled 'rom of size 0 and count 0'                 => [], given('rom', 0, 0);
filled 'set of size 0 and count 0'                 => [], given('set', 0, 0);
filled 'stack of count 0'                          => [], given('stack', 0, 0);
filled 'queue of count 0'                          => [], given('queue', 0, 0);
filled 'ram of size 1 and count 0'                 => [rows('init,0,0,5,0,0,0 end,0,0,0,5,0,0')], given('ram', 1, 0), rows('init,0,0,5');
filled 'rom of size 1 and count 0'                 => [rows('init,0,0,5,0,0,0 end,0,0,5,0,0,0')], given('rom', 1, 0), rows('init,0,0,5');
filled 'set of size 1 and count 0'                 => [rows('init,0,0,5,0,0,0 end,0,0,5,0,0,0')], given('set', 1, 0), rows('init,0,0,5');
filled 'ram: a load'                               => [rows('init,0,0,5,0,0,0 access,0,0,0,5,0,0 end,0,0,0,5,1,0 range,0,0,0,0,0,1')],
    given('ram', 1, 1), rows('init,0,0,5 access,0,0,0');
filled 'ram: a store'                              => [rows('init,0,0,5,0,0,0 access,1,0,7,5,0,0 end,0,0,0,7,1,0 range,0,0,0,0,0,1')],
    given('ram', 1, 1), rows('init,0,0,5 access,1,0,7');
filled 'ram: the value of a load is copied, not stored' => [rows('init,0,0,5,0,0,0 access,0,0,77,5,0,0 end,0,0,0,5,1,0 range,0,0,0,0,0,1')],
    given('ram', 1, 1), rows('init,0,0,5 access,0,0,77');
# Time is the clock of the last access, not of the last store.
filled 'ram: a load writes too'                    => [
    rows('init,0,0,5,0,0,0 access,1,0,7,5,0,0 access,0,0,0,7,1,1 access,0,0,0,7,2,2'),
    rows('end,0,0,0,7,3,0 range,0,0,0,0,0,3 range,0,0,0,0,0,0 range,0,0,0,0,0,0'),
], given('ram', 1, 3), rows('init,0,0,5 access,1,0,7 access,0,0,0 access,0,0,0');
filled 'ram: ages 1, 2 and 2'                      => [
    rows('init,0,0,5,0,0,0 init,0,0,9,0,0,0 access,0,0,0,5,0,0 access,1,1,8,9,0,0 access,1,0,6,5,1,1'),
    rows('end,0,0,0,6,3,0 end,0,0,0,8,2,0 range,0,0,0,0,0,1 range,0,0,0,0,0,2 range,0,0,0,0,0,0'),
], given('ram', 2, 3), rows('init,0,0,5 init,0,0,9 access,0,0,0 access,1,1,8 access,1,0,6');
filled 'ram: a late first access'                  => [
    rows('init,0,0,5,0,0,0 init,0,0,9,0,0,0 access,0,0,0,5,0,0 access,0,0,0,5,1,1 access,0,1,0,9,0,0'),
    rows('end,0,0,0,5,2,0 end,0,0,0,9,3,0 range,0,0,0,0,0,2 range,0,0,0,0,0,0 range,0,0,0,0,0,1'),
], given('ram', 2, 3), rows('init,0,0,5 init,0,0,9 access,0,0,0 access,0,0,0 access,0,1,0');
filled 'ram: cells that nobody touches'            => [
    rows('init,0,0,1,0,0,0 init,0,0,2,0,0,0 init,0,0,3,0,0,0 access,1,1,0,2,0,0'),
    rows('end,0,0,0,1,0,0 end,0,0,0,0,1,0 end,0,0,0,3,0,0 range,0,0,0,0,0,1'),
], given('ram', 3, 1), rows('init,0,0,1 init,0,0,2 init,0,0,3 access,1,1,0');
filled 'ram: values of p - 1'                      => [
    rows('init,0,0,2147483646,0,0,0 access,1,0,2147483646,2147483646,0,0 end,0,0,0,2147483646,1,0 range,0,0,0,0,0,1'),
], given('ram', 1, 1), rows('init,0,0,2147483646 access,1,0,2147483646');
filled 'ram: the largest address'                  => [
    rows('init,0,0,1,0,0,0 init,0,0,2,0,0,0 access,0,1,0,2,0,0 end,0,0,0,1,0,0 end,0,0,0,2,1,0 range,0,0,0,0,0,1'),
], given('ram', 2, 1), rows('init,0,0,1 init,0,0,2 access,0,1,0');
filled 'rom: versions by address'                  => [
    rows('init,0,0,5,0,0,0 init,0,0,9,0,0,0 look,0,0,0,5,0,0 look,0,1,0,9,0,0 look,0,0,0,5,0,1 end,0,0,5,0,0,2 end,0,0,9,0,0,1'),
], given('rom', 2, 3), rows('init,0,0,5 init,0,0,9 look,0,0,0 look,0,1,0 look,0,0,0');
filled 'rom: equal contents keep versions apart'   => [
    rows('init,0,0,5,0,0,0 init,0,0,5,0,0,0 look,0,1,0,5,0,0 look,0,0,0,5,0,0 look,0,1,0,5,0,1 end,0,0,5,0,0,1 end,0,0,5,0,0,2'),
], given('rom', 2, 3), rows('init,0,0,5 init,0,0,5 look,0,1,0 look,0,0,0 look,0,1,0');
filled 'rom: contents 0 and p - 1'                 => [
    rows('init,0,0,0,0,0,0 init,0,0,2147483646,0,0,0 look,0,0,0,0,0,0 look,0,1,0,2147483646,0,0 end,0,0,0,0,0,1 end,0,0,2147483646,0,0,1'),
], given('rom', 2, 2), rows('init,0,0,0 init,0,0,2147483646 look,0,0,0 look,0,1,0');
filled 'set: two equal elements'                   => [
    rows('init,0,0,5,0,0,0 init,0,0,5,0,0,0 member,0,0,5,0,0,0 member,0,0,5,0,0,1 end,0,0,5,0,0,2 end,0,0,5,0,0,0'),
], given('set', 2, 2), rows('init,0,0,5 init,0,0,5 member,0,0,5 member,0,0,5');
filled 'set: equal elements with another between'  => [
    rows('init,0,0,5,0,0,0 init,0,0,9,0,0,0 init,0,0,5,0,0,0 member,0,0,5,0,0,0 member,0,0,9,0,0,0 member,0,0,5,0,0,1'),
    rows('end,0,0,5,0,0,2 end,0,0,9,0,0,1 end,0,0,5,0,0,0'),
], given('set', 3, 3), rows('init,0,0,5 init,0,0,9 init,0,0,5 member,0,0,5 member,0,0,9 member,0,0,5');
filled 'set: equal elements that nobody looks up'  => [
    rows('init,0,0,5,0,0,0 init,0,0,5,0,0,0 init,0,0,9,0,0,0 member,0,0,9,0,0,0 end,0,0,5,0,0,0 end,0,0,5,0,0,0 end,0,0,9,0,0,1'),
], given('set', 3, 1), rows('init,0,0,5 init,0,0,5 init,0,0,9 member,0,0,9');
filled 'set: elements 0 and p - 1'                 => [
    rows('init,0,0,0,0,0,0 init,0,0,2147483646,0,0,0 member,0,0,2147483646,0,0,0 member,0,0,0,0,0,0 end,0,0,0,0,0,1 end,0,0,2147483646,0,0,1'),
], given('set', 2, 2), rows('init,0,0,0 init,0,0,2147483646 member,0,0,2147483646 member,0,0,0');
filled 'set: elements in falling order'            => [
    rows('init,0,0,9,0,0,0 init,0,0,5,0,0,0 init,0,0,7,0,0,0 member,0,0,7,0,0,0 member,0,0,9,0,0,0 end,0,0,9,0,0,1 end,0,0,5,0,0,0 end,0,0,7,0,0,1'),
], given('set', 3, 2), rows('init,0,0,9 init,0,0,5 init,0,0,7 member,0,0,7 member,0,0,9');
filled 'stack: a push'                             => [rows('push,1,0,5,0,0,0 end,0,0,0,5,1,0 range,0,0,0,0,0,0')], given('stack', 0, 1), rows('push,1,0,5');
filled 'stack: a skipped push with a value'        => [rows('push,0,0,5,0,0,0 range,0,0,0,0,0,0')], given('stack', 0, 1), rows('push,0,0,5');
filled 'stack: a skipped pop on empty'             => [rows('pop,0,0,0,0,0,0 range,0,0,0,0,0,1')], given('stack', 0, 1), rows('pop,0,0,0');
filled 'stack: a skipped push does not move the clock' => [
    rows('push,1,0,5,0,0,0 push,0,0,9,0,0,0 push,1,0,6,0,0,0 end,0,0,0,5,1,0 end,0,0,0,6,2,0'),
    rows('range,0,0,0,0,0,0 range,0,0,0,0,0,0 range,0,0,0,0,0,0'),
], given('stack', 0, 3), rows('push,1,0,5 push,0,0,9 push,1,0,6');
filled 'stack: a pop does not move the clock'      => [
    rows('push,1,0,5,0,0,0 push,1,0,6,0,0,0 pop,1,0,0,6,2,0 pop,1,0,0,5,1,0'),
    rows('range,0,0,0,0,0,1 range,0,0,0,0,0,1 range,0,0,0,0,0,0 range,0,0,0,0,0,0'),
], given('stack', 0, 4), rows('push,1,0,5 push,1,0,6 pop,1,0,0 pop,1,0,0');
filled 'stack: a skipped pop has the time clock - 1' => [
    rows('push,1,0,5,0,0,0 push,1,0,6,0,0,0 pop,0,0,0,0,2,0 end,0,0,0,5,1,0 end,0,0,0,6,2,0'),
    rows('range,0,0,0,0,0,1 range,0,0,0,0,0,0 range,0,0,0,0,0,0'),
], given('stack', 0, 3), rows('push,1,0,5 push,1,0,6 pop,0,0,0');
filled 'stack: versions count skipped pops'        => [
    rows('push,1,0,5,0,0,0 pop,0,0,0,0,1,0 pop,1,0,0,5,1,1 range,0,0,0,0,0,2 range,0,0,0,0,0,0 range,0,0,0,0,0,0'),
], given('stack', 0, 3), rows('push,1,0,5 pop,0,0,0 pop,1,0,0');
filled 'stack: versions by age'                    => [
    rows('push,1,0,5,0,0,0 push,1,0,6,0,0,0 pop,1,0,0,6,2,0 push,1,0,7,0,0,0 pop,1,0,0,7,3,1 pop,1,0,0,5,1,0'),
    rows('range,0,0,0,0,0,2 range,0,0,0,0,0,0 range,0,0,0,0,0,1 range,0,0,0,0,0,0 range,0,0,0,0,0,0 range,0,0,0,0,0,0'),
], given('stack', 0, 6), rows('push,1,0,5 push,1,0,6 pop,1,0,0 push,1,0,7 pop,1,0,0 pop,1,0,0');
filled 'stack: values 0 and p - 1'                 => [
    rows('push,1,0,0,0,0,0 push,1,0,2147483646,0,0,0 end,0,0,0,0,1,0 end,0,0,0,2147483646,2,0 range,0,0,0,0,0,0 range,0,0,0,0,0,0'),
], given('stack', 0, 2), rows('push,1,0,0 push,1,0,2147483646');
filled 'queue: an enqueue'                         => [rows('enqueue,1,0,5,0,0,0 end,0,0,0,5,0,0')], given('queue', 0, 1), rows('enqueue,1,0,5');
filled 'queue: a skipped enqueue with a value'     => [rows('enqueue,0,0,5,0,0,0')], given('queue', 0, 1), rows('enqueue,0,0,5');
filled 'queue: a skipped dequeue on empty'         => [rows('dequeue,0,0,0,0,0,0')], given('queue', 0, 1), rows('dequeue,0,0,0');
filled 'queue: a skipped dequeue takes nothing'    => [rows('enqueue,1,0,5,0,0,0 dequeue,0,0,0,0,0,0 end,0,0,0,5,0,0')],
    given('queue', 0, 2), rows('enqueue,1,0,5 dequeue,0,0,0');
filled 'queue: first in, first out'                => [
    rows('enqueue,1,0,4,0,0,0 enqueue,0,0,8,0,0,0 enqueue,1,0,6,0,0,0 dequeue,1,0,0,4,0,0 enqueue,1,0,7,0,0,0 dequeue,1,0,0,6,0,0 end,0,0,0,7,0,0'),
], given('queue', 0, 6), rows('enqueue,1,0,4 enqueue,0,0,8 enqueue,1,0,6 dequeue,1,0,0 enqueue,1,0,7 dequeue,1,0,0');
filled 'queue: ends from the front'                => [
    rows('enqueue,1,0,4,0,0,0 enqueue,1,0,0,0,0,0 enqueue,1,0,6,0,0,0 end,0,0,0,4,0,0 end,0,0,0,0,0,0 end,0,0,0,6,0,0'),
], given('queue', 0, 3), rows('enqueue,1,0,4 enqueue,1,0,0 enqueue,1,0,6');
filled 'queue: emptied twice'                      => [
    rows('enqueue,1,0,4,0,0,0 dequeue,1,0,0,4,0,0 enqueue,1,0,6,0,0,0 dequeue,1,0,0,6,0,0'),
], given('queue', 0, 4), rows('enqueue,1,0,4 dequeue,1,0,0 enqueue,1,0,6 dequeue,1,0,0');

# Size and count of 128.

filled 'limits: ram, each cell loaded once'        => [
    (map { "init,0,0,$_,0,0,0\n" } 1 .. 128),
    (map { my $addr = $_ - 1; "access,0,$addr,0,$_,0,0\n" } 1 .. 128),
    (map { "end,0,0,0,$_,$_,0\n" } 1 .. 128),
    ("range,0,0,0,0,0,1\n") x 128,
], given('ram', 128, 128), (map { "init,0,0,$_\n" } 1 .. 128), (map { "access,0,$_,0\n" } 0 .. 127);
filled 'limits: ram, one cell stored 128 times'    => [
    "init,0,0,0,0,0,0\n",
    (map { my $before = $_ - 1; "access,1,0,$_,$before,$before,$before\n" } 1 .. 128),
    "end,0,0,0,128,128,0\n",
    "range,0,0,0,0,0,128\n",
    ("range,0,0,0,0,0,0\n") x 127,
], given('ram', 1, 128), "init,0,0,0\n", (map { "access,1,0,$_\n" } 1 .. 128);
filled 'limits: ram of count 0'                    => [
    (map { "init,0,0,$_,0,0,0\n" } 1 .. 128),
    (map { "end,0,0,0,$_,0,0\n" } 1 .. 128),
], given('ram', 128, 0), (map { "init,0,0,$_\n" } 1 .. 128);
filled 'limits: rom'                               => [
    (map { "init,0,0,$_,0,0,0\n" } 1 .. 128),
    (map { "look,0,127,0,128,0,$_\n" } 0 .. 127),
    (map { "end,0,0,$_,0,0,0\n" } 1 .. 127),
    "end,0,0,128,0,0,128\n",
], given('rom', 128, 128), (map { "init,0,0,$_\n" } 1 .. 128), ("look,0,127,0\n") x 128;
filled 'limits: set of one element 128 times'      => [
    ("init,0,0,5,0,0,0\n") x 128,
    (map { "member,0,0,5,0,0,$_\n" } 0 .. 127),
    "end,0,0,5,0,0,128\n",
    ("end,0,0,5,0,0,0\n") x 127,
], given('set', 128, 128), ("init,0,0,5\n") x 128, ("member,0,0,5\n") x 128;
filled 'limits: set, each element looked up once'  => [
    (map { "init,0,0,$_,0,0,0\n" } reverse 1 .. 128),
    (map { "member,0,0,$_,0,0,0\n" } 1 .. 128),
    (map { "end,0,0,$_,0,0,1\n" } reverse 1 .. 128),
], given('set', 128, 128), (map { "init,0,0,$_\n" } reverse 1 .. 128), (map { "member,0,0,$_\n" } 1 .. 128);
filled 'limits: stack, 128 pushes'                 => [
    (map { "push,1,0,$_,0,0,0\n" } 1 .. 128),
    (map { "end,0,0,0,$_,$_,0\n" } 1 .. 128),
    ("range,0,0,0,0,0,0\n") x 128,
], given('stack', 0, 128), (map { "push,1,0,$_\n" } 1 .. 128);
filled 'limits: stack, 64 pushes and 64 pops'      => [
    (map { "push,1,0,$_,0,0,0\n" } 1 .. 64),
    (map { "pop,1,0,0,$_,$_,0\n" } reverse 1 .. 64),
    ("range,0,0,0,0,0,1\n") x 64,
    ("range,0,0,0,0,0,0\n") x 64,
], given('stack', 0, 128), (map { "push,1,0,$_\n" } 1 .. 64), ("pop,1,0,0\n") x 64;
filled 'limits: stack, 128 skipped pops'           => [
    (map { "pop,0,0,0,0,0,$_\n" } 0 .. 127),
    "range,0,0,0,0,0,128\n",
    ("range,0,0,0,0,0,0\n") x 127,
], given('stack', 0, 128), ("pop,0,0,0\n") x 128;
filled 'limits: queue, 128 enqueues'               => [
    (map { "enqueue,1,0,$_,0,0,0\n" } 1 .. 128),
    (map { "end,0,0,0,$_,0,0\n" } 1 .. 128),
], given('queue', 0, 128), (map { "enqueue,1,0,$_\n" } 1 .. 128);
filled 'limits: queue, 64 enqueues and 64 dequeues' => [
    (map { "enqueue,1,0,$_,0,0,0\n" } 1 .. 64),
    (map { "dequeue,1,0,0,$_,0,0\n" } 1 .. 64),
], given('queue', 0, 128), (map { "enqueue,1,0,$_\n" } 1 .. 64), ("dequeue,1,0,0\n") x 64;
filled 'limits: the longest input'                 => [
    ("init,0,0,2147483646,0,0,0\n") x 128,
    (map { "access,1,127,2147483646,2147483646,$_,$_\n" } 0 .. 127),
    ("end,0,0,0,2147483646,0,0\n") x 127,
    "end,0,0,0,2147483646,128,0\n",
    "range,0,0,0,0,0,128\n",
    ("range,0,0,0,0,0,0\n") x 127,
], given('ram', 128, 128), ("init,0,0,2147483646\n") x 128, ("access,1,127,2147483646\n") x 128;

# 1.

refused '1: empty input'                           => '1,1', '';
refused '1: a line feed'                           => '1,1', "\n";
refused '1: the names of a file to check'          => '1,1', with(\@RAM, 1 => 'memory,size,count,r,a,b,c');
refused '1: a name missing'                        => '1,1', with(\@RAM, 1 => 'memory,size');
refused '1: the last byte missing'                 => '1,1', with(\@RAM, 1 => 'memory,size,coun');
refused '1: a comma at the end'                    => '1,1', with(\@RAM, 1 => 'memory,size,count,');
refused '1: a capital'                             => '1,1', with(\@RAM, 1 => 'memory,Size,count');
refused '1: CR LF'                                 => '1,1', with(\@RAM, 1 => "memory,size,count\r");
refused '1: a NUL at the end'                      => '1,1', with(\@RAM, 1 => "memory,size,count\0");
refused '1: wrong and without a line feed'         => '1,1', 'memory,size';
refused '1: line 1 left out'                       => '1,1', @RAM[1 .. $#RAM];
refused '1: CR LF on every line'                   => '1,1', map { unended($_) . "\r\n" } @RAM;
refused '1: 81 bytes'                              => '1,1', with(\@RAM, 1 => 'memory,size,count' . ' ' x 64);
refused '1: the row names of a file to check'      => '1,3', with(\@RAM, 3 => 'op,guard,addr,value,old,time,version');
refused '1: line 3 blank'                          => '1,3', with(\@RAM, 3 => '');
refused '1: line 3 left out'                       => '1,3', @RAM[0, 1, 3 .. $#RAM];
refused '1: line 3 with a capital'                 => '1,3', with(\@RAM, 3 => 'Op,guard,addr,value');
refused '1: line 3 with CR LF'                     => '1,3', with(\@RAM, 3 => "op,guard,addr,value\r");
refused '1: line 3 without its last byte'          => '1,3', with(\@RAM, 3 => 'op,guard,addr,valu');
refused '1: line 3 wrong and without a line feed'  => '1,3', first_lines(\@RAM, 2), 'op,guard,addr';

# 2.

refused '2: line 1 without a line feed'            => '2,1', 'memory,size,count';
refused '2: line 2 blank'                          => '2,2', with(\@RAM, 2 => '');
refused '2: line 2 of 2 fields'                    => '2,2', with(\@RAM, 2 => 'ram,2');
refused '2: line 2 of 4 fields'                    => '2,2', with(\@RAM, 2 => 'ram,2,2,0');
refused '2: line 2 with a challenge'               => '2,2', with(\@RAM, 2 => 'ram,2,2,100,1,2,3');
refused '2: size empty'                            => '2,2', with(\@RAM, 2 => 'ram,,2');
refused '2: count empty'                           => '2,2', with(\@RAM, 2 => 'ram,2,');
refused '2: size with a leading zero'              => '2,2', with(\@RAM, 2 => 'ram,02,2');
refused '2: count 00'                              => '2,2', with(\@RAM, 2 => 'ram,2,00');
refused '2: plus sign'                             => '2,2', with(\@RAM, 2 => 'ram,+2,2');
refused '2: minus sign'                            => '2,2', with(\@RAM, 2 => 'ram,2,-2');
refused '2: a space'                               => '2,2', with(\@RAM, 2 => 'ram, 2,2');
refused '2: 11 digits'                             => '2,2', with(\@RAM, 2 => 'ram,10000000000,2');
refused '2: line 2 with CR LF'                     => '2,2', with(\@RAM, 2 => "ram,2,2\r");
refused '2: line 2 without a line feed'            => '2,2', unended(first_lines(\@RAM, 2));
refused '2: an unknown memory in 81 bytes'         => '2,2', with(\@RAM, 2 => 'x' x 77 . ',0,0');
refused '2: line 3 without a line feed'            => '2,3', unended(first_lines(\@RAM, 3));
refused '2: line 3 the same where no rows are due' => '2,3', unended(given('queue', 0, 0));
refused '2: a blank row'                           => '2,5', with(\@RAM, 5 => '');
refused '2: a row of 3 fields'                     => '2,4', with(\@RAM, 4 => 'init,0,0');
refused '2: a row of 5 fields'                     => '2,6', with(\@RAM, 6 => 'access,1,0,7,5');
refused '2: a row of 7 fields'                     => '2,4', with(\@RAM, 4 => 'init,0,0,5,0,0,0');
refused '2: a comma at the end'                    => '2,4', with(\@RAM, 4 => 'init,0,0,5,');
refused '2: guard empty'                           => '2,6', with(\@RAM, 6 => 'access,,0,7');
refused '2: value empty'                           => '2,6', with(\@RAM, 6 => 'access,1,0,');
refused '2: a leading zero in an address'          => '2,6', with(\@RAM, 6 => 'access,1,00,7');
refused '2: a leading zero in a value'             => '2,7', with(\@RAM, 7 => 'access,0,0,07');
refused '2: a minus sign in a row'                 => '2,4', with(\@RAM, 4 => 'init,0,0,-5');
refused '2: a letter in a row'                     => '2,4', with(\@RAM, 4 => 'init,0,0,five');
refused '2: a NUL in a row'                        => '2,4', with(\@RAM, 4 => "init,0,0,5\0");
refused '2: a row with CR LF'                      => '2,7', with(\@RAM, 7 => "access,0,0,0\r");
refused '2: 11 digits in a row'                    => '2,4', with(\@RAM, 4 => 'init,0,0,10000000000');
refused '2: the last row without a line feed'      => '2,7', unended(@RAM);
refused '2: an init without a line feed'           => '2,4', unended(first_lines(\@RAM, 4));
refused '2: the last push without a line feed'     => '2,7', unended(@STACK);
refused '2: an unknown op in 81 bytes'             => '2,4', with(\@RAM, 4 => 'x' x 75 . ',0,0,0');
refused '2: the names line again'                  => '2,4', with(\@RAM, 4 => 'op,guard,addr,value');

# 3.

refused '3: size p'                                => '3,2', with(\@RAM, 2 => 'ram,2147483647,2');
refused '3: count p'                               => '3,2', with(\@RAM, 2 => 'ram,2,2147483647');
refused '3: size 2 to the power 32, plus 2'        => '3,2', with(\@RAM, 2 => 'ram,4294967298,2');
refused '3: an init value p'                       => '3,4', with(\@RAM, 4 => 'init,0,0,2147483647');
refused '3: a guard p'                             => '3,6', with(\@RAM, 6 => 'access,2147483647,0,7');
refused '3: an address p'                          => '3,6', with(\@RAM, 6 => 'access,1,2147483647,7');
refused '3: the largest number of 10 digits'       => '3,7', with(\@RAM, 7 => 'access,0,0,9999999999');
refused '3: the value of a skipped push'           => '3,4', given('stack', 0, 1), rows('push,0,0,2147483647');
refused '3: a member p'                            => '3,6', with(\@SET, 6 => 'member,0,0,2147483647');
refused '3: an enqueued p + 1'                     => '3,5', with(\@QUEUE, 5 => 'enqueue,1,0,2147483648');

# 4.

refused '4: unknown memory'                        => '4,2', with(\@RAM, 2 => 'tape,2,2');
refused '4: memory empty'                          => '4,2', with(\@RAM, 2 => ',2,2');
refused '4: a capital'                             => '4,2', with(\@RAM, 2 => 'RAM,2,2');
refused '4: a prefix'                              => '4,2', with(\@RAM, 2 => 'ra,2,2');
refused '4: a letter more'                         => '4,2', with(\@SET, 2 => 'sets,2,2');
refused '4: an unknown memory in 80 bytes'         => '4,2', with(\@RAM, 2 => 'x' x 76 . ',0,0');
refused '4: ram of size 129'                       => '4,2', given('ram', 129, 0);
refused '4: ram of count 129'                      => '4,2', given('ram', 1, 129);
refused '4: rom of size 129'                       => '4,2', given('rom', 129, 1);
refused '4: set of count 129'                      => '4,2', given('set', 1, 129);
refused '4: stack of count 129'                    => '4,2', given('stack', 0, 129);
refused '4: queue of count 129'                    => '4,2', given('queue', 0, 129);
refused '4: queue of count 129, with its rows'     => '4,2', given('queue', 0, 129), ("enqueue,1,0,5\n") x 129;
refused '4: ram of size 65536'                     => '4,2', given('ram', 65536, 1);
refused '4: ram of size 65537'                     => '4,2', given('ram', 65537, 1);
refused '4: queue of count 65536'                  => '4,2', given('queue', 0, 65536);
refused '4: rom of count p - 1'                    => '4,2', given('rom', 1, 2147483646);
refused '4: size 384, which is 128 in one byte'    => '4,2', given('ram', 384, 1);
refused '4: stack of size 1'                       => '4,2', given('stack', 1, 0);
refused '4: queue of size 1'                       => '4,2', given('queue', 1, 0);
refused '4: stack of size 128'                     => '4,2', given('stack', 128, 128);

# 5.

refused '5: unknown op'                            => '5,6', with(\@RAM, 6 => 'store,1,0,7');
refused '5: op empty'                              => '5,6', with(\@RAM, 6 => ',1,0,7');
refused '5: a capital'                             => '5,4', with(\@RAM, 4 => 'Init,0,0,5');
refused '5: a prefix'                              => '5,6', with(\@RAM, 6 => 'acces,1,0,7');
refused '5: a space behind'                        => '5,4', with(\@RAM, 4 => 'init ,0,0,5');
refused '5: an unknown op in 80 bytes'             => '5,4', with(\@RAM, 4 => 'x' x 74 . ',0,0,0');
refused '5: an operation where init is due'        => '5,5', with(\@RAM, 5 => 'access,0,0,0');
refused '5: init where an operation is due'        => '5,6', with(\@RAM, 6 => 'init,0,0,5');
refused '5: an end row'                            => '5,6', with(\@RAM, 6 => 'end,0,0,0');
refused '5: a range row'                           => '5,7', with(\@RAM, 7 => 'range,0,0,0');
refused '5: look in a ram'                         => '5,6', with(\@RAM, 6 => 'look,0,0,0');
refused '5: access in a rom'                       => '5,6', with(\@ROM, 6 => 'access,0,1,0');
refused '5: look in a set'                         => '5,6', with(\@SET, 6 => 'look,0,0,0');
refused '5: enqueue in a stack'                    => '5,4', with(\@STACK, 4 => 'enqueue,1,0,5');
refused '5: dequeue in a stack'                    => '5,6', with(\@STACK, 6 => 'dequeue,1,0,0');
refused '5: init in a stack'                       => '5,4', with(\@STACK, 4 => 'init,0,0,5');
refused '5: pop in a queue'                        => '5,6', with(\@QUEUE, 6 => 'pop,1,0,0');

# 6.

refused '6: guard 2 in an access'                  => '6,6', with(\@RAM, 6 => 'access,2,0,7');
refused '6: guard p - 1 in an access'              => '6,6', with(\@RAM, 6 => 'access,2147483646,0,7');
refused '6: guard 2 in a pop'                      => '6,6', with(\@STACK, 6 => 'pop,2,0,0');
refused '6: guard 2 in an enqueue'                 => '6,4', with(\@QUEUE, 4 => 'enqueue,2,0,4');
refused '6: guard of an init'                      => '6,4', with(\@RAM, 4 => 'init,1,0,5');
refused '6: addr of an init'                       => '6,5', with(\@RAM, 5 => 'init,0,1,9');
refused '6: guard of a look'                       => '6,6', with(\@ROM, 6 => 'look,1,1,0');
refused '6: value of a look'                       => '6,6', with(\@ROM, 6 => 'look,0,1,9');
refused '6: guard of a member'                     => '6,6', with(\@SET, 6 => 'member,1,0,5');
refused '6: addr of a member'                      => '6,7', with(\@SET, 7 => 'member,0,1,5');
refused '6: addr of a push'                        => '6,4', with(\@STACK, 4 => 'push,1,1,5');
refused '6: addr of a pop'                         => '6,6', with(\@STACK, 6 => 'pop,1,1,0');
refused '6: value of a pop'                        => '6,6', with(\@STACK, 6 => 'pop,1,0,6');
refused '6: value of a skipped pop'                => '6,6', with(\@STACK, 6 => 'pop,0,0,6');
refused '6: addr of an enqueue'                    => '6,4', with(\@QUEUE, 4 => 'enqueue,1,1,4');
refused '6: addr of a dequeue'                     => '6,6', with(\@QUEUE, 6 => 'dequeue,1,1,0');
refused '6: value of a dequeue'                    => '6,6', with(\@QUEUE, 6 => 'dequeue,1,0,4');

# 7.

refused '7: no line 2'                             => '7,2', first_lines(\@RAM, 1);
refused '7: no line 3'                             => '7,3', first_lines(\@RAM, 2);
refused '7: no line 3, no rows due'                => '7,3', first_lines([given('ram', 0, 0)], 2);
refused '7: no rows'                               => '7,4', first_lines(\@RAM, 3);
refused '7: the second init missing'               => '7,5', first_lines(\@RAM, 4);
refused '7: the operations missing'                => '7,6', first_lines(\@RAM, 5);
refused '7: the last operation missing'            => '7,7', first_lines(\@RAM, 6);
refused '7: the last operation of a queue missing' => '7,6', first_lines(\@QUEUE, 5);
refused '7: 128 rows of 256'                       => '7,132', given('ram', 128, 128), ("init,0,0,5\n") x 128;
refused '7: a surplus blank line'                  => '7,8', @RAM, "\n";
refused '7: a surplus operation'                   => '7,8', @RAM, "access,0,0,0\n";
refused '7: a surplus line of garbage'             => '7,8', @RAM, "...\n";
refused '7: a surplus byte'                        => '7,8', @RAM, 'x';
refused '7: a surplus NUL'                         => '7,8', @RAM, "\0";
refused '7: a surplus CR LF'                       => '7,8', @RAM, "\r\n";
refused '7: a surplus line of 81 bytes'            => '7,8', @RAM, 'x' x 81, "\n";
refused '7: a surplus number of p'                 => '7,8', @RAM, "access,0,0,2147483647\n";
refused '7: a surplus row of the filled file'      => '7,8', @RAM, "end,0,0,0,7,2,0\n";
refused '7: a row where none is due'               => '7,4', given('stack', 0, 0), "push,1,0,5\n";
refused '7: a blank line where none is due'        => '7,4', given('set', 0, 0), "\n";
refused '7: a surplus line in a queue'             => '7,7', @QUEUE, "end,0,0,0\n";

# 11, 12 and 13: row k is line k + 3, init rows counted.

refused '11: the example of the table'             => '11,6', given('ram', 2, 1), rows('init,0,0,5 init,0,0,9 access,0,2,0');
refused '11: a load in a ram of size 0'            => '11,4', given('ram', 0, 1), rows('access,0,0,0');
refused '11: a store at the size'                  => '11,7', with(\@RAM, 7 => 'access,1,2,5');
refused '11: a load at p - 1'                      => '11,6', with(\@RAM, 6 => 'access,0,2147483646,0');
refused '11: a load at 256'                        => '11,6', with(\@RAM, 6 => 'access,0,256,0');
refused '11: a load at 65536'                      => '11,6', with(\@RAM, 6 => 'access,0,65536,0');
refused '11: a look at the size'                   => '11,7', with(\@ROM, 7 => 'look,0,2,0');
refused '11: a look in a rom of size 0'            => '11,4', given('rom', 0, 1), rows('look,0,0,0');
refused '11: the first of two'                     => '11,6', with(\@RAM, 6 => 'access,1,2,7', 7 => 'access,0,3,0');
refused '11: at the last of 128'                   => '11,259', given('ram', 128, 128), ("init,0,0,5\n") x 128, ("access,0,127,0\n") x 127, "access,0,128,0\n";
refused '12: the example of the table'             => '12,4', given('stack', 0, 1), rows('pop,1,0,0');
refused '12: a pop before its push'                => '12,4', given('stack', 0, 2), rows('pop,1,0,0 push,1,0,5');
refused '12: one pop too many'                     => '12,6', given('stack', 0, 3), rows('push,1,0,5 pop,1,0,0 pop,1,0,0');
refused '12: a skipped push adds nothing'          => '12,5', given('stack', 0, 2), rows('push,0,0,5 pop,1,0,0');
refused '12: after a skipped pop'                  => '12,5', given('stack', 0, 2), rows('pop,0,0,0 pop,1,0,0');
refused '12: a dequeue alone'                      => '12,4', given('queue', 0, 1), rows('dequeue,1,0,0');
refused '12: a dequeue before its enqueue'         => '12,4', given('queue', 0, 2), rows('dequeue,1,0,0 enqueue,1,0,5');
refused '12: one dequeue too many'                 => '12,7', given('queue', 0, 4), rows('enqueue,1,0,5 dequeue,1,0,0 dequeue,0,0,0 dequeue,1,0,0');
refused '12: at the last of 128'                   => '12,131', given('stack', 0, 128), ("pop,0,0,0\n") x 127, "pop,1,0,0\n";
refused '13: the example of the table'             => '13,5', given('set', 1, 1), rows('init,0,0,5 member,0,0,6');
refused '13: a set of size 0'                      => '13,4', given('set', 0, 1), rows('member,0,0,0');
refused '13: 0 in a set without it'                => '13,6', with(\@SET, 6 => 'member,0,0,0');
refused '13: after a member'                       => '13,7', with(\@SET, 7 => 'member,0,0,7');
refused '13: 5 + 256 in a set with 5'              => '13,6', with(\@SET, 6 => 'member,0,0,261');
refused '13: 5 + 65536 in a set with 5'            => '13,6', with(\@SET, 6 => 'member,0,0,65541');
refused '13: at the last of 128'                   => '13,259', given('set', 128, 128), (map { "init,0,0,$_\n" } 1 .. 128), (map { "member,0,0,$_\n" } 2 .. 129);

# Faults that meet on a line.

refused 'line 2: 2 with 3'                         => '2,2', with(\@RAM, 2 => 'ram,2147483647,02');
refused 'line 2: 2 with 4'                         => '2,2', with(\@RAM, 2 => 'tape,2,');
refused 'line 2: 3 with 4, unknown memory'         => '3,2', with(\@RAM, 2 => 'tape,2,2147483647');
refused 'line 2: 3 with 4, size 129'               => '3,2', with(\@RAM, 2 => 'ram,129,2147483647');
refused 'line 2: 3 with 4, stack of size p'        => '3,2', with(\@RAM, 2 => 'stack,2147483647,0');
refused 'row: 2 with 3'                            => '2,4', with(\@RAM, 4 => 'init,2147483647,0,05');
refused 'row: 2 with 5'                            => '2,4', with(\@RAM, 4 => 'pop,0,0,');
refused 'row: 2 with 6'                            => '2,4', with(\@RAM, 4 => 'init,1,0,05');
refused 'row: 2 with 11'                           => '2,6', with(\@RAM, 6 => 'access,1,9,07');
refused 'row: 2 with 12'                           => '2,4', given('stack', 0, 1), 'pop,1,0,0';
refused 'row: 3 with 5'                            => '3,4', with(\@RAM, 4 => 'pop,0,0,2147483647');
refused 'row: 3 with 6'                            => '3,4', with(\@RAM, 4 => 'init,1,0,2147483647');
refused 'row: 3 with 11'                           => '3,6', with(\@RAM, 6 => 'access,1,9,2147483647');
refused 'row: 5 with 6'                            => '5,4', with(\@RAM, 4 => 'pop,2,1,5');
refused 'row: 5 with 11'                           => '5,6', with(\@RAM, 6 => 'look,0,9,0');
refused 'row: 6 with 11'                           => '6,6', with(\@RAM, 6 => 'access,2,9,7');
refused 'row: 6 with 12'                           => '6,4', given('stack', 0, 1), rows('pop,1,0,5');
refused 'row: 6 with 13'                           => '6,6', with(\@SET, 6 => 'member,1,0,6');

# Faults in an input: 1 to 7 by line over the whole of it, and only then 11 to 13.

refused 'input: 2 then 1'                          => '2,2', with(\@RAM, 2 => 'ram', 3 => 'x');
refused 'input: 4 then 1'                          => '4,2', with(\@RAM, 2 => 'tape,2,2', 3 => 'x');
refused 'input: 4 then 7'                          => '4,2', first_lines([with(\@RAM, 2 => 'ram,129,2')], 2);
refused 'input: 6 then 2'                          => '6,4', with(\@RAM, 4 => 'init,1,0,5', 5 => 'init');
refused 'input: 5 then 3'                          => '5,4', with(\@RAM, 4 => 'x,0,0,5', 5 => 'init,0,0,2147483647');
refused 'input: 3 then 2'                          => '3,4', with(\@RAM, 4 => 'init,0,0,2147483647', 5 => 'init');
refused 'input: 6 then 7, a row missing'           => '6,6', first_lines([with(\@RAM, 6 => 'access,2,0,7')], 6);
refused 'input: 5 then 7, a row too many'          => '5,7', with(\@RAM, 7 => 'end,0,0,0'), "\n";
refused 'input: 11 then 2'                         => '2,7', with(\@RAM, 6 => 'access,1,2,7', 7 => 'access,0,0,00');
refused 'input: 11 then 3'                         => '3,7', with(\@RAM, 6 => 'access,1,2,7', 7 => 'access,0,0,2147483647');
refused 'input: 11 then 5'                         => '5,7', with(\@RAM, 6 => 'access,1,2,7', 7 => 'pop,1,0,0');
refused 'input: 11 then 6'                         => '6,7', with(\@RAM, 6 => 'access,1,2,7', 7 => 'access,2,0,0');
refused 'input: 11 then 7, a row missing'          => '7,7', first_lines([with(\@RAM, 6 => 'access,1,2,7')], 6);
refused 'input: 11 then 7, a row too many'         => '7,8', with(\@RAM, 6 => 'access,1,2,7'), "\n";
refused 'input: 11 then a row without a line feed' => '2,7', unended(with(\@RAM, 6 => 'access,1,2,7'));
refused 'input: 12 then 2'                         => '2,5', given('stack', 0, 2), rows('pop,1,0,0 push,1,0');
refused 'input: 12 then 5'                         => '5,5', given('stack', 0, 2), rows('pop,1,0,0 enqueue,1,0,5');
refused 'input: 12 then 6'                         => '6,5', given('queue', 0, 2), rows('dequeue,1,0,0 enqueue,1,1,5');
refused 'input: 12 then 7, a row missing'          => '7,5', given('queue', 0, 2), rows('dequeue,1,0,0');
refused 'input: 12 then 7, a row too many'         => '7,5', given('stack', 0, 1), rows('pop,1,0,0 push,1,0,5');
refused 'input: 13 then 2'                         => '2,7', with(\@SET, 6 => 'member,0,0,6', 7 => '');
refused 'input: 13 then 3'                         => '3,7', with(\@SET, 6 => 'member,0,0,6', 7 => 'member,0,0,2147483647');
refused 'input: 13 then 6'                         => '6,7', with(\@SET, 6 => 'member,0,0,6', 7 => 'member,1,0,5');
refused 'input: 13 then 7, a row too many'         => '7,8', with(\@SET, 6 => 'member,0,0,6'), 'x';

# Mutated inputs: what is printed is what the reference prints.

my %answers;
for my $memory (qw(ram rom set stack queue)) {
    for my $run (1 .. 110) {
        my @numbers;
        if ($memory eq 'stack' || $memory eq 'queue') {
            my $added = random(4);
            @numbers = ($added, random(3), random($added + 1), random(3));
        } else {
            my $size = random(5);
            @numbers = ($size, $size ? random(7) : 0);
        }
        my $bytes = mutated(honest_input($memory, @numbers));
        my $expected = Reference::fill_file($bytes);
        $answers{ $expected =~ /\Aanswer,line\n([0-9]+),/ ? $1 : 0 }++;
        case("mutated: $memory $run", $expected, $bytes, show => 1);
    }
}
# Inputs that met only a few of the answers would test little.
for my $answer (0 .. 7, 11 .. 13) {
    my $times = $answers{$answer} // 0;
    counted("mutated: answer $answer is met", $times >= 3 ? () : "it is met $times times");
}

unreadable_input($program, join('', @RAM));
unwritable_output($program);

# Inputs longer than any valid one.

refused 'long: 200 rows for a count of 128'        => '7,132', given('queue', 0, 128), ("enqueue,1,0,5\n") x 200;
refused 'long: 129 rows for a count of 128'        => '7,132', given('stack', 0, 128), ("push,1,0,5\n") x 129;
refused 'long: 300 rows for 128 and 128'           => '7,260', given('ram', 128, 128), ("init,0,0,5\n") x 128, ("access,0,0,0\n") x 172;
refused 'long: 100000 rows'                        => '7,132', given('queue', 0, 128), ("enqueue,1,0,5\n") x 100000;
refused 'long: 100000 rows, the fifth with a fault' => '6,8', given('queue', 0, 128), ("enqueue,1,0,5\n") x 4, ("enqueue,1,1,5\n") x 100000;
refused 'long: 100000 rows, the first without an element' => '7,132', given('queue', 0, 128), ("dequeue,1,0,0\n") x 100000;
refused 'long: line 1 of 100000 bytes'             => '1,1', 'x' x 100000, "\n", @RAM;
refused 'long: line 1 of 100000 bytes, unended'    => '1,1', 'x' x 100000;
refused 'long: line 1 that begins with the names'  => '1,1', 'memory,size,count', ' ' x 100000, "\n", @RAM[1 .. $#RAM];
refused 'long: line 2 of 100000 bytes'             => '2,2', $RAM[0], 'ram,2,', '0' x 100000, "\n", @RAM[2 .. $#RAM];
refused 'long: line 2 of 100000 bytes, unended'    => '2,2', $RAM[0], 'ram,2,', '2' x 100000;
refused 'long: line 3 of 100000 bytes'             => '1,3', first_lines(\@RAM, 2), 'op,guard,addr,value', ',' x 100000, "\n", @RAM[3 .. $#RAM];
refused 'long: a row of 100000 bytes'              => '2,4', first_lines(\@RAM, 3), 'x' x 100000, "\n", @RAM[4 .. $#RAM];
refused 'long: a row of 100000 bytes, unended'     => '2,7', first_lines(\@RAM, 6), 'access,0,0,', '0' x 100000;
refused 'long: the last of 256 rows has 100000 bytes' => '2,259', given('ram', 128, 128), ("init,0,0,5\n") x 128, ("access,0,0,0\n") x 127, 'x' x 100000, "\n";
refused 'long: a surplus line of 100000 bytes'     => '7,8', @RAM, 'x' x 100000, "\n";
refused 'long: a surplus line of 100000 bytes, unended' => '7,8', @RAM, "\0" x 100000;
refused 'long: 11 then a surplus line of 100000 bytes' => '7,8', with(\@RAM, 6 => 'access,1,2,7'), 'x' x 100000;
refused 'long: a fault, then 1 MB in lines'        => '6,4', with(\@RAM, 4 => 'init,1,0,5'), ('x' x 99 . "\n") x 10000;
refused 'long: a fault, then 1 MB without a line feed' => '6,4', with(\@RAM, 4 => 'init,1,0,5'), 'x' x 1000000;
refused 'long: 4, then 1 MB'                       => '4,2', with(\@RAM, 2 => 'ram,129,2'), 'x' x 1000000;
refused 'long: 1 MB of line feeds'                 => '1,1', "\n" x 1000000;
refused 'long: 1 MB of line feeds after the rows'  => '7,8', @RAM, "\n" x 1000000;
refused 'long: 1 MB of NULs'                       => '1,1', "\0" x 1000000;
refused 'long: an input behind 65536 bytes of line 1' => '1,1', ' ' x 65536, @RAM;
refused 'long: rows behind 65536 bytes of line 4'  => '2,4', first_lines(\@RAM, 3), ' ' x 65536, @RAM[3 .. 6];
refused 'long: rows behind 81 bytes of line 4'     => '2,4', first_lines(\@RAM, 3), ' ' x 81, @RAM[3 .. 6];

# The same through a pipe that is written in small pieces.

sub in_pieces {
    my ($name, $expected, @input) = @_;
    my $bytes = join('', @input);
    case("$name, 1 byte at a time",  $expected, $bytes, piece => 1);
    case("$name, 7 bytes at a time", $expected, $bytes, piece => 7);
    case("$name, a line at a time",  $expected, $bytes, piece => 'line');
}
in_pieces('pipe: ram',                join('', $ROW_NAMES, @RAM_ROWS), @RAM);
in_pieces('pipe: stack',              join('', $ROW_NAMES, @STACK_ROWS), @STACK);
in_pieces('pipe: queue',              join('', $ROW_NAMES, @QUEUE_ROWS), @QUEUE);
in_pieces('pipe: empty input',        "answer,line\n1,1\n", '');
in_pieces('pipe: unended',            "answer,line\n2,7\n", unended(@RAM));
in_pieces('pipe: a surplus line',     "answer,line\n7,8\n", @RAM, "\n");
in_pieces('pipe: no such cell',       "answer,line\n11,7\n", with(\@RAM, 7 => 'access,0,2,0'));
in_pieces('pipe: 128 and 128',        join('', $ROW_NAMES,
    ("init,0,0,5,0,0,0\n") x 128, (map { "look,0,0,0,5,0,$_\n" } 0 .. 127), "end,0,0,5,0,0,128\n", ("end,0,0,5,0,0,0\n") x 127),
    given('rom', 128, 128), ("init,0,0,5\n") x 128, ("look,0,0,0\n") x 128);

# A refusal does not end the reading. These inputs are several times what a pipe holds, so that a write fails if nobody reads on.

sub in_pages {
    my ($name, $values, @input) = @_;
    case($name, "answer,line\n$values\n", join('', @input), piece => 4096);
}
my @MANY = ("enqueue,1,0,5\n") x 30000;
in_pages('pipe: line 1 refused, then 30000 rows'   => '1,1', "x\n", @MANY);
in_pages('pipe: line 1 of 400000 bytes, unended'   => '1,1', 'x' x 400000);
in_pages('pipe: line 2 refused, then 30000 rows'   => '4,2', given('queue', 0, 129), @MANY);
in_pages('pipe: a row refused, then 30000 rows'    => '6,4', given('queue', 0, 128), rows('enqueue,2,0,5'), @MANY);
in_pages('pipe: 30000 rows for a count of 128'     => '7,132', given('queue', 0, 128), @MANY);

finish();
