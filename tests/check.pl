#!/usr/bin/perl
# Tests of the program `check` of document 01: files go to its standard input, and what it prints is compared to the byte.
# A case is a name, the values that document 01 prescribes (answer,line,inputs,mults), worked out by hand, and the file. What
# tests/Reference.pm says of the file is compared with the same values. After the named cases come mutated files, for which the
# reference alone says what is right. Large files are in tests/check_large.pl.
# Run at the top of the repository: perl tests/check.pl [program]
use strict;
use warnings;
use File::Basename qw(dirname);
use lib dirname(__FILE__);
use Harness qw(header rows with first_lines unended random honest_input mutated compare counted unreadable_input unwritable_output finish);
use Checks qw($program report case filled spoilt @RAM @ROM @SET @STACK @QUEUE @EMPTIED @CHALLENGES);
use Reference ();

# The cases of document 01, section Files.

case 'document: ram'                                     => '0,0,12,16', @RAM;
case 'document: ram, the old of line 7 made 5'           => '10,11,0,0', with(\@RAM, 7 => 'access,0,0,0,5,1,1');
case 'document: that at challenge 100,0,0,0'             => '0,0,12,16', with(\@RAM, 2 => 'ram,2,2,100,0,0,0', 7 => 'access,0,0,0,5,1,1');
case 'document: stack, a pop before the push it reads'   => '9,7,0,0',   header('stack', 0, 2),
    rows('pop,1,0,0,8,1,0 push,1,0,8,0,0,0 range,0,0,0,0,0,0 range,0,0,0,0,0,0');
case 'document: queue'                                   => '0,0,2,8',   @QUEUE;
case 'document: queue, elements in the wrong order'      => '10,7,0,0',  header('queue', 0, 3),
    rows('enqueue,1,0,0,0,0,0 enqueue,1,0,5,0,0,0 dequeue,1,0,0,5,0,0 end,0,0,0,0,0,0');
case 'document: queue, dequeue alone'                    => '8,4,0,0',   header('queue', 0, 1), rows('dequeue,1,0,0,4,0,0');
case 'document: set'                                     => '0,0,2,4',   header('set', 1, 1),
    rows('init,0,0,5,0,0,0 member,0,0,5,0,0,0 end,0,0,5,0,0,1');
case 'document: set, no member'                          => '10,6,0,0',  header('set', 1, 1),
    rows('init,0,0,5,0,0,0 member,0,0,6,0,0,0 end,0,0,5,0,0,0');
case 'document: ram of size 0 and count 0'               => '0,0,0,0',   header('ram', 0, 0);
case 'document: count 65536 is read'                     => '7,4,0,0',   header('ram', 0, 65536);
case 'document: count 65537'                             => '4,2,0,0',   header('ram', 0, 65537);
case 'document: 2147483646 is read'                      => '0,0,2,2',   header('ram', 1, 0),
    rows('init,0,0,2147483646,0,0,0 end,0,0,0,2147483646,0,0');
case 'document: 2147483647'                              => '3,4,0,0',   header('ram', 1, 0),
    rows('init,0,0,2147483647,0,0,0 end,0,0,0,2147483647,0,0');

# The examples of the table of numbers.

case 'table: 1'                     => '1,1,0,0', with(\@RAM, 1 => 'memory,size');
case 'table: 2'                     => '2,8,0,0', with(\@RAM, 8 => 'end,0,0,0,07,2,0');
case 'table: 3'                     => '3,4,0,0', with(\@RAM, 4 => 'init,0,0,2147483647,0,0,0');
case 'table: 4'                     => '4,2,0,0', header('stack', 1, 0, 1, 1, 1, 1);
case 'table: 5'                     => '5,6,0,0', with(\@RAM, 6 => 'pop,1,0,0,0,0,0');
case 'table: 6'                     => '6,8,0,0', with(\@RAM, 8 => 'end,1,0,0,7,2,0');
case 'table: 7'                     => '7,2,0,0', first_lines(\@RAM, 1);

# The mistakes that document 01 wants shut out.

# The load reads its own write, of age 0; only the range meets it.
case 'ram: a load that reads its own write, range row 0' => '9,7,0,0', header('ram', 1, 1),
    rows('init,0,0,5,0,0,0 access,0,0,0,9,1,0 end,0,0,0,5,0,0 range,0,0,0,0,0,0');
case 'ram: a load that reads its own write, range row 1' => '9,7,0,0', header('ram', 1, 1),
    rows('init,0,0,5,0,0,0 access,0,0,0,9,1,0 end,0,0,0,5,0,0 range,0,0,0,0,0,1');
# Clock 1 minus time p - 1 is 2, an age of the range, though 1 is less than p - 1.
case 'stack: a skipped pop whose age wraps to 2'         => '0,0,5,8', header('stack', 0, 2),
    rows('pop,0,0,0,0,2147483646,0 push,0,0,0,0,0,0 range,0,0,0,0,0,0 range,0,0,0,0,0,1');
case 'ram: a load whose age wraps to 2, at c = 0'        => '0,0,10,14', header('ram', 1, 2, 100, 1, 2, 0),
    rows('init,0,0,5,0,0,0 access,0,0,0,5,2147483646,0 access,0,0,0,5,1,0 end,0,0,0,5,2,0 range,0,0,0,0,0,1 range,0,0,0,0,0,1');
case 'ram: the same at c = 3'                            => '10,9,0,0', header('ram', 1, 2),
    rows('init,0,0,5,0,0,0 access,0,0,0,5,2147483646,0 access,0,0,0,5,1,0 end,0,0,0,5,2,0 range,0,0,0,0,0,1 range,0,0,0,0,0,1');
# Age 1 - 3 = -2 with r = -5: (-6)(-5) on one side, (-3)(-10) on the other.
case 'ram: age p - 2 where the range balances all the same' => '0,0,6,8', header('ram', 1, 1, 2147483642, 1, 2, 0),
    rows('init,0,0,7,0,0,0 access,0,0,0,7,3,0 end,0,0,0,7,1,0 range,0,0,0,0,0,2');
case 'ram: age p - 2 where it does not'                  => '9,7,0,0', header('ram', 1, 1, 2147483641, 1, 2, 0),
    rows('init,0,0,7,0,0,0 access,0,0,0,7,3,0 end,0,0,0,7,1,0 range,0,0,0,0,0,2');
case 'queue: the end row left out of the hash'           => '10,6,0,0', header('queue', 0, 2),
    rows('enqueue,1,0,0,0,0,0 enqueue,0,0,0,0,0,0 end,0,0,0,5,0,0');
case 'stack: a skipped pop without its lookup'           => '9,5,0,0', header('stack', 0, 1),
    rows('pop,0,0,0,0,0,0 range,0,0,0,0,0,0');

# 1: line 1.

case 'line 1: empty file'                                => '1,1,0,0', '';
case 'line 1: only a line feed'                          => '1,1,0,0', "\n";
case 'line 1: two line feeds'                            => '1,1,0,0', "\n\n";
case 'line 1: one NUL'                                   => '1,1,0,0', "\0";
case 'line 1: a blank line before the names'             => '1,1,0,0', "\n", @RAM;
case 'line 1: left out'                                  => '1,1,0,0', @RAM[1 .. $#RAM];
case 'line 1: the last name missing'                     => '1,1,0,0', with(\@RAM, 1 => 'memory,size,count,r,a,b');
case 'line 1: the last byte missing'                     => '1,1,0,0', with(\@RAM, 1 => 'memory,size,count,r,a,b,');
case 'line 1: the first byte missing'                    => '1,1,0,0', with(\@RAM, 1 => 'emory,size,count,r,a,b,c');
case 'line 1: one name more'                             => '1,1,0,0', with(\@RAM, 1 => 'memory,size,count,r,a,b,c,d');
case 'line 1: a comma at the end'                        => '1,1,0,0', with(\@RAM, 1 => 'memory,size,count,r,a,b,c,');
case 'line 1: a space at the end'                        => '1,1,0,0', with(\@RAM, 1 => 'memory,size,count,r,a,b,c ');
case 'line 1: a space in front'                          => '1,1,0,0', with(\@RAM, 1 => ' memory,size,count,r,a,b,c');
case 'line 1: spaces after commas'                       => '1,1,0,0', with(\@RAM, 1 => 'memory, size, count, r, a, b, c');
case 'line 1: a capital in front'                        => '1,1,0,0', with(\@RAM, 1 => 'Memory,size,count,r,a,b,c');
case 'line 1: a capital at the end'                      => '1,1,0,0', with(\@RAM, 1 => 'memory,size,count,r,a,b,C');
case 'line 1: two names swapped'                         => '1,1,0,0', with(\@RAM, 1 => 'memory,count,size,r,a,b,c');
case 'line 1: CR LF'                                     => '1,1,0,0', with(\@RAM, 1 => "memory,size,count,r,a,b,c\r");
case 'line 1: a NUL at the end'                          => '1,1,0,0', with(\@RAM, 1 => "memory,size,count,r,a,b,c\0");
case 'line 1: a NUL for a comma'                         => '1,1,0,0', with(\@RAM, 1 => "memory\0size,count,r,a,b,c");
case 'line 1: a mark of byte order in front'             => '1,1,0,0', with(\@RAM, 1 => "\xef\xbb\xbfmemory,size,count,r,a,b,c");
case 'line 1: the names of rows'                         => '1,1,0,0', with(\@RAM, 1 => 'op,guard,addr,value,old,time,version');
case 'line 1: the names of the filler'                   => '1,1,0,0', with(\@RAM, 1 => 'memory,size,count');
case 'line 1: CR in place of every line feed'            => '1,1,0,0', join("\r", map { unended($_) } @RAM), "\r";
case 'line 1: CR LF on every line'                       => '1,1,0,0', map { unended($_) . "\r\n" } @RAM;
case 'line 1: NUL in place of every line feed'           => '1,1,0,0', join("\0", map { unended($_) } @RAM), "\0";
case 'line 1: the names without a line feed'             => '2,1,0,0', 'memory,size,count,r,a,b,c';
case 'line 1: fewer names without a line feed'           => '1,1,0,0', 'memory,size,count,r,a,b';
case 'line 1: more names without a line feed'            => '1,1,0,0', 'memory,size,count,r,a,b,c,d';
case 'line 1: 81 bytes'                                  => '1,1,0,0', with(\@RAM, 1 => 'memory,size,count,r,a,b,c' . 'c' x 56);

# 1: line 3.

case 'line 3: blank'                                     => '1,3,0,0', with(\@RAM, 3 => '');
case 'line 3: left out'                                  => '1,3,0,0', @RAM[0, 1, 3 .. $#RAM];
case 'line 3: the names of line 1'                       => '1,3,0,0', with(\@RAM, 3 => 'memory,size,count,r,a,b,c');
case 'line 3: the names of the filler'                   => '1,3,0,0', with(\@RAM, 3 => 'op,guard,addr,value');
case 'line 3: the last byte missing'                     => '1,3,0,0', with(\@RAM, 3 => 'op,guard,addr,value,old,time,versio');
case 'line 3: one byte more'                             => '1,3,0,0', with(\@RAM, 3 => 'op,guard,addr,value,old,time,versions');
case 'line 3: a comma at the end'                        => '1,3,0,0', with(\@RAM, 3 => 'op,guard,addr,value,old,time,version,');
case 'line 3: a capital'                                 => '1,3,0,0', with(\@RAM, 3 => 'op,guard,addr,Value,old,time,version');
case 'line 3: two names swapped'                         => '1,3,0,0', with(\@RAM, 3 => 'op,guard,addr,old,value,time,version');
case 'line 3: CR LF'                                     => '1,3,0,0', with(\@RAM, 3 => "op,guard,addr,value,old,time,version\r");
case 'line 3: a NUL at the end'                          => '1,3,0,0', with(\@RAM, 3 => "op,guard,addr,value,old,time,version\0");
case 'line 3: wrong where no rows are due'               => '1,3,0,0', first_lines([header('ram', 0, 0)], 2), "op\n";
case 'line 3: the names without a line feed'             => '2,3,0,0', unended(first_lines(\@RAM, 3));
case 'line 3: the same where no rows are due'            => '2,3,0,0', unended(header('ram', 0, 0));
case 'line 3: fewer names without a line feed'           => '1,3,0,0', first_lines(\@RAM, 2), 'op,guard,addr,value,old,time';
case 'line 3: more names without a line feed'            => '1,3,0,0', first_lines(\@RAM, 2), 'op,guard,addr,value,old,time,version,';
case 'line 3: missing'                                   => '7,3,0,0', first_lines(\@RAM, 2);
case 'line 3: missing where no rows are due'             => '7,3,0,0', first_lines([header('queue', 0, 0)], 2);

# 2: line 2.

case 'line 2: blank'                                     => '2,2,0,0', with(\@RAM, 2 => '');
case 'line 2: the memory alone'                          => '2,2,0,0', with(\@RAM, 2 => 'ram');
case 'line 2: 6 fields'                                  => '2,2,0,0', with(\@RAM, 2 => 'ram,2,2,100,1,2');
case 'line 2: 8 fields'                                  => '2,2,0,0', with(\@RAM, 2 => 'ram,2,2,100,1,2,3,0');
case 'line 2: a comma at the end'                        => '2,2,0,0', with(\@RAM, 2 => 'ram,2,2,100,1,2,3,');
case 'line 2: commas only'                               => '2,2,0,0', with(\@RAM, 2 => ',,,,,,');
case 'line 2: size empty'                                => '2,2,0,0', with(\@RAM, 2 => 'ram,,2,100,1,2,3');
case 'line 2: count empty'                               => '2,2,0,0', with(\@RAM, 2 => 'ram,2,,100,1,2,3');
case 'line 2: r empty'                                   => '2,2,0,0', with(\@RAM, 2 => 'ram,2,2,,1,2,3');
case 'line 2: c empty'                                   => '2,2,0,0', with(\@RAM, 2 => 'ram,2,2,100,1,2,');
case 'line 2: size with a leading zero'                  => '2,2,0,0', with(\@RAM, 2 => 'ram,02,2,100,1,2,3');
case 'line 2: count with a leading zero'                 => '2,2,0,0', with(\@RAM, 2 => 'ram,2,02,100,1,2,3');
case 'line 2: r with a leading zero'                     => '2,2,0,0', with(\@RAM, 2 => 'ram,2,2,0100,1,2,3');
case 'line 2: c is 00'                                   => '2,2,0,0', with(\@RAM, 2 => 'ram,2,2,100,1,2,00');
case 'line 2: plus sign'                                 => '2,2,0,0', with(\@RAM, 2 => 'ram,+2,2,100,1,2,3');
case 'line 2: minus sign'                                => '2,2,0,0', with(\@RAM, 2 => 'ram,-2,2,100,1,2,3');
case 'line 2: a space before a number'                   => '2,2,0,0', with(\@RAM, 2 => 'ram, 2,2,100,1,2,3');
case 'line 2: a space after a number'                    => '2,2,0,0', with(\@RAM, 2 => 'ram,2,2,100,1,2,3 ');
case 'line 2: a tab'                                     => '2,2,0,0', with(\@RAM, 2 => "ram,2,2,100,1,\t2,3");
case 'line 2: a letter in a number'                      => '2,2,0,0', with(\@RAM, 2 => 'ram,2,2,1e2,1,2,3');
case 'line 2: a base-16 number'                          => '2,2,0,0', with(\@RAM, 2 => 'ram,2,2,0x64,1,2,3');
case 'line 2: a fraction'                                => '2,2,0,0', with(\@RAM, 2 => 'ram,2,2,100.0,1,2,3');
case 'line 2: the byte after 9'                          => '2,2,0,0', with(\@RAM, 2 => 'ram,2,2,10:,1,2,3');
case 'line 2: the byte before 0'                         => '2,2,0,0', with(\@RAM, 2 => 'ram,2,2,10/,1,2,3');
case 'line 2: CR LF'                                     => '2,2,0,0', with(\@RAM, 2 => "ram,2,2,100,1,2,3\r");
case 'line 2: a NUL in a number'                         => '2,2,0,0', with(\@RAM, 2 => "ram,2,2,1\x{0}0,1,2,3");
case 'line 2: a NUL at the end'                          => '2,2,0,0', with(\@RAM, 2 => "ram,2,2,100,1,2,3\0");
case 'line 2: semicolons'                                => '2,2,0,0', with(\@RAM, 2 => 'ram;2;2;100;1;2;3');
case 'line 2: 11 digits'                                 => '2,2,0,0', with(\@RAM, 2 => 'ram,2,2,10000000000,1,2,3');
case 'line 2: 2 to the power 64, plus 2'                 => '2,2,0,0', with(\@RAM, 2 => 'ram,18446744073709551618,2,100,1,2,3');
case 'line 2: without a line feed'                       => '2,2,0,0', unended(first_lines(\@RAM, 2));
case 'line 2: an unknown memory in 81 bytes'             => '2,2,0,0', with(\@RAM, 2 => 'x' x 69 . ',0,0,0,0,0,0');
case 'line 2: an unknown memory in 80 bytes'             => '4,2,0,0', with(\@RAM, 2 => 'x' x 68 . ',0,0,0,0,0,0');
case 'line 2: missing'                                   => '7,2,0,0', 'memory,size,count,r,a,b,c', "\n";

# 3: line 2.

case 'line 2: size p'                                    => '3,2,0,0', with(\@RAM, 2 => 'ram,2147483647,2,100,1,2,3');
case 'line 2: count p'                                   => '3,2,0,0', with(\@RAM, 2 => 'ram,2,2147483647,100,1,2,3');
case 'line 2: r is p'                                    => '3,2,0,0', with(\@RAM, 2 => 'ram,2,2,2147483647,1,2,3');
case 'line 2: a is p'                                    => '3,2,0,0', with(\@RAM, 2 => 'ram,2,2,100,2147483647,2,3');
case 'line 2: b is p'                                    => '3,2,0,0', with(\@RAM, 2 => 'ram,2,2,100,1,2147483647,3');
case 'line 2: c is p'                                    => '3,2,0,0', with(\@RAM, 2 => 'ram,2,2,100,1,2,2147483647');
case 'line 2: size 2 to the power 32, plus 2'            => '3,2,0,0', with(\@RAM, 2 => 'ram,4294967298,2,100,1,2,3');
case 'line 2: the largest number of 10 digits'           => '3,2,0,0', with(\@RAM, 2 => 'ram,2,2,9999999999,1,2,3');
case 'line 2: r is p + 100'                              => '3,2,0,0', with(\@RAM, 2 => 'ram,2,2,2147483747,1,2,3');
case 'line 2: the whole challenge is p - 1'              => '0,0,12,16', with(\@RAM, 2 => 'ram,2,2,2147483646,2147483646,2147483646,2147483646');

# 4.

case 'memory: unknown'                                   => '4,2,0,0', header('tape', 2, 2);
case 'memory: empty'                                     => '4,2,0,0', header('', 0, 0);
case 'memory: a capital'                                 => '4,2,0,0', header('Ram', 0, 0);
case 'memory: capitals'                                  => '4,2,0,0', header('QUEUE', 0, 0);
case 'memory: a prefix of ram'                           => '4,2,0,0', header('ra', 0, 0);
case 'memory: a prefix of stack'                         => '4,2,0,0', header('stac', 0, 0);
case 'memory: ram with a letter more'                    => '4,2,0,0', header('rams', 0, 0);
case 'memory: set with a letter more'                    => '4,2,0,0', header('sets', 0, 0);
case 'memory: queue without its last letter'             => '4,2,0,0', header('queu', 0, 0);
case 'memory: rom misspelt'                              => '4,2,0,0', header('rem', 0, 0);
case 'memory: a space in front'                          => '4,2,0,0', header(' ram', 0, 0);
case 'memory: a space behind'                            => '4,2,0,0', header('ram ', 0, 0);
case 'memory: a NUL behind'                              => '4,2,0,0', header("ram\0", 0, 0);
case 'memory: quoted'                                    => '4,2,0,0', header('"ram"', 0, 0);
case 'memory: an op'                                     => '4,2,0,0', header('push', 0, 0);
case 'memory: a number'                                  => '4,2,0,0', header('0', 0, 0);
case 'size: ram 65537'                                   => '4,2,0,0', header('ram', 65537, 0);
case 'size: rom 65537'                                   => '4,2,0,0', header('rom', 65537, 0);
case 'size: set 65537'                                   => '4,2,0,0', header('set', 65537, 0);
case 'size: ram p - 1'                                   => '4,2,0,0', header('ram', 2147483646, 0);
case 'size: ram 131072'                                  => '4,2,0,0', header('ram', 131072, 0);
case 'size: stack 1'                                     => '4,2,0,0', header('stack', 1, 0);
case 'size: queue 1'                                     => '4,2,0,0', header('queue', 1, 0);
case 'size: stack 65536'                                 => '4,2,0,0', header('stack', 65536, 0);
case 'size: queue p - 1'                                 => '4,2,0,0', header('queue', 2147483646, 0);
case 'count: rom 65537'                                  => '4,2,0,0', header('rom', 1, 65537);
case 'count: set 65537'                                  => '4,2,0,0', header('set', 1, 65537);
case 'count: stack 65537'                                => '4,2,0,0', header('stack', 0, 65537);
case 'count: queue 65537'                                => '4,2,0,0', header('queue', 0, 65537);
case 'count: ram p - 1'                                  => '4,2,0,0', header('ram', 1, 2147483646);
case 'count: queue p - 1'                                => '4,2,0,0', header('queue', 0, 2147483646);

# Size and count of 65536 are read: the first row is missing.
case 'limits: ram'                                       => '7,4,0,0', header('ram', 65536, 65536);
case 'limits: rom'                                       => '7,4,0,0', header('rom', 65536, 65536);
case 'limits: set'                                       => '7,4,0,0', header('set', 65536, 65536);
case 'limits: stack'                                     => '7,4,0,0', header('stack', 0, 65536);
case 'limits: queue'                                     => '7,4,0,0', header('queue', 0, 65536);

# Faults that meet on line 2.

case 'line 2: 2 with 3, the 3 in front'                  => '2,2,0,0', with(\@RAM, 2 => 'ram,2147483647,2,100,1,2,03');
case 'line 2: 2 with 3, the 2 in front'                  => '2,2,0,0', with(\@RAM, 2 => 'ram,,2,100,1,2,2147483647');
case 'line 2: 2 with 3, 6 fields'                        => '2,2,0,0', with(\@RAM, 2 => 'ram,2,2,2147483647,1,2');
case 'line 2: 2 with 3, without a line feed'             => '2,2,0,0', "memory,size,count,r,a,b,c\n", 'ram,2,2,2147483647,1,2,3';
case 'line 2: 2 with 4, unknown memory'                  => '2,2,0,0', with(\@RAM, 2 => 'tape,2,2,100,1,2,');
case 'line 2: 2 with 4, unknown memory, 8 fields'        => '2,2,0,0', with(\@RAM, 2 => 'tape,2,2,100,1,2,3,4');
case 'line 2: 2 with 4, size not allowed'                => '2,2,0,0', with(\@RAM, 2 => 'ram,65537,2,100,1,2,03');
case 'line 2: 2 with 4, without a line feed'             => '2,2,0,0', "memory,size,count,r,a,b,c\n", 'stack,1,0,1,1,1,1';
case 'line 2: 3 with 4, unknown memory'                  => '3,2,0,0', with(\@RAM, 2 => 'tape,2,2,100,1,2,2147483647');
case 'line 2: 3 with 4, size and count'                  => '3,2,0,0', with(\@RAM, 2 => 'ram,65537,2147483647,100,1,2,3');
case 'line 2: 3 with 4, count not allowed'               => '3,2,0,0', with(\@RAM, 2 => 'ram,2,65537,2147483647,1,2,3');
case 'line 2: 3 with 4, stack of size p'                 => '3,2,0,0', header('stack', 2147483647, 0);
case 'line 2: 3 with 4, queue of size 1'                 => '3,2,0,0', header('queue', 1, 0, 1, 1, 1, 2147483647);
case 'line 2: 2 with 3 and 4'                            => '2,2,0,0', with(\@RAM, 2 => 'tape,65537,2147483647,00,1,2,3');
case 'line 2: the row names'                             => '2,2,0,0', with(\@RAM, 2 => 'op,guard,addr,value,old,time,version');

# 2: rows.

case 'init: blank line'                                  => '2,4,0,0', with(\@RAM, 4 => '');
case 'init: the op alone'                                => '2,4,0,0', with(\@RAM, 4 => 'init');
case 'init: 6 fields'                                    => '2,4,0,0', with(\@RAM, 4 => 'init,0,0,5,0,0');
case 'init: 8 fields'                                    => '2,4,0,0', with(\@RAM, 4 => 'init,0,0,5,0,0,0,0');
case 'init: a comma at the end'                          => '2,4,0,0', with(\@RAM, 4 => 'init,0,0,5,0,0,0,');
case 'init: commas only'                                 => '2,4,0,0', with(\@RAM, 4 => ',,,,,,');
case 'init: guard empty'                                 => '2,4,0,0', with(\@RAM, 4 => 'init,,0,5,0,0,0');
case 'init: addr empty'                                  => '2,4,0,0', with(\@RAM, 4 => 'init,0,,5,0,0,0');
case 'init: value empty'                                 => '2,4,0,0', with(\@RAM, 4 => 'init,0,0,,0,0,0');
case 'init: old empty'                                   => '2,4,0,0', with(\@RAM, 4 => 'init,0,0,5,,0,0');
case 'init: time empty'                                  => '2,4,0,0', with(\@RAM, 4 => 'init,0,0,5,0,,0');
case 'init: version empty'                               => '2,4,0,0', with(\@RAM, 4 => 'init,0,0,5,0,0,');
case 'init: guard is 00'                                 => '2,4,0,0', with(\@RAM, 4 => 'init,00,0,5,0,0,0');
case 'init: addr is 00'                                  => '2,4,0,0', with(\@RAM, 4 => 'init,0,00,5,0,0,0');
case 'init: value with a leading zero'                   => '2,4,0,0', with(\@RAM, 4 => 'init,0,0,05,0,0,0');
case 'init: value 5 in 11 digits'                        => '2,4,0,0', with(\@RAM, 4 => 'init,0,0,00000000005,0,0,0');
case 'init: value of 10 digits with a leading zero'      => '2,4,0,0', with(\@RAM, 4 => 'init,0,0,0000000005,0,0,0');
case 'init: old is 00'                                   => '2,4,0,0', with(\@RAM, 4 => 'init,0,0,5,00,0,0');
case 'init: time is 00'                                  => '2,4,0,0', with(\@RAM, 4 => 'init,0,0,5,0,00,0');
case 'init: version is 00'                               => '2,4,0,0', with(\@RAM, 4 => 'init,0,0,5,0,0,00');
case 'init: plus sign'                                   => '2,4,0,0', with(\@RAM, 4 => 'init,0,0,+5,0,0,0');
case 'init: minus sign'                                  => '2,4,0,0', with(\@RAM, 4 => 'init,0,0,-5,0,0,0');
case 'init: minus zero'                                  => '2,4,0,0', with(\@RAM, 4 => 'init,0,0,-0,0,0,0');
case 'init: a space before a number'                     => '2,4,0,0', with(\@RAM, 4 => 'init,0,0, 5,0,0,0');
case 'init: a space after a number'                      => '2,4,0,0', with(\@RAM, 4 => 'init,0,0,5 ,0,0,0');
case 'init: a space at the end'                          => '2,4,0,0', with(\@RAM, 4 => 'init,0,0,5,0,0,0 ');
case 'init: a tab'                                       => '2,4,0,0', with(\@RAM, 4 => "init,0,0,5,0,\t0,0");
case 'init: CR LF'                                       => '2,4,0,0', with(\@RAM, 4 => "init,0,0,5,0,0,0\r");
case 'init: a NUL after a number'                        => '2,4,0,0', with(\@RAM, 4 => "init,0,0,5\0,0,0,0");
case 'init: a NUL at the end'                            => '2,4,0,0', with(\@RAM, 4 => "init,0,0,5,0,0,0\0");
case 'init: a NUL for a comma'                           => '2,4,0,0', with(\@RAM, 4 => "init,0,0\x{0}5,0,0,0");
case 'init: a NUL for the line feed'                     => '2,4,0,0', first_lines(\@RAM, 3), "init,0,0,5,0,0,0\0", @RAM[4 .. 10];
case 'init: a line of NULs'                              => '2,4,0,0', with(\@RAM, 4 => "\0" x 16);
case 'init: a byte above 127'                            => '2,4,0,0', with(\@RAM, 4 => "init,0,0,5\xb2,0,0,0");
case 'init: a letter'                                    => '2,4,0,0', with(\@RAM, 4 => 'init,0,0,x,0,0,0');
case 'init: the byte after 9'                            => '2,4,0,0', with(\@RAM, 4 => 'init,0,0,5:,0,0,0');
case 'init: the byte before 0'                           => '2,4,0,0', with(\@RAM, 4 => 'init,0,0,5/,0,0,0');
case 'init: a base-16 number'                            => '2,4,0,0', with(\@RAM, 4 => 'init,0,0,0x5,0,0,0');
case 'init: an exponent'                                 => '2,4,0,0', with(\@RAM, 4 => 'init,0,0,5e0,0,0,0');
case 'init: a fraction'                                  => '2,4,0,0', with(\@RAM, 4 => 'init,0,0,5.0,0,0,0');
case 'init: semicolons'                                  => '2,4,0,0', with(\@RAM, 4 => 'init;0;0;5;0;0;0');
case 'init: 11 digits'                                   => '2,4,0,0', with(\@RAM, 4 => 'init,0,0,10000000000,0,0,0');
case 'init: 2 to the power 64, plus 5'                   => '2,4,0,0', with(\@RAM, 4 => 'init,0,0,18446744073709551621,0,0,0');
case 'init: two rows on one line'                        => '2,4,0,0', with(\@RAM, 4 => 'init,0,0,5,0,0,0,init,0,0,9,0,0,0');
case 'init: the names line again'                        => '2,4,0,0', with(\@RAM, 4 => 'op,guard,addr,value,old,time,version');
case 'init: an unknown op in 81 bytes'                   => '2,4,0,0', with(\@RAM, 4 => 'x' x 69 . ',0,0,0,0,0,0');
case 'init: an unknown op in 80 bytes'                   => '5,4,0,0', with(\@RAM, 4 => 'x' x 68 . ',0,0,0,0,0,0');
case 'init: 81 bytes with CR'                            => '2,4,0,0', with(\@RAM, 4 => 'x' x 68 . ",0,0,0,0,0,0\r");
case 'access: 6 fields'                                  => '2,6,0,0', with(\@RAM, 6 => 'access,1,0,7,5,0');
case 'access: 8 fields'                                  => '2,7,0,0', with(\@RAM, 7 => 'access,0,0,0,7,1,1,0');
case 'access: a leading zero in time'                    => '2,7,0,0', with(\@RAM, 7 => 'access,0,0,0,7,01,1');
case 'access: guard 01'                                  => '2,6,0,0', with(\@RAM, 6 => 'access,01,0,7,5,0,0');
case 'access: the value of a load is not a number'       => '2,7,0,0', with(\@RAM, 7 => 'access,0,0,-,7,1,1');
case 'access: an unknown op in 80 bytes'                 => '5,7,0,0', with(\@RAM, 7 => 'y' x 68 . ',0,0,0,0,0,0');
case 'access: an unknown op in 81 bytes'                 => '2,7,0,0', with(\@RAM, 7 => 'y' x 69 . ',0,0,0,0,0,0');
case 'end: blank line'                                   => '2,9,0,0', with(\@RAM, 9 => '');
case 'end: 6 fields'                                     => '2,9,0,0', with(\@RAM, 9 => 'end,0,0,0,9,0');
case 'end: an unknown op in 80 bytes'                    => '5,9,0,0', with(\@RAM, 9 => 'z' x 68 . ',0,0,0,0,0,0');
case 'range: 8 fields'                                   => '2,11,0,0', with(\@RAM, 11 => 'range,0,0,0,0,0,0,0');
case 'range: a leading zero in version'                  => '2,10,0,0', with(\@RAM, 10 => 'range,0,0,0,0,0,02');
case 'range: an unknown op in 81 bytes'                  => '2,11,0,0', with(\@RAM, 11 => 'z' x 69 . ',0,0,0,0,0,0');
case 'look: version empty'                               => '2,6,0,0', with(\@ROM, 6 => 'look,0,1,0,9,0,');
case 'member: version empty'                             => '2,6,0,0', with(\@SET, 6 => 'member,0,0,5,0,0,');
case 'push: a leading zero'                              => '2,5,0,0', with(\@STACK, 5 => 'push,1,0,06,0,0,0');
case 'pop: 6 fields'                                     => '2,6,0,0', with(\@STACK, 6 => 'pop,1,0,0,6,2');
case 'enqueue: a letter'                                 => '2,4,0,0', with(\@QUEUE, 4 => 'enqueue,1,0,four,0,0,0');
case 'dequeue: 8 fields'                                 => '2,6,0,0', with(\@QUEUE, 6 => 'dequeue,1,0,0,4,0,0,0');

# Missing line feeds: a last line that is due and complete but for its line feed is 2.

case 'unended: an init'                                  => '2,4,0,0',  unended(first_lines(\@RAM, 4));
case 'unended: the last init'                            => '2,5,0,0',  unended(first_lines(\@RAM, 5));
case 'unended: an access'                                => '2,6,0,0',  unended(first_lines(\@RAM, 6));
case 'unended: an end'                                   => '2,8,0,0',  unended(first_lines(\@RAM, 8));
case 'unended: a range'                                  => '2,10,0,0', unended(first_lines(\@RAM, 10));
case 'unended: the last line of a ram'                   => '2,11,0,0', unended(@RAM);
case 'unended: the last line of a rom'                   => '2,9,0,0',  unended(@ROM);
case 'unended: the last line of a set'                   => '2,9,0,0',  unended(@SET);
case 'unended: the last line of a stack'                 => '2,13,0,0', unended(@STACK);
case 'unended: the last line of a queue'                 => '2,7,0,0',  unended(@QUEUE);
case 'unended: a look'                                   => '2,6,0,0',  unended(first_lines(\@ROM, 6));
case 'unended: a member'                                 => '2,7,0,0',  unended(first_lines(\@SET, 7));
case 'unended: a push'                                   => '2,4,0,0',  unended(first_lines(\@STACK, 4));
case 'unended: a pop'                                    => '2,6,0,0',  unended(first_lines(\@STACK, 6));
case 'unended: an enqueue'                               => '2,5,0,0',  unended(first_lines(\@QUEUE, 5));
case 'unended: a dequeue'                                => '2,6,0,0',  unended(first_lines(\@QUEUE, 6));
case 'unended: one byte of a row'                        => '2,4,0,0',  first_lines(\@RAM, 3), 'i';
case 'unended: a NUL where a row is due'                 => '2,4,0,0',  first_lines(\@RAM, 3), "\0";
case 'unended: an op that is not due'                    => '2,4,0,0',  first_lines(\@RAM, 3), 'pop,1,0,0,0,0,0';
case 'unended: 80 bytes'                                 => '2,4,0,0',  first_lines(\@RAM, 3), 'x' x 68 . ',0,0,0,0,0,0';
case 'unended: CR in place of the last line feed'        => '2,11,0,0', unended(@RAM), "\r";

# 3: rows.

case 'init: guard p'                                     => '3,4,0,0', with(\@RAM, 4 => 'init,2147483647,0,5,0,0,0');
case 'init: addr p'                                      => '3,4,0,0', with(\@RAM, 4 => 'init,0,2147483647,5,0,0,0');
case 'init: old p'                                       => '3,4,0,0', with(\@RAM, 4 => 'init,0,0,5,2147483647,0,0');
case 'init: time p'                                      => '3,4,0,0', with(\@RAM, 4 => 'init,0,0,5,0,2147483647,0');
case 'init: version p'                                   => '3,4,0,0', with(\@RAM, 4 => 'init,0,0,5,0,0,2147483647');
case 'init: value p + 1'                                 => '3,4,0,0', with(\@RAM, 4 => 'init,0,0,2147483648,0,0,0');
case 'init: value p + 5'                                 => '3,4,0,0', with(\@RAM, 4 => 'init,0,0,2147483652,0,0,0');
case 'init: value 2 to the power 32, plus 5'             => '3,4,0,0', with(\@RAM, 4 => 'init,0,0,4294967301,0,0,0');
case 'init: the largest number of 10 digits'             => '3,4,0,0', with(\@RAM, 4 => 'init,0,0,9999999999,0,0,0');
case 'access: guard p'                                   => '3,6,0,0', with(\@RAM, 6 => 'access,2147483647,0,7,5,0,0');
case 'access: guard p + 1'                               => '3,6,0,0', with(\@RAM, 6 => 'access,2147483648,0,7,5,0,0');
case 'access: addr p'                                    => '3,6,0,0', with(\@RAM, 6 => 'access,1,2147483647,7,5,0,0');
case 'access: value p'                                   => '3,6,0,0', with(\@RAM, 6 => 'access,1,0,2147483647,5,0,0');
case 'access: the value of a load is p'                  => '3,7,0,0', with(\@RAM, 7 => 'access,0,0,2147483647,7,1,1');
case 'access: old p'                                     => '3,6,0,0', with(\@RAM, 6 => 'access,1,0,7,2147483647,0,0');
case 'access: time p'                                    => '3,6,0,0', with(\@RAM, 6 => 'access,1,0,7,5,2147483647,0');
case 'access: version p'                                 => '3,6,0,0', with(\@RAM, 6 => 'access,1,0,7,5,0,2147483647');
case 'end: old p'                                        => '3,8,0,0', with(\@RAM, 8 => 'end,0,0,0,2147483647,2,0');
case 'range: version p'                                  => '3,10,0,0', with(\@RAM, 10 => 'range,0,0,0,0,0,2147483647');
case 'look: old p'                                       => '3,7,0,0', with(\@ROM, 7 => 'look,0,1,0,2147483647,0,1');
case 'member: value p'                                   => '3,7,0,0', with(\@SET, 7 => 'member,0,0,2147483647,0,0,1');
case 'push: the value of a skipped push is p'            => '3,4,0,0', with(\@STACK, 4 => 'push,0,0,2147483647,0,0,0');
case 'pop: the old of a skipped pop is p'                => '3,6,0,0', with(\@STACK, 6 => 'pop,0,0,0,2147483647,2,0');
case 'dequeue: old p'                                    => '3,6,0,0', with(\@QUEUE, 6 => 'dequeue,1,0,0,2147483647,0,0');

# 5.

case 'op: unknown'                                       => '5,6,0,0', with(\@RAM, 6 => 'store,1,0,7,5,0,0');
case 'op: empty'                                         => '5,6,0,0', with(\@RAM, 6 => ',1,0,7,5,0,0');
case 'op: a capital'                                     => '5,6,0,0', with(\@RAM, 6 => 'Access,1,0,7,5,0,0');
case 'op: capitals'                                      => '5,8,0,0', with(\@RAM, 8 => 'END,0,0,0,7,2,0');
case 'op: a prefix of access'                            => '5,6,0,0', with(\@RAM, 6 => 'acces,1,0,7,5,0,0');
case 'op: access with a letter more'                     => '5,6,0,0', with(\@RAM, 6 => 'accesss,1,0,7,5,0,0');
case 'op: a prefix of init'                              => '5,4,0,0', with(\@RAM, 4 => 'ini,0,0,5,0,0,0');
case 'op: a space in front'                              => '5,4,0,0', with(\@RAM, 4 => ' init,0,0,5,0,0,0');
case 'op: a space behind'                                => '5,4,0,0', with(\@RAM, 4 => 'init ,0,0,5,0,0,0');
case 'op: a NUL behind'                                  => '5,4,0,0', with(\@RAM, 4 => "init\0,0,0,5,0,0,0");
case 'op: a byte above 127'                              => '5,4,0,0', with(\@RAM, 4 => "init\xff,0,0,5,0,0,0");
case 'op: a number'                                      => '5,4,0,0', with(\@RAM, 4 => '0,0,0,5,0,0,0');
case 'op: the memory'                                    => '5,4,0,0', with(\@RAM, 4 => 'ram,0,0,5,0,0,0');
case 'op: access where init is due'                      => '5,5,0,0', with(\@RAM, 5 => 'access,0,0,9,0,0,0');
case 'op: init where an operation is due'                => '5,6,0,0', with(\@RAM, 6 => 'init,0,0,7,0,0,0');
case 'op: end where an operation is due'                 => '5,7,0,0', with(\@RAM, 7 => 'end,0,0,0,7,2,0');
case 'op: range where an operation is due'               => '5,7,0,0', with(\@RAM, 7 => 'range,0,0,0,0,0,1');
case 'op: access where end is due'                       => '5,8,0,0', with(\@RAM, 8 => 'access,0,0,0,7,2,0');
case 'op: range where end is due'                        => '5,9,0,0', with(\@RAM, 9 => 'range,0,0,0,0,0,0');
case 'op: end where range is due'                        => '5,10,0,0', with(\@RAM, 10 => 'end,0,0,0,0,0,0');
case 'op: access where range is due'                     => '5,11,0,0', with(\@RAM, 11 => 'access,0,0,0,0,0,0');
case 'op: a range row before the ends'                   => '5,8,0,0', first_lines(\@RAM, 7), @RAM[9, 10, 7, 8];
case 'op: look in a ram'                                 => '5,6,0,0', with(\@RAM, 6 => 'look,0,0,0,5,0,0');
case 'op: member in a ram'                               => '5,6,0,0', with(\@RAM, 6 => 'member,0,0,5,0,0,0');
case 'op: push in a ram'                                 => '5,6,0,0', with(\@RAM, 6 => 'push,1,0,7,0,0,0');
case 'op: access in a rom'                               => '5,6,0,0', with(\@ROM, 6 => 'access,0,1,0,9,0,0');
case 'op: member in a rom'                               => '5,6,0,0', with(\@ROM, 6 => 'member,0,0,9,0,0,0');
case 'op: range in place of an end of a rom'             => '5,8,0,0', with(\@ROM, 8 => 'range,0,0,0,0,0,0');
case 'op: look in a set'                                 => '5,6,0,0', with(\@SET, 6 => 'look,0,0,0,5,0,0');
case 'op: access in a set'                               => '5,7,0,0', with(\@SET, 7 => 'access,0,0,5,0,0,1');
case 'op: init in a stack'                               => '5,4,0,0', with(\@STACK, 4 => 'init,0,0,5,0,0,0');
case 'op: enqueue in a stack'                            => '5,4,0,0', with(\@STACK, 4 => 'enqueue,1,0,5,0,0,0');
case 'op: dequeue in a stack'                            => '5,6,0,0', with(\@STACK, 6 => 'dequeue,1,0,0,6,0,0');
case 'op: push where end is due'                         => '5,8,0,0', with(\@STACK, 8 => 'push,1,0,5,0,0,0');
case 'op: range where end of a stack is due'             => '5,9,0,0', with(\@STACK, 9 => 'range,0,0,0,0,0,0');
case 'op: end where range of a stack is due'             => '5,10,0,0', with(\@STACK, 10 => 'end,0,0,0,0,0,0');
case 'op: init in a queue'                               => '5,4,0,0', with(\@QUEUE, 4 => 'init,0,0,4,0,0,0');
case 'op: push in a queue'                               => '5,4,0,0', with(\@QUEUE, 4 => 'push,1,0,4,0,0,0');
case 'op: pop in a queue'                                => '5,6,0,0', with(\@QUEUE, 6 => 'pop,1,0,0,4,0,0');
case 'op: dequeue where end is due'                      => '5,7,0,0', with(\@QUEUE, 7 => 'dequeue,1,0,0,6,0,0');
case 'op: range where end of a queue is due'             => '5,7,0,0', with(\@QUEUE, 7 => 'range,0,0,0,0,0,0');
case 'op: init in a ram of size 0'                       => '5,4,0,0', header('ram', 0, 1), rows('init,0,0,0,0,0,0 range,0,0,0,0,0,1');
case 'op: end in a ram of count 0 before its init'       => '5,4,0,0', header('ram', 1, 0), rows('end,0,0,0,5,0,0 init,0,0,5,0,0,0');
# The depth decides how many end rows are due: a skipped push gives none.
case 'op: end after a skipped push'                      => '5,5,0,0', header('stack', 0, 1), rows('push,0,0,5,0,0,0 end,0,0,0,5,1,0 range,0,0,0,0,0,0');
case 'op: range after an executed push'                  => '5,5,0,0', header('stack', 0, 1), rows('push,1,0,5,0,0,0 range,0,0,0,0,0,0');

# 6: guard above 1.

case 'guard: 2 in an access'                             => '6,6,0,0', with(\@RAM, 6 => 'access,2,0,7,5,0,0');
case 'guard: p - 1 in an access'                         => '6,6,0,0', with(\@RAM, 6 => 'access,2147483646,0,7,5,0,0');
case 'guard: 10 in an access'                            => '6,6,0,0', with(\@RAM, 6 => 'access,10,0,7,5,0,0');
case 'guard: 256 in an access'                           => '6,6,0,0', with(\@RAM, 6 => 'access,256,0,7,5,0,0');
case 'guard: 257 in an access'                           => '6,6,0,0', with(\@RAM, 6 => 'access,257,0,7,5,0,0');
case 'guard: 2 in a push'                                => '6,4,0,0', with(\@STACK, 4 => 'push,2,0,5,0,0,0');
case 'guard: 2 in a pop'                                 => '6,6,0,0', with(\@STACK, 6 => 'pop,2,0,0,6,2,0');
case 'guard: 2 in an enqueue'                            => '6,4,0,0', with(\@QUEUE, 4 => 'enqueue,2,0,4,0,0,0');
case 'guard: 2 in a dequeue'                             => '6,6,0,0', with(\@QUEUE, 6 => 'dequeue,2,0,0,4,0,0');
case 'guard: 2 in an init'                               => '6,4,0,0', with(\@RAM, 4 => 'init,2,0,5,0,0,0');

# 6: an unused column not 0, each column of each op.

case 'unused: guard of an init'                          => '6,4,0,0', with(\@RAM, 4 => 'init,1,0,5,0,0,0');
case 'unused: addr of an init'                           => '6,5,0,0', with(\@RAM, 5 => 'init,0,1,9,0,0,0');
case 'unused: old of an init'                            => '6,4,0,0', with(\@RAM, 4 => 'init,0,0,5,5,0,0');
case 'unused: time of an init'                           => '6,4,0,0', with(\@RAM, 4 => 'init,0,0,5,0,1,0');
case 'unused: version of an init'                        => '6,4,0,0', with(\@RAM, 4 => 'init,0,0,5,0,0,1');
case 'unused: old of an init of a rom'                   => '6,4,0,0', with(\@ROM, 4 => 'init,0,0,5,5,0,0');
case 'unused: addr of an init of a set'                  => '6,5,0,0', with(\@SET, 5 => 'init,0,1,9,0,0,0');
case 'unused: guard of a look'                           => '6,6,0,0', with(\@ROM, 6 => 'look,1,1,0,9,0,0');
case 'unused: value of a look'                           => '6,6,0,0', with(\@ROM, 6 => 'look,0,1,9,9,0,0');
case 'unused: time of a look'                            => '6,7,0,0', with(\@ROM, 7 => 'look,0,1,0,9,1,1');
case 'unused: guard of a member'                         => '6,6,0,0', with(\@SET, 6 => 'member,1,0,5,0,0,0');
case 'unused: addr of a member'                          => '6,6,0,0', with(\@SET, 6 => 'member,0,1,5,0,0,0');
case 'unused: old of a member'                           => '6,6,0,0', with(\@SET, 6 => 'member,0,0,5,5,0,0');
case 'unused: time of a member'                          => '6,7,0,0', with(\@SET, 7 => 'member,0,0,5,0,1,1');
case 'unused: addr of a push'                            => '6,4,0,0', with(\@STACK, 4 => 'push,1,1,5,0,0,0');
case 'unused: old of a push'                             => '6,4,0,0', with(\@STACK, 4 => 'push,1,0,5,5,0,0');
case 'unused: time of a push'                            => '6,4,0,0', with(\@STACK, 4 => 'push,1,0,5,0,1,0');
case 'unused: version of a push'                         => '6,4,0,0', with(\@STACK, 4 => 'push,1,0,5,0,0,1');
case 'unused: addr of a skipped push'                    => '6,4,0,0', with(\@STACK, 4 => 'push,0,1,5,0,0,0');
case 'unused: addr of a pop'                             => '6,6,0,0', with(\@STACK, 6 => 'pop,1,2,0,6,2,0');
case 'unused: value of a pop'                            => '6,6,0,0', with(\@STACK, 6 => 'pop,1,0,6,6,2,0');
case 'unused: value of a skipped pop'                    => '6,6,0,0', with(\@STACK, 6 => 'pop,0,0,6,0,2,0');
case 'unused: addr of an enqueue'                        => '6,4,0,0', with(\@QUEUE, 4 => 'enqueue,1,1,4,0,0,0');
case 'unused: old of an enqueue'                         => '6,4,0,0', with(\@QUEUE, 4 => 'enqueue,1,0,4,4,0,0');
case 'unused: time of an enqueue'                        => '6,4,0,0', with(\@QUEUE, 4 => 'enqueue,1,0,4,0,1,0');
case 'unused: version of an enqueue'                     => '6,4,0,0', with(\@QUEUE, 4 => 'enqueue,1,0,4,0,0,1');
case 'unused: addr of a dequeue'                         => '6,6,0,0', with(\@QUEUE, 6 => 'dequeue,1,1,0,4,0,0');
case 'unused: value of a dequeue'                        => '6,6,0,0', with(\@QUEUE, 6 => 'dequeue,1,0,4,4,0,0');
case 'unused: time of a dequeue'                         => '6,6,0,0', with(\@QUEUE, 6 => 'dequeue,1,0,0,4,1,0');
case 'unused: version of a dequeue'                      => '6,6,0,0', with(\@QUEUE, 6 => 'dequeue,1,0,0,4,0,1');
case 'unused: addr of an end of a ram'                   => '6,9,0,0', with(\@RAM, 9 => 'end,0,1,0,9,0,0');
case 'unused: value of an end of a ram'                  => '6,8,0,0', with(\@RAM, 8 => 'end,0,0,7,7,2,0');
case 'unused: version of an end of a ram'                => '6,8,0,0', with(\@RAM, 8 => 'end,0,0,0,7,2,1');
case 'unused: guard of an end of a rom'                  => '6,8,0,0', with(\@ROM, 8 => 'end,1,0,5,0,0,0');
case 'unused: addr of an end of a rom'                   => '6,9,0,0', with(\@ROM, 9 => 'end,0,1,9,0,0,2');
case 'unused: old of an end of a rom'                    => '6,8,0,0', with(\@ROM, 8 => 'end,0,0,5,5,0,0');
case 'unused: time of an end of a rom'                   => '6,8,0,0', with(\@ROM, 8 => 'end,0,0,5,0,1,0');
case 'unused: guard of an end of a set'                  => '6,8,0,0', with(\@SET, 8 => 'end,1,0,5,0,0,2');
case 'unused: addr of an end of a set'                   => '6,9,0,0', with(\@SET, 9 => 'end,0,1,9,0,0,0');
case 'unused: old of an end of a set'                    => '6,8,0,0', with(\@SET, 8 => 'end,0,0,5,5,0,2');
case 'unused: time of an end of a set'                   => '6,8,0,0', with(\@SET, 8 => 'end,0,0,5,0,1,2');
case 'unused: guard of an end of a stack'                => '6,8,0,0', with(\@STACK, 8 => 'end,1,0,0,5,1,0');
case 'unused: addr of an end of a stack'                 => '6,8,0,0', with(\@STACK, 8 => 'end,0,1,0,5,1,0');
case 'unused: value of an end of a stack'                => '6,8,0,0', with(\@STACK, 8 => 'end,0,0,5,5,1,0');
case 'unused: version of an end of a stack'              => '6,8,0,0', with(\@STACK, 8 => 'end,0,0,0,5,1,1');
case 'unused: guard of an end of a queue'                => '6,7,0,0', with(\@QUEUE, 7 => 'end,1,0,0,6,0,0');
case 'unused: addr of an end of a queue'                 => '6,7,0,0', with(\@QUEUE, 7 => 'end,0,1,0,6,0,0');
case 'unused: value of an end of a queue'                => '6,7,0,0', with(\@QUEUE, 7 => 'end,0,0,6,6,0,0');
case 'unused: time of an end of a queue'                 => '6,7,0,0', with(\@QUEUE, 7 => 'end,0,0,0,6,1,0');
case 'unused: version of an end of a queue'              => '6,7,0,0', with(\@QUEUE, 7 => 'end,0,0,0,6,0,1');
case 'unused: guard of a range'                          => '6,10,0,0', with(\@RAM, 10 => 'range,1,0,0,0,0,2');
case 'unused: addr of a range'                           => '6,10,0,0', with(\@RAM, 10 => 'range,0,1,0,0,0,2');
case 'unused: value of a range'                          => '6,10,0,0', with(\@RAM, 10 => 'range,0,0,1,0,0,2');
case 'unused: old of a range'                            => '6,11,0,0', with(\@RAM, 11 => 'range,0,0,0,1,0,0');
case 'unused: time of a range of a stack'                => '6,13,0,0', with(\@STACK, 13 => 'range,0,0,0,0,1,0');

# 7: the file ends early. The line is that of the missing row.

case 'missing: all rows'                                 => '7,4,0,0',  first_lines(\@RAM, 3);
case 'missing: the second init'                          => '7,5,0,0',  first_lines(\@RAM, 4);
case 'missing: the operations'                           => '7,6,0,0',  first_lines(\@RAM, 5);
case 'missing: the second operation'                     => '7,7,0,0',  first_lines(\@RAM, 6);
case 'missing: the ends'                                 => '7,8,0,0',  first_lines(\@RAM, 7);
case 'missing: the second end'                           => '7,9,0,0',  first_lines(\@RAM, 8);
case 'missing: the ranges'                               => '7,10,0,0', first_lines(\@RAM, 9);
case 'missing: the last range'                           => '7,11,0,0', first_lines(\@RAM, 10);
case 'missing: the ends of a rom'                        => '7,8,0,0',  first_lines(\@ROM, 7);
case 'missing: the last end of a rom'                    => '7,9,0,0',  first_lines(\@ROM, 8);
case 'missing: an operation of a set'                    => '7,7,0,0',  first_lines(\@SET, 6);
case 'missing: the last end of a set'                    => '7,9,0,0',  first_lines(\@SET, 8);
case 'missing: the operations of a stack'                => '7,4,0,0',  first_lines(\@STACK, 3);
case 'missing: the last operation of a stack'            => '7,7,0,0',  first_lines(\@STACK, 6);
case 'missing: the ends of a stack'                      => '7,8,0,0',  first_lines(\@STACK, 7);
case 'missing: the last end of a stack'                  => '7,9,0,0',  first_lines(\@STACK, 8);
case 'missing: the ranges of a stack'                    => '7,10,0,0', first_lines(\@STACK, 9);
case 'missing: the last range of a stack'                => '7,13,0,0', first_lines(\@STACK, 12);
case 'missing: the operations of a queue'                => '7,4,0,0',  first_lines(\@QUEUE, 3);
case 'missing: the last operation of a queue'            => '7,6,0,0',  first_lines(\@QUEUE, 5);
case 'missing: the end of a queue'                       => '7,7,0,0',  first_lines(\@QUEUE, 6);
# The stack's range has T rows, also where no row is a pop.
case 'missing: the range of a push'                      => '7,6,0,0',  header('stack', 0, 1), rows('push,1,0,5,0,0,0 end,0,0,0,5,1,0');

# 7: a line follows the last due row. It is not read.

case 'surplus: a blank line'                             => '7,12,0,0', @RAM, "\n";
case 'surplus: two blank lines'                          => '7,12,0,0', @RAM, "\n\n";
case 'surplus: a range row'                              => '7,12,0,0', @RAM, "range,0,0,0,0,0,0\n";
case 'surplus: an end row'                               => '7,12,0,0', @RAM, "end,0,0,0,0,0,0\n";
case 'surplus: line 1 again'                             => '7,12,0,0', @RAM, $RAM[0];
case 'surplus: the whole file again'                     => '7,12,0,0', @RAM, @RAM;
case 'surplus: garbage'                                  => '7,12,0,0', @RAM, "...\n";
case 'surplus: one byte without a line feed'             => '7,12,0,0', @RAM, 'x';
case 'surplus: a row without a line feed'                => '7,12,0,0', @RAM, 'range,0,0,0,0,0,0';
case 'surplus: a NUL without a line feed'                => '7,12,0,0', @RAM, "\0";
case 'surplus: CR without a line feed'                   => '7,12,0,0', @RAM, "\r";
case 'surplus: CR LF'                                    => '7,12,0,0', @RAM, "\r\n";
case 'surplus: a space'                                  => '7,12,0,0', @RAM, ' ';
case 'surplus: 81 bytes'                                 => '7,12,0,0', @RAM, 'x' x 81, "\n";
case 'surplus: 81 bytes without a line feed'             => '7,12,0,0', @RAM, 'x' x 81;
case 'surplus: a number of p'                            => '7,12,0,0', @RAM, "range,0,0,0,0,0,2147483647\n";
case 'surplus: a malformed row'                          => '7,12,0,0', @RAM, "range,0,0,0,0,0,00\n";
case 'surplus: an unused column not 0'                   => '7,12,0,0', @RAM, "range,1,0,0,0,0,0\n";
case 'surplus: in a rom'                                 => '7,10,0,0', @ROM, "range,0,0,0,0,0,0\n";
case 'surplus: in a set'                                 => '7,10,0,0', @SET, "end,0,0,9,0,0,0\n";
case 'surplus: in a stack'                               => '7,14,0,0', @STACK, "range,0,0,0,0,0,0\n";
case 'surplus: in a queue'                               => '7,8,0,0',  @QUEUE, "end,0,0,0,6,0,0\n";
case 'surplus: a range row in a queue'                   => '7,8,0,0',  @QUEUE, "range,0,0,0,0,0,0\n";
case 'surplus: in a ram of size 0 and count 0'           => '7,4,0,0',  header('ram', 0, 0), "\n";
case 'surplus: in a stack of count 0'                    => '7,4,0,0',  header('stack', 0, 0), "push,1,0,5,0,0,0\n";
case 'surplus: in a queue of count 0'                    => '7,4,0,0',  header('queue', 0, 0), 'x';
case 'surplus: an operation more than count'             => '5,8,0,0',  @RAM[0 .. 6], "access,0,0,0,7,2,0\n", @RAM[7 .. 10];
case 'surplus: an end row after an empty queue'          => '7,6,0,0',  header('queue', 0, 2),
    rows('enqueue,1,0,4,0,0,0 dequeue,1,0,0,4,0,0 end,0,0,0,4,0,0');
case 'surplus: an end row of a skipped enqueue'          => '7,5,0,0',  header('queue', 0, 1),
    rows('enqueue,0,0,4,0,0,0 end,0,0,0,4,0,0');

# 8: at the last operation row.

case 'stack: pop alone'                                  => '8,4,0,0', header('stack', 0, 1), rows('pop,1,0,0,0,0,0 range,0,0,0,0,0,1');
case 'stack: one pop too many at the end'                => '8,6,0,0', header('stack', 0, 3), rows('push,1,0,5,0,0,0 pop,1,0,0,5,1,0 pop,1,0,0,5,1,1');
case 'stack: one pop too many at the front'              => '8,6,0,0', header('stack', 0, 3), rows('pop,1,0,0,5,0,0 pop,1,0,0,5,0,1 push,1,0,5,0,0,0');
case 'stack: below 0, the last row a skipped push'       => '8,5,0,0', header('stack', 0, 2), rows('pop,1,0,0,5,0,0 push,0,0,5,0,0,0');
case 'stack: below 0, the last row a skipped pop'        => '8,5,0,0', header('stack', 0, 2), rows('pop,1,0,0,5,0,0 pop,0,0,0,0,0,1');
case 'stack: below 0 at challenge 0,0,0,0'               => '8,4,0,0', header('stack', 0, 1, 0, 0, 0, 0), rows('pop,1,0,0,0,0,0 range,0,0,0,0,0,0');
case 'stack: below 0, then the file ends'                => '8,4,0,0', header('stack', 0, 1), rows('pop,1,0,0,0,0,0');
case 'stack: below 0 before the last operation'          => '7,5,0,0', header('stack', 0, 2), rows('pop,1,0,0,0,0,0');
case 'queue: dequeue, then enqueue'                      => '8,5,0,0', header('queue', 0, 2), rows('dequeue,1,0,0,4,0,0 enqueue,1,0,4,0,0,0');
case 'queue: dequeue on empty in the middle'             => '8,7,0,0', header('queue', 0, 4),
    rows('enqueue,1,0,4,0,0,0 dequeue,1,0,0,4,0,0 dequeue,1,0,0,6,0,0 enqueue,1,0,6,0,0,0');
case 'queue: dequeue on empty, two enqueues after it'    => '8,6,0,0', header('queue', 0, 3),
    rows('dequeue,1,0,0,4,0,0 enqueue,1,0,4,0,0,0 enqueue,1,0,6,0,0,0 end,0,0,0,6,0,0');
case 'queue: dequeue on empty, then a skipped dequeue'   => '8,5,0,0', header('queue', 0, 2), rows('dequeue,1,0,0,4,0,0 dequeue,0,0,0,0,0,0');
case 'queue: a skipped enqueue adds nothing'             => '8,5,0,0', header('queue', 0, 2), rows('enqueue,0,0,4,0,0,0 dequeue,1,0,0,4,0,0');
case 'queue: dequeue on empty at challenge 0,0,0,0'      => '8,4,0,0', header('queue', 0, 1, 0, 0, 0, 0), rows('dequeue,1,0,0,0,0,0');
case 'queue: dequeue on empty before the last operation' => '7,5,0,0', header('queue', 0, 2), rows('dequeue,1,0,0,4,0,0');
case 'queue: a skipped dequeue at depth below 0'         => '8,6,0,0', header('queue', 0, 3),
    rows('dequeue,1,0,0,4,0,0 dequeue,1,0,0,4,0,0 dequeue,0,0,0,4,0,0');

# What follows an 8 is not read.
case '8, then a blank line'                              => '8,4,0,0', @EMPTIED, "\n";
case '8, then garbage'                                   => '8,4,0,0', @EMPTIED, "...\n";
case '8, then garbage without a line feed'               => '8,4,0,0', @EMPTIED, '...';
case '8, then a row'                                     => '8,4,0,0', @EMPTIED, rows('end,0,0,0,4,0,0');
case '8, then a number of p'                             => '8,4,0,0', @EMPTIED, rows('end,0,0,0,2147483647,0,0');
case '8, then 100000 bytes'                              => '8,4,0,0', @EMPTIED, 'x' x 100000;
case '8 in a stack, then an op that is not due'          => '8,4,0,0', header('stack', 0, 1), rows('pop,1,0,0,0,0,0 end,0,0,0,0,0,0');
case '8 in a stack, then an unused column not 0'         => '8,4,0,0', header('stack', 0, 1), rows('pop,1,0,0,0,0,0 range,1,0,0,0,0,0');
case '8 in a stack, then a malformed row'                => '8,4,0,0', header('stack', 0, 1), rows('pop,1,0,0,0,0,0 range,0,0,0,0,0,00');
case '8 in a stack, then its ranges and a surplus row'   => '8,4,0,0', header('stack', 0, 1), rows('pop,1,0,0,0,0,0 range,0,0,0,0,0,1 range,0,0,0,0,0,0');

# Faults that meet on a row: table order, over the whole line.

case 'row: 2 with 3, the 3 in front'                     => '2,4,0,0', with(\@RAM, 4 => 'init,0,0,2147483647,0,0,00');
case 'row: 2 with 3, the 2 in front'                     => '2,4,0,0', with(\@RAM, 4 => 'init,0,,5,0,0,2147483647');
case 'row: 2 with 3, 8 fields'                           => '2,4,0,0', with(\@RAM, 4 => 'init,0,0,2147483647,0,0,0,0');
case 'row: 2 with 3, 11 digits after p'                  => '2,4,0,0', with(\@RAM, 4 => 'init,2147483647,0,5,0,0,10000000000');
case 'row: 2 with 3, without a line feed'                => '2,4,0,0', first_lines(\@RAM, 3), 'init,0,0,2147483647,0,0,0';
case 'row: 2 with 3, 81 bytes'                           => '2,4,0,0', with(\@RAM, 4 => 'x' x 60 . ',0,0,2147483647,0,0,0');
case 'row: 2 with 5, the op of another memory'           => '2,4,0,0', with(\@RAM, 4 => 'pop,1,0,0,0,0,00');
case 'row: 2 with 5, 6 fields'                           => '2,4,0,0', with(\@RAM, 4 => 'pop,1,0,0,0,0');
case 'row: 2 with 5, without a line feed'                => '2,6,0,0', first_lines(\@RAM, 5), 'pop,1,0,0,0,0,0';
case 'row: 2 with 6, guard 2'                            => '2,6,0,0', with(\@RAM, 6 => 'access,2,0,7,5,0,');
case 'row: 2 with 6, an unused column'                   => '2,8,0,0', with(\@RAM, 8 => 'end,1,0,0,7,2,00');
case 'row: 2 with 6, without a line feed'                => '2,8,0,0', first_lines(\@RAM, 7), 'end,1,0,0,7,2,0';
case 'row: 2 with 8, queue'                              => '2,4,0,0', header('queue', 0, 1), rows('dequeue,1,0,0,04,0,0');
case 'row: 2 with 8, stack'                              => '2,4,0,0', header('stack', 0, 1), rows('pop,1,0,0,0,0');
case 'row: 2 with 8, without a line feed'                => '2,4,0,0', header('queue', 0, 1), 'dequeue,1,0,0,4,0,0';
case 'row: 3 with 5, the op of another memory'           => '3,6,0,0', with(\@RAM, 6 => 'pop,1,0,0,2147483647,0,0');
case 'row: 3 with 5, unknown op'                         => '3,4,0,0', with(\@RAM, 4 => 'x,0,0,0,0,0,2147483647');
case 'row: 3 with 5, an op due later'                    => '3,4,0,0', with(\@RAM, 4 => 'access,0,0,2147483647,0,0,0');
case 'row: 3 with 6, guard 2'                            => '3,6,0,0', with(\@RAM, 6 => 'access,2,0,7,5,0,2147483647');
case 'row: 3 with 6, an unused column'                   => '3,8,0,0', with(\@RAM, 8 => 'end,1,0,0,2147483647,2,0');
case 'row: 3 with 6, the unused column itself'           => '3,8,0,0', with(\@RAM, 8 => 'end,0,2147483647,0,7,2,0');
case 'row: 3 with 8, queue'                              => '3,4,0,0', header('queue', 0, 1), rows('dequeue,1,0,0,2147483647,0,0');
case 'row: 3 with 8, stack'                              => '3,4,0,0', header('stack', 0, 1), rows('pop,1,0,0,0,0,2147483647');
case 'row: 5 with 6, guard 2'                            => '5,6,0,0', with(\@RAM, 6 => 'pop,2,0,0,5,0,0');
case 'row: 5 with 6, columns that no op here uses'       => '5,4,0,0', with(\@RAM, 4 => 'end,1,1,1,1,1,1');
case 'row: 5 with 6, unknown op'                         => '5,4,0,0', with(\@RAM, 4 => 'x,2,1,1,1,1,1');
case 'row: 5 with 8, queue'                              => '5,5,0,0', header('queue', 0, 2), rows('dequeue,1,0,0,4,0,0 pop,1,0,0,4,0,0');
case 'row: 5 with 8, stack'                              => '5,5,0,0', header('stack', 0, 2), rows('pop,1,0,0,4,0,0 range,0,0,0,0,0,0');
case 'row: 5 with 8, the only operation'                 => '5,4,0,0', header('queue', 0, 1), rows('pop,1,0,0,4,0,0');
case 'row: 6 with 8, guard 2 in a queue'                 => '6,5,0,0', header('queue', 0, 2), rows('dequeue,1,0,0,4,0,0 dequeue,2,0,0,4,0,0');
case 'row: 6 with 8, an unused column in a queue'        => '6,4,0,0', header('queue', 0, 1), rows('dequeue,1,0,4,4,0,0');
case 'row: 6 with 8, an unused column in a stack'        => '6,4,0,0', header('stack', 0, 1), rows('pop,1,1,0,0,0,0');
case 'row: 6 with 8, guard 2 in a stack'                 => '6,5,0,0', header('stack', 0, 2), rows('pop,1,0,0,4,0,0 push,2,0,0,0,0,0');
case 'row: 2 with 3, 5 and 6'                            => '2,4,0,0', with(\@RAM, 4 => 'pop,2,0,2147483647,0,0,');
case 'row: 3 with 5 and 6'                               => '3,4,0,0', with(\@RAM, 4 => 'pop,2,0,2147483647,0,0,0');
case 'row: 2 with 3, 6 and 8'                            => '2,4,0,0', header('queue', 0, 1), rows('dequeue,1,1,0,2147483647,0,00');
case 'row: 3 with 6 and 8'                               => '3,4,0,0', header('queue', 0, 1), rows('dequeue,1,1,0,2147483647,0,0');

# Faults in a file: the first in line order wins.

case 'file: 1 then 2'                                    => '1,1,0,0', with(\@RAM, 1 => 'x', 2 => 'x');
case 'file: 1 then 3'                                    => '1,1,0,0', with(\@RAM, 1 => 'x', 2 => 'ram,2,2,100,1,2,2147483647');
case 'file: 1 then 4'                                    => '1,1,0,0', with(\@RAM, 1 => 'x', 2 => 'tape,2,2,100,1,2,3');
case 'file: 1 at line 1, then 1 at line 3'               => '1,1,0,0', with(\@RAM, 1 => 'x', 3 => 'x');
case 'file: 1 then 5'                                    => '1,1,0,0', with(\@RAM, 1 => 'x', 4 => 'x,0,0,5,0,0,0');
case 'file: 1 with 10'                                   => '1,1,0,0', with(\@RAM, 1 => 'x', 7 => 'access,0,0,0,5,1,1');
case 'file: 2 then 1'                                    => '2,2,0,0', with(\@RAM, 2 => 'ram', 3 => 'x');
case 'file: 3 then 1'                                    => '3,2,0,0', with(\@RAM, 2 => 'ram,2,2,100,1,2,2147483647', 3 => 'x');
case 'file: 4 then 1'                                    => '4,2,0,0', with(\@RAM, 2 => 'tape,2,2,100,1,2,3', 3 => 'x');
case 'file: 1 at line 3, then 2'                         => '1,3,0,0', with(\@RAM, 3 => 'x', 4 => 'x');
case 'file: 1 at line 3, then 3'                         => '1,3,0,0', with(\@RAM, 3 => 'x', 4 => 'init,0,0,2147483647,0,0,0');
case 'file: 1 at line 3, then 5'                         => '1,3,0,0', with(\@RAM, 3 => 'x', 4 => 'x,0,0,5,0,0,0');
case 'file: 1 at line 3, then 6'                         => '1,3,0,0', with(\@RAM, 3 => 'x', 4 => 'init,1,0,5,0,0,0');
case 'file: 1 at line 3, then 7'                         => '1,3,0,0', first_lines(\@RAM, 2), "x\n";
case 'file: 1 at line 3, then 7, a row too many'         => '1,3,0,0', with(\@RAM, 3 => 'x'), "\n";
case 'file: 1 at line 3, then 8'                         => '1,3,0,0', with([header('queue', 0, 1)], 3 => 'x'), rows('dequeue,1,0,0,4,0,0');
case 'file: 1 at line 3, with 9'                         => '1,3,0,0', with(\@RAM, 3 => 'x', 7 => 'access,0,0,0,7,1,0');
case 'file: 2 at line 2, then 7'                         => '2,2,0,0', $RAM[0], "ram\n";
case 'file: 3 at line 2, then 7'                         => '3,2,0,0', $RAM[0], "ram,2,2,100,1,2,2147483647\n";
case 'file: 4 at line 2, then 7'                         => '4,2,0,0', $RAM[0], "tape,2,2,100,1,2,3\n";
case 'file: 2 at line 2, then 5'                         => '2,2,0,0', with(\@RAM, 2 => 'ram,2,2,100,1,2', 4 => 'x,0,0,5,0,0,0');
case 'file: 3 at line 2, then 5'                         => '3,2,0,0', with(\@RAM, 2 => 'ram,2,2,100,1,2,2147483647', 4 => 'x,0,0,5,0,0,0');
case 'file: 4 then 2'                                    => '4,2,0,0', with(\@RAM, 2 => 'ram,65537,2,100,1,2,3', 4 => 'x');
case 'file: 4 then 2, line 3 without a line feed'        => '4,2,0,0', unended(header('tape', 0, 0, 1, 1, 1, 1));
case 'file: 4 then 3'                                    => '4,2,0,0', with(\@RAM, 2 => 'ram,65537,2,100,1,2,3', 4 => 'init,0,0,2147483647,0,0,0');
case 'file: 4 then 5'                                    => '4,2,0,0', with(\@RAM, 2 => 'rams,2,2,100,1,2,3', 4 => 'x,0,0,0,0,0,0');
case 'file: 4 then 6'                                    => '4,2,0,0', with(\@RAM, 2 => 'ram,65537,2,100,1,2,3', 4 => 'init,1,0,5,0,0,0');
case 'file: 4 then 7, a row too many'                    => '4,2,0,0', header('stack', 1, 2),
    rows('push,1,0,5,0,0,0 pop,1,0,0,5,1,0 range,0,0,0,0,0,1 range,0,0,0,0,0,0'), "\n";
case 'file: 4 then 8'                                    => '4,2,0,0', header('queue', 1, 1), rows('dequeue,1,0,0,4,0,0');
case 'file: 2 then 3'                                    => '2,4,0,0', with(\@RAM, 4 => 'init,0,0,05,0,0,0', 5 => 'init,0,0,2147483647,0,0,0');
case 'file: 2 then 5'                                    => '2,4,0,0', with(\@RAM, 4 => 'init,0,0,05,0,0,0', 5 => 'x,0,0,9,0,0,0');
case 'file: 2 then 6'                                    => '2,4,0,0', with(\@RAM, 4 => 'init,0,0,05,0,0,0', 5 => 'init,1,0,9,0,0,0');
case 'file: 3 then 2'                                    => '3,4,0,0', with(\@RAM, 4 => 'init,0,0,2147483647,0,0,0', 5 => 'init,0,0,09,0,0,0');
case 'file: 3 then 5'                                    => '3,4,0,0', with(\@RAM, 4 => 'init,0,0,2147483647,0,0,0', 5 => 'x,0,0,9,0,0,0');
case 'file: 3 then 6'                                    => '3,4,0,0', with(\@RAM, 4 => 'init,0,0,2147483647,0,0,0', 5 => 'init,1,0,9,0,0,0');
case 'file: 5 then 2'                                    => '5,4,0,0', with(\@RAM, 4 => 'x,0,0,5,0,0,0', 5 => 'init,0,0,09,0,0,0');
case 'file: 5 then 3'                                    => '5,4,0,0', with(\@RAM, 4 => 'x,0,0,5,0,0,0', 5 => 'init,0,0,2147483647,0,0,0');
case 'file: 6 then 2'                                    => '6,4,0,0', with(\@RAM, 4 => 'init,1,0,5,0,0,0', 5 => 'init,0,0,09,0,0,0');
case 'file: 6 then 3'                                    => '6,4,0,0', with(\@RAM, 4 => 'init,1,0,5,0,0,0', 5 => 'init,0,0,2147483647,0,0,0');
case 'file: 6 then 5'                                    => '6,4,0,0', with(\@RAM, 4 => 'init,1,0,5,0,0,0', 5 => 'x,0,0,9,0,0,0');
case 'file: 5 then 6'                                    => '5,4,0,0', with(\@RAM, 4 => 'x,0,0,5,0,0,0', 5 => 'init,1,0,9,0,0,0');
case 'file: 2 then 7, a row missing'                     => '2,10,0,0', first_lines(\@RAM, 9), "range\n";
case 'file: 3 then 7, a row missing'                     => '3,10,0,0', first_lines(\@RAM, 9), "range,0,0,0,0,0,2147483647\n";
case 'file: 5 then 7, a row missing'                     => '5,10,0,0', first_lines(\@RAM, 9), "end,0,0,0,0,0,0\n";
case 'file: 6 then 7, a row missing'                     => '6,10,0,0', first_lines(\@RAM, 9), "range,1,0,0,0,0,2\n";
case 'file: 2 then 7, a row too many'                    => '2,11,0,0', with(\@RAM, 11 => 'range'), "\n";
case 'file: 3 then 7, a row too many'                    => '3,11,0,0', with(\@RAM, 11 => 'range,0,0,0,0,0,2147483647'), "\n";
case 'file: 5 then 7, a row too many'                    => '5,11,0,0', with(\@RAM, 11 => 'end,0,0,0,0,0,0'), "\n";
case 'file: 6 then 7, a row too many'                    => '6,11,0,0', with(\@RAM, 11 => 'range,1,0,0,0,0,0'), "\n";
case 'file: 2 before an 8'                               => '2,4,0,0', header('queue', 0, 2), rows('dequeue,1,0,0,04,0,0 dequeue,1,0,0,4,0,0');
case 'file: 3 before an 8'                               => '3,4,0,0', header('queue', 0, 2), rows('dequeue,1,0,0,2147483647,0,0 dequeue,1,0,0,4,0,0');
case 'file: 5 before an 8'                               => '5,4,0,0', header('queue', 0, 2), rows('pop,1,0,0,4,0,0 dequeue,1,0,0,4,0,0');
case 'file: 6 before an 8'                               => '6,4,0,0', header('stack', 0, 2), rows('pop,1,1,0,0,0,0 pop,1,0,0,4,0,0');
case 'file: 2 on a late row, the shuffle wrong'          => '2,11,0,0', with(\@RAM, 7 => 'access,0,0,0,5,1,1', 11 => 'range,0,0,0,0,0,00');
case 'file: 3 on a late row, the shuffle wrong'          => '3,11,0,0', with(\@RAM, 7 => 'access,0,0,0,5,1,1', 11 => 'range,0,0,0,0,0,2147483647');
case 'file: 5 on a late row, the shuffle wrong'          => '5,11,0,0', with(\@RAM, 7 => 'access,0,0,0,5,1,1', 11 => 'end,0,0,0,0,0,0');
case 'file: 6 on a late row, the shuffle wrong'          => '6,11,0,0', with(\@RAM, 7 => 'access,0,0,0,5,1,1', 11 => 'range,0,0,0,0,1,0');
case 'file: 2 on a late row, the range wrong'            => '2,11,0,0', with(\@RAM, 7 => 'access,0,0,0,7,1,0', 11 => 'range,0,0,0,0,0,00');
case 'file: 3 on a late row, the range wrong'            => '3,11,0,0', with(\@RAM, 7 => 'access,0,0,0,7,1,0', 11 => 'range,0,0,0,0,0,2147483647');
case 'file: 5 on a late row, the range wrong'            => '5,11,0,0', with(\@RAM, 7 => 'access,0,0,0,7,1,0', 11 => 'end,0,0,0,0,0,0');
case 'file: 6 on a late row, the range wrong'            => '6,11,0,0', with(\@RAM, 7 => 'access,0,0,0,7,1,0', 11 => 'range,0,0,0,0,1,0');
case 'file: 7 with 9, a row missing'                     => '7,11,0,0', first_lines([with(\@RAM, 7 => 'access,0,0,0,7,1,0')], 10);
case 'file: 7 with 9, a row too many'                    => '7,12,0,0', with(\@RAM, 7 => 'access,0,0,0,7,1,0'), "\n";
case 'file: 7 with 10, a row missing'                    => '7,11,0,0', first_lines([with(\@RAM, 7 => 'access,0,0,0,5,1,1')], 10);
case 'file: 7 with 10, a row too many'                   => '7,12,0,0', with(\@RAM, 7 => 'access,0,0,0,5,1,1'), 'x';
case 'file: 7 with 10, queue'                            => '7,8,0,0',  with(\@QUEUE, 7 => 'end,0,0,0,7,0,0'), "\n";
case 'file: 9 with 10, ram'                              => '9,11,0,0', with(\@RAM, 7 => 'access,0,0,0,5,1,0');
case 'file: 9 with 10, stack'                            => '9,13,0,0', with(\@STACK, 6 => 'pop,1,0,0,9,2,1');

# 9.

case 'ram: version of a load too small'                  => '9,11,0,0', with(\@RAM, 7 => 'access,0,0,0,7,1,0');
case 'ram: version of a store too large'                 => '9,11,0,0', with(\@RAM, 6 => 'access,1,0,7,5,0,1');
case 'ram: version p - 1'                                => '9,11,0,0', with(\@RAM, 6 => 'access,1,0,7,5,0,2147483646');
case 'ram: versions swapped'                             => '0,0,12,16', with(\@RAM, 6 => 'access,1,0,7,5,0,1', 7 => 'access,0,0,0,7,1,0');
case 'ram: version of a range row too small'             => '9,11,0,0', with(\@RAM, 10 => 'range,0,0,0,0,0,1');
case 'ram: version of the last range row not 0'          => '9,11,0,0', with(\@RAM, 11 => 'range,0,0,0,0,0,1');
case 'ram: range rows swapped'                           => '9,11,0,0', with(\@RAM, 10 => 'range,0,0,0,0,0,0', 11 => 'range,0,0,0,0,0,2');
case 'ram: time of a load too small'                     => '9,11,0,0', with(\@RAM, 7 => 'access,0,0,0,7,0,1');
case 'ram: time of a load is its clock'                  => '9,11,0,0', with(\@RAM, 7 => 'access,0,0,0,7,2,1');
case 'ram: time of a load is above its clock'            => '9,11,0,0', with(\@RAM, 7 => 'access,0,0,0,7,3,1');
case 'ram: time p - 1'                                   => '9,11,0,0', with(\@RAM, 7 => 'access,0,0,0,7,2147483646,1');
case 'ram: an age above the count'                       => '9,7,0,0',  header('ram', 1, 1),
    rows('init,0,0,5,0,0,0 access,0,0,0,5,2147483646,0 end,0,0,0,5,1,0 range,0,0,0,0,0,0');
case 'ram: loads that read each other'                   => '9,9,0,0',  header('ram', 1, 2),
    rows('init,0,0,5,0,0,0 access,0,0,0,8,2,0 access,0,0,0,8,1,0 end,0,0,0,5,0,0 range,0,0,0,0,0,1 range,0,0,0,0,0,0');
case 'stack: version of a pop too large'                 => '9,13,0,0', with(\@STACK, 6 => 'pop,1,0,0,6,2,1');
case 'stack: version of a range row too small'           => '9,13,0,0', with(\@STACK, 10 => 'range,0,0,0,0,0,0');
case 'stack: version of the last range row not 0'        => '9,13,0,0', with(\@STACK, 13 => 'range,0,0,0,0,0,1');
case 'stack: time of a pop is its clock'                 => '9,13,0,0', with(\@STACK, 6 => 'pop,1,0,0,6,3,0');
case 'stack: time of a pop too small'                    => '9,13,0,0', with(\@STACK, 6 => 'pop,1,0,0,6,1,0');
case 'stack: a skipped pop of time clock'                => '9,5,0,0',  header('stack', 0, 1), rows('pop,0,0,0,0,1,0 range,0,0,0,0,0,0');
case 'stack: a skipped pop with a wrong version'         => '9,5,0,0',  header('stack', 0, 1), rows('pop,0,0,0,0,0,1 range,0,0,0,0,0,1');
case 'stack: the second of two skipped pops'             => '9,7,0,0',  header('stack', 0, 2),
    rows('pop,0,0,0,0,0,0 pop,0,0,0,0,0,0 range,0,0,0,0,0,2 range,0,0,0,0,0,0');
case 'stack: the range of no pops'                       => '9,6,0,0',  header('stack', 0, 1), rows('push,1,0,5,0,0,0 end,0,0,0,5,1,0 range,0,0,0,0,0,1');

# 10.

case 'ram: an init value'                                => '10,11,0,0', with(\@RAM, 5 => 'init,0,0,8,0,0,0');
case 'ram: the value of a store'                         => '10,11,0,0', with(\@RAM, 6 => 'access,1,0,8,5,0,0');
case 'ram: the old of a store'                           => '10,11,0,0', with(\@RAM, 6 => 'access,1,0,7,6,0,0');
case 'ram: a load in place of a store'                   => '10,11,0,0', with(\@RAM, 6 => 'access,0,0,7,5,0,0');
case 'ram: a store in place of a load'                   => '10,11,0,0', with(\@RAM, 7 => 'access,1,0,0,7,1,1');
case 'ram: another address'                              => '10,11,0,0', with(\@RAM, 7 => 'access,0,1,0,7,1,1');
case 'ram: the old of an end'                            => '10,11,0,0', with(\@RAM, 8 => 'end,0,0,0,5,2,0');
case 'ram: the time of an end'                           => '10,11,0,0', with(\@RAM, 8 => 'end,0,0,0,7,1,0');
case 'ram: the time of an untouched cell'                => '10,11,0,0', with(\@RAM, 9 => 'end,0,0,0,9,2,0');
case 'ram: ends swapped'                                 => '10,11,0,0', with(\@RAM, 8 => 'end,0,0,0,9,0,0', 9 => 'end,0,0,0,7,2,0');
case 'ram: a stale read with a right age'                => '10,11,0,0',
    with(\@RAM, 7 => 'access,0,0,0,5,0,0', 8 => 'end,0,0,0,5,2,0', 10 => 'range,0,0,0,0,0,1', 11 => 'range,0,0,0,0,0,1');
case 'ram: an address of its size'                       => '10,7,0,0', header('ram', 1, 1),
    rows('init,0,0,5,0,0,0 access,0,1,0,0,0,0 end,0,0,0,5,0,0 range,0,0,0,0,0,1');
case 'ram: a store at an address of p - 1'               => '10,7,0,0', header('ram', 1, 1),
    rows('init,0,0,5,0,0,0 access,1,2147483646,5,5,0,0 end,0,0,0,5,0,0 range,0,0,0,0,0,1');
case 'ram: of size 0, an access'                         => '10,5,0,0', header('ram', 0, 1), rows('access,0,0,0,0,0,0 range,0,0,0,0,0,1');
case 'ram: of size 0, a wrong version as well'           => '9,5,0,0',  header('ram', 0, 1), rows('access,0,0,0,0,0,0 range,0,0,0,0,0,0');
case 'rom: the old of a look'                            => '10,9,0,0', with(\@ROM, 7 => 'look,0,1,0,5,0,1');
case 'rom: the address of a look'                        => '10,9,0,0', with(\@ROM, 7 => 'look,0,0,0,9,0,1');
case 'rom: an address of its size'                       => '10,9,0,0', with(\@ROM, 7 => 'look,0,2,0,9,0,1');
case 'rom: an address of p - 1'                          => '10,9,0,0', with(\@ROM, 7 => 'look,0,2147483646,0,9,0,1');
case 'rom: the version of a look'                        => '10,9,0,0', with(\@ROM, 7 => 'look,0,1,0,9,0,0');
case 'rom: a version of p - 1'                           => '10,9,0,0', with(\@ROM, 7 => 'look,0,1,0,9,0,2147483646');
case 'rom: an init value'                                => '10,9,0,0', with(\@ROM, 4 => 'init,0,0,6,0,0,0');
case 'rom: a false restatement'                          => '10,9,0,0', with(\@ROM, 8 => 'end,0,0,6,0,0,0');
case 'rom: a restatement of 0'                           => '10,9,0,0', with(\@ROM, 9 => 'end,0,0,0,0,0,2');
case 'rom: ends swapped'                                 => '10,9,0,0', with(\@ROM, 8 => 'end,0,0,9,0,0,2', 9 => 'end,0,0,5,0,0,0');
case 'rom: the version of an end'                        => '10,9,0,0', with(\@ROM, 9 => 'end,0,0,9,0,0,1');
case 'rom: of size 0, a look'                            => '10,4,0,0', header('rom', 0, 1), rows('look,0,0,0,0,0,0');
case 'set: a value that is no member'                    => '10,9,0,0', with(\@SET, 7 => 'member,0,0,6,0,0,1');
case 'set: the version of a member'                      => '10,9,0,0', with(\@SET, 7 => 'member,0,0,5,0,0,0');
case 'set: an init value'                                => '10,9,0,0', with(\@SET, 5 => 'init,0,0,8,0,0,0');
case 'set: a false restatement'                          => '10,9,0,0', with(\@SET, 9 => 'end,0,0,8,0,0,0');
case 'set: the version of an end'                        => '10,9,0,0', with(\@SET, 9 => 'end,0,0,9,0,0,1');
case 'set: versions on the wrong element'                => '10,9,0,0', with(\@SET, 8 => 'end,0,0,5,0,0,0', 9 => 'end,0,0,9,0,0,2');
case 'set: of size 0, a member'                          => '10,4,0,0', header('set', 0, 1), rows('member,0,0,5,0,0,0');
case 'stack: the old of a pop'                           => '10,13,0,0', with(\@STACK, 6 => 'pop,1,0,0,5,2,0');
case 'stack: the value of a push'                        => '10,13,0,0', with(\@STACK, 5 => 'push,1,0,8,0,0,0');
case 'stack: the old of an end'                          => '10,13,0,0', with(\@STACK, 8 => 'end,0,0,0,6,1,0');
case 'stack: the time of an end'                         => '10,13,0,0', with(\@STACK, 9 => 'end,0,0,0,7,2,0');
case 'stack: ends swapped'                               => '10,13,0,0', with(\@STACK, 8 => 'end,0,0,0,7,3,0', 9 => 'end,0,0,0,5,1,0');
case 'stack: a pop from below the top'                   => '10,13,0,0', with(\@STACK, 6 => 'pop,1,0,0,5,1,0', 10 => 'range,0,0,0,0,0,0', 11 => 'range,0,0,0,0,0,1');
case 'stack: a pop on empty that reads an earlier time'  => '10,7,0,0', header('stack', 0, 2),
    rows('pop,1,0,0,8,0,0 push,1,0,8,0,0,0 range,0,0,0,0,0,1 range,0,0,0,0,0,0');
case 'queue: the old of a dequeue'                       => '10,7,0,0', with(\@QUEUE, 6 => 'dequeue,1,0,0,6,0,0');
case 'queue: the value of an enqueue'                    => '10,7,0,0', with(\@QUEUE, 4 => 'enqueue,1,0,5,0,0,0');
case 'queue: the old of an end'                          => '10,7,0,0', with(\@QUEUE, 7 => 'end,0,0,0,7,0,0');
case 'queue: taken from the back'                        => '10,7,0,0', with(\@QUEUE, 6 => 'dequeue,1,0,0,6,0,0', 7 => 'end,0,0,0,4,0,0');
case 'queue: ends swapped'                               => '10,7,0,0', header('queue', 0, 2),
    rows('enqueue,1,0,4,0,0,0 enqueue,1,0,6,0,0,0 end,0,0,0,6,0,0 end,0,0,0,4,0,0');
case 'queue: a zero in front'                            => '0,0,2,6',  header('queue', 0, 2),
    rows('enqueue,1,0,0,0,0,0 enqueue,1,0,6,0,0,0 end,0,0,0,0,0,0 end,0,0,0,6,0,0');

# Accepted: right traces with the filler's advice or other advice that balances.

case 'accepted: rom'                                     => '0,0,6,8',   @ROM;
case 'accepted: set'                                     => '0,0,4,8',   @SET;
case 'accepted: stack'                                   => '0,0,11,16', @STACK;
case 'accepted: rom of size 0 and count 0'               => '0,0,0,0',   header('rom', 0, 0);
case 'accepted: set of size 0 and count 0'               => '0,0,0,0',   header('set', 0, 0);
case 'accepted: stack of count 0'                        => '0,0,0,0',   header('stack', 0, 0);
case 'accepted: queue of count 0'                        => '0,0,0,0',   header('queue', 0, 0);
case 'accepted: ram of count 0'                          => '0,0,2,2',   header('ram', 1, 0), rows('init,0,0,5,0,0,0 end,0,0,0,5,0,0');
case 'accepted: rom of count 0'                          => '0,0,1,2',   header('rom', 1, 0), rows('init,0,0,5,0,0,0 end,0,0,5,0,0,0');
case 'accepted: set of count 0'                          => '0,0,1,2',   header('set', 1, 0), rows('init,0,0,5,0,0,0 end,0,0,5,0,0,0');
case 'accepted: ram of size 0 at challenge 0,0,0,0'      => '0,0,4,6',   header('ram', 0, 1, 0, 0, 0, 0), rows('access,0,0,0,0,0,0 range,0,0,0,0,0,1');
case 'accepted: ram at challenge 0,0,0,0'                => '0,0,12,16', with(\@RAM, 2 => 'ram,2,2,0,0,0,0');
case 'accepted: ram at challenge 0,1,2,3'                => '0,0,12,16', with(\@RAM, 2 => 'ram,2,2,0,1,2,3');
case 'accepted: the value of a load is not 0'            => '0,0,12,16', with(\@RAM, 7 => 'access,0,0,77,7,1,1');
case 'accepted: the value of a load is p - 1'            => '0,0,12,16', with(\@RAM, 7 => 'access,0,0,2147483646,7,1,1');
case 'accepted: a load writes too'                       => '0,0,10,14', header('ram', 1, 2),
    rows('init,0,0,5,0,0,0 access,0,0,0,5,0,0 access,0,0,0,5,1,1 end,0,0,0,5,2,0 range,0,0,0,0,0,2 range,0,0,0,0,0,0');
case 'accepted: a store of the same value'               => '0,0,6,8',   header('ram', 1, 1),
    rows('init,0,0,5,0,0,0 access,1,0,5,5,0,0 end,0,0,0,5,1,0 range,0,0,0,0,0,1');
case 'accepted: an age of 2'                             => '0,0,12,16', header('ram', 2, 2),
    rows('init,0,0,5,0,0,0 init,0,0,9,0,0,0 access,0,0,0,5,0,0 access,1,1,8,9,0,0 end,0,0,0,5,1,0 end,0,0,0,8,2,0 range,0,0,0,0,0,1 range,0,0,0,0,0,1');
case 'accepted: set of equal elements, the first looked up'  => '0,0,3,6', header('set', 2, 1),
    rows('init,0,0,5,0,0,0 init,0,0,5,0,0,0 member,0,0,5,0,0,0 end,0,0,5,0,0,1 end,0,0,5,0,0,0');
case 'accepted: set of equal elements, the second looked up' => '0,0,3,6', header('set', 2, 1),
    rows('init,0,0,5,0,0,0 init,0,0,5,0,0,0 member,0,0,5,0,0,0 end,0,0,5,0,0,0 end,0,0,5,0,0,1');
case 'accepted: set of equal elements, each looked up'   => '0,0,4,8', header('set', 2, 2),
    rows('init,0,0,5,0,0,0 init,0,0,5,0,0,0 member,0,0,5,0,0,0 member,0,0,5,0,0,0 end,0,0,5,0,0,1 end,0,0,5,0,0,1');
# The end rows of a set are restated in init order, but nothing is refused on sight, and pairs carry no address.
case 'accepted: set with its ends swapped'               => '0,0,4,8', with(\@SET, 8 => 'end,0,0,9,0,0,0', 9 => 'end,0,0,5,0,0,2');
case 'accepted: a skipped push with a value'             => '0,0,1,3', header('stack', 0, 1), rows('push,0,0,9,0,0,0 range,0,0,0,0,0,0');
case 'accepted: a skipped push between two'              => '0,0,7,11', header('stack', 0, 3),
    rows('push,1,0,5,0,0,0 push,0,0,9,0,0,0 push,1,0,6,0,0,0 end,0,0,0,5,1,0 end,0,0,0,6,2,0 range,0,0,0,0,0,0 range,0,0,0,0,0,0 range,0,0,0,0,0,0');
case 'accepted: a skipped pop on empty'                  => '0,0,4,5', header('stack', 0, 1), rows('pop,0,0,0,0,0,0 range,0,0,0,0,0,1');
case 'accepted: a skipped pop with an old'               => '0,0,4,5', header('stack', 0, 1), rows('pop,0,0,0,9,0,0 range,0,0,0,0,0,1');
case 'accepted: two skipped pops'                        => '0,0,8,10', header('stack', 0, 2),
    rows('pop,0,0,0,0,0,0 pop,0,0,0,0,0,1 range,0,0,0,0,0,2 range,0,0,0,0,0,0');
case 'accepted: a skipped pop between push and pop'      => '0,0,9,13', header('stack', 0, 3),
    rows('push,1,0,5,0,0,0 pop,0,0,0,0,1,0 pop,1,0,0,5,1,1 range,0,0,0,0,0,2 range,0,0,0,0,0,0 range,0,0,0,0,0,0');
case 'accepted: a skipped pop that shows an older age'   => '0,0,7,9', header('stack', 0, 2),
    rows('push,1,0,5,0,0,0 pop,0,0,0,5,0,0 end,0,0,0,5,1,0 range,0,0,0,0,0,0 range,0,0,0,0,0,1');
case 'accepted: push and pop'                            => '0,0,5,8', header('stack', 0, 2),
    rows('push,1,0,5,0,0,0 pop,1,0,0,5,1,0 range,0,0,0,0,0,1 range,0,0,0,0,0,0');
# The clock does not rise with a pop: ages 1 and 2.
case 'accepted: two pushes, two pops'                    => '0,0,10,16', header('stack', 0, 4),
    rows('push,1,0,5,0,0,0 push,1,0,6,0,0,0 pop,1,0,0,6,2,0 pop,1,0,0,5,1,0 range,0,0,0,0,0,1 range,0,0,0,0,0,1 range,0,0,0,0,0,0 range,0,0,0,0,0,0');
case 'accepted: a skipped enqueue with a value'          => '0,0,0,2', header('queue', 0, 1), rows('enqueue,0,0,9,0,0,0');
case 'accepted: a skipped dequeue on empty'              => '0,0,1,3', header('queue', 0, 1), rows('dequeue,0,0,0,0,0,0');
case 'accepted: a skipped dequeue with an old'           => '0,0,1,3', header('queue', 0, 1), rows('dequeue,0,0,0,9,0,0');
case 'accepted: skipped rows among executed ones'        => '0,0,3,13', header('queue', 0, 5),
    rows('dequeue,0,0,0,9,0,0 enqueue,1,0,4,0,0,0 enqueue,0,0,8,0,0,0 dequeue,0,0,0,8,0,0 dequeue,1,0,0,4,0,0');
case 'accepted: queue, nothing dequeued'                 => '0,0,1,3', header('queue', 0, 1), rows('enqueue,1,0,5,0,0,0 end,0,0,0,5,0,0');
case 'accepted: queue, all dequeued'                     => '0,0,2,10', header('queue', 0, 4),
    rows('enqueue,1,0,4,0,0,0 dequeue,1,0,0,4,0,0 enqueue,1,0,6,0,0,0 dequeue,1,0,0,6,0,0');
case 'accepted: queue at r = 0'                          => '0,0,2,8', with(\@QUEUE, 2 => 'queue,0,3,0,1,2,3');
case 'accepted: queue of values p - 1'                   => '0,0,1,7', header('queue', 0, 3, 2147483646, 0, 0, 0),
    rows('enqueue,1,0,2147483646,0,0,0 enqueue,0,0,2147483646,0,0,0 dequeue,1,0,0,2147483646,0,0');

# Accepted though the trace is wrong: one of the challenges that the bound counts. The two sides were made equal by hand, so that a slip in an
# equation shows.

# Writes (7 - 5)(7 - 8), reads (7 - 6)(7 - 9).
case 'counted: rom'                                      => '0,0,3,4', header('rom', 1, 1, 7, 9, 1, 2),
    rows('init,0,0,5,0,0,0 look,0,0,0,6,0,0 end,0,0,5,0,0,2');
case 'counted: rom, the next r'                          => '10,6,0,0', header('rom', 1, 1, 8, 9, 1, 2),
    rows('init,0,0,5,0,0,0 look,0,0,0,6,0,0 end,0,0,5,0,0,2');
# The same with every sign turned.
case 'counted: rom, large numbers'                       => '0,0,3,4', header('rom', 1, 1, 2147483640, 2147483646, 2147483646, 2147483645),
    rows('init,0,0,5,0,0,0 look,0,0,0,6,0,0 end,0,0,5,0,0,2');
case 'counted: set'                                      => '0,0,2,4', header('set', 1, 1, 7, 1, 2, 9),
    rows('init,0,0,5,0,0,0 member,0,0,6,0,0,0 end,0,0,5,0,0,2');
case 'counted: set, the next r'                          => '10,6,0,0', header('set', 1, 1, 6, 1, 2, 9),
    rows('init,0,0,5,0,0,0 member,0,0,6,0,0,0 end,0,0,5,0,0,2');
case 'counted: ram'                                      => '0,0,6,8', header('ram', 1, 1, 7, 9, 1, 2),
    rows('init,0,0,5,0,0,0 access,0,0,0,6,0,0 end,0,0,0,5,2,0 range,0,0,0,0,0,1');
case 'counted: ram, the next r'                          => '10,7,0,0', header('ram', 1, 1, 8, 9, 1, 2),
    rows('init,0,0,5,0,0,0 access,0,0,0,6,0,0 end,0,0,0,5,2,0 range,0,0,0,0,0,1');
# A record that is written and read gives r - 10 = 0 on both sides.
case 'counted: ram, both products 0'                     => '0,0,12,16', with(\@RAM, 2 => 'ram,2,2,10,1,2,3', 7 => 'access,0,0,0,5,1,1');
# Written a + 8b + c, read a + 5b, with c = -3b.
case 'counted: stack'                                    => '0,0,5,8', header('stack', 0, 2, 100, 1, 1, 2147483644),
    rows('push,1,0,8,0,0,0 pop,1,0,0,5,0,0 range,0,0,0,0,0,0 range,0,0,0,0,0,1');
case 'counted: stack, another c'                         => '10,7,0,0', header('stack', 0, 2, 100, 1, 1, 2147483643),
    rows('push,1,0,8,0,0,0 pop,1,0,0,5,0,0 range,0,0,0,0,0,0 range,0,0,0,0,0,1');
# Written -1 + 1 - 1, read -1.
case 'counted: stack, every number p - 1'                => '0,0,5,8', header('stack', 0, 2, 2147483646, 2147483646, 2147483646, 2147483646),
    rows('push,1,0,2147483646,0,0,0 pop,1,0,0,0,0,0 range,0,0,0,0,0,0 range,0,0,0,0,0,1');
# 4*6 + 6 = 5*6 + 0.
case 'counted: queue'                                    => '0,0,2,8', header('queue', 0, 3, 6, 1, 2, 3),
    rows('enqueue,1,0,4,0,0,0 enqueue,1,0,6,0,0,0 dequeue,1,0,0,5,0,0 end,0,0,0,0,0,0');
case 'counted: queue, the next r'                        => '10,7,0,0', header('queue', 0, 3, 7, 1, 2, 3),
    rows('enqueue,1,0,4,0,0,0 enqueue,1,0,6,0,0,0 dequeue,1,0,0,5,0,0 end,0,0,0,0,0,0');
case 'counted: queue at r = 0, only the last element counts' => '0,0,2,8', header('queue', 0, 3, 0, 1, 2, 3),
    rows('enqueue,1,0,4,0,0,0 enqueue,1,0,6,0,0,0 dequeue,1,0,0,9,0,0 end,0,0,0,6,0,0');
# (-1)(-1) + (-1) = 0.
case 'counted: queue at r = p - 1'                       => '0,0,2,8', header('queue', 0, 3, 2147483646, 1, 2, 3),
    rows('enqueue,1,0,2147483646,0,0,0 enqueue,1,0,2147483646,0,0,0 dequeue,1,0,0,0,0,0 end,0,0,0,0,0,0');
# R = r - 5a = -4: writes R*R with the version p - 1 + 1 = 0, reads (R + 2)(R - 4).
case 'counted: set, a version that wraps to 0'           => '0,0,2,4', header('set', 1, 1, 1, 1, 2, 0),
    rows('init,0,0,5,0,0,0 member,0,0,5,0,0,2147483646 end,0,0,5,0,0,2');
case 'counted: rom, a version that wraps to 0'           => '0,0,3,4', header('rom', 1, 1, 1, 0, 1, 2),
    rows('init,0,0,5,0,0,0 look,0,0,0,5,0,2147483646 end,0,0,5,0,0,2');
# R = r - a = -4 in the range.
case 'counted: ram, a range version that wraps to 0'     => '0,0,6,8', header('ram', 1, 1, 2147483644, 1, 2, 3),
    rows('init,0,0,5,0,0,0 access,0,0,0,5,0,2147483646 end,0,0,0,5,1,0 range,0,0,0,0,0,2');
case 'counted: ram, an address outside at a = 0'         => '0,0,6,8', header('ram', 1, 1, 100, 0, 2, 3),
    rows('init,0,0,5,0,0,0 access,0,7,0,5,0,0 end,0,0,0,5,1,0 range,0,0,0,0,0,1');
case 'counted: rom, an address outside at a = 0'         => '0,0,3,4', header('rom', 1, 1, 100, 0, 2, 3),
    rows('init,0,0,5,0,0,0 look,0,2147483646,0,5,0,0 end,0,0,5,0,0,1');
case 'counted: rom, false restatements at b = 0'         => '0,0,6,8', with(\@ROM, 2 => 'rom,2,2,100,1,0,3', 8 => 'end,0,0,6,0,0,0', 9 => 'end,0,0,0,0,0,2');
case 'counted: set, a false restatement at a = 0'        => '0,0,4,8', with(\@SET, 2 => 'set,2,2,100,0,2,3', 9 => 'end,0,0,8,0,0,0');
case 'counted: ram, wrong versions at b = 0'             => '0,0,12,16', with(\@RAM, 2 => 'ram,2,2,100,1,0,3', 10 => 'range,0,0,0,0,0,9');
case 'counted: ram, wrong ages at challenge 100,0,0,0'   => '0,0,12,16', with(\@RAM, 2 => 'ram,2,2,100,0,0,0', 7 => 'access,0,0,0,7,9,1');
# A depth below 0 that comes back is not refused on sight; without times in the factor the pop reads the push after it.
case 'counted: stack, depth -1 and back at c = 0'        => '0,0,5,8', header('stack', 0, 2, 100, 1, 2, 0),
    rows('pop,1,0,0,8,0,0 push,1,0,8,0,0,0 range,0,0,0,0,0,1 range,0,0,0,0,0,0');
case 'counted: stack, depth -2 and back at c = 0'        => '0,0,10,16', header('stack', 0, 4, 100, 1, 2, 0),
    rows('pop,1,0,0,8,0,0 pop,1,0,0,9,0,1 push,1,0,9,0,0,0 push,1,0,8,0,0,0'),
    rows('range,0,0,0,0,0,2 range,0,0,0,0,0,0 range,0,0,0,0,0,0 range,0,0,0,0,0,0');
case 'counted: stack, depth -2 and back, the depths confused' => '10,11,0,0', header('stack', 0, 4, 100, 1, 2, 0),
    rows('pop,1,0,0,8,0,0 pop,1,0,0,9,0,1 push,1,0,8,0,0,0 push,1,0,9,0,0,0'),
    rows('range,0,0,0,0,0,2 range,0,0,0,0,0,0 range,0,0,0,0,0,0 range,0,0,0,0,0,0');
# The read at depth -1 is the record (p - 1, 9): at r = 7 its factor is 7 + 1 - 2*9, as is that of the write.
case 'counted: stack, a record at depth p - 1'           => '0,0,10,16', header('stack', 0, 4, 7, 1, 2, 0),
    rows('pop,1,0,0,8,0,0 pop,1,0,0,9,0,1 push,1,0,9,0,0,0 push,1,0,8,0,0,0'),
    rows('range,0,0,0,0,0,2 range,0,0,0,0,0,0 range,0,0,0,0,0,0 range,0,0,0,0,0,0');

# Honest runs of some tens of rows with the filler's advice, accepted at every challenge; and with one value changed, refused.

# Memory, numbers for honest_input, expected values, the column of an end row to change, the expected values then.
my @HONEST = (
    ['ram',   [24, 40],        '0,0,208,288', 4, '10,131,0,0'],
    ['rom',   [30, 50],        '0,0,130,160', 3, '10,113,0,0'],
    ['set',   [20, 60],        '0,0,80,160',  3, '10,103,0,0'],
    ['stack', [25, 5, 15, 5],  '0,0,130,200', 4, '10,113,0,0'],
    ['queue', [25, 5, 15, 5],  '0,0,30,130',  4, '10,63,0,0'],
);
for my $honest (@HONEST) {
    my ($memory, $numbers, $accepted, $column, $refused) = @$honest;
    my $input = [honest_input($memory, @$numbers)];
    for my $challenge (@CHALLENGES) {
        case "honest: $memory at challenge @$challenge" => $accepted, filled($input, @$challenge);
    }
    case "honest: $memory with one value changed" => $refused, spoilt($column, filled($input, @{ $CHALLENGES[4] }));
}

# Mutated files: what is printed is what the reference says.

my %answers;
for my $memory (qw(ram rom set stack queue)) {
    for my $run (1 .. 220) {
        my @numbers;
        if ($memory eq 'stack' || $memory eq 'queue') {
            my $added = random(4);
            @numbers = ($added, random(3), random($added + 1), random(3));
        } else {
            my $size = random(5);
            @numbers = ($size, $size ? random(7) : 0);
        }
        my $bytes = mutated(filled([honest_input($memory, @numbers)], @{ $CHALLENGES[random(3) ? 0 : random(5)] }));
        my $values = Reference::check_file($bytes);
        $answers{ (split /,/, $values)[0] }++;
        compare("mutated: $memory $run", $program, $bytes, report($values), report($values), show => 1);
    }
}
# Files that met only a few of the answers would test little.
for my $answer (0 .. 10) {
    my $times = $answers{$answer} // 0;
    counted("mutated: answer $answer is met", $times >= 5 ? () : "it is met $times times");
}

unreadable_input($program, join('', @RAM));
unwritable_output($program);

finish();
