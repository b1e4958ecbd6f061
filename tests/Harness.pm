# What the test programs share: words for building files, pseudo-random numbers, honest runs, mutations, starting a program, counting cases.
# Only Perl and its core modules are used.
package Harness;
use strict;
use warnings;
use Exporter 'import';
use Fcntl qw(F_SETFL O_NONBLOCK O_RDONLY O_WRONLY SEEK_CUR);
use File::Temp qw(tempdir);
use POSIX ();

our @EXPORT_OK = qw(
    $P header given row rows lines with first_lines unended
    random random_from honest_input mutated
    program_called run_program compare counted unreadable_input unwritable_output finish
);

our $P = 2147483647;

# Nothing printed so far may be printed again by a process that is started.
$| = 1;

my $CHECK_NAMES = 'memory,size,count,r,a,b,c';
my $FILL_NAMES  = 'memory,size,count';
my $ROW_NAMES   = 'op,guard,addr,value,old,time,version';
my $GIVEN_NAMES = 'op,guard,addr,value';

# Building files. A file is a list of lines; each line but an unended one has its line feed.

# One line of fields.
sub row { return join(',', @_) . "\n"; }

# Lines given as words of one string.
sub rows {
    my ($words) = @_;
    return map { "$_\n" } split ' ', $words;
}

# The lines of a text.
sub lines { return split /^/, join('', @_); }

# The first three lines of a file to check. The challenge is document 01's, 100,1,2,3, if none is given.
sub header {
    my ($memory, $size, $count, @challenge) = @_;
    @challenge = (100, 1, 2, 3) if !@challenge;
    return ("$CHECK_NAMES\n", row($memory, $size, $count, @challenge), "$ROW_NAMES\n");
}

# The first three lines of a filler's input.
sub given {
    my ($memory, $size, $count) = @_;
    return ("$FILL_NAMES\n", row($memory, $size, $count), "$GIVEN_NAMES\n");
}

# A file with some lines replaced: with(\@file, number => text, ...), the texts without line feeds.
sub with {
    my ($file, %texts) = @_;
    my @lines = @$file;
    $lines[$_ - 1] = "$texts{$_}\n" for keys %texts;
    return @lines;
}

sub first_lines {
    my ($file, $count) = @_;
    return @$file[0 .. $count - 1];
}

# The same text without its last line feed.
sub unended {
    my $text = join('', @_);
    chomp $text;
    return $text;
}

# Pseudo-random numbers, the same on every host: 0 to $below - 1.
my $seed = 314159265;

sub random {
    my ($below) = @_;
    $seed = 48271 * $seed % $P;
    return $seed % $below;
}

sub random_from { return $_[random(scalar @_)]; }

sub shuffled {
    my @items = @_;
    for my $last (reverse 1 .. $#items) {
        my $other = random($last + 1);
        @items[$last, $other] = @items[$other, $last];
    }
    return @items;
}

# The operations of a list memory: this many executed and skipped additions, executed and skipped removals, in a pseudo-random order in
# which no executed removal finds the list empty. There must be as many executed additions as executed removals, or more.
sub list_operations {
    my ($add, $remove, $added, $skipped_add, $removed, $skipped_remove) = @_;
    my @kinds = shuffled(('add') x $added, ('no add') x $skipped_add, ('remove') x $removed, ('no remove') x $skipped_remove);
    my ($depth, @operations) = (0);
    while (@kinds) {
        my $kind = shift @kinds;
        if ($kind eq 'remove' && $depth == 0) {
            push @kinds, $kind;
            next;
        }
        $depth++ if $kind eq 'add';
        $depth-- if $kind eq 'remove';
        push @operations,
              $kind eq 'add'    ? row($add, 1, 0, random($P))
            : $kind eq 'no add' ? row($add, 0, 0, random($P))
            : $kind eq 'remove' ? row($remove, 1, 0, 0)
            :                     row($remove, 0, 0, 0);
    }
    return @operations;
}

# The filler's input of an honest run. For a ram, rom or set: size and count. For a stack or queue: executed additions, skipped additions,
# executed removals, skipped removals.
sub honest_input {
    my ($memory, @numbers) = @_;
    if ($memory eq 'stack') {
        my @operations = list_operations('push', 'pop', @numbers);
        return (given($memory, 0, scalar @operations), @operations);
    }
    if ($memory eq 'queue') {
        my @operations = list_operations('enqueue', 'dequeue', @numbers);
        return (given($memory, 0, scalar @operations), @operations);
    }
    my ($size, $count) = @numbers;
    my @values = map { random(4) ? random($P) : random(3) } 1 .. $size;
    my @operations;
    for (1 .. $count) {
        push @operations,
              $memory eq 'ram' ? row('access', random(2), random($size), random($P))
            : $memory eq 'rom' ? row('look', 0, random($size), 0)
            :                    row('member', 0, 0, random_from(@values));
    }
    return (given($memory, $size, $count), (map { row('init', 0, 0, $_) } @values), @operations);
}

# Mutations: one, two or three changes to a file, of a field, a byte or a line.

my @WORDS = (
    qw(ram rom set stack queue init access look member push pop enqueue dequeue end range),
    '', 'Ram', 'ra', 'rams', 'acces', 'END', ' init', "pop\0",
);
my @NUMBERS = (
    0 .. 5, 100, 128, 129, 65536, 65537, 2147483645, 2147483646, (2147483647) x 3, 2147483648, 4294967296, 9999999999,
    '10000000000', '18446744073709551616', '', '00', '01', '+1', '-1', ' 1', '1 ', '1a', '1.0', "1\0",
);
my @BYTES = ("\n", "\r", "\0", ',', ' ', '-', '0', '1', '7', 'a', "\xff");

# Changes a field: a number often to a small one, so that many files keep their form.
sub change_field {
    my ($fields) = @_;
    my $at = random(scalar @$fields);
    $fields->[$at] = $at == 0 ? random_from(@WORDS) : random(3) ? random(4) : random_from(@NUMBERS);
}

my @FIELD_CHANGES = (
    (\&change_field) x 7,
    sub { my ($fields) = @_; splice @$fields, random(scalar @$fields), 1 },
    sub { my ($fields) = @_; my $at = random(scalar @$fields); splice @$fields, $at, 0, $fields->[$at] },
    sub {
        my ($fields) = @_;
        my ($one, $other) = (random(scalar @$fields), random(scalar @$fields));
        @$fields[$one, $other] = @$fields[$other, $one];
    },
);

# The columns of a row in which a number can be changed without a fault of form. An end row's depend on the memory.
my %COLUMNS = (
    init => [3], access => [1 .. 6], look => [2, 4, 6], member => [3, 6], push => [1, 3], pop => [1, 4, 5, 6], enqueue => [1, 3], dequeue => [1, 4],
    'end ram' => [4, 5], 'end rom' => [3, 6], 'end set' => [3, 6], 'end stack' => [4, 5], 'end queue' => [4], range => [6],
);

# Changes a number of a row to one that keeps the row's form.
sub in_columns {
    my ($lines) = @_;
    my $at = random(scalar @$lines);
    my @fields = split /,/, unended($lines->[$at]), -1;
    my ($memory) = split /,/, $lines->[1] // '';
    my $columns = $COLUMNS{ $fields[0] // '' } // $COLUMNS{"end " . ($memory // '')};
    my @possible = grep { $_ < @fields } @{ $columns // [] };
    return if $at < 3 || !@possible;
    my $column = random_from(@possible);
    $fields[$column] = $column == 1 ? random(2) : random(8) ? random(4) : $P - 1 - random(2);
    $lines->[$at] = row(@fields);
}

sub in_fields {
    my ($lines) = @_;
    my $at = random(scalar @$lines);
    $at = random(scalar @$lines) if $at == 0 || $at == 2;
    my $text = $lines->[$at];
    my $feed = chomp($text) ? "\n" : '';
    my @fields = split /,/, $text, -1;
    return if !@fields;
    random_from(@FIELD_CHANGES)->(\@fields);
    $lines->[$at] = join(',', @fields) . $feed;
}

my @LINE_CHANGES = (
    sub { my ($lines) = @_; splice @$lines, random(scalar @$lines), 1 },
    sub { my ($lines) = @_; my $at = random(scalar @$lines); splice @$lines, $at, 0, $lines->[$at] },
    sub {
        my ($lines) = @_;
        my ($one, $other) = (random(scalar @$lines), random(scalar @$lines));
        @$lines[$one, $other] = @$lines[$other, $one];
    },
    sub { my ($lines) = @_; push @$lines, $lines->[-1] },
    sub { my ($lines) = @_; splice @$lines, 1 + random(scalar @$lines) },
);

my @BYTE_CHANGES = (
    sub { my ($bytes) = @_; substr($$bytes, random(length $$bytes), 1) = random_from(@BYTES) },
    sub { my ($bytes) = @_; substr($$bytes, random(length $$bytes), 1) = '' },
    sub { my ($bytes) = @_; substr($$bytes, random(length $$bytes), 0) = random_from(@BYTES) },
    sub { my ($bytes) = @_; $$bytes = substr($$bytes, 0, random(length $$bytes)) },
    sub { my ($bytes) = @_; chomp $$bytes },
);

sub mutated {
    my $bytes = join('', @_);
    if (random(2)) {
        my @lines = lines($bytes);
        in_columns(\@lines) for 0 .. random(3);
        $bytes = join('', @lines);
        return $bytes if random(4);
    }
    for (0 .. random(3)) {
        last if $bytes eq '';
        my $kind = random(10);
        if ($kind < 2) {
            random_from(@BYTE_CHANGES)->(\$bytes);
            next;
        }
        my @lines = lines($bytes);
        if   ($kind < 8) { in_fields(\@lines) }
        else             { random_from(@LINE_CHANGES)->(\@lines) }
        $bytes = join('', @lines);
    }
    return $bytes;
}

# Running a program.

my $folder = tempdir(CLEANUP => 1);

# A program that has not ended after this many seconds is stopped, and its case has failed.
my $SECONDS = 60;

sub write_file {
    my ($path, $bytes) = @_;
    open(my $out, '>:raw', $path) or die "$path: $!\n";
    print {$out} $bytes;
    close($out) or die "$path: $!\n";
}

sub read_file {
    my ($path) = @_;
    open(my $in, '<:raw', $path) or die "$path: $!\n";
    local $/;
    my $bytes = <$in>;
    close($in);
    return $bytes // '';
}

# Starts the program with this open file as its standard input, or without one that is open, and gives back its process id.
sub start {
    my ($program, $input) = @_;
    my $process = fork() // die "fork: $!\n";
    return $process if $process;
    open(STDOUT, '>:raw', "$folder/output") or POSIX::_exit(126);
    open(STDERR, '>:raw', "$folder/errors") or POSIX::_exit(126);
    if   ($input) { POSIX::dup2(fileno($input), 0) }
    else          { POSIX::close(0) }
    alarm $SECONDS;
    { no warnings 'exec'; exec {$program} $program; }
    print STDERR "$program: $!\n";
    close(STDERR);
    POSIX::_exit(127);
}

# Writes the bytes into a pipe in another process: pieces of so many bytes, or lines. Short inputs are written with a pause after each piece,
# so that the reader meets the pieces one by one. The process ends with 1 if a piece could not be written, as when nobody reads it any more.
sub start_writer {
    my ($bytes, $piece, $reader, $writer) = @_;
    my $process = fork() // die "fork: $!\n";
    return $process if $process;
    close($reader);
    $SIG{PIPE} = 'IGNORE';
    my @pieces = $piece eq 'line' ? lines($bytes) : unpack("(a$piece)*", $bytes);
    my $pause = @pieces <= 400 ? 0.0002 : 0;
    for my $part (@pieces) {
        my $written = syswrite($writer, $part);
        POSIX::_exit(1) if !defined $written || $written != length $part;
        select(undef, undef, undef, $pause) if $pause;
    }
    close($writer);
    POSIX::_exit(0);
}

# What the program prints on standard output and standard error, its wait status, and whether it left bytes unread, for these bytes as its standard
# input: a file, or, with a piece given, a pipe that is written in such pieces. Of a file the place up to which it was read tells that; of a pipe a
# write that failed, so that what was left in the pipe itself is not seen.
sub run_program {
    my ($program, $bytes, $piece) = @_;
    my ($input, $writing);
    if ($piece) {
        pipe($input, my $writer) or die "pipe: $!\n";
        $writing = start_writer($bytes, $piece, $input, $writer);
        close($writer);
    } else {
        write_file("$folder/input", $bytes);
        open($input, '<:raw', "$folder/input") or die "input: $!\n";
    }
    my $process = start($program, $input);
    close($input) if $writing;
    waitpid($process, 0);
    my $status = $?;
    my $unread;
    if ($writing) {
        waitpid($writing, 0);
        $unread = $? != 0;
    } else {
        $unread = sysseek($input, 0, SEEK_CUR) != length $bytes;
        close($input);
    }
    return (read_file("$folder/output"), read_file("$folder/errors"), $status, $unread);
}

# Counting cases.

my ($passed, $failed, %names) = (0, 0);

# A text on one line, cut if it is long.
sub shown {
    my ($text) = @_;
    my $cut = length($text) > 400;
    $text = substr($text, 0, 400) if $cut;
    $text =~ s/\\/\\\\/g;
    $text =~ s/\n/\\n/g;
    $text =~ s/([^\x20-\x7e])/sprintf '\\x%02x', ord $1/ge;
    return $cut ? "\"$text\" and more" : "\"$text\"";
}

# Counts a case: it has failed if there are complaints.
sub counted {
    my ($name, @complaints) = @_;
    die "two cases are called $name\n" if $names{$name}++;
    if (@complaints) {
        $failed++;
        print "FAILED: $name: ", join('; ', @complaints), "\n";
    } else {
        $passed++;
    }
}

# A case: the program and the reference both print exactly what is expected, and the program reads its input to the end and writes nothing to
# standard error. Further keys: piece, as for run_program; show, to print the input of a failed case.
sub compare {
    my ($name, $program, $bytes, $expected, $reference, %more) = @_;
    my ($output, $errors, $status, $unread) = run_program($program, $bytes, $more{piece});
    my @complaints;
    push @complaints, 'expected ' . shown($expected) . ', got ' . shown($output) if $output ne $expected;
    push @complaints, 'expected ' . shown($expected) . ', the reference says ' . shown($reference) if $reference ne $expected;
    push @complaints, 'standard error is ' . shown($errors) if $errors ne '';
    push @complaints, 'ended by signal ' . ($status & 127) if $status & 127;
    push @complaints, 'the input was not read to its end' if $unread;
    push @complaints, 'the input is ' . shown($bytes) if @complaints && $more{show};
    counted($name, @complaints);
}

sub opened {
    my ($path, $mode) = @_;
    sysopen(my $input, $path, $mode) or die "$path: $!\n";
    return $input;
}

# A pipe that holds these bytes, both ends open. A read of it fails after the last byte: there is a writer, and the reader does not wait for it.
sub failing_after {
    my ($bytes) = @_;
    pipe(my $input, my $writer) or die "pipe: $!\n";
    fcntl($input, F_SETFL, O_NONBLOCK) or die "fcntl: $!\n";
    my $written = $bytes eq '' ? 0 : syswrite($writer, $bytes);
    die "a pipe does not take the bytes\n" if !defined $written || $written != length $bytes;
    return ($input, $writer);
}

# Cases: a read that fails is told on standard error, and nothing is printed on standard output, whatever was read before. The bytes are a
# short input without a fault.
sub unreadable_input {
    my ($program, $bytes) = @_;
    write_file("$folder/input", $bytes);
    my @inputs = (
        ['standard input is a folder',                    opened($folder, O_RDONLY)],
        ['standard input is not open for reading',        opened("$folder/input", O_WRONLY)],
        ['standard input is closed',                      undef],
        ['a read fails before the first byte',            failing_after('')],
        ['a read fails inside the last line',             failing_after(unended($bytes))],
        ['a read fails after the last line',              failing_after($bytes)],
        ['a read fails after a line 1 that is refused',   failing_after("x\n$bytes")],
        ['a read fails after a surplus line',             failing_after("$bytes\n")],
    );
    for my $case (@inputs) {
        my ($name, $input) = @$case;
        my $process = start($program, $input);
        waitpid($process, 0);
        my $status = $?;
        my ($output, $errors) = (read_file("$folder/output"), read_file("$folder/errors"));
        my @complaints;
        push @complaints, 'expected nothing on standard output, got ' . shown($output) if $output ne '';
        push @complaints, 'expected a message on standard error, got none' if $errors eq '';
        push @complaints, 'ended by signal ' . ($status & 127) if $status & 127;
        counted($name, @complaints);
    }
}

# An output that takes nothing is told on standard error.
sub unwritable_output {
    my ($program) = @_;
    my $errors = qx{"$program" </dev/null 2>&1 >/dev/full};
    my @complaints;
    push @complaints, 'expected a message on standard error, got none' if $errors eq '';
    push @complaints, 'ended by signal ' . ($? & 127) if $? & 127;
    counted('standard output takes nothing', @complaints);
}

# The path of the program under test. Without a program there is nothing to test, and that is a failure.
sub program_called {
    my ($path) = @_;
    return $path if -f $path && -x _;
    counted("the program $path", 'there is no such program');
    finish();
}

# The last line, and the exit status.
sub finish {
    print "$passed passed, $failed failed\n";
    exit($failed == 0 && $passed > 0 ? 0 : 1);
}

1;
