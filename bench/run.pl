#!/usr/bin/perl
# Times `bin/check` on honest files of each memory: bytes per second, time for a line against the number of lines, and peak memory.
# The files are made here, from a fixed seed, and left in target/bench/. Each figure is the best of several runs.
# Run at the top of the repository, after ./build: perl bench/run.pl [program]
use strict;
use warnings;
use File::Path qw(make_path);
use IO::Handle;
use Time::HiRes qw(time sleep);
use lib 'tests';
use Reference ();

my $program = shift // 'bin/check';
my $runs    = 21;
my $folder  = 'target/bench';
make_path($folder);

my $state = 271828182;
sub draw { my ($below) = @_; $state = $state * 48271 % 2147483647; return $state % $below; }

# The init rows and operations of a run of this memory.
sub run_of {
    my ($memory, $n, $t) = @_;
    my @rows = map { { op => 'init', guard => 0, addr => 0, value => draw(2147483647) } } 1 .. $n;
    my $depth = 0;
    for (1 .. $t) {
        if ($memory eq 'ram') {
            push @rows, { op => 'access', guard => draw(2), addr => draw($n), value => draw(2147483647) };
        } elsif ($memory eq 'rom') {
            push @rows, { op => 'look', guard => 0, addr => draw($n), value => 0 };
        } elsif ($memory eq 'set') {
            push @rows, { op => 'member', guard => 0, addr => 0, value => $rows[draw($n)]{value} };
        } else {
            my @ops = $memory eq 'stack' ? ('push', 'pop') : ('enqueue', 'dequeue');
            my $taking = draw(2);
            my $guard = $taking && $depth == 0 ? 0 : draw(2);
            $depth += $taking ? -$guard : $guard;
            push @rows, { op => $ops[$taking], guard => $guard, addr => 0, value => $taking ? 0 : draw(2147483647) };
        }
    }
    return @rows;
}

sub file_of {
    my ($memory, $t) = @_;
    my $n = $memory eq 'stack' || $memory eq 'queue' ? 0 : $t;
    my $name = "$folder/$memory-$t.txt";
    return $name if -s $name;
    # made by a child process: a large process takes longer to start another, which would be timed
    my $child = fork // die "fork: $!\n";
    if ($child) {
        waitpid($child, 0);
        return $name;
    }
    my $rows = Reference::honest($memory, $n, $t, run_of($memory, $n, $t));
    open(my $out, '>', $name) or die "$name: $!\n";
    print $out "memory,size,count,r,a,b,c\n$memory,$n,$t,1234567890,987654321,192837465,564738291\n";
    print $out "op,guard,addr,value,old,time,version\n";
    print $out join(',', @$_{qw(op guard addr value old time version)}), "\n" for @$rows;
    close($out);
    exit 0;
}

# The largest resident size of the program, in KiB, after it has read a file and before its input ends.
sub peak {
    my ($file) = @_;
    my $pid = open(my $to, '|-', "exec $program > /dev/null") or die "$program: $!\n";
    open(my $in, '<', $file) or die "$file: $!\n";
    print $to $_ while read($in, $_, 65536);
    $to->flush;
    sleep(0.3);
    open(my $status, '<', "/proc/$pid/status") or die "no status of the program\n";
    my ($size) = map { /^VmHWM:\s+(\d+)/ ? $1 : () } <$status>;
    close($to);
    return $size;
}

printf "%-6s %8s %8s %9s %9s %8s %9s\n", 'memory', 'count', 'lines', 'bytes', 'ms', 'MB/s', 'ns/line';
for my $memory (qw(ram rom set stack queue)) {
    for my $t (4096, 16384, 65536) {
        my $file = file_of($memory, $t);
        my $bytes = -s $file;
        my $lines = do { open(my $in, '<', $file) or die; my $k = 0; $k++ while <$in>; $k };
        my $best;
        for (1 .. $runs) {
            my $start = time;
            my $answer = qx{$program < $file};
            my $taken = time - $start;
            die "$file: $answer" if $answer !~ /^0,0,/m;
            $best = $taken if !defined $best || $taken < $best;
        }
        printf "%-6s %8d %8d %9d %9.2f %8.1f %9.1f\n", $memory, $t, $lines, $bytes, $best * 1e3, $bytes / $best / 1e6, $best / $lines * 1e9;
    }
}
printf "peak memory: %d KiB\n", peak(file_of('ram', 65536));
