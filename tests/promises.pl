#!/usr/bin/perl
# Nothing promised disappears unseen. tests/promises.txt lists every promise: its crate, its field
# of the crate's record Promises, its statement, a must-fail edit that makes it false, and a number
# for the statement's text; the clauses of the records that statements and contracts are made of,
# with a number for the record's text; and the statements with a parameter that others are made of,
# with a number for each one's text. This test fails where the tree differs:
#   - a statement of specs/Statements.antt or specs/Cases.antt that is no field of its crate's
#     Promises,
#   - a field that proofs/Promises.antt does not fill by a theorem of that statement,
#   - a field that is not in the list, or a line of the list that is no field,
#   - a record or a statement with a parameter of these two files that is not in the list, or a
#     record of the list with other clauses,
#   - a statement or a record whose text has another number: a hypothesis more, say,
#   - an edit that is not there,
#   - a public function, or one of a public trait, without a contract, or with a `requires`, and a
#     conversion that does not say what it gives,
#   - a name cited by README or a page of docs/ that the tree does not have.
# With the word `edits` and a file with what `rt ci` printed, it reads the first error of each edit:
# every edit was refused, and not only for a name that a proof cites or by a limit, nor because the
# code has other goals than the proof has answers for, but for the edits that the list names with an
# open goal; and with a promise's edit the promise's theorem is not proved. Where the first error is
# in a lemma that the theorem uses, the edit is tried once more in a copy of the tree.
# With the word `list` it prints the list with the numbers of the tree.
# Run at the top of the repository: perl tests/promises.pl [edits LOG | list]
use strict;
use warnings;
use utf8;
use File::Temp qw(tempdir);
binmode STDOUT, ':utf8';

my $list = 'tests/promises.txt';
my @documents = ('README.md', glob 'docs/*.md');
my ($passed, $failed) = (0, 0);

sub test {
    my ($name, $right) = @_;
    if ($right) { $passed++ }
    else        { $failed++; print "FAILED: $name\n" }
}

sub text {
    my ($path) = @_;
    open my $in, '<:utf8', $path or return '';
    local $/;
    return scalar <$in>;
}

# The files of the crates with one of these endings, but for what rt makes.
sub files {
    my ($endings) = @_;
    my @all = split /\n/, `find crates -path '*/out' -prune -o -type f -print`;
    return grep { /\.(?:$endings)$/ } @all;
}

# A number for a text, whatever its comments and line breaks.
sub number {
    my ($words) = @_;
    $words =~ s/--.*//g;
    $words =~ s/\s+/ /g;
    my $number = 0;
    $number = ($number * 257 + ord) % 1000000007 for split //, $words;
    return $number;
}

# The promises of the list: each as [crate, field, statement, edit, number]; "crate record" => its
# clauses, and => its number; "crate statement" with a parameter => its number; "crate edit" => the
# goal that stays open with it
my (@promises, %clauses, %numbers, %parts, %open);
for (grep { !/^#/ && /\S/ } split /\n/, text($list)) {
    if    (/^(\w+ \w+): (.*) = (\d+)$/) { ($clauses{$1}, $numbers{$1}) = ($2, $3) }
    elsif (/^(\w+ \w+) = (\d+)$/)       { $parts{$1} = $2 }
    elsif (/^open (\w+ \w+) (\S+)$/)    { $open{$1} = $2 }
    else                                { push @promises, [split] }
}

# The statements of the tree: "crate statement" => text, and => its file; those with a parameter;
# and its records: "crate record" => text
my (%statements, %stated, %families, %records);
for my $path (glob 'crates/*/specs/*.antt') {
    my ($crate, $file) = $path =~ m{^crates/(\w+)/specs/(\w+)};
    my $source = text($path);
    my $stated = $file eq 'Statements' || $file eq 'Cases';
    while ($stated && $source =~ /^abbrev pub (\w+) : Type \d\n((?:.+\n)+)/mg) {
        $statements{"$crate $1"} = $2;
        $stated{"$crate $1"} = $file;
    }
    while ($stated && $source =~ /^abbrev pub (\w+) : .* → Type \d\n((?:.+\n)+)/mg) {
        $families{"$crate $1"} = $2;
    }
    while ($source =~ /^pub record (\w+)(.*\n(?:  .*\n)+)/mg) {
        $records{"$crate $1"} = $2 if $stated || $clauses{"$crate $1"};
    }
}

# The list with the numbers of the tree.
if (@ARGV && $ARGV[0] eq 'list') {
    for (split /\n/, text($list)) {
        if (/^(\w+ \w+): (.*?)(?: = \d+)?$/) {
            $_ = "$1: $2 = " . number($records{$1} // '');
        } elsif (/^(\w+ \w+) = \d+$/) {
            $_ = "$1 = " . number($families{$1} // '');
        } elsif (!/^open / && /^(\w+) (\w+) (\w+) (\w+)(?: \d+)?$/) {
            $_ = "$1 $2 $3 $4 " . number($statements{"$1 $3"} // '');
        }
        print "$_\n";
    }
    exit 0;
}

# The theorems that fill a crate's promises: field => theorem
sub theorems {
    my ($crate) = @_;
    my ($record) = text("crates/$crate/proofs/Promises.antt") =~ /^promises = record \{(.*)\}/ms;
    return ($record // '') =~ /(\w+) = ([\w-]+)/g;
}

# Writes a text into a file.
sub store {
    my ($path, $text) = @_;
    open(my $out, '>:utf8', $path) or die "$path: $!\n";
    print {$out} $text;
    close($out);
}

# The texts of a crate's files with an edit: path => text.
sub edited {
    my ($crate, $edit) = @_;
    my (%texts, $path, $old);
    for (split /\n/, text("crates/$crate/must-fail/$edit.edit")) {
        if    (/^file: (.*)$/) { $path = "crates/$crate/$1" }
        elsif (/^old: (.*)$/)  { $old = $1 }
        elsif (/^new: ?(.*)$/) {
            my $new = $1;
            $texts{$path} //= text($path);
            $texts{$path} =~ s/\Q$old\E/$new/;
        }
    }
    return %texts;
}

# The theorems of a crate, among those given as [statement, theorem, edit], that are not proved with
# the edit. It is tried in a copy of the tree, where one declaration, that the theorem proves the
# statement, takes the place of the crate's Promises.
sub refuted {
    my ($crate, @tries) = @_;
    my $tree = tempdir(CLEANUP => 1);
    system("cp crates.txt $tree && find crates -path '*/out' -prune -o -type f -print0"
        . " | xargs -0 cp --parents -t $tree") == 0 or die "no copy of the tree\n";
    my $promises = "crates/$crate/proofs/Promises.antt";
    my @uses = grep { /^use / } split /\n/, text($promises);
    my @refuted;
    for (@tries) {
        my ($statement, $theorem, $edit) = @$_;
        my %texts = edited($crate, $edit);
        my $file = $stated{"$crate $statement"};
        my $use = "use Rattle.$crate.specs.$file.{$statement}";
        my $promise = "pub promise : $statement\npromise = $theorem\n";
        $texts{$promises} = join "\n", @uses, $use, '', $promise;
        store("$tree/$_", $texts{$_}) for keys %texts;
        my $said = qx{cd $tree/crates/$crate && rt check 2>&1};
        store("$tree/$_", text($_)) for keys %texts;
        my $unproved = qr/ on `\Q$theorem\E`, which was (?:not admitted|rejected)/;
        push @refuted, $theorem if $said =~ m{^\./proofs/Promises\.antt:.*: error: .*$unproved}m;
    }
    return @refuted;
}

# What the prover said of the edits: the first error of each, as `rt ci` printed it.
if (@ARGV && $ARGV[0] eq 'edits') {
    my %said = text($ARGV[1] // '') =~ m{^rt: must-fail (\w+/\w+)\.edit: (.*)$}mg;
    my (%theorem, %refuted, %tries, %from);
    for (@promises) {
        my ($crate, $field, $statement, $edit) = @$_;
        my %filled = theorems($crate);
        my $theorem = $theorem{"$crate $field"} = $filled{$field} // '';
        $refuted{"$crate $field"} = ($said{"$crate/$edit"} // '') =~ /: error: `\Q$theorem\E`/;
        push @{ $tries{$crate} }, [$statement, $theorem, $edit] if !$refuted{"$crate $field"};
    }
    # the crates beside each other
    for my $crate (sort keys %tries) {
        my $child = open($from{$crate}, '-|') // die "fork: $!\n";
        next if $child;
        print join ' ', refuted($crate, @{ $tries{$crate} });
        exit 0;
    }
    my %found;
    for my $crate (sort keys %from) {
        my $line = readline($from{$crate}) // '';
        $found{"$crate $_"} = 1 for split ' ', $line;
    }
    for (@promises) {
        my ($crate, $field, $statement, $edit) = @$_;
        my $theorem = $theorem{"$crate $field"};
        my $refuted = $refuted{"$crate $field"} || $found{"$crate $theorem"};
        test("$crate: $edit refuses $theorem", $refuted);
    }
    for my $edit (glob 'crates/*/must-fail/*.edit') {
        my ($crate, $label) = $edit =~ m{^crates/(\w+)/must-fail/(\w+)};
        my $said = $said{"$crate/$label"} // '';
        test("$edit: it is refused", $said =~ /^refused, as it must be/);
        # a note tells a goal that has no answer: where the proof no longer fits the code, say
        my ($goal) = $said =~ /^refused, as it must be: note: .*\(`([\w-]+)`\)/;
        test("$edit: the proof fits the code", ($goal // '') eq ($open{"$crate $label"} // ''));
        test("$edit: for a fact", $said !~ /^refused, as it must be \(only /);
    }
    print "$passed passed, $failed failed\n";
    exit($failed ? 1 : 0);
}

# The promises of the tree: crate => { field => statement }
my %tree;
for my $path (glob 'crates/*/specs/Promises.antt') {
    my ($crate) = $path =~ m{crates/(\w+)/};
    my ($record) = text($path) =~ /pub record Promises : Type \d where\n(.*)/s;
    $tree{$crate} = { ($record // '') =~ /^  pub (\w+) : (\w+)$/mg };
}

# Every statement is promised.
for (sort keys %statements) {
    my ($crate, $statement) = split;
    my $promised = grep { $_ eq $statement } values %{ $tree{$crate} // {} };
    test("$crate: the statement $statement is a field of Promises", $promised);
}

# Every promise is filled by a theorem of that statement.
for my $crate (sort keys %tree) {
    my $proofs = join "\n", map { text($_) } glob "crates/$crate/proofs/*.antt";
    my %filled = theorems($crate);
    for my $field (sort keys %{ $tree{$crate} }) {
        my $statement = $tree{$crate}{$field};
        my $theorem = $filled{$field} // '';
        test("$crate: the field $field is filled", $theorem ne '');
        my $proved = $proofs =~ /^pub \Q$theorem\E : \Q$statement\E$/m;
        test("$crate: $theorem proves $statement", $proved);
    }
}

# The list is what the tree has.
my %listed;
for (@promises) {
    my ($crate, $field, $statement, $edit, $number) = @$_;
    my $found = number($statements{"$crate $statement"} // '');
    $listed{$crate}{$field} = $statement;
    my $same = $found && $found == ($number // 0);
    my $promised = $tree{$crate}{$field} // '';
    test("$crate: the text of $statement has the number $found", $same);
    test("$crate: the listed promise $statement is the field $field", $promised eq $statement);
    test("$crate: $statement has the edit $edit", -f "crates/$crate/must-fail/$edit.edit");
}
for my $crate (sort keys %tree) {
    for my $field (sort keys %{ $tree{$crate} }) {
        my $statement = $tree{$crate}{$field};
        my $in_list = ($listed{$crate}{$field} // '') eq $statement;
        test("$crate: the promise $statement is listed", $in_list);
    }
}

# So are the clauses of the listed records, and all records of the statements are listed.
for my $record (sort keys %{ { %records, %clauses } }) {
    my $source = $records{$record} // '';
    my $found = number($source);
    my $named = join ' ', $source =~ /^  pub ([\w-]+) :/mg;
    test("$record: its clauses are those of the list", $named eq ($clauses{$record} // ''));
    test("$record: its text has the number $found", $found && $found == ($numbers{$record} // 0));
}

# So are the statements with a parameter.
for my $part (sort keys %{ { %families, %parts } }) {
    my $found = number($families{$part} // '');
    test("$part: its text has the number $found", $found && $found == ($parts{$part} // 0));
}

# Every public function has a contract and asks nothing.
for my $path (files('rt')) {
    my $source = text($path);
    while ($source =~ /^ *pub (?:extern "C" )?fn (\w+)(.*?)\{$/msg) {
        my ($name, $head) = ($1, $2);
        my $stated = $head =~ /\bensures\b/ && $head !~ /\brequires\b/;
        test("$path: $name has a contract and no requires", $stated);
    }
    # So has each function of a public trait, and a conversion says what it gives.
    while ($source =~ /^pub trait (\w+)[^\n]*\{\n(.*?)^\}/msg) {
        my ($trait, $body) = ($1, $2);
        while ($body =~ /^    fn (\w+)(.*?);$/msg) {
            my ($name, $head) = ($1, $2);
            my $stated = $head =~ /\bensures\b/ && $head !~ /\brequires\b/;
            test("$path: $name of $trait has a contract and no requires", $stated);
        }
    }
    while ($source =~ /^impl (?:Try)?From<(\w+)> for (\w+) \{\n(.*?)^\}/msg) {
        my ($from, $to, $body) = ($1, $2, $3);
        test("$path: what $to has from $from", $body =~ /^    ghost (?:try_)?from_gives = /m);
    }
}

# The names that a file of code or of definitions has.
sub names {
    my ($source, $code) = @_;
    return ($source =~ /\b(?:fn|struct|enum|trait|const|mod|type)\s+(\w+)/g,
        $source =~ /^\s+(?:pub )?(\w+)(?:\(.*\)|: .*| \{.*)?,$/mg) if $code;
    my $kinds = qr/(?:(?:unfoldable|abbrev|pub|record|data) )*/;
    my $parameters = qr/(?:\{[^}]*\} |\([^)]*\) )*/;
    return ($source =~ /^\s*$kinds([^\s:(){}]+) $parameters:/mg,
        $source =~ /^(?:pub )?record (\w+)/mg);
}

# The names of the tree: by file, by crate, and all; of an edit its label.
my (%in, %of, %known);
for my $path (files('antt|rt|edit')) {
    my ($crate, $part, $file) = $path =~ m{^crates/(\w+)/([\w-]+)/(?:.*/)?([\w-]+)\.\w+$} or next;
    my $source = text($path);
    my @names = $part eq 'must-fail' ? ($file) : ($file, names($source, $path =~ /\.rt$/));
    $known{$_} = $in{$file}{$_} = $of{$crate}{$_} = 1 for @names;
    $known{$crate} = 1;
    # names of the toolchain's lists
    $known{$_} = 1 for map { split /, / } $source =~ /^use lib\.\w+\.\{([^}]*)\}/mg;
}
# names of ops and memories, and words of the toolchain and of the programs
$known{$_} = 1 for text('crates/memory/specs/Names.antt') =~ /"([a-z]+)"/g;
$known{$_} = 1 for qw(check fill rt RT_JOBS requires u32 u64);

# Every name that a document cites is one of them.
for my $document (@documents) {
    my %cited = map { $_ => 1 } text($document) =~ /`([^`\s]+)`/g;
    for my $name (sort keys %cited) {
        if ($name =~ m{^[\w.-]+/[\w./*-]*$}) {
            next if $name =~ m{^(?:target|bin)/};
            (my $path = $name) =~ s{\bCRATE\b}{*}g;
            my @found = grep { -e } glob("$path crates/*/$path");
            test("$document: the path $name", @found > 0);
        }
        elsif ($name =~ /^([A-Z]\w+)\.([\w-]+)$/ && $name !~ /\.(?:md|pl|pm|txt|rt|antt)$/) {
            test("$document: $2 of $1", $in{$1}{$2});
        }
        elsif ($name =~ /^([a-z_]+)::([A-Za-z_]+)(?:::([A-Za-z_]+))?$/) {
            my ($place, $item) = ($1, $3 // $2);
            test("$document: $name", $of{$place}{$item} || $in{$place}{$item});
        }
        elsif ($name =~ /^([A-Z]\w+)::([A-Za-z_]+)$/) {
            test("$document: $name", $known{$1} && $known{$2});
        }
        elsif ($name =~ /^[A-Za-z_][\w-]*$/) {
            test("$document: the name $name", $known{$name});
        }
    }
}

print "$passed passed, $failed failed\n";
exit($failed ? 1 : 0);
