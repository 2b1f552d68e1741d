#!/usr/bin/perl
# Tests of what commands write over small listings, scripts and tables of calls, by the table data/rows.toml:
#
#     perl tests/rows.t [--plain] [PROGRAM]
#
# Each audit that a row has whole is also resumed after each of its lines. With --plain the program is one that reads no
# table of calls, has no reasons, says nothing behind a fault's line, lists nothing as it was before an exec, and lists for
# ever of one process without help: rows that ask for more are left out.
use strict;
use warnings;
use FindBin qw($Bin);
use lib "$Bin/lib";
use Tables qw(ended table_in);
use Test::More;
use Worlds qw(answer_of program_in);

my $is_plain = @ARGV && $ARGV[0] eq '--plain' ? shift @ARGV : 0;
my $PROGRAM = program_in(@ARGV);

# The commands that refuse an input. The last one's limit is refused too, though later.
my @REFUSING = ('run TREE SCRIPT', 'objects TREE SCRIPT', 'audit --limit 1 TREE SCRIPT', 'audit --limit 17 TREE SCRIPT');
push @REFUSING, 'tight TREE SCRIPT', 'tight --why TREE SCRIPT', 'tree TREE SCRIPT' if !$is_plain;

# A listing in which nothing stands.
my $ROOT = "tree 1\n0 dir\n";

# The files that the program finds.
my %files;
my $runs = 0;

sub put {
    my ($tree, $script, $table) = @_;
    %files = (TREE => $tree, SCRIPT => $script, TABLE => defined $table ? $table : '');
    return;
}

# What is told otherwise than expected, in words; the empty text where nothing is.
sub otherwise {
    my ($words, $out, $err, $status) = @_;
    $runs++;
    my ($is_status, $is_out, $is_err) = answer_of($PROGRAM, \%files, @$words);
    return '' if $is_status == $status && $is_out eq $out && $is_err eq $err;
    return "@$words: status $is_status\n$is_out$is_err";
}

# The words of a command, between single blanks; none where there is no command.
sub words_of {
    my ($entry) = @_;
    return defined $entry->{command} ? split(/ /, $entry->{command}, -1) : ();
}

# The lines before the pairs of what a row's command writes, those of the pairs, and all others.
sub parts_of {
    my ($row) = @_;
    my $number = 0;
    my @front = map { ++$number . " $_\n" } map { s{/}{ by }r } split ' ', text($row, 'answers');
    push @front, map { exists $row->{$_} ? "$_ $row->{$_}\n" : () } qw(reach objects ever);
    my @pairs;
    for my $line (split /\n/, text($row, 'pairs')) {
        my ($path, @calls) = split / /, $line;
        push @pairs, map { "$path $_\n" } @calls;
    }
    return (join('', @front), \@pairs, join '', map { text($row, $_) } qw(state lines whole));
}

sub text {
    my ($entry, $key) = @_;
    return defined $entry->{$key} ? $entry->{$key} : '';
}

# What is wrong with an audit that is resumed after each of its lines.
sub wrong_resumed {
    my ($words, $pairs) = @_;
    my ($audit, @operands) = @$words;
    my $wrong = '';
    for my $last (0 .. $#$pairs) {
        my ($path, $call) = $pairs->[$last] =~ /\A(\S+) (\S+)\n\z/;
        my @resuming = ($audit, '--after', "$call:$path", @operands);
        $wrong .= otherwise(\@resuming, join('', @$pairs[$last + 1 .. $#$pairs]), '', 0);
    }
    return $wrong;
}

# What is told of a fault on standard error: its line, and what is said behind it, if something is.
sub told_of {
    my ($entry) = @_;
    return ended($entry->{fault}) . ended($entry->{advice});
}

# What is wrong with what a row's command writes.
sub wrong_row {
    my ($row) = @_;
    my @words = words_of($row);
    my ($front, $pairs, $rest) = parts_of($row);
    my $wrong = otherwise(\@words, join('', $front, @$pairs, $rest), told_of($row), $row->{status} || 0);
    $wrong .= wrong_resumed(\@words, $pairs) if exists $row->{reach};
    return $wrong;
}

# Whether a plain program does not know these words.
sub is_left_out {
    my ($entry, @words) = @_;
    return 0 if !$is_plain;
    return 1 if exists $entry->{advice};
    return 1 if @words && $words[0] =~ /\A(?:why|tree|tight|how)\z/;
    my $is_ever = grep { $_ eq '--ever' } @words;
    return 1 if $is_ever && grep { /\A(?:all|\d+(?:,\d+)+)\z/ } @words;
    return 1 if ($entry->{status} || 0) != 2 && grep { /\A\d+(?:,\d+)+\z/ } @words;
    return ($entry->{status} || 0) != 2 && grep { /\A--(?:table|why|how|images|beside|below)/ } @words;
}

sub is_right {
    my ($wrong, $name) = @_;
    ok($wrong eq '', $name) or diag $wrong;
    return;
}

# Words that are no command: the first of them decides which line says so.
sub test_misused {
    my ($table) = @_;
    put($ROOT, '');
    for my $misused (@{ $table->{misused} }) {
        my @words = words_of($misused);
        next if is_left_out({ status => 2 }, @words);
        my $usage = $table->{usage}{ $misused->{usage} } or die "no usage: $misused->{usage}\n";
        is_right(otherwise(\@words, '', "$usage\n", 2), "misused: $misused->{name}");
    }
    return;
}

# Inputs with a fault. What is judged after the input has one too.
sub test_refused {
    my ($table) = @_;
    for my $refused (@{ $table->{refused} }) {
        my @by = exists $refused->{table} ? ('--table', 'TABLE') : ();
        next if $is_plain && @by;
        put(exists $refused->{listing} ? $refused->{listing} : @by ? 'tree 0' : $ROOT,
            exists $refused->{script} ? $refused->{script} : '0', $refused->{table});
        my @wrong = map { otherwise([split(/ /), @by], '', "$refused->{fault}\n", 1) } @REFUSING;
        if (!$is_plain && exists $refused->{advice}) {
            push @wrong, map { otherwise([split(/ /), qw(--rules openbsd)], '', told_of($refused), 1) } @REFUSING;
        }
        is_right(join('', @wrong), "refused ($refused->{from}): $refused->{name}");
    }
    return;
}

sub test_rows {
    my ($table) = @_;
    for my $row (@{ $table->{row} }) {
        next if is_left_out($row, words_of($row));
        my $tree = $table->{tree}{ $row->{tree} } or die "no tree: $row->{tree}\n";
        put($tree->{listing}, text($row, 'script'), $row->{table});
        is_right(wrong_row($row), "row ($row->{from}): $row->{name}");
    }
    return;
}

my $table = table_in("$Bin/data/rows.toml");
test_misused($table);
test_refused($table);
test_rows($table);
note "$runs runs";
done_testing;
