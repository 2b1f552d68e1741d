#!/usr/bin/perl
# Compares the program with the plain one (pua.rs beside this file) over random worlds by a seed, byte for byte:
#
#     perl bench/plain/night.t [PROGRAM [SEED [WORLDS]]]
#
# In each world both have to answer each command of the plain one alike: the run, whole and up to a line, which the script
# may lack; the lists of all processes; and, of one process, its list, an audit, that audit resumed after one of its pairs,
# and the list for ever. Then the plain one has to pass tests/rows.t, as far as its commands go.
use strict;
use warnings;
use FindBin qw($Bin);
use lib "$Bin/../../tests/lib";
use File::Temp qw(tempdir);
use Test::More;
use Worlds qw(answer_of program_in worlds_told);

my $PROGRAM = program_in(@ARGV);
my ($SEED, $WORLDS) = (@ARGV > 1 ? $ARGV[1] : int time / 86_400, @ARGV > 2 ? $ARGV[2] : 2_000);

# How many differences are told in full.
my $SHOWN = 3;

my $room  = tempdir(CLEANUP => 1);
my $PLAIN = "$room/plain";
is(system('rustc', '-O', '--edition', '2024', '-o', $PLAIN, "$Bin/pua.rs"), 0, 'the plain program is built') or BAIL_OUT('no rustc');

my %count = map { $_ => 0 } qw(commands bytes refused lasting differ);
my $worlds = Worlds->new($SEED, { openings => 1, files => 1, roots => 1 });
for my $number (1 .. $WORLDS) {
    my $rules = $number % 2 ? 'profile' : 'openbsd';
    $worlds->by($rules);
    my $files = { listing => $worlds->listing, script => $worlds->script({}) };
    my $lines = () = $files->{script} =~ /\n/g;
    my @of = ('--process', 1 + $worlds->number(2));
    my @plainly = (['run'], ['run', '--at', $worlds->number($lines + 2)], ['objects', '--process', 'all'], ['objects', @of]);
    compare($files, $_, '--rules', $rules) for @plainly;
    my @audit = ('audit', '--limit', $worlds->number(4), '--base', $worlds->pick(qw(root cwd)), @of);
    my $reach = compare($files, \@audit, '--rules', $rules);
    my @pairs = $reach =~ m{^([./]\S*) (\S+)$}mg;
    if (@pairs) {
        my $place = 2 * $worlds->number(@pairs / 2);
        compare($files, [@audit, '--after', "$pairs[$place + 1]:$pairs[$place]"], '--rules', $rules);
    }
    compare($files, ['objects', '--ever', @of], '--rules', $rules);
}
is($count{differ}, 0, "seed $SEED: $count{commands} commands over $WORLDS worlds, $count{bytes} bytes");
cmp_ok($count{commands}, '>', 5 * $WORLDS, 'commands that were compared');
cmp_ok($count{lasting}, '>', $WORLDS / 50, "lists for ever; $count{refused} commands were refused by both");
my $rows = `$^X '$Bin/../../tests/rows.t' --plain '$PLAIN' 2>&1`;
is($?, 0, 'the rows of the tests') or diag(grep { /^(?:not ok|# )/ } split /^/, $rows);
done_testing;

# Compares what both programs answer to a command; gives the program's text.
sub compare {
    my ($files, $command, @rules) = @_;
    my @words = (@$command, @rules, 'listing', 'script');
    my @here  = answer_of($PROGRAM, $files, @words);
    my $is_ever = grep { $_ eq '--ever' } @words;
    my @there = answer_of($PLAIN, $files, @words);
    $count{commands}++;
    $count{bytes} += length $here[1];
    $count{refused}++ if $here[0];
    $count{lasting}++ if $is_ever && !$here[0];
    return $here[1] if "@here" eq "@there";
    diag(worlds_told($files, @words), "--- the program: status @here--- the plain one: status @there") if ++$count{differ} <= $SHOWN;
    return $here[1];
}
