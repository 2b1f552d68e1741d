#!/usr/bin/perl
# Words of neighbours: the program as a black box over random worlds by a fixed seed.
#
#     perl tests/neighbours.t [PROGRAM [WORLDS [SEED]]]
#
# - By OpenBSD's rules a script in which calls have the words of their neighbours is told what it is told with their own
#   names, by each command; and tightened it is the tightened script, with these words.
# - By the standard rules the first of these words is a bad call.
use strict;
use warnings;
use FindBin qw($Bin);
use Test::More;
use lib "$Bin/lib";
use Worlds qw(answer_of program_in);

my $PROGRAM = program_in(@ARGV);

# How many random worlds are tried, and by which seed.
my ($WORLDS, $SEED) = (24, 31);
$WORLDS = $ARGV[1] if @ARGV > 1;
$SEED   = $ARGV[2] if @ARGV > 2;

# The words of each call that has neighbours.
my %WORDS = (
    stat => ['access', 'statfs'], 'open-w' => ['truncate'], chmod => ['chflags', 'utimes'], mknod => ['mkfifo'],
);
my %CALLS;
for my $call (keys %WORDS) { $CALLS{$_} = $call for @{ $WORDS{$call} } }

# What is told of a script, whichever words it has.
my @TOLD = (
    ['run'], ['run', '--why'], ['objects', '--process', 'all'], ['objects', '--why', '--process', 'all'],
    ['objects', '--ever'], ['audit', '--limit', 2],
);

my $worlds = Worlds->new($SEED)->by('openbsd');
my $count  = 0;

# A script in which some of the calls have the word of a neighbour.
sub with_words {
    my ($script) = @_;
    $script =~ s/^(\S+ )([a-z-]+)(?= )/$1 . word($2)/gme;
    return $script;
}

sub word {
    my ($call) = @_;
    return $call if !$WORDS{$call} || $worlds->number(4) == 0;
    $count++;
    return $worlds->pick(@{ $WORDS{$call} });
}

# With their own names.
sub with_calls { return $_[0] =~ s/^(\S+ )([a-z-]+)(?= )/$1 . ($CALLS{$2} || $2)/gmer }

sub told {
    my ($files, $script, $command, @words) = @_;
    return join "\n", answer_of($PROGRAM, { %$files, script => $script }, $command, @words, 'listing', 'script');
}

for my $number (1 .. $WORLDS) {
    my $files = { listing => $worlds->listing };
    my $script = $worlds->script({}) . "1 stat /\n2 chmod /\n";
    my $spoken = with_words($script);
    my @otherwise = grep { told($files, $spoken, @$_, '--rules', 'openbsd') ne told($files, $script, @$_, '--rules', 'openbsd') }
        @TOLD;
    is(join(', ', map { "@$_" } @otherwise), '', "world $number: what is told is the same");
    my @tight = map { told($files, $_, 'tight', '--rules', 'openbsd') } $spoken, $script;
    is(with_calls($tight[0]), $tight[1], "world $number: the tightened script is the same");
    is(join(' ', map { (split / /)[1] } grep { /^\d/ } split /\n/, $tight[0] =~ s/\A0\n//r),
        join(' ', map { (split / /)[1] } split /\n/, $spoken), "world $number: and it keeps the words");
    my @lines = split /\n/, $spoken;
    my ($first) = grep { $CALLS{ (split / /, $lines[$_])[1] } } 0 .. $#lines;
    next if !defined $first || grep { !defined } $first;
    my $front = join '', map { "$_\n" } grep { !/ (?:connect|bind|mknod|chown|create-rw|fchmod|fchown|uses) / } @lines[0 .. $first];
    my $at = () = $front =~ /\n/g;
    is(told($files, $front, 'run'), "1\n\npua: script: line $at: bad call\n", "world $number: a bad call by the standard rules");
}
note("$count words of neighbours");
done_testing;
