#!/usr/bin/perl
# Tests of the trials in data/trials, which tools/conform.pl performs on a system: perl tests/trials.t [PROGRAM]
#
# Each is of the right form, and what it says that pua answers is what the program answers by OpenBSD's rules. Those
# that come first are about covers that may go stale.
use strict;
use warnings;
use FindBin qw($Bin);
use lib "$Bin/../tools/lib", "$Bin/lib";
use Pua::Perform qw(requests_of);
use Pua::Trials qw(listing_of script_of trials_in);
use Test::More;
use Worlds qw(answer_of program_in);

my $PROGRAM = program_in(@ARGV);

# What pua and a system may answer; `too-long` is a word of conform.pl.
my $ANSWER = qr/\A(?:ok|killed|gone|too-long|E[A-Z0-9]+)\z/;

my @trials = trials_in("$Bin/data/trials");
cmp_ok(scalar @trials, '>=', 66, 'trials');
my $about_covers = join ' ', map { $_->{name} =~ /\A[0-9]+-cover-/ ? 'yes' : 'no' } @trials[0 .. 4];
is($about_covers, 'yes yes yes yes no', 'those about covers come first');
my ($lines, $differ) = (0, 0);
my $number = 0;
for my $trial (@trials) {
    my ($name, @lines) = ($trial->{name}, @{ $trial->{lines} });
    $number++;
    like($name, qr/\A0*$number-/, "$name is number $number");
    ok($trial->{confidence} > 0 && $trial->{confidence} < 100, "$name: its confidence");
    my @bad = grep { $_->{expected} !~ $ANSWER || $_->{pua} !~ $ANSWER } @lines;
    is(scalar @bad, 0, "$name: its answers are answers");
    is(scalar(requests_of(script_of($trial))), scalar @lines, "$name: its requests are some");
    my $at = 0;
    my $wanted = join '', map { ++$at . " $_->{pua}\n" } @lines;
    my ($status, $out, $err) = answer_of($PROGRAM, { TREE => listing_of($trial), SCRIPT => script_of($trial) },
        'run', '--rules', 'openbsd', 'TREE', 'SCRIPT');
    $out =~ s/^([0-9]+ ok) by [a-z]+$/$1/mg;
    is("$status $err$out", "0 $wanted", "$name: what pua answers");
    $lines += @lines;
    $differ += grep { $_->{expected} ne $_->{pua} } @lines;
}
note @trials . " trials, $lines lines, of which $differ are expected otherwise than pua answers";
done_testing;
