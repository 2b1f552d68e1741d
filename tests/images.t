#!/usr/bin/perl
# Processes as they were before each program that they started: the program as a black box over random worlds by a
# fixed seed.
#
#     perl tests/images.t [PROGRAM [WORLDS [SEED]]]
#
# With `--images` a list has the answers of the script; then, for each line by which one of the processes that are asked
# for started a program, the list that is printed of this process where the lines before are all of the script, under a
# heading of its own; and then what it has without the option. Where there is no such line it is the list without the
# option.
use strict;
use warnings;
use FindBin qw($Bin);
use Test::More;
use lib "$Bin/lib";
use Worlds qw(answer_of program_in worlds_told);

my $PROGRAM = program_in(@ARGV);

# How many random worlds are tried, and by which seed.
my ($WORLDS, $SEED) = (60, 11);
$WORLDS = $ARGV[1] if @ARGV > 1;
$SEED   = $ARGV[2] if @ARGV > 2;

# Of which processes it is asked.
my @WHOSE = ('1', '2', '2,1', '3,3', 'all');

my $worlds = Worlds->new($SEED);
my ($runs, $images) = (0, 0);

# The status, the output and the faults of a command over these inputs.
sub ended {
    my ($files, @words) = @_;
    $runs++;
    return answer_of($PROGRAM, $files, @words);
}

# The output of a list without the answers before it.
sub list_of {
    my ($files, @words) = @_;
    my ($status, $text) = ended($files, @words);
    $text =~ s/\A(?:[0-9]+ \S+(?: by [a-z]+)?\n)*//;
    return $text;
}

# What is expected of processes with their images.
sub expected {
    my ($files, $answers, $whose, @options) = @_;
    my @script = split /\r?\n/, $files->{script};
    my %is_asked = map { $_ => 1 } split /,/, $whose;
    my @lists;
    for my $line (map { /\A([0-9]+) ok\z/ ? $1 : () } split /\n/, $answers) {
        my ($process, $call) = split / /, $script[ $line - 1 ];
        next if $call ne 'exec' || !$is_asked{$process} && $whose ne 'all';
        my $list = list_of($files, 'objects', @options, '--process', $process, '--at', $line - 1, 'listing', 'script');
        push @lists, $list =~ s/\A(objects [0-9]+)\n/$1 before $line\n/r;
        $images++;
    }
    return join '', $answers, @lists, list_of($files, 'objects', @options, '--process', $whose, 'listing', 'script');
}

for my $number (1 .. $WORLDS) {
    my $rules = $number % 2 ? 'profile' : 'openbsd';
    $worlds->by($rules);
    my $files = { listing => $worlds->listing, script => $worlds->script({ veils => 1, locks => $number % 3 == 0 }) };
    my @options = ('--rules', $rules);
    my ($failed, $answers) = ended($files, 'run', @options, 'listing', 'script');
    my @wrong;
    for my $whose (@WHOSE) {
        my @words = ('objects', @options, '--images', '--process', $whose, 'listing', 'script');
        my ($status, $text, $faults) = ended($files, @words);
        my $is_right = $status == 0 ? $text eq expected($files, $answers, $whose, @options)
            : "$status\n$text\n$faults" eq join "\n", ended($files, grep { $_ ne '--images' } @words);
        push @wrong, worlds_told($files, @words) if !$is_right;
    }
    is("@wrong", '', "world $number: each process is listed also as it was before its execs");
}
cmp_ok($images, '>', $WORLDS / 2, 'programs were started');
note("$runs runs, in which $images lists are of what a process was");
done_testing();
