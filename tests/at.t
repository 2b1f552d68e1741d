#!/usr/bin/perl
# The state behind a line of a script: the program as a black box over random worlds by a fixed seed.
#
#     perl tests/at.t [PROGRAM [WORLDS [SEED]]]
#
# - With `--at N` each command tells what it tells without it of the script's first N lines, whatever stands behind
#   them; of all lines, what it tells of the script.
# - A line that the script does not have is refused by name, before all else, and nothing is written.
# - By OpenBSD's rules scripts have comments and blank lines, of which a run tells nothing; it tells of the requests
#   what it tells of them alone, under the numbers of their lines.
use strict;
use warnings;
use FindBin qw($Bin);
use Test::More;
use lib "$Bin/lib";
use Worlds qw(answer_of program_in worlds_told);

my $PROGRAM = program_in(@ARGV);

# How many random worlds are tried, and by which seed; and at how many lines of each.
my ($WORLDS, $SEED) = (12, 88);
$WORLDS = $ARGV[1] if @ARGV > 1;
$SEED   = $ARGV[2] if @ARGV > 2;
my $LINES = 3;

# What is asked of a script: the words before the names of the inputs, and those behind them.
my @ASKED = (
    ['run'], ['run', '--why'], ['tree'],
    ['objects'], ['objects', '--why'], ['objects', '--process', 'all'], ['objects', '--why', '--process', '2,1'],
    ['objects', '--ever'], ['objects', '--ever', '--how'], ['objects', '--ever', '--process', 'all'],
    ['objects', '--ever', '--why'], ['objects', '--how'], ['objects', '--ever', '--how', '--below', '/'],
    ['audit', '--limit', 2], ['audit', '--limit', 1, '--base', 'cwd', '--process', 2],
    ['audit', '--limit', 1, '--after', 'lstat:/'], ['audit', '--limit', 17],
);
my @ASKED_OF = (['why', 'stat', '/'], ['why', 'rename', '/', '/'], ['how', 'open-r', '/'], ['how', 'stat', 'new']);

# What may stand behind the lines, with an end or without.
my @BEHIND = ('', "\n", "1 touch /\n", '1 stat /', "\x00\xff", "1 stat  /\n1 stat /\n");

my $worlds = Worlds->new($SEED);
my ($count, $told) = (0, 0);

# The words of a command over the inputs, with these options.
sub words_of {
    my ($asked, @options) = @_;
    my ($command, @more) = @$asked;
    return ($command, @options, 'listing', 'script', @more) if $command =~ /\A(?:why|how)\z/;
    return ($command, @more, @options, 'listing', 'script');
}

sub ended {
    my ($files, $script, @words) = @_;
    $count++;
    return join "\n--\n", answer_of($PROGRAM, { %$files, script => $script }, @words);
}

# Whether a command tells of a script up to a line what it tells of these lines.
sub is_front {
    my ($files, $script, $line, $front, $asked, @options) = @_;
    my $whole = ended($files, $front, words_of($asked, @options));
    my $at    = ended($files, $script, words_of($asked, @options, '--at', $line));
    $told++ if $whole =~ /\A0\n/;
    return 1 if $at eq $whole;
    diag("--at $line tells otherwise:\n$at\nand not\n$whole\n",
        worlds_told({ %$files, script => $script }, words_of($asked, @options)));
    return 0;
}

# Whether a line that a script does not have is told as a fault, and nothing else is.
sub is_lacking {
    my ($files, $script, $line, $asked, @options) = @_;
    my $at = ended($files, $script, words_of($asked, @options, '--at', $line));
    return 1 if $at eq "1\n--\n\n--\npua: script: line $line: no such line\n";
    diag("--at $line is told as\n$at\n", worlds_told({ %$files, script => $script }, words_of($asked, @options)));
    return 0;
}

# Lines with comments and blank lines between them, and the numbers of those that were there.
sub commented {
    my (@made, @numbers);
    for my $line (@_) {
        push @made, $worlds->pick("# x\n", "\n", "  \n", "   #1 exit\n") while !$worlds->number(3);
        push @made, $line =~ s/(?=\n)/$worlds->pick('', '', ' # x', '   #')/er;
        push @numbers, scalar @made;
    }
    return (\@numbers, @made);
}

# Whether a run of these lines tells what it tells of those without comments, whose numbers are given.
sub is_alike {
    my ($files, $made, $plain, $numbers, @options) = @_;
    my ($told, $alone) = map { ended($files, join('', @$_), 'run', @options) } $made, $plain;
    $alone =~ s/^(\d+)(?= \S+$)/$numbers->[$1 - 1]/gem;
    return 1 if $told eq $alone;
    diag("comments:\n$told\nand not\n$alone\n", worlds_told({ %$files, script => join '', @$made }, 'run', @options));
    return 0;
}

for my $number (1 .. $WORLDS) {
    my $rules = $number % 3 ? 'profile' : 'openbsd';
    $worlds->by($rules);
    my $files = { listing => $worlds->listing };
    $files->{table} = $worlds->table if $number % 4 == 0;
    my @options = ('--rules', $rules, $files->{table} ? ('--table', 'table') : ());
    my @script  = split /^/, $worlds->script({ veils => 2, locks => $number % 2 });
    if ($rules eq 'openbsd') {
        my ($numbers, @made) = commented(@script);
        ok(is_alike($files, \@made, \@script, $numbers, @options), "world $number: of comments nothing is told");
        @script = @made;
    }
    my @at      = (0, scalar @script, map { 1 + $worlds->number(@script - 1) } 1 .. $LINES);
    my ($wrong, $wrongly_told) = (0, 0);
    for my $asked (@ASKED, @ASKED_OF) {
        for my $line (@at) {
            my $front  = join '', @script[ 0 .. $line - 1 ];
            my $script = $line == @script ? $front : $front . $worlds->pick(@BEHIND, join('', @script[ $line .. $#script ]));
            $wrong++ if !is_front($files, $script, $line, $front, $asked, @options);
        }
        my $whole = join '', @script;
        chomp $whole if $worlds->number(2);
        $wrongly_told++ if !is_lacking($files, $whole, @script + 1 + $worlds->number(100), $asked, @options);
    }
    is($wrong, 0, "world $number: with --at each command tells what it tells of the first lines");
    is($wrongly_told, 0, "world $number: a line behind the last is refused by name");
}
note("$count runs, of which $told told a text of first lines");
done_testing();
