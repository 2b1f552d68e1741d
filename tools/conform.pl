#!/usr/bin/perl -U
# Performs a script of pua(1) on the kernel of this machine, and prints what it answers, as
# `pua run` does, so that this compares the model with this system:
#
#     pua run --rules openbsd TREE SCRIPT | sed 's/ by .*//' > model
#     conform.pl [options] TREE SCRIPT | diff model -
#
# and performs trials, and says where answers are others than expected, or than pua's:
#
#     conform.pl [options] --trials DIR > report
#
# The tree of the listing is made in a fresh directory, which becomes `/` by chroot(2): so it has to
# be root, and nothing outside of that directory is touched. On Linux it becomes the root of all for a
# script that has chroot itself, in a name space of mounts of its own; elsewhere chroot(2) could lead
# out of it, and is made for trials alone. Each process of the script is a process of the system, and each request a call. pledge
# and unveil go through OpenBSD::Pledge and OpenBSD::Unveil; where there are none, their lines are
# answered `left-out`, and trials that have such lines are passed over.
#
#     --builtins     makes calls by perl's own functions, even where the numbers of the system calls
#                    are known; these take slashes away from the ends of some paths.
#     --helper FILE  has FILE make all calls, a static program made of conform.c. A `prog` is then a
#                    copy of it, which goes on with the script after an exec, and pledge(2) has its
#                    execpromises. Without it a `prog` is a file that no system can start: where
#                    execve(2) says ENOEXEC, the answer is ok, and the process goes on as it is.
#     --left         prints what stands in the tree afterwards too, a line `KIND PATH` each; what is
#                    open, a line `held PROCESS NUMBER PATH` for each of its names, or with `-`; and of
#                    a script that has chroot `root PROCESS PATH` of who has a root of its own, with
#                    `closed`, or with `open` where a directory outside of it is its own or open.
#     --room DIR     makes the fresh directories in DIR, and not in TMPDIR or /tmp.
#     --help         prints this.
#
# Words of its own among the answers: `left-out`, also for take and chroot on other systems than
# Linux, and where the numbers of their calls aren't known or these are refused, and for the hold of
# a fifo whose open would wait; `too-long` for bind and connect with a path of more than 103 bytes,
# which no address of a socket holds; `no-answer` of a process that is silent for half a minute.
# `stdio` is added to all promises and execpromises, since the answers have to be told. The open of a
# fifo that would wait is `ok`, as pua has it. A fork to a number that was used is EAGAIN, and a
# process that ended is gone, as in pua.
#
# Status 0: it was performed, whatever the answers are. Status 1: a file can't be read, or isn't of
# the right form; the listing has a device or a mount point, which aren't made; or this process isn't
# root. Status 2: the words do not fit.
use strict;
use warnings;

BEGIN {
    my ($here) = __FILE__ =~ m{\A(.*/)}s;
    unshift @INC, map { ($here || './') . $_ } '../share/pua/perl', 'lib';
}
use File::Spec ();
use File::Temp qw(tempdir);
use Getopt::Long qw(:config posix_default no_ignore_case);
use POSIX ();
use Pua::Help qw(help_of);
use Pua::Kernel qw(has_pledge has_unveil);
use Pua::Perform qw(perform);
use Pua::Trials qw(content listing_of script_of trials_in);

my ($NAME) = $0 =~ m{([^/]*)\z};
my $USAGE = "usage: $NAME [--builtins] [--left] [--helper FILE] [--room DIR] [--help] "
    . "TREE SCRIPT | --trials DIR\n";

# What is answered by no kernel here, and what a trial needs that this run can't do.
my %NEEDS = (pledge => 'OpenBSD::Pledge', unveil => 'OpenBSD::Unveil');

sub fail { print STDERR "$NAME: @_\n"; exit 1 }
sub misused { print STDERR $USAGE; exit 2 }

# A process that is killed leaves no core behind in the tree.
sub without_cores {
    my @words = @_;
    return if defined $ENV{PUA_CONFORM_CORES};
    $ENV{PUA_CONFORM_CORES} = 'none';
    my @modules = map { "-I$_" } grep { !ref } @INC;
    my @by_shell = ('/bin/sh', '-c', 'ulimit -c 0; exec "$0" "$@"');
    { no warnings 'exec'; exec @by_shell, $^X, '-U', @modules, __FILE__, @words }
    return;
}

# Whether this run can have pledge and unveil, by which words they are left out where it can't.
sub left_out {
    my ($how) = @_;
    return if defined $how->{helper} && $^O eq 'openbsd';
    my %has = (pledge => has_pledge(), unveil => has_unveil());
    %has = () if defined $how->{helper};
    return grep { !$has{$_} } sort keys %NEEDS;
}

# The text of one script's answers.
sub answers_over {
    my ($tree, $script, $how) = @_;
    my $text = content($script);
    my ($answers, $left) = perform(content($tree), $text, $how);
    my @told = grep { defined $answers->[ $_ - 1 ] } 1 .. @$answers;
    print map { "$_ $answers->[$_ - 1]\n" } @told;
    print $left if $how->{left};
    my @lacks = grep { $text =~ /^[0-9]+ $_ /m } left_out($how);
    print STDERR "$NAME: lines with $_ are left out: there is no $NEEDS{$_} here\n" for @lacks;
    return;
}

# Why a trial is passed over; nothing where it isn't.
sub passed_over {
    my ($trial, $how) = @_;
    my $script = script_of($trial);
    my @lacks = grep { $script =~ /^[0-9]+ $_ /m } left_out($how);
    return 'there is no ' . join ' and no ', @NEEDS{@lacks} if @lacks;
    return 'an exec needs --helper' if $script =~ /^[0-9]+ exec /m && !defined $how->{helper};
    return '';
}

# What is printed of a trial: its name and title, and a line for each request, with what the system
# answers, what was expected and what pua answers; marked where these are not one.
sub told_of {
    my ($trial, $answers) = @_;
    my @told = ("$trial->{name}: $trial->{title} (confidence $trial->{confidence})");
    for my $at (0 .. $#{ $trial->{lines} }) {
        my ($request, $expected, $pua) = @{ $trial->{lines}[$at] }{qw(request expected pua)};
        my $is = $answers ? $answers->[$at] : '-';
        my $mark = !$answers ? ' ' : $is ne $expected ? '!' : $is ne $pua ? '*' : ' ';
        push @told, sprintf '%s %3d  %-12s %-12s %-12s %s', $mark, $at + 1, $is, $expected, $pua,
            $request;
    }
    return @told;
}

# Performs the trials of a folder, and prints the report on them: first what is another answer than
# expected or than pua's, then all.
sub report_on {
    my ($folder, $how) = @_;
    my @trials = trials_in($folder);
    my (%count, %passed, @differ, @all);
    for my $trial (@trials) {
        my $why = passed_over($trial, $how);
        my $answers;
        if ($why eq '') {
            ($answers) = eval { perform(listing_of($trial), script_of($trial), { %$how, trusted => 1 }) };
            $why = $@ =~ s/\n\z//r if !$answers;
        }
        my @told = told_of($trial, $answers);
        push @all, @told, '';
        if (!$answers) { $passed{$why}++; next }
        my @marked = grep { /\A[!*]/ } @told;
        push @differ, $told[0], @marked, '' if @marked;
        $count{trials}++;
        $count{differ}++ if @marked;
        for my $at (0 .. $#$answers) {
            $count{lines}++;
            $count{expected}++ if $answers->[$at] eq $trial->{lines}[$at]{expected};
            $count{pua}++ if $answers->[$at] eq $trial->{lines}[$at]{pua};
        }
    }
    my @passed = map { "passed over: $passed{$_}, since $_" } sort keys %passed;
    push @passed, '' if @passed;
    my @count = map { $_ || 0 } @count{qw(trials differ lines expected pua)};
    my @system = (POSIX::uname())[0, 2, 3, 4];
    my $by = defined $how->{helper} ? 'conform.c' : sprintf 'perl %vd', $^V;
    $by .= ', by its own functions' if $how->{builtins};
    print "system: @system\n", "calls by: $by\n",
        sprintf("trials: %d of %d performed, %d with lines that are marked\n", $count[0],
            scalar @trials, $count[1]),
        sprintf("lines: %d, as expected %d, as pua says %d\n\n", @count[2 .. 4]),
        "In the columns: what this system answers, what was expected of OpenBSD, what pua\n",
        "answers, and the request. `!` marks what is not as expected, `*` what is so and not as\n",
        "pua says.\n\n",
        map { "$_\n" } (@differ ? ('WHAT DIFFERS', '', @differ) : ()), @passed,
        'ALL', '', @all;
    return;
}

my @words = @ARGV;
my %how;
GetOptions(\%how, 'builtins', 'left', 'help', 'helper=s', 'room=s', 'trials=s') or misused();
if ($how{help}) {
    print help_of(__FILE__, $NAME);
    exit 0;
}
misused() if @ARGV != (defined $how{trials} ? 0 : 2);
misused() if grep { defined && $_ eq '' } @how{qw(helper room trials)};
fail('it has to be root, for chroot(2)') if $> != 0;
without_cores(@words);
fail("$how{helper}: no program") if defined $how{helper} && !(-f $how{helper} && -x _);
$how{$_} = File::Spec->rel2abs($how{$_}) for grep { defined $how{$_} } qw(helper room);
Pua::Kernel::forget_numbers() if $how{builtins};
my $room = tempdir('conform.XXXXXXXX', DIR => $how{room} || File::Spec->tmpdir, CLEANUP => 1);
$how{room} = $room;
$SIG{$_} = sub { exit 1 } for qw(HUP INT PIPE TERM);    # so that the room goes
$| = 1;
eval {
    defined $how{trials} ? report_on($how{trials}, \%how) : answers_over(@ARGV, \%how);
    1;
} or do {
    chomp(my $fault = $@);
    fail($fault);
};
close STDOUT or fail("standard output: $!");
