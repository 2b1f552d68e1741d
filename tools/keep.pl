#!/usr/bin/perl
# Prints what to keep under version control of a daemon's sandbox, or compares what was kept:
#
#     keep.pl [-ln] [-c KEPT] [-p PROGRAM] [-r RULES] [-t TABLE] TREE SCRIPT
#
# Each line says whose it is. First stand the requests of SCRIPT, each with its process and its
# answer; then for each process what it can touch:
#
#     run 2: exec /usr/sbin/bgpctl: ok
#     objects 2 before exec 1: promises exec,rpath,stdio
#     objects 2: file /etc/hosts open-r
#     ever 2: file /etc/hosts open-r
#
# `objects 2` is the state of process 2 and its objects at the end of the script, and `ever 2` what
# it can ever touch, of a process that can put no more veils. `objects 2 before exec 1` is its list
# as it was before the first exec that it asked for. There is such a list before each pledge and
# exec that was answered `ok`, before an unveil that was, if the line of the process before it is no
# such one, and `before its end`, an exit or a request that was answered `killed`. So what a process
# could do for a while stands there too. Where a process never pledged, has neither veils nor a lock
# nor a root of its own, and gave no execpromises its list is one line, `unrestricted`. No line has the
# number of a line of SCRIPT, so a line that is put in there changes no other one.
#
#     -c KEPT     makes all this once more, by the options that the first line of the file KEPT
#                 names, and prints each line that it has no longer, after a `-`, and each that it
#                 didn't have, after a `+`. It goes with -p alone.
#     -l          lists what can be touched at the end of the script, and nothing before it.
#     -n          lists what can be touched now, and nothing for ever.
#     -p PROGRAM  is the program pua. If it is left out, pua is found as a command is.
#     -r RULES    asks by these rules: openbsd, if it is left out, or profile.
#     -t TABLE    asks by what this file says that the calls need.
#     --help      prints this text.
#
# The program reads TREE and SCRIPT several times, so both are files; -c asks diff(1).
#
# Status 0: it was printed; with -c, nothing has changed. Status 1: with -c, something has. Status
# 2: a file can't be read, KEPT wasn't made by this tool, PROGRAM isn't there or refuses its files
# (it says why), or the words do not fit; then nothing was printed.
use strict;
use warnings;

BEGIN {
    my ($here) = __FILE__ =~ m{\A(.*/)}s;
    unshift @INC, map { ($here || './') . $_ } '../share/pua/perl', 'lib';
}
use File::Temp qw(tempdir);
use Getopt::Long qw(GetOptionsFromArray :config posix_default no_ignore_case bundling);
use Pua::Help qw(help_of);
use Pua::Lists qw(lines_of lists_of state_of);

my ($NAME) = $0 =~ m{([^/]*)\z};
my $USAGE = "usage: $NAME [-ln] [-c KEPT] [-p PROGRAM] [-r RULES] [-t TABLE] TREE SCRIPT\n";

# How many arguments a call has, where it isn't one.
my %ARGUMENTS = (
    exit => 0, (map { $_ => 2 } qw(symlink rename link pledge unveil)), hold => 3, take => 3,
);

my $program = 'pua';
my $room;    # a directory for the files that programs are given

sub fail { print STDERR "$NAME: @_\n"; exit 2 }

# The lines that a command prints; its status has to be one of these.
sub lines_by {
    my ($statuses, @command) = @_;
    no warnings 'exec';    # this says it
    open my $in, '-|', @command or fail("$command[0]: $!");
    chomp(my @lines = <$in>);
    close $in or !$! or fail("$command[0]: $!");
    my $status = $? & 127 ? 'a signal' : $? >> 8;
    grep { $status eq $_ } @$statuses
        or fail(join(' ', $command[0], $command[1]) . " ended with $status");
    return @lines;
}

sub write_lines {
    my ($name, @lines) = @_;
    open my $out, '>:raw', $name or fail("$name: $!");
    print {$out} map { "$_\n" } @lines or fail("$name: $!");
    close $out or fail("$name: $!");
    return $name;
}

# All lines of a script, as they stand there.
sub script_lines {
    my ($name) = @_;
    open my $in, '<:raw', $name or fail("$name: $!");
    chomp(my @lines = <$in>);
    fail("$name: it cannot be read") if $in->error;
    return @lines;
}

# The requests of a script: each with the number of its `line`, its `process`, its `call`, its `text`
# from the call to the last argument, and its `answer`.
sub requests {
    my ($script, $answers) = @_;
    my @requests;
    for my $told (@$answers) {
        my ($number, $answer) = split / /, $told, 2;
        my ($process, $call, @words) = split ' ', $script->[ $number - 1 ];
        my $arguments = $ARGUMENTS{$call} // 1;
        splice @words, $arguments if @words > $arguments;    # a comment
        push @requests, {
            line => $number, process => $process, call => $call,
            text => join(' ', $call, @words), answer => $answer,
        };
    }
    return @requests;
}

# The requests before which the list of their process is kept, each with its `name`: its call, and
# which one of this call it is among those of the process.
sub turns {
    my (%count, %is_unveiling, @turns);
    for my $request (@_) {
        my ($process, $call, $answer) = @$request{qw(process call answer)};
        my $count   = ++$count{$process}{$call};
        my $goes_on = $is_unveiling{$process};
        my $is_ok   = $answer eq 'ok';
        $is_unveiling{$process} = $is_ok && $call eq 'unveil';
        if ($answer eq 'killed' || $is_ok && $call eq 'exit') {
            push @turns, { %$request, name => 'its end' };
        } elsif ($is_ok && ($call =~ /\A(?:pledge|exec)\z/ || $call eq 'unveil' && !$goes_on)) {
            push @turns, { %$request, name => "$call $count" };
        }
    }
    return @turns;
}

# Whether nothing was ever taken from a process, nor from what it starts.
sub is_unrestricted {
    my ($state) = @_;
    return !$state->{ended} && !@{ $state->{veils} } && $state->{unveil} eq 'open'
        && !grep { $state->{$_} } qw(promises execpromises root);
}

# The lines of a list, after a heading.
sub told {
    my ($heading, $list) = @_;
    return "$heading: unrestricted" if is_unrestricted(state_of($list));
    return map { "$heading: $_" } @{ $list->{state} }, map { join ' ', @$_ } @{ $list->{objects} };
}

# The lists that the program prints.
sub lists_by {
    my ($rules, @words) = @_;
    my ($answers, @lists) = lists_of("$program objects",
        lines_by([0], $program, 'objects', @$rules, @words));
    return ($answers, @lists);
}

# All that is kept, by these options.
sub kept {
    my ($options, $tree, $script) = @_;
    my @rules = ('--rules', $options->{r}, defined $options->{t} ? ('--table', $options->{t}) : ());
    my @words = map { m{\A-} ? "./$_" : $_ } $tree, $script;
    my ($answers, @ends) = lists_by(\@rules, '--process', 'all', @words);
    my @script = script_lines($script);
    my @requests = requests(\@script, $answers);
    my %before;    # by process: the lines of its lists before the end
    for my $turn ($options->{l} ? () : turns(@requests)) {
        my ($process, $at) = @$turn{qw(process line)};
        my $front = write_lines("$room/front", @script[0 .. $at - 2]);
        my (undef, $list) = lists_by(\@rules, '--process', $process, $words[0], $front);
        push @{ $before{$process} }, told("objects $process before $turn->{name}", $list);
    }
    my @lines = map { "run $_->{process}: $_->{text}: $_->{answer}" } @requests;
    for my $list (@ends) {
        my ($process, $state) = ($list->{process}, state_of($list));
        push @lines, @{ $before{$process} || [] }, told("objects $process", $list);
        next if $options->{n} || $state->{ended} || $state->{unveil} eq 'open';
        my (undef, $ever) = lists_by(\@rules, '--ever', '--process', $process, @words);
        push @lines, told("ever $process", $ever);
    }
    return (first_line($options), @lines);
}

# The first line of what is kept, which names the options, and the options that it names.
sub first_line {
    my ($options) = @_;
    my $table = $options->{t};
    $table =~ s/([^\x21-\x5b\x5d-\x7e])/sprintf '\\%03o', ord $1/ge if defined $table;
    return join ' ', 'kept', (map { $options->{$_} ? "-$_" : () } qw(l n)), '-r', $options->{r},
        defined $table ? ('-t', $table) : ();
}

sub options_of {
    my ($name, $line) = @_;
    my ($kept, @words) = split / /, $line // '';
    my %options;
    fail("$name: it is nothing that $NAME made") if ($kept // '') ne 'kept'
        || !GetOptionsFromArray(\@words, \%options, 'l', 'n', 'r=s', 't=s') || @words
        || !defined $options{r};
    $options{t} =~ s/\\([0-7]{3})/chr oct $1/ge if defined $options{t};
    return \%options;
}

# The lines that went, and those that came.
sub changes {
    my ($old, $new) = @_;
    my @files = (write_lines("$room/old", @$old), write_lines("$room/new", @$new));
    return map { /\A([<>]) (.*)/ ? ($1 eq '<' ? '-' : '+') . $2 : () }
        lines_by([0, 1], 'diff', @files);
}

my %options;
my $understood = GetOptions(\%options, 'c=s', 'l', 'n', 'p=s', 'r=s', 't=s', 'help');
if ($understood && $options{help}) {
    print help_of(__FILE__, $NAME);
    exit 0;
}
$understood &&= !defined $options{c} || !grep { defined $options{$_} } qw(l n r t);
if (!$understood || @ARGV != 2 || ($options{r} // 'openbsd') !~ /\A(?:openbsd|profile)\z/
    || grep { $_ eq '' } @ARGV, grep { defined } @options{qw(c p t)}) {
    print STDERR $USAGE;
    exit 2;
}
$program = $options{p} if defined $options{p};
$room    = tempdir('keep.XXXXXXXX', TMPDIR => 1, CLEANUP => 1);
my $status = 0;
my @lines;
eval {
    if (defined $options{c}) {
        my @old = lines_of($options{c});
        my @new = kept(options_of($options{c}, $old[0]), @ARGV);
        @lines = changes(\@old, \@new);
        $status = @lines ? 1 : 0;
    } else {
        $options{r} //= 'openbsd';
        @lines = kept(\%options, @ARGV);
    }
    1;
} or do {
    chomp(my $fault = $@);
    fail($fault);
};
binmode STDOUT;
print map { "$_\n" } @lines or fail("standard output: $!");
close STDOUT or fail("standard output: $!");
exit $status;
