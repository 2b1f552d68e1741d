#!/usr/bin/perl
# Tests what trace.pl follows, beside real calls: perl tools/followed.t [SEED [COUNT]]
#
# A process makes random calls in a real tree, from directories' descriptors, over copies of them,
# forks and changes of its directory, and each is recorded as kdump would print it. Then the lines
# of the script that trace.pl makes of these records are done in a tree that is made anew at the
# same place. Each has to be answered as its call was, and the two trees have to end alike: a path
# that was followed wrongly leads elsewhere. With PUA=PROGRAM that pua runs the script too, over a
# listing that list.pl makes before the calls: it has to answer `ok` where the system did. And, if the
# user may change roots, conform.pl performs the script that trace.pl makes with -h, which says what is
# held and who has which root, over that listing: each line has to be answered as its call was.
#
# Half of the trees have symbolic links, and nothing is moved or removed in them: a directory that
# was opened through a link, and moved by another path since then, is one that trace.pl doesn't
# follow. In the others children change their root, if the user may; from then on they use no
# `..`, of which trace.pl says that it leads elsewhere, and both paths of a call begin in one place:
# from two descriptors it can't be written where these are outside of the root.
use strict;
use warnings;
use Config;
use Cwd qw(abs_path);
use Errno ();
use File::Find qw(find);
use File::Path qw(make_path remove_tree);
use FindBin qw($Bin);
use lib "$Bin/lib";
use POSIX ();
use Pua::Kernel qw(%TAKES);
use Test::More;
use Tried qw(content enter_room may_chroot put);

plan skip_all => 'the numbers of calls are those of Linux on x86-64'
    unless $Config{archname} =~ /\Ax86_64-linux/;

my ($SEED, $COUNT) = (@ARGV, (71, 24)[@ARGV .. 1]);
my ($LIST, $TRACE, $CONFORM) = map { "$Bin/$_.pl" } qw(list trace conform);
my $PUA   = defined $ENV{PUA} ? abs_path($ENV{PUA}) : undef;
my $room  = abs_path(enter_room());
my $tree  = "$room/tree" . '/s' x 12;    # deep, so that `..` doesn't lead out of what is made anew
my @NAMES = qw(a b c d);
my $top   = $tree;     # of the tree, for whoever changed its root
my $in_root = 0;       # whether this process did

# The numbers of Linux's calls; the numbers that OpenBSD has for the errnos that they are answered.
my %NUMBERS = (
    close => 3, fstat => 5, dup => 32, dup2 => 33, fchdir => 81, fchmod => 91, chroot => 161,
    openat => 257, mkdirat => 258, fstatat => 262, unlinkat => 263, renameat => 264,
    linkat => 265, symlinkat => 266, fchmodat => 268,
);
my %ERRNOS = (
    EPERM => 1, ENOENT => 2, EBADF => 9, EBUSY => 16, EEXIST => 17, EXDEV => 18, ENOTDIR => 20,
    EISDIR => 21, EINVAL => 22, ELOOP => 62, ENOTEMPTY => 66,
);
my %NAMES_OF = map { no strict 'refs'; (&{"Errno::$_"}() => $_) } keys %ERRNOS;
my ($HERE, $NOFOLLOW, $REMOVEDIR) = (-100, 0x100, 0x200);    # as Linux has them

# A tree that is always the same, with links or without.
sub make_tree {
    my ($has_links) = @_;
    chdir $room or die "$room: $!";
    remove_tree("$room/tree");
    make_path(map { "$tree/$_" } 'a/a/b', 'a/c', 'b/a', 'c');
    put("$tree/$_", '') for 'a/b', 'a/a/a', 'b/b', 'c/a', 'c/c', 'd';
    return unless $has_links;
    symlink '../b', "$tree/a/d" or die "a/d: $!";
    symlink "$tree/a/a", "$tree/b/d" or die "b/d: $!";
    return;
}

# All that is in the tree, with its modes and targets.
sub shape {
    my @shape;
    my $take = sub {
        push @shape, "$_ " . (-l $_ ? readlink : sprintf '%o', (lstat)[2]);
    };
    find({ no_chdir => 1, wanted => $take }, "$room/tree");
    return [sort @shape];
}

# What a call was answered: the errno's name, or ok with its value.
sub answered {
    my ($value) = @_;
    return ($NAMES_OF{ $! + 0 } || "E$!") if !defined $value || $value < 0;
    return ('ok', $value);
}
sub called {
    my ($name, @words) = @_;
    return answered(syscall($NUMBERS{$name}, map { /\A-?[0-9]+\z/ ? $_ + 0 : $_ } @words));
}

my $log;
sub record { printf {$log} "%6d %-8s %s\n", $$, 'walker', $_ for @_; return }

# Makes a call and records it: its words for Linux, and as kdump prints it, with the paths among
# them.
sub makes {
    my ($name, $words, $printed, @paths) = @_;
    my ($answer, $value) = called($name, @$words);
    record("CALL  $name($printed)", (map { "NAMI  \"$_\"" } @paths),
        "RET   $name " . ($answer eq 'ok' ? $value : "-1 errno $ERRNOS{$answer} Words"));
    return ($answer, $value);
}

sub pick { return $_[ rand @_ ] }

# A path of a few names, mostly a relative one.
sub any_path {
    my @parts = map { pick(@NAMES, @NAMES, '.', $in_root ? () : '..') } 0 .. rand 3;
    return join '/', @parts if rand() < 0.8;
    return join '/', $top, (grep { $_ ne '..' } @parts), pick(@NAMES);
}

# Whether a directory was removed. From such a one Linux goes on to what is above it, which other
# kernels don't.
sub is_removed {
    my ($from) = @_;
    return !(stat '.')[3] if $from < 0;
    my $buffer = ' ' x 256;
    return 1 if syscall $NUMBERS{fstat}, $from + 0, $buffer;
    return !unpack 'x16 Q', $buffer;    # how many names it has
}

# What each call has: its words for Linux, and what kdump prints of them and of its paths.
my %HAS = (
    openat    => sub { return ([@_[1, 3], 0, 0], "$_[0],0x1c60,0<O_RDONLY>", $_[3]) },
    mkdirat   => sub { return ([@_[1, 3], 0755], "$_[0],0x1c60,0755", $_[3]) },
    unlinkat  => sub { return ([@_[1, 3], 0], "$_[0],0x1c60,0<>", $_[3]) },
    rmdir     => sub { return ([@_[1, 3], $REMOVEDIR], "$_[0],0x1c60,0x8<AT_REMOVEDIR>", $_[3]) },
    stat      => sub { return ([@_[1, 3], ' ' x 256, 0], "$_[0],0x1c60,0x1d60,0<>", $_[3]) },
    fchmodat  => sub { return ([@_[1, 3], 0711], "$_[0],0x1c60,0711,0<>", $_[3]) },
    symlinkat => sub { return ([@_[4, 1, 3]], "0x1c60,$_[0],0x1d60", @_[4, 3]) },
    fchmod    => sub { return ([$_[5], 0711], "$_[5],0711") },
    dup2      => sub { return ([@_[5, 6]], "$_[5],$_[6]") },
    (map { $_ => sub { return ([$_[5]], $_[5]) } } qw(dup close fchdir)),
    lstat     => sub {
        my ($at, $from, undef, $path) = @_;
        my $printed = "$at,0x1c60,0x1d60,0x2<AT_SYMLINK_NOFOLLOW>";
        return ([$from, $path, ' ' x 256, $NOFOLLOW], $printed, $path);
    },
    renameat  => sub {
        my ($at, $from, $to, $path, $other) = @_;
        my $into = $to eq 'AT_FDCWD' ? $HERE : $to;
        return ([$from, $path, $into, $other], "$at,0x1c60,$to,0x1d60", $path, $other);
    },
    linkat    => sub {
        my ($at, $from, $to, $path, $other) = @_;
        my $into = $to eq 'AT_FDCWD' ? $HERE : $to;
        return ([$from, $path, $into, $other, 0], "$at,0x1c60,$to,0x1d60,0<>", $path, $other);
    },
);
my %CALLED = (rmdir => 'unlinkat', stat => 'fstatat', lstat => 'fstatat');    # by the kernel
my @MOVING  = qw(renameat renameat unlinkat rmdir linkat);
my @STAYING = qw(openat openat openat mkdirat stat lstat fchmodat fchmod fchdir fchdir
    dup dup2 close);

# Makes one of the calls, from the descriptors that are open.
sub make_any {
    my ($open, $moves) = @_;
    my $call = pick(@STAYING, $moves ? @MOVING : 'symlinkat');
    return if !@$open && $call =~ /\A(?:dup2?|close)\z/ || ($call eq 'close' && @$open < 5);
    my ($at, $to) = map { pick(@$open, 'AT_FDCWD', 'AT_FDCWD') } 1, 2;
    $to = $at if $in_root;
    my ($from, $into) = map { $_ eq 'AT_FDCWD' ? $HERE : $_ } $at, $to;
    return if grep { is_removed($_) } $from, $into;
    my @numbers = map { @$open ? pick(@$open) : 9999 } 1, 2;
    my @has = $HAS{$call}->($at, $from, $to, any_path(), any_path(), @numbers);
    my ($answer, $value) = makes($CALLED{$call} || $call, @has);
    push @$open, $value if $answer eq 'ok' && $call =~ /\A(?:openat|dup)\z/;
    @$open = grep { $_ != $numbers[0] } @$open if $call eq 'close';
    return;
}

# Makes one of the directories the root of this process, if there is one of this name.
sub change_root {
    my $path = join '/', map { pick('a', 'b', 'c') } 0 .. rand 2;
    my $inside = rand() < 0.5 ? "$tree/$path" : $path;
    my ($answer) = called('chroot', $inside);
    return if $answer ne 'ok';
    record('CALL  chroot(0x1c60)', "NAMI  \"$inside\"", 'RET   chroot 0');
    ($top, $in_root) = ('', 1);
    return;
}

# Makes calls, some of them in children, and each record of a child before its fork returns.
sub make_calls {
    my ($count, $moves, @open) = @_;
    for (1 .. $count) {
        if (rand() < 0.04 && $count > 10) {
            record('CALL  fork()');
            $log->flush;
            my ($seed, $child) = (int rand 2**31, fork);
            die "fork: $!" unless defined $child;
            if (!$child) {
                srand $seed;
                record('RET   fork 0');
                change_root() if $moves && !$in_root && rand() < 0.3;
                make_calls(int $count / 3, $moves, @open);
                record('CALL  exit(0)');
                $log->flush;
                POSIX::_exit(0);
            }
            waitpid $child, 0;
            record("RET   fork $child");
        } else {
            make_any(\@open, $moves);
        }
    }
    POSIX::close($_) for @open;
    return;
}

# Does a line of a script, in the place of its call.
sub done {
    my ($call, @words) = @_;
    local $! = 0;
    return called('fstatat', $HERE, $words[0], ' ' x 256, $call eq 'stat' ? 0 : $NOFOLLOW)
        if $call =~ /\Al?stat\z/;
    return called('fchmodat', $HERE, $words[0], 0711) if $call eq 'chmod';
    if ($call eq 'open-r') {
        my ($answer, $value) = called('openat', $HERE, $words[0], 0, 0);
        POSIX::close($value) if $answer eq 'ok';
        return $answer;
    }
    return called('mkdirat', $HERE, $words[0], 0755) if $call eq 'mkdir';
    return called('symlinkat', $words[0], $HERE, $words[1]) if $call eq 'symlink';
    return called('renameat', $HERE, $words[0], $HERE, $words[1]) if $call eq 'rename';
    return called('linkat', $HERE, $words[0], $HERE, $words[1], 0) if $call eq 'link';
    return called('unlinkat', $HERE, $words[0], $call eq 'rmdir' ? $REMOVEDIR : 0)
        if $call =~ /\A(?:unlink|rmdir)\z/;
    return answered(chdir($words[0]) ? 0 : -1) if $call eq 'chdir';
    die "a line of a script: $call @words";
}

# Performs the script with what is held, and counts its lines.
my $performs = may_chroot($room) && $TAKES{chroot};
my %performed = map { $_ => 0 } qw(hold close fchdir chroot);
sub test_performed {
    my ($number) = @_;
    my $said = `$^X -w $TRACE -h -d $tree -e answers.held trace 2>&1 > script.held`;
    is($? . (() = $said =~ / at \S+ line [0-9]+\.$/mg), '00', "$number: it is read with -h") or diag $said;
    my @answers = `$^X -U $CONFORM listing script.held`;
    my @lines = split /^/, content('script.held');
    my @told  = split /^/, content('answers.held');
    my @differ = map { $answers[$_] eq $told[$_] ? () : "$lines[$_]$told[$_]now $answers[$_]" } 0 .. $#lines;
    is(join('', @differ), '', "$number: each line with -h is answered as its call was");
    for (@lines) { $performed{$1}++ if / (hold|close|fchdir|chroot) / }
    return;
}

my $done = 0;    # lines of scripts
for my $number (1 .. $COUNT) {
    my $moves = $number % 2;
    srand $SEED * 1000 + $number;
    make_tree(!$moves);
    open $log, '>>', "$room/trace" or die "trace: $!";
    truncate $log, 0;
    is(system("$^X $LIST $room/tree > listing 2> said"), 0, "$number: it is listed");
    chdir $tree or die "$tree: $!";
    make_calls(150, $moves);
    close $log or die "trace: $!";
    my $shape = shape();
    chdir $room or die "$room: $!";
    my $said = `$^X -w $TRACE -d $tree -e answers trace 2>&1 > script`;
    is($? . (() = $said =~ / at \S+ line [0-9]+\.$/mg), '00', "$number: the trace is read")
        or diag $said;

    test_performed($number) if $performs;
    make_tree(!$moves);
    if (defined $PUA) {
        my @ran = map { s/ E\w+$/ refused/r } `$PUA run --rules openbsd listing script`;
        open my $told, '<', 'answers' or die "answers: $!";
        is_deeply(\@ran, [map { s/ E\w+$/ refused/r } <$told>],
            "$number: pua answers as the system");
    }
    open my $script,  '<', 'script'  or die "script: $!";
    open my $answers, '<', 'answers' or die "answers: $!";
    my (%directories, @differ);    # by process: where it is
    opendir $directories{1}, $room or die "$room: $!";    # a fork's child begins with its parent's
    while (my $line = <$script>) {
        chomp $line;
        my ($process, $call, @words) = split / /, $line;
        my (undef, $answer) = split ' ', scalar <$answers>;
        if ($call eq 'fork') {
            $directories{ $words[0] } = $directories{$process};
            next;
        }
        chdir $directories{$process} or die "process $process: $!";
        my ($now) = done($call, @words);
        push @differ, "$line: $answer, now $now" if $now ne $answer;
        next unless $call eq 'chdir' && $now eq 'ok';
        opendir my $here, '.' or die ".: $!";
        $directories{$process} = $here;
    }
    is(join("\n", @differ), '', "$number: each line is answered as its call was");
    is_deeply(shape(), $shape, "$number: the trees end alike");
    $done += $.;
}
cmp_ok($done, '>', 150 * $COUNT, 'lines of scripts');
cmp_ok($performed{$_}, '>=', $COUNT / 4, "lines of $_ that were performed: $performed{$_}")
    for $performs ? sort keys %performed : ();
chdir '/';
done_testing;
