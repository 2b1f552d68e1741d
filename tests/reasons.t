#!/usr/bin/perl
# Why and since when: the program as a black box over random worlds by a fixed seed.
#
#     perl tests/reasons.t [PROGRAM [WORLDS [SEED]]]
#
# - A run with reasons is the run, with a reason behind each answer that isn't ok, which is one of the manual's.
# - A since is as it is defined (Why/Since.pm).
# - `pua why` ends with the same line, and its other lines are true (Why/Facts.pm).
# - What a reason names is so, and where just that is otherwise there is no such reason (Why/Otherwise.pm).
# - Lists with reasons are the lists, with the promises and the veil that decide (Why/Columns.pm).
use strict;
use warnings;
use FindBin qw($Bin);
use Test::More;
use lib "$Bin/lib";
use Why::Columns qw(columns_fault);
use Why::Facts qw(facts_fault);
use Why::Otherwise qw(words_fault);
use Why::World qw(OBSERVER process_of);
use Why::Scripts qw(each_kind refused_script);
use Why::Since qw(ask_throughout since_fault);
use Worlds qw(program_in);

my $PROGRAM = program_in(@ARGV);

# How many random worlds are tried, and by which seed.
my ($WORLDS, $SEED) = (20, 20);
$WORLDS = $ARGV[1] if @ARGV > 1;
$SEED   = $ARGV[2] if @ARGV > 2;

# Of so many worlds one is asked by `pua why` about each line.
my $WHY_IN = 4;

# What calls need, by the manual: the sets of promises of which one has to be held.
my %NEEDS = (
    (map { $_ => ['rpath'] } qw(stat lstat readlink chdir open-r)),
    (map { $_ => ['cpath'] } qw(mkdir rmdir unlink symlink)),
    'open-w' => ['wpath'], 'open-rw' => ['rpath,wpath'], create => ['wpath,cpath'],
    chmod => ['fattr'], exec => ['exec'],
);

# What is otherwise by OpenBSD's rules.
my %OPENBSD = (
    chmod => ['rpath,fattr'], connect => ['unix'], bind => ['unix'], mknod => ['dpath'],
    chown => [ 'rpath,chown', 'rpath,fattr' ], 'create-rw' => ['rpath,wpath,cpath'],
    fchmod => ['rpath,fattr'], fchown => [ 'rpath,chown', 'rpath,fattr' ],
);

# What is otherwise by a table, which has what no rules have: a call without promises, and calls with several
# sets. And the letters that it asks.
my %OTHERS = (
    stat      => [''],
    mkdir     => [ 'cpath', 'dpath' ],
    'open-rw' => [ 'rpath,wpath,exec', 'fattr,wpath', 'cpath,proc,rpath' ],
    unlink    => [ 'wpath,cpath', 'fattr' ],
    exec      => ['exec,rpath'],
);
my %LETTERS = (stat => '', mkdir => 'c', 'open-rw' => 'rwc', unlink => 'wc', exec => 'rx');

# That table as a text.
sub table {
    return join '', map {
        "[$_]\npromises = [" . join(', ', map { "\"$_\"" } @{ $OTHERS{$_} }) . "]\nveil = \"$LETTERS{$_}\"\n"
    } sort keys %OTHERS;
}

# By which rules one world after the other is asked, and what calls need by these.
my @RULES = (
    [ {}, \%NEEDS ],
    [ { rules => 'openbsd' }, { %NEEDS, %OPENBSD } ],
    [ { table => table() }, { %NEEDS, %OTHERS } ],
);

# How many reasons there were of each kind, and what else was counted.
my (%kinds, %count);

# A case for each line of a script: what is asked behind the lines before it, what it is answered, and what it
# is told.
sub cases {
    my ($world, $script) = @_;
    my @answers = $world->answers($script);
    my @lines   = map { s/\A\d+ //r } $world->lines_of($script, 'run', '--why');
    my @told    = $world->reasons($script);
    return map { {
        world   => $world,
        script  => [ @$script[ 0 .. $_ - 1 ] ],
        answers => [ @answers[ 0 .. $_ - 1 ] ],
        request => $script->[$_],
        process => process_of($script->[$_]),
        answer  => $answers[$_],
        line    => $lines[$_],
        told    => $told[$_],
    } } 0 .. $#$script;
}

# One test: that no case has a fault. The first one that has is shown, with all before it.
sub judge {
    my ($name, $fault_of, @cases) = @_;
    for my $case (@cases) {
        my $fault = $fault_of->($case);
        next if $fault eq '';
        fail($name);
        diag("$case->{request}\n$case->{line}\n$fault\n" . $case->{world}->shown($case->{script}));
        return;
    }
    pass($name);
    return;
}

# What is wrong with a line of a run with reasons beside its answer.
sub line_fault {
    my ($case) = @_;
    my ($line, $answer) = @$case{qw(line answer)};
    return "it is answered $answer" if $case->{told}{answer} ne $answer;
    return $line =~ /\Aok(?: by [a-z]+)?\z/ ? '' : 'a reason of what is ok' if $answer eq 'ok';
    return defined $case->{told}{kind} ? '' : 'no reason of the list';
}

# The tests of all that asks for the reasons of a script.
sub ask {
    my ($world, $name, $script, $is_chained) = @_;
    my @cases = cases($world, $script);
    judge("$name: answers and reasons", \&line_fault, @cases);
    judge("$name: pua why", \&facts_fault, @cases) if $is_chained;
    my @refused = grep { defined $_->{told}{kind} } @cases;
    ask_throughout(@refused);
    judge("$name: since", \&since_fault, @refused);
    my %of;
    push @{ $of{ $_->{told}{kind} } }, $_ for @refused;
    for my $kind (sort keys %of) {
        judge("$name: $kind", \&words_fault, @{ $of{$kind} });
        $kinds{$kind} += @{ $of{$kind} };
    }
    $count{refused} += @refused;
    $count{since} += grep { defined $_->{told}{since} } @refused;
    return;
}

# The test of the lists with reasons at a script's end.
sub list {
    my ($world, $name, $script, $needs) = @_;
    my @answers = $world->answers($script);
    my $case = { world => $world, script => $script, answers => \@answers, needs => $needs, request => 'lists' };
    judge("$name: objects --why", \&columns_fault, $case);
    $count{objects} += $case->{objects} || 0;
    return;
}

sub add_counts {
    my (%more) = @_;
    $count{$_} += $more{$_} for keys %more;
    return;
}

# Worlds by hand: of each kind of reason, full of veils and of processes, and by OpenBSD's rules of calls without a path and
# of what promises open.
my ($listing, $each) = each_kind();
my $empty   = "tree 1\n0 dir\n";
my @veils   = (map({ "1 unveil /n$_ r" } 1 .. 128), '1 stat /n1', '1 unveil /n rw', '1 unveil /n128 =');
my @forks   = (map({ "1 fork $_" } 2 .. 255), '1 fork 256', '1 fork 255');
my @uses    = (
    '1 fork 2', '1 uses inet|id', '1 pledge stdio,unix,error rpath', '1 uses unix|inet', '1 uses inet|id', '1 uses proc',
    '2 unveil - -', '2 pledge stdio,rpath -', '2 uses id|stdio', '2 uses proc|id', '2 uses stdio',
);
my $opened  = join "\n", 'tree 1', '0 dir', '1 dir 0 dev', '2 file 1 null', '3 file 1 tty', '4 dir 0 etc', '5 file 4 hosts',
    '6 link 0 l /www/deep', '7 dir 0 www', '8 dir 7 deep', '9 dir 7 etc', '10 file 9 hosts', '11 link 4 localtime /www',
    '12 dir 0 tmp', '13 link 12 l /www', '14 link 12 x /www/deep/new', '';
my @opened  = (
    '1 fork 2', '1 fork 3', '2 unveil /www r', '3 unveil /tmp rwc', '3 unveil /www/deep wc', '3 unveil /etc c',
    '1 pledge error,stdio,dns -', '1 open-r /etc/hosts', '1 stat /etc/hosts', '1 open-r /etc//services',
    '1 open-w /dev/null', '1 open-w /dev/null/', '1 open-r /l/../etc/hosts', '1 stat /etc/localtime',
    '1 open-r etc/hosts', '2 open-r /etc/hosts', '2 pledge error,rpath,wpath,dns,tty -', '2 open-r /etc/../etc/hosts',
    '2 open-rw /dev/tty', '2 open-r /www/etc/hosts', '2 pledge error,dns -', '2 open-r /etc/hosts',
    '2 pledge error -', '2 open-r /etc/hosts', '3 create /tmp/a', '3 pledge error,rpath,tmppath -', '3 create /tmp/a',
    '3 create-rw /tmp//b', '3 stat /tmp/b', '3 unlink /tmp/a', '3 unlink /tmp/a', '3 create /tmp/l/a',
    '3 unlink /tmp/l', '3 create /tmp/x', '3 create-rw /tmp/x', '3 unlink /tmp/x/', '3 create /tmp/no/a',
    '3 create /tmp/.', '3 open-w /tmp/b', '3 mkdir /tmp/d', '3 create /etc/a', '3 create /etc/../tmp/c',
    '3 create /tmp/../etc/a', '3 create tmp/e', '3 unlink /tmp/c', '3 pledge error,rpath -', '3 unlink /tmp/b',
);
my @files   = (
    '1 fork 2', '1 close 3', '1 fchdir 3', '1 hold 3 open-r /f', '1 fchdir 3', '1 fork 3', '1 hold 4 open-r /a', '1 fchdir 4',
    '1 fchdir 5', '1 close 5', '1 close 3', '1 close 3', '3 close 3', '3 fchdir 3', '2 take 3 1 3', '2 take 3 1 4', '2 fchdir 3',
    '2 take 4 9 3', '2 take 4 3 3', '1 hold 3 open-r /f', '1 pledge error,rpath -', '2 take 5 1 4', '2 take 5 1 9', '1 take 5 2 3',
    '2 hold 6 open-r /e', '2 pledge error,stdio,recvfd,sendfd -', '3 take 6 2 6', '3 take 6 2 3', '3 take 7 1 3', '1 hold 3 open-w /f',
    '1 hold 3 open-r /none', '2 hold 3 open-r /a', '3 unveil /f r', '3 hold 3 open-r /a', '3 close 3', '3 hold 3 open-r /f', '2 exit',
    '3 take 6 2 6', '3 exec /p', '3 close 3', '3 close 3', '3 fchdir 6', '3 pledge error,recvfd -', '3 take 1 1 4', '3 take 1 1 3',
);
my @roots   = (
    '1 fork 2', '1 fork 3', '1 fork 4', '1 chroot /f', '1 chroot /none', '1 chroot =', '1 chroot /l1', '1 chroot /a', '1 stat /f', '1 stat f',
    '1 chdir /b', '1 open-r /../f', '1 chroot /a', '1 mkdir /', '1 rmdir /', '1 unlink /', '1 rename /b /', '1 chroot ..', '1 chroot /a', '1 chdir /',
    '1 stat ../f', '1 readlink ../b', '1 exec /b', '2 pledge error,rpath -', '2 chroot /a', '2 pledge rpath -', '3 unveil /a wc', '3 chroot /a', '3 chroot /g',
    '3 unveil /g r', '3 chroot /g', '3 mkdir /x', '3 stat /x', '3 stat /../f', '3 unveil - -', '3 unveil /x r', '3 chroot /x', '4 chroot /e',
    '4 chroot /e', '1 fork 5', OBSERVER . ' rmdir /e', '4 stat /', '4 stat /x', '4 chroot /', '4 rename /x y',
    '4 stat x', '4 stat l1', '5 stat /f', OBSERVER . ' rename /a /x', '5 stat /f', '1 stat /f', '5 chroot /b', '5 chroot ../..', '4 chroot .',
    '4 stat /e', '2 chroot /a', '2 exit', '2 chroot /', '9 chroot /',
);
my @by_hand = (
    [ 'each kind', $listing, $each ],
    [ 'many veils', $empty, [ '1 fork ' . OBSERVER, @veils ] ],
    [ 'many processes', $empty, [ '1 fork ' . OBSERVER, @forks ] ],
    [ 'calls without a path', $empty, [ '1 fork ' . OBSERVER, @uses ], 'openbsd' ],
    [ 'descriptors', $listing, [ '1 fork ' . OBSERVER, @files ], 'openbsd' ],
    [ 'roots', $listing, [ '1 fork ' . OBSERVER, @roots ], 'openbsd' ],
    [ 'what promises open', $opened, [ '1 fork ' . OBSERVER, @opened ], 'openbsd' ],
);
for (@by_hand) {
    my ($name, $tree, $script, $rules) = @$_;
    my $world = Why::World->new($PROGRAM, $tree, { rules => $rules });
    ask($world, "world of $name", $script, $name !~ /many|descriptors|roots/);
    list($world, "world of $name", $script, \%NEEDS) if $name eq 'each kind';
    add_counts($world->counts);
}

# Random worlds.
my $worlds = Worlds->new($SEED, { openings => 1 });
for my $number (1 .. $WORLDS) {
    my ($how, $needs) = @{ $RULES[ $number % @RULES ] };
    $worlds->by($how->{rules} || 'profile');
    my $world  = Why::World->new($PROGRAM, $worlds->listing, $how);
    my $script = refused_script($worlds);
    ask($world, "world $number", $script, $number % $WHY_IN == 1);
    list($world, "world $number", $script, $needs);
    add_counts($world->counts);
}

note("$count{refused} lines that aren't ok, $count{since} of them since a line; $count{objects} objects");
note("$count{starts} starts; of $count{altered} altered scripts $count{alike} are answered alike");
note("$kinds{$_} $_") for sort { $kinds{$b} <=> $kinds{$a} || $a cmp $b } keys %kinds;
done_testing();
