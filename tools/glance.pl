#!/usr/bin/perl
# Prints at a glance what `pua objects` printed: a line for each process, and what no line of an
# object shows:
#
#     glance.pl [-d] [-m MANIFEST] [LIST]...
#
# LIST is the output of `pua objects`, of now or with `--ever`; standard input if it is left out.
# What is kept of several, or of all processes by `--process all`, comes one after the other, and so
# may several outputs.
#
# The line of a process has its veils and its lock, and how many lines of objects have something
# that can be read, written, executed, made and removed; more than one of them may be about one
# name. Below it stands, as far as it is so: which root it has, and whether it gets out of that; what
# it has open, with what it may do with that; that it takes descriptors from others; that it has no
# veils at all, that it never pledged, that it can put further veils; that programs which it starts
# have no sandbox; which sockets it can connect to and where it can bind one; its promises for the
# network; what its promises open past the veils, beside what stdio opens for every process:
# /dev/null, /etc/localtime and /usr/share/zoneinfo; and which veils it can move below another one,
# where a kernel may go on by what covered them before.
#
# Of a list for ever with the help of others, as `ever 2 beside 1`, where the list of the same
# process without it is there too, one line alone says what the help adds, below all others:
# `process 2: with 1: 8 lines, 25 calls more`. And of several processes' lists for ever each thing
# is named that one executes or reads, and another writes, makes or takes away: `file /tmp/a: 2
# open-r, 1 open-w,unlink`. A file with two names is two things there, and what is new is none.
#
#     -d           says of each list which regions it has, below the lines of its process. A region
#                  is a directory with all below it that the same veil covers and whose directories
#                  may be treated alike: by the calls on them, but rmdir, and those on further
#                  names in them. It has how many objects of a kind have which calls, the most
#                  first, or their paths, where they are three at most.
#     -m MANIFEST  what list.pl -m wrote: says first what the listing doesn't have, and of which
#                  directories it doesn't have all files.
#     --help       prints this text.
#
# A list is read a line at a time, and takes no more memory where it is longer, but for its regions;
# of lists for ever the names are kept, some 80 bytes a line.
#
# Status 0: it was printed. Status 1: a file can't be read, or is no list of objects; then nothing
# was printed. Status 2: the words do not fit.
use strict;
use warnings;

BEGIN {
    my ($here) = __FILE__ =~ m{\A(.*/)}s;
    unshift @INC, map { ($here || './') . $_ } '../share/pua/perl', 'lib';
}
use Getopt::Long qw(:config posix_default no_ignore_case bundling);
use Pua::Calls qw(%OPENINGS is_veiled opened_by);
use Pua::Help qw(help_of);
use Pua::Lists qw(@COLUMNS columns has_promise holds manifest_of read_lists state_of);
use Pua::Regions;
use Pua::Together;

my ($NAME) = $0 =~ m{([^/]*)\z};
my $MOST_NAMED = 5;    # paths that a line names

my @ABOUT_PATHS = qw(rpath wpath cpath dpath tmppath exec fattr chown unix);    # promises
my @NETWORK     = qw(inet mcast dns bpf pf route wroute vmm);

my $by_regions;    # whether -d was given

my %BY_STDIO = map { $_ => 1 } opened_by('stdio');

# The first of some things, and how many more there are of $count.
sub some_of {
    my ($count, @first) = @_;
    splice @first, $MOST_NAMED if @first > $MOST_NAMED;
    return join(', ', @first) . ($count > @first ? ' and ' . ($count - @first) . ' more' : '');
}

sub some { return some_of(scalar @_, @_) }

# Under which heads such calls on a kind stand, and which of them are about sockets in the file
# system: a connect to what is known to be one is `socket`.
sub heads_of {
    my ($kind, $calls) = @_;
    my @calls = grep { $_ eq 'connect' || $_ eq 'bind' } split /,/, $calls;
    @calls = map { $_ eq 'connect' ? 'socket' : $_ } @calls if $kind eq 'sock';
    return [[keys %{ columns($kind, $calls) }], \@calls];
}

# Adds a line of an object to what is known of its list: how many have a call under each head, the
# first paths of sockets and of other files that can be connected to and those where something is
# bound, and which veils stand at something that is no directory.
sub take {
    my ($list, $kind, $path, $calls) = @_;
    $list->{place} ||= { map { $_->[0] => $_->[1] } @{ state_of($list)->{veils} } };
    my $known = $list->{known}{"$kind $calls"} ||= heads_of($kind, $calls);
    $list->{counts}{$_}++ for @{ $known->[0] };
    for my $call (@{ $known->[1] }) {
        my $with = $list->{with}{$call} ||= { count => 0, paths => [] };
        push @{ $with->{paths} }, $path if $with->{count}++ < $MOST_NAMED;
    }
    $list->{is_name}{$path} = 1
        if exists $list->{place}{$path} && $kind =~ /\A(?:file|sock|fifo|dev|prog|link|missing)\z/;
    return if !$by_regions;
    $list->{regions} ||= Pua::Regions->new($list->{place});
    $list->{regions}->take($kind, $path, $calls);
    return;
}

# What is to be said of programs that are started.
sub about_programs {
    my ($list, $state, $executed) = @_;
    return 'the list holds until a program is started' if ($state->{exec} || '') eq 'open';
    return if !holds($state, 'exec') || $state->{execpromises};
    return "programs that it starts have no sandbox: $executed can be executed" if $executed;
    return $list->{ever} ? ()
        : 'programs that it starts have no sandbox, though none that is listed can be executed';
}

# What is to be said of sockets in the file system: by lines of objects if the list has them, else
# by veils.
sub about_sockets {
    my ($list, $state) = @_;
    return if !holds($state, 'unix');
    if ($state->{sockets}) {
        my ($sockets, $connects, $binds) = map { $_ && some_of($_->{count}, @{ $_->{paths} }) }
            @{ $list->{with} }{qw(socket connect bind)};
        return (($sockets ? "connects to $sockets" : ()),
            ($connects ? "connects, if these are sockets, to $connects" : ()),
            ($binds ? "binds sockets in $binds" : ()));
    }
    return 'connects to each socket, and binds sockets anywhere: no line shows it'
        unless @{ $state->{veils} };
    my $silent   = ': no line shows it';
    my @connects = map { $_->[0] } grep { $_->[1] =~ /w/ } @{ $state->{veils} };
    my @binds    = map { $_->[0] } grep { $_->[1] =~ /c/ } @{ $state->{veils} };
    return (
        (@connects ? 'connects to each socket at or below ' . some(@connects) . $silent : ()),
        (@binds ? 'binds sockets at or below ' . some(@binds) . $silent : ()),
    );
}

# What is to be said of files that promises open. A list by OpenBSD's rules has them.
sub about_openings {
    my ($state) = @_;
    my @paths = map { $_->[0] } grep { @$_ == 2 } @{ $state->{openings} };    # others ask veils
    my @promises = grep { has_promise($state, $_) && !is_veiled($_) } sort keys %OPENINGS;
    @paths = map { opened_by($_) } @promises if !@paths;
    @paths = grep { !$BY_STDIO{$_} } @paths;
    return @paths ? 'opens past the veils ' . some(@paths) : ();
}

# Whether a path is another one, or below it.
sub is_below {
    my ($path, $above) = @_;
    return $above eq '/' || index("$path/", "$above/") == 0;
}

# The veil that covers a path, with place and letters; undef where none does.
sub cover_of {
    my ($state, $path) = @_;
    my @covers = sort { length $a->[0] <=> length $b->[0] }
        grep { is_below($path, $_->[0]) } @{ $state->{veils} };
    return $covers[-1];
}

# What is to be said of veils that can be moved: one stands at a directory that has `c`, or below
# one, and there is a place with `c` outside of that, under another veil than now.
sub about_moves {
    my ($list, $state) = @_;
    return if !holds($state, 'cpath');
    my $moves = $state->{sockets} ? qr/r.*c/ : qr/c/;    # by OpenBSD's rules rename asks for r too
    my @moved;
    for my $place (map { $_->[0] } @{ $state->{veils} }) {
        my $first = $list->{is_name}{$place} ? $place =~ s{/[^/]*\z}{}r : $place;
        for (my $path = $first; $path =~ m{\A/.}; $path =~ s{/[^/]*\z}{}) {
            my $cover = cover_of($state, $path);
            next if !$cover || $cover->[1] !~ $moves;
            my $above = cover_of($state, $path =~ s{/[^/]*\z}{}r || '/');
            my @there = grep { $_ != ($above || 0) && $_->[0] ne '-' && $_->[1] =~ /c/
                && !is_below($_->[0], $path) } @{ $state->{veils} };
            if (@there) { push @moved, $place; last }
        }
    }
    return if !@moved;
    return 'can move below another veil, where a kernel may go by the old place: ' . some(@moved);
}

# What is to be said of a root. Without a pledge, and with `id`, a process can enter another one, and
# so get out of this.
sub about_root {
    my ($state) = @_;
    my ($path, $is) = @{ $state->{root} || return };
    my $root = $path eq '-' ? 'a root that was removed' : "the root $path";
    return "has $root, and gets out of it" if $is eq 'open';
    return "has $root" . (holds($state, 'id') ? ', and can get out of it by a further chroot' : '');
}

# What is to be said of open files.
sub about_files {
    my ($state) = @_;
    my @files = map { ($_->[2] eq '-' ? "a removed $_->[1]" : $_->[2]) . " ($_->[3])" }
        @{ $state->{held} };
    return (
        (@files ? 'holds open ' . some(@files) : ()),
        $state->{receive} ? 'takes descriptors from others: the list holds until it receives one'
        : has_promise($state, 'recvfd') ? 'takes descriptors from others (recvfd)' : (),
    );
}

# The lines of a process.
sub lines_about {
    my ($list) = @_;
    my ($state, $counts) = (state_of($list), $list->{counts});
    my $name = "process $list->{process}" . ($list->{ever} ? ' ever' : '')
        . (defined $list->{before} ? " before $list->{before}" : '')
        . (defined $list->{beside} ? " beside $list->{beside}" : '');
    return "$name: ended" if $state->{ended};
    my $veils = @{ $state->{veils} };
    my @says = (about_root($state), about_files($state));
    push @says, 'no veils at all: it touches what is not listed too'
        if !$veils && grep { holds($state, $_) } @ABOUT_PATHS;
    push @says, 'it never pledged: it holds all promises' if !$state->{promises};
    push @says, 'not locked: it can put further veils' if ($state->{unveil} || '') eq 'open';
    push @says, about_programs($list, $state, $counts->{executed}), about_sockets($list, $state);
    my @network = grep { has_promise($state, $_) } @NETWORK;
    push @says, 'the network: ' . join ',', @network if @network;
    push @says, about_openings($state), about_moves($list, $state);
    push @says, $list->{regions}->lines if $list->{regions};
    return ("$name: veils $veils, " . ($state->{unveil} || 'lock not told') . '; '
        . join(', ', map { "$_ $counts->{$_}" } @COLUMNS),
        map { "    $_" } @says);
}

# The lines of a file.
sub lines_in {
    my ($file) = @_;
    my (%answer, @lists);
    my $together = Pua::Together->new($MOST_NAMED);
    read_lists($file, {
        texts => 1,
        answer => sub { my ($line, $answer) = split / /, $_[0]; $answer{$line} = $answer },
        list => sub {
            my ($process, $ever, $before, $beside) = @_;
            delete @{ $lists[-1] }{qw(known place)} if @lists;
            push @lists, {
                process => $process, ever => $ever, before => $before, beside => $beside,
                state => [], with => {}, is_name => {}, counts => { map { $_ => 0 } @COLUMNS },
            };
            $together->begin($process, $beside) if $ever;
        },
        state  => sub { push @{ $lists[-1]{state} }, @_ },
        object => sub {
            take($lists[-1], @_);
            $together->take(@_) if $lists[-1]{ever};
        },
    });
    my %answers;
    $answers{$_}++ for values %answer;
    my %is_alone = map { $_->{process} => 1 } grep { $_->{ever} && !defined $_->{beside} } @lists;
    my @told = grep { !defined $_->{beside} || !$is_alone{ $_->{process} } } @lists;
    return ('answers: ' . (join(', ', map { "$_ $answers{$_}" } sort keys %answers) || 'none'),
        (map { lines_about($_) } @told), $together->lines(\&some_of));
}

sub fail { print STDERR "$NAME: @_\n"; exit 1 }

my $manifest;
my $understood = GetOptions('d' => \$by_regions, 'm=s' => \$manifest, 'help' => \my $help);
if ($understood && $help) {
    print help_of(__FILE__, $NAME);
    exit 0;
}
if (!$understood || grep { $_ eq '' } @ARGV, grep { defined } $manifest) {
    print STDERR "usage: $NAME [-d] [-m MANIFEST] [LIST]...\n";
    exit 2;
}
my @files = @ARGV ? @ARGV : '/dev/stdin';
my @lines;
eval {
    my $missing = defined $manifest ? manifest_of($manifest) : {};
    my @not_all = grep { $missing->{$_} eq 'not-all' } sort keys %$missing;
    my @not_in  = grep { $missing->{$_} ne 'not-all' } sort keys %$missing;
    push @lines, 'not in the listing ' . some(@not_in) if @not_in;
    push @lines, 'not all listed in ' . some(@not_all) if @not_all;
    push @lines, (@files > 1 ? "$_:" : ()), lines_in($_) for @files;
    1;
} or do {
    chomp(my $fault = $@);
    fail($fault);
};
binmode STDOUT;
print map { "$_\n" } @lines or fail("standard output: $!");
close STDOUT or fail("standard output: $!");
