# Random trees and scripts without pledge and unveil, by a seed, for a comparison of answers with those of a kernel: of
# seven kinds in turn, each with what such a comparison has shown to matter; and of two more, `files`, about descriptors, and
# `roots`, about roots and descriptors.
#
# The numbers are those of Worlds.pm, so that every machine has the same cases.
package Cases;
use strict;
use warnings;
use parent qw(Worlds);
use Tree qw(spelled);

our @KINDS = qw(mixed links names removed rename slashes long);

my @CALLS = qw(
    stat lstat readlink open-r open-w open-rw create mkdir rmdir unlink chmod chdir exec connect bind mknod chown create-rw
    fchmod fchown
);
my @PLAIN = ('a' .. 'd');
my @ODD   = ('a', 'b', 'x' x 255, 'y' x 254, "\xe9\xff", 'a b', '=b', '-', '...');

# How often the kinds of nodes are drawn; more of some in cases of a kind.
my %WEIGHTS = (dir => 5, file => 3, prog => 1, link => 4, hard => 1);
my %MORE = (links => { link => 12 }, rename => { dir => 9 }, removed => { dir => 9 });

# The texts of the listing and the script of the next case.
sub next_case {
    my ($cases, $kind) = @_;
    my $case = {
        kind => $kind, names => $kind eq 'names' ? \@ODD : \@PLAIN, lines => [], number => 0,
        dirs => [[0, '']], others => [], taken => {}, known => ['/'], places => [],
    };
    $cases->_grow($case) for 1 .. 1 + $cases->number(13);
    $cases->_chain($case) if $kind =~ /\A(?:links|mixed)\z/ && $cases->number(5) < 2;
    return (join("\n", 'tree 2', '0 dir', @{ $case->{lines} }, ''), $cases->_script($case));
}

# One of some words, each as often as its weight says.
sub _weighed {
    my ($cases, %weights) = @_;
    return $cases->pick(map { ($_) x $weights{$_} } sort keys %weights);
}

# In so many of a hundred cases.
sub _seldom { return $_[0]->number(100) < $_[1] }

# Adds a line to the listing, if the name that is drawn is free.
sub _grow {
    my ($cases, $case) = @_;
    my @dirs = @{ $case->{dirs} };
    @dirs = @dirs[-4 .. -1] if @dirs > 4 && $cases->_seldom(60);
    my ($dir, $over) = @{ $cases->pick(@dirs) };
    my $path = "$over/" . $cases->pick(@{ $case->{names} });
    my $kind = $cases->_weighed(%WEIGHTS, %{ $MORE{ $case->{kind} } || {} });
    return if $case->{taken}{$path} || $kind eq 'hard' && !@{ $case->{others} };
    my $end = $kind eq 'hard' ? $cases->pick(@{ $case->{others} }) : $kind eq 'link' ? $cases->_target($case) : undef;
    $cases->_put($case, $dir, $path, $kind, $kind eq 'link' ? spelled($end) : $end);
    return;
}

sub _put {
    my ($cases, $case, $dir, $path, $kind, $end) = @_;
    my $number = ++$case->{number};
    my ($name) = $path =~ m{([^/]*)\z};
    push @{ $case->{lines} }, join ' ', $number, $kind, $dir, spelled($name), defined $end ? $end : ();
    push @{ $case->{known} }, $path;
    push @{ $case->{dirs} }, [$number, $path] if $kind eq 'dir';
    push @{ $case->{places} }, $path if $kind eq 'dir';
    push @{ $case->{others} }, $number if $kind =~ /\A(?:file|prog|link)\z/;
    $case->{taken}{$path} = 1;
    return $number;
}

# A chain of links, about as long as kernels follow.
sub _chain {
    my ($cases, $case) = @_;
    my $length = $cases->pick(1, 2, 16, 30 .. 34, 39 .. 42);
    my $dir = $cases->_put($case, 0, '/k', 'dir');
    $cases->_put($case, $dir, '/k/e', 'file');
    my $end = $cases->pick('a', '/', '..', 'missing', 'e', 'e/', 'l0');
    for my $at (0 .. $length - 1) {
        my $next = 'l' . ($at + 1);
        my $target = $at == $length - 1 ? $end : $cases->pick($next, "./$next", "/k/$next");
        $cases->_put($case, $dir, "/k/l$at", 'link', $target);
    }
    push @{ $case->{known} }, ('/k/l0') x 4;
    return;
}

sub _target {
    my ($cases, $case) = @_;
    return $cases->pick('/', '.', '..', './', '../', '/.', '//', 'a/', 'b/', '../..') if $cases->_seldom(12);
    return $cases->_path({ %$case, kind => 'target' });
}

# The bytes of a path that is known, or of any one; now and then with odd parts at its ends.
sub _path {
    my ($cases, $case) = @_;
    my $kind = $case->{kind};
    my $path = $cases->pick(@{ $case->{known} });
    if ($cases->_seldom(50)) {
        my @parts = map { $cases->_part($case) } 1 .. $cases->pick((1, 2) x 4, (3) x 3, 4, 4, 6);
        $path = ($cases->_seldom(60) ? '/' : '') . join '/', @parts;
    } elsif ($cases->_seldom(35)) {
        $path =~ s{\A/(?=.)}{};
    }
    $path .= '/' . $cases->pick(@{ $case->{names} }, '.', '..') if $path ne '/' && $cases->_seldom(15);
    $path .= $cases->pick('/', '/', '//', '/.', '/..', '/./', '/../')
        if $path ne '/' && $cases->_seldom($kind eq 'slashes' ? 35 : 12);
    $path =~ s{/}{//} if $cases->_seldom(6);
    $path = $cases->pick('/', '//', '.', '..', '/.', '/..', './', '../') if $cases->_seldom(2);
    return $path if $kind eq 'target';
    $path = '' if $cases->_seldom(1);
    $path = $cases->_stretched($path) if $kind eq 'long' && $cases->_seldom(50);
    $path .= '/' . $cases->pick('x' x 256, 'y' x 300, 'x' x 256 . '/a') if $kind eq 'names' && $cases->_seldom(8);
    my $long = 'x' x 256;
    $path = $cases->pick($long, "/nothing/$long", "a/$long") if $kind eq 'names' && $cases->_seldom(5);
    return $path;
}

sub _part {
    my ($cases, $case) = @_;
    my $drawn = $cases->number(100);
    return $drawn < 8 ? '.' : $drawn < 24 ? '..' : $cases->pick(@{ $case->{names} });
}

# A path that is made about as long as kernels read; sometimes about as long as a socket's address holds.
sub _stretched {
    my ($cases, $path) = @_;
    my $length = $cases->pick(102 .. 105, 1000, 1021 .. 1025, 1023, 1100);
    my ($front, $last) = $path =~ m{\A(.*/)?([^/]*)\z}s;
    $front = './' unless defined $front;
    $front .= './' while length($front) + length($last) < $length - 1;
    $front .= '/' if length($front) + length($last) < $length;
    return $front . $last;
}

sub _script {
    my ($cases, $case) = @_;
    my ($processes, $text) = ([1], '');
    for (1 .. 6 + $cases->number(21)) {
        my $process = $cases->pick(@$processes);
        $text .= join '', map { "$process $_\n" } $cases->_requests($case, $processes);
    }
    return $text;
}

# What one process asks for: one request, or some that belong together.
sub _requests {
    my ($cases, $case, $processes) = @_;
    my $kind = $case->{kind};
    my $path = sub { my $bytes = $cases->_path($case); $bytes eq '' ? '=' : spelled($bytes) };
    my $drawn = $cases->number(1000);
    my $is_rename = $kind eq 'rename';
    if ($drawn < 50 && @$processes < 5) {
        push @$processes, 1 + @$processes;
        return "fork $processes->[-1]";
    }
    return 'exit' if $drawn < 65 && @$processes > 1;
    return 'rename ' . $path->() . ' ' . $path->() if $drawn < ($is_rename ? 450 : 170);
    return 'link ' . $path->() . ' ' . $path->() if $drawn < ($is_rename ? 500 : 250);
    return 'symlink ' . $cases->_text($case) . ' ' . $path->() if $drawn < ($is_rename ? 530 : 320);
    return $cases->_removal($case) if $kind eq 'removed' && $drawn < 600;
    return $cases->_on_roots($case, $processes) if $kind eq 'roots' && $drawn < 560;
    return $cases->_on_files($path, $processes) if $kind =~ /\A(?:files|roots)\z/ && $drawn < 800;
    my $call = $cases->_seldom(90) ? $cases->pick(_calls($case)) : $cases->pick(qw(mkdir rmdir chdir));
    return "$call " . $path->();
}

# The calls of a case. A kernel may not start what is open for writing (ETXTBSY), and no program of a listing runs: so where
# processes have something open, nothing is started.
sub _calls { return $_[0]{kind} =~ /\A(?:files|roots)\z/ ? grep { $_ ne 'exec' } @CALLS : @CALLS }

# A process opens and keeps something, which it may remove then, closes it, enters it, or takes it of another process.
sub _on_files {
    my ($cases, $path, $processes) = @_;
    my ($number, $at) = ($cases->pick(3, 3, 4, 5), $path->());
    my $drawn = $cases->number(100);
    my $hold = "hold $number " . $cases->pick(qw(open-r open-r open-w open-rw)) . " $at";
    return ($hold, "unlink $at", "rmdir $at") if $drawn < 15;
    return $hold if $drawn < 45;
    return "fchdir $number" if $drawn < 65;
    return "close $number" if $drawn < 80;
    return join ' ', 'take', $number, $cases->pick(@$processes), $cases->pick(3, 3, 4, 5);
}

# A process moves its root, goes there or stays, and asks around; or its root is removed, or another's moved away. Paths
# are as they are from the root of the listing, or from a directory of it.
sub _on_roots {
    my ($cases, $case, $processes) = @_;
    my @jails = @{ $case->{places} };
    my $jail = @jails && $cases->_seldom(85) ? $cases->pick(@jails) : $cases->_path($case);
    my @inside = map { m{\A\Q$jail\E(/.+)}s ? $1 : () } @{ $case->{known} };
    my $in = spelled(@inside ? $cases->pick(@inside) : '/' . $cases->pick(@{ $case->{names} }));
    my $root = $jail eq '' ? '=' : spelled($jail);
    my $new = '/' . $cases->pick(@{ $case->{names} }, 'z');
    my $drawn = $cases->number(100);
    my @paths = ($in, ".$in", "/..$in", "..$in", "../..$in", '..', '/..', "/z$in");
    my @around = map { $cases->pick(_calls($case)) . ' ' . $cases->pick(@paths) } 0 .. $cases->number(3);
    my @removed = ("mkdir $new", "symlink $in /y", "chroot $new", "rmdir .$new", 'stat /', 'stat /..', 'stat ./y');
    return "chroot $root" if $drawn < 10;
    return ("chroot $root", 'chdir /', @around) if $drawn < 30;
    return ("chroot $root", @around) if $drawn < 40;
    return ('hold 3 open-r ' . $cases->pick('/', '.', $root), "chroot $root", 'chdir /', 'fchdir 3', @around) if $drawn < 50;
    return ('hold 4 open-r ' . $cases->pick('/', '.', '..'), 'chdir /', @around) if $drawn < 58;
    return ("symlink $in $root/z", "chroot $root", "stat /z", "open-r .$root/z", "chdir /z", @around) if $drawn < 68;
    return ("mkdir $new", "chroot $new", 'chdir /', "rmdir $new", @around) if $drawn < 72;
    return (@removed, "stat $in", "create $in", @around) if $drawn < 82;
    return ("rename $root " . $cases->pick($new, "$root/z"), @around) if $drawn < 88;
    return ('chroot ' . $cases->pick('.', '..', '/..', '/', $in, '../..'), @around) if $drawn < 94;
    return ("chdir $in", @around);
}

# A target that a script gives to a link.
sub _text {
    my ($cases, $case) = @_;
    return 'x' x 256 if $case->{kind} eq 'names' && $cases->_seldom(15);
    return spelled($cases->_target($case));
}

# A process goes into a directory, which is removed, perhaps made again, and asks around.
sub _removal {
    my ($cases, $case) = @_;
    my $dir = spelled($cases->pick(@{ $case->{places} }, '/a'));
    my ($name) = $dir =~ m{([^/]*)\z};
    my @lines = ("chdir $dir");
    push @lines, "rmdir $dir" if $cases->_seldom(50);
    push @lines, "mkdir $dir" if $cases->_seldom(50);
    push @lines, map {
        $cases->pick(@CALLS) . ' ' . $cases->pick('.', '..', './', '../a', 'a', '../..', './a', "../$name", 'a/')
    } 0 .. $cases->number(3);
    return @lines;
}

1;
