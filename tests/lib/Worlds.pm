# Random worlds by a seed: listings and scripts in the formats that pua reads, and paths that are likely
# to name something in them; and a way to run the program over such texts.
#
# The numbers come from a generator of this module, so that every machine has the same worlds.
package Worlds;
use strict;
use warnings;

BEGIN {
    my ($here) = __FILE__ =~ m{\A(.*/)}s;
    unshift @INC, ($here || './') . '../../tools/lib';
}
use Exporter qw(import);
use File::Basename ();
use File::Spec;
use File::Temp qw(tempdir);
use POSIX ();
use Pua::Calls qw(%OPENINGS);
use Tables qw(content);

our @EXPORT_OK = qw(answer_in answer_of program_in rules_of worlds_told);

# All names of trees; each world has a few of them.
my @NAMES = ('a', 'b', 'c', 'd', 'e', 'f\040g');

# What a line of a listing may add. A directory that is drawn more often makes deeper trees.
my @KINDS = qw(dir dir dir dir file file prog link link hard);

# Where types of files, and mount points, are known.
my @TYPED_KINDS = (@KINDS, qw(dir file any sock sock fifo dev));
my @MOUNTS = qw(mount mount);

# Parts of targets and of paths beside names.
my @STEPS = qw(. .. ..);

my @PERMISSIONS = qw(r r rw rwc rwc wc rc rwxc rwxc rwxc x rx c = rrw);

my $ALL = 'stdio,rpath,wpath,cpath,fattr,exec,proc,unveil';

# What pledges may leave. Those in the midst of a script are mild, so that processes live on.
my @MILD = (
    $ALL, $ALL, "$ALL,error", "$ALL,inet,dns", '-', 'stdio,rpath,wpath,cpath,exec,proc,unveil',
    'rpath,proc,unveil,error', 'rpath,cpath,error',
);
my @LAST = (
    'stdio,rpath', 'rpath,wpath,cpath', 'stdio,rpath,wpath,cpath,proc', 'rpath,exec,proc',
    'rpath,wpath,fattr', 'cpath,fattr', 'rpath,cpath,error', 'wpath,cpath,error', 'rpath,unveil', 'cpath,unveil,proc',
    $ALL, 'stdio', '=',
);
my @EXECPROMISES = ('-', '-', 'stdio,rpath', 'rpath,wpath,cpath,exec', 'rpath,unveil,proc,exec', '=');

# Sets of promises of tables of calls.
my @SETS = ('', 'rpath', 'cpath', 'wpath', 'rpath,wpath', 'fattr', 'exec', 'stdio', 'rpath,cpath', 'inet');

# The calls on one path, and those that OpenBSD's rules have beside them.
my @CALLS = qw(stat lstat readlink open-r open-w open-rw create mkdir rmdir unlink chmod chdir exec);
my @FURTHER = qw(connect bind mknod chown create-rw fchmod fchown);

# What a line asks for; the words in capitals stand for what is drawn. Most paths suit their call.
my @REQUESTS = (
    ('CALL PATH') x 4,
    ('chdir DIR', 'mkdir NEW', 'create NEW', 'unlink FILE', 'rmdir LEAF', 'exec PROG') x 2,
    ('rename FILE NEW', 'rename DIR NEW', 'rename FILE FILE', 'rename DIR DIR', 'rename PATH PATH'),
    ('link FILE NEW') x 2, 'link PATH PATH',
    ('symlink TARGET NEW') x 2, 'symlink TARGET PATH',
    ('unveil HIGH PERMISSIONS') x 2, 'unveil PATH PERMISSIONS', 'unveil NEW PERMISSIONS',
    'pledge MILD EXECPROMISES',
    'fork CHILD',
);

# What a line asks for beside these by OpenBSD's rules.
my @MORE = (('connect FILE', 'bind NEW') x 2, 'connect PATH', 'bind PATH', ('mknod NEW', 'chown HIGH') x 2, 'mknod PATH', 'chown PATH',
    'create-rw NEW', 'create-rw FILE', 'fchmod FILE', 'fchmod PATH', 'fchown HIGH');

# What it asks for in a call without a path by these rules, and the promises of which such a call needs one.
my @WITHOUT_PATH = ('uses USED') x 5;
my @USED = qw(inet id unix stdio proc rpath inet|unix id|settime|rpath proc|wpath);

# What it asks for where promises open paths; and lists of promises that open some, by which a process lives on.
my @OPENING_REQUESTS = (('OPENING') x 12, 'rename FILE OPENED', 'symlink TARGET OPENED', 'unveil OPENED PERMISSIONS', 'pledge OPENERS EXECPROMISES');
my @OPENERS = (
    'stdio,dns,unveil,proc,error', 'tmppath,rpath,unveil,proc,error', 'getpw,tty,wpath,proc,unveil,error',
    'stdio,rpath,wpath,cpath,fattr,exec,proc,unveil,tmppath,dns', 'dns,getpw,stdio,tmppath,tty,cpath,proc,unveil,error',
);

# Promises of such lists, beside others.
my @BESIDE = ('stdio', 'dns', 'getpw', 'tty', 'tmppath', 'tmppath', 'stdio,tmppath', 'dns,getpw', 'tmppath,tty,error');

# What it asks for where scripts are about descriptors; and promises of such scripts, beside others.
my @FILE_REQUESTS = (
    ('hold FD OPEN FILE') x 4, 'hold FD open-r DIR', 'hold FD OPEN PATH', 'hold FD OPEN HIGH',
    ('close FD', 'fchdir FD') x 3, ('take FD ANYONE FD') x 4,
);
my @PASSING = ('recvfd', 'sendfd', ('recvfd,sendfd') x 3);
my @OPENS = qw(open-r open-w open-rw);
my @FDS   = qw(0 3 3 4 5);

# Lines on descriptors that tell more one after the other: where an open file has no name, or many, or another one; what
# is done from a directory that the veils hide, or that was removed; what a child and a program have; what is passed on.
my @FILE_STRETCHES = (
    "ASKER hold 3 OPEN FILE\nASKER link FILE NEW\nASKER unlink FILE",
    "ASKER hold 4 OPEN FILE\nASKER unlink FILE\nASKER create FILE\nASKER take 5 ASKER 4",
    "ASKER hold 5 OPEN FILE\nASKER rename FILE NEW\nASKER hold 5 OPEN NEW",
    "ASKER hold 4 open-r DIR\nASKER unveil HIGH r\nASKER fchdir 4\nASKER stat NAME\nASKER create NAME\nASKER hold 3 open-r NAME",
    "ASKER hold 5 open-r LEAF\nASKER rmdir LEAF\nASKER mkdir LEAF\nASKER fchdir 5\nASKER stat .\nASKER stat LEAF",
    "ASKER hold 4 open-r DIR\nASKER rename DIR NEW\nASKER fchdir 4\nASKER stat ..",
    "ASKER hold 3 OPEN FILE\nASKER fork 3\n3 close 3\nASKER hold 4 OPEN FILE\n3 take 5 ASKER 4",
    "ASKER unveil PROG x\nASKER hold 3 open-r DIR\nASKER pledge - SET\nASKER exec PROG\nASKER fchdir 3\nASKER stat NAME",
    "ASKER hold 0 open-r DIR\nASKER fork 4\n4 take 4 ASKER 0\n4 pledge stdio,rpath,proc,unveil,recvfd -\n4 take 5 ASKER 0\n4 fchdir 5",
    "ASKER fork 4\nASKER hold 3 open-r DIR\nASKER pledge stdio,rpath,wpath,cpath,proc,unveil,sendfd -\n4 take 5 ASKER 3\n4 fchdir 5",
    "ASKER fork 5\n5 hold 3 OPEN FILE\n5 exit\nASKER take 4 5 3",
    "ASKER fork 4\nASKER hold 3 OPEN FILE\n4 pledge rpath,proc,unveil,error -\n4 take 3 ASKER 3\n4 hold 3 OPEN FILE\n4 close 3",
    "ASKER fork 3\n3 hold 3 open-r HIGH\n3 hold 3 open-r /\n3 pledge stdio,rpath,proc,unveil -\nASKER take 4 3 3",
    "ASKER fork 5\n5 pledge stdio,rpath,proc,unveil -\n5 take 4 ASKER 3",
    "ASKER fork 5\n5 pledge stdio,rpath,proc,unveil -\n5 hold 3 open-w FILE",
    "ASKER mkdir /dev\nASKER create /dev/null\nASKER fork 5\n5 unveil HIGH r\n5 pledge stdio,proc,unveil -\n5 hold 4 OPEN /dev/null\n5 close 4",
);

# What it asks for where scripts are about roots too; and lines that tell more one after the other: what is named from a root,
# and by links and `..` at it; what leads out of it, and who stays in it; a root in a root, one that was removed, one that
# nobody may choose; what a child and a program have of it, and the veils that it is under.
my @ROOT_REQUESTS = (('chroot JAIL') x 4, 'chroot DIR', 'chroot PATH', 'chroot FILE', 'chroot HIGH', ('chdir /') x 2, 'chdir ..', 'hold FD open-r /');
my @ROOT_STRETCHES = (
    "ASKER chroot JAIL\nASKER chdir /\nASKER stat INSIDE\nASKER stat /..INSIDE\nASKER stat ..\nASKER create /../NAME",
    "ASKER hold 3 open-r /\nASKER chroot JAIL\nASKER chdir /\nASKER stat /..INSIDE\nASKER fchdir 3\nASKER stat NAME\nASKER close 3\nASKER chdir /",
    "ASKER hold 4 open-r HIGH\nASKER chroot JAIL\nASKER chdir /",
    "ASKER chroot JAIL\nASKER stat ../NAME\nASKER chdir NAME\nASKER create NAME\nASKER chroot ..\nASKER stat NAME",
    "ASKER symlink INSIDE JAIL/z\nASKER chroot JAIL\nASKER stat /z\nASKER open-r .JAIL/z\nASKER hold 5 OPEN /z\nASKER chdir /\nASKER stat z",
    "ASKER symlink /.. JAIL/y\nASKER chroot JAIL\nASKER stat /yINSIDE\nASKER chdir .JAIL/y\nASKER stat .INSIDE",
    "ASKER chroot JAIL\nASKER chdir /\nASKER fork 4\n4 exec INSIDE\n4 stat INSIDE\n4 chroot WITHIN\n4 chdir /\nASKER stat INSIDE\n4 stat ..",
    "ASKER chroot JAIL\nASKER chdir /\nASKER pledge - SET\nASKER exec INSIDE\nASKER stat /..INSIDE",
    "ASKER chroot JAIL\nASKER chdir /\nASKER hold 3 open-r WITHIN\nASKER chroot WITHIN\nASKER stat ..\nASKER fchdir 3\nASKER chroot .\nASKER chdir ../..",
    ("ASKER fork 6\nASKER symlink HIGH DIR/z\nASKER mkdir NEW\n6 chroot NEW\nASKER rmdir NEW\n6 stat /\n6 stat .DIR/z\n6 create /NAME\n6 chroot /") x 2,
    "ASKER fork 6\n6 chroot LEAF\n6 rmdir .LEAF\n6 stat /..\nASKER mkdir LEAF\n6 stat .LEAF",
    "ASKER fork 4\n4 chroot LEAF\nASKER rmdir LEAF\nASKER mkdir LEAF\n4 chroot .\n4 stat /",
    "ASKER fork 3\n3 chroot JAIL\n3 chdir WITHIN\nASKER rename JAIL/.WITHIN NEW\n3 stat ..\n3 chdir ..",
    "ASKER fork 3\n3 chroot JAIL\n3 chdir /\nASKER rename JAIL NEW\n3 stat INSIDE\n3 stat ..",
    "ASKER fork 4\n4 chroot JAIL\n4 chdir /\nASKER hold 3 open-r HIGH\n4 take 4 ASKER 3\n4 fchdir 4\n4 stat ..",
    "ASKER unveil JAIL PERMISSIONS\nASKER chroot JAIL\nASKER chdir /\nASKER stat INSIDE\nASKER unveil INSIDE rw\nASKER open-rw INSIDE",
    "ASKER unveil HIGH wc\nASKER chroot HIGH\nASKER chroot JAIL\nASKER create INSIDE",
    "ASKER chroot JAIL\nASKER chdir /\nASKER pledge stdio,rpath,wpath,cpath,fattr,proc,unveil,error -\nASKER chroot WITHIN\nASKER create INSIDE",
    "ASKER pledge stdio,rpath,proc,exec,unveil,id -\nASKER chroot JAIL\nASKER stat INSIDE\nASKER stat .INSIDE\nASKER chroot FILE",
    "ASKER fork 5\n5 chroot JAIL\n5 chdir /\n5 pledge stdio,rpath,proc,unveil -\n5 chroot WITHIN",
);

# What stands at a path that a promise opens.
my @OPENED_KINDS = qw(file file file file file prog link dir);

# What it asks for where there are mount points.
my @MOUNT_REQUESTS = (
    'rmdir MOUNT', 'unlink MOUNT', 'rename MOUNT NEW', 'rename FILE MOUNT', 'rename DIR MOUNT', 'rename MOUNT MOUNT',
    'chdir MOUNT', ('rename FILE MOUNT/NAME', 'rename MOUNT/NAME NEW', 'link FILE MOUNT/NAME', 'rename DIR MOUNT/NAME') x 2,
    'rename MOUNT/NAME MOUNT/NAME', 'link MOUNT/NAME NEW', 'rmdir MOUNT/NAME', 'unlink MOUNT/NAME',
);

# What is drawn seldom: what is refused for its text, an end, a lock in the midst.
my @SELDOM = (
    'exit', 'unveil - -', 'unveil PATH rq', 'unveil = r', 'stat =', 'pledge rpath,nothing -', 'pledge - MILD',
    'symlink = PATH', 'stat ' . 'x' x 256, 'open-r /' . 'a/' x 511 . 'a', 'pledge LAST -', 'stat \040',
);
my $SELDOM_IN = 25;

# Lines that tell more one after the other: what an exec leaves, what a child has of its parent, and what a narrow
# pledge refuses. A word stands for the same in all lines.
my @STRETCHES = (
    "ASKER unveil PROG x\nASKER pledge - SET\nASKER exec PROG\nASKER pledge - SET",
    "ASKER unveil PROG x\nASKER pledge MILD SET\nASKER exec PROG",
    "ASKER unveil PROG x\nASKER pledge - SET\nASKER exec PROG\nASKER unveil HIGH r\nASKER exec PROG",
    "ASKER unveil PROG rx\nASKER unveil - -\nASKER exec PROG",
    "ASKER unveil DIR rc\nASKER chdir DIR\nASKER fork 3\n3 stat NAME\n3 mkdir NAME\n3 create NAME/NAME",
    "ASKER unveil HIGH rwxc\nASKER fork 3\n3 open-r FILE",
    "ASKER pledge stdio,wpath,cpath,fattr,proc,unveil -\nASKER chmod FILE\nASKER rename FILE NEW",
    "ASKER pledge rpath,unveil,error -\nASKER symlink = NEW\nASKER rename FILE NEW\nASKER link FILE NEW",
    "ASKER unveil HIGH rwc\nASKER link FILE NEW\nASKER unlink FILE",
    "ASKER rename DIR/. NEW\nASKER rename FILE /\nASKER rename FILE FILE",
);

# Makes a generator of worlds. Those of one seed are always the same. In %$how, optional: paths_alone, where scripts
# have no call without a path; openings, where by OpenBSD's rules trees have paths that promises open, and scripts ask
# for these; files, where by these rules scripts are about descriptors; roots, where they are about these too.
sub new {
    my ($class, $seed, $how) = @_;
    my $worlds = bless { state => 1 + $seed % 2147483646, names => [@NAMES] }, $class;
    my @parts = qw(paths_alone openings files roots);
    @$worlds{@parts} = @$how{@parts};
    @$worlds{qw(paths of)} = (['/'], { dir => [''] });
    $worlds->number(2) for 1 .. 5;
    return $worlds;
}

# From here on worlds are by these rules: `openbsd` or others.
sub by {
    my ($worlds, $rules) = @_;
    $worlds->{further} = $rules eq 'openbsd';
    return $worlds;
}

# A number from 0 to $count - 1. The products are below 2**53, so they are exact on each machine.
sub number {
    my ($worlds, $count) = @_;
    $worlds->{state} = $worlds->{state} * 48271 % 2147483647;
    return $worlds->{state} % $count;
}

# One of some things.
sub pick {
    my ($worlds, @list) = @_;
    return $list[ $worlds->number(scalar @list) ];
}

# The spelled names of the last listing, and one of them.
sub names { return @{ $_[0]{names} } }
sub name  { return $_[0]->pick($_[0]->names) }

# The text of a random listing of 8 to 20 lines below the root's, under few names.
sub listing {
    my ($worlds) = @_;
    my $first = $worlds->number(3);
    $worlds->{names} = [ @NAMES[ $first .. $first + 2 + $worlds->number(2) ] ];
    @$worlds{qw(paths of)} = (['/'], { dir => [''] });
    my $header = $worlds->number(3) ? 'tree 1' : 'tree 3';
    my $tree = { dirs => { 0 => '' }, others => [], taken => {}, lines => [], header => $header };
    my ($number, $most) = (0, 8 + $worlds->number(13));
    for (1 .. 10 * $most) {
        last if @{ $tree->{lines} } == $most;
        $number += 1 + ($worlds->number(6) == 0);
        $worlds->_add_line($tree, $number);
    }
    $worlds->_add_all_opened($tree, \$number) if $worlds->opens;
    my %over = map { m{(.*)/} ? ($1 => 1) : () } @{ $worlds->{paths} };
    $worlds->{of}{leaf} = [ grep { !$over{$_} } @{ $worlds->{of}{dir} } ];
    $worlds->{of}{full} = [ grep { $over{$_} } @{ $worlds->{of}{dir} } ];
    return join "\n", $tree->{header}, '0 dir', @{ $tree->{lines} }, '';
}

# Adds a line to a listing, if the name that is drawn is free, and for a further name there is a node.
sub _add_line {
    my ($worlds, $tree, $number) = @_;
    my $parent = $worlds->pick(sort { $a <=> $b } keys %{ $tree->{dirs} });
    my @kinds = $tree->{header} ne 'tree 3' ? @KINDS : (@TYPED_KINDS, @MOUNTS);
    my ($kind, $name) = ($worlds->pick(@kinds), $worlds->name);
    my $path = "$tree->{dirs}{$parent}/$name";
    return if $tree->{taken}{$path} || $kind eq 'hard' && !@{ $tree->{others} };
    $tree->{taken}{$path} = 1;
    $tree->{header} = 'tree 2' if $kind eq 'hard' && $tree->{header} eq 'tree 1';
    my $is_dir = $kind eq 'dir' || $kind eq 'mount';
    $tree->{dirs}{$number} = $path if $is_dir;
    my @end = $kind eq 'link' ? $worlds->_target : $kind eq 'hard' ? $worlds->pick(@{ $tree->{others} }) : ();
    push @{ $tree->{others} }, $number unless $is_dir || $kind eq 'hard';
    push @{ $tree->{lines} }, join ' ', $number, $kind, $parent, $name, @end;
    push @{ $worlds->{paths} }, $path;
    push @{ $worlds->{of}{$kind} }, $path;
    push @{ $worlds->{of}{dir} }, $path if $kind eq 'mount';
    return;
}

# Adds to a listing some paths that promises open.
sub _add_all_opened {
    my ($worlds, $tree, $number) = @_;
    $worlds->{opened} = [];
    for (0 .. 4 + $worlds->number(4)) {
        my $opening = $worlds->_opening;
        my $path = $worlds->_opened_at($opening);
        $worlds->_add_opened($tree, $number, $path);
        push @{ $worlds->{opened} }, [$opening, $path];
    }
    return;
}

# Adds to a listing the lines of a path, as far as they lack and something on the way is no link or file.
sub _add_opened {
    my ($worlds, $tree, $number, $path) = @_;
    my %dirs = reverse %{ $tree->{dirs} };
    my ($parent, $at, @names) = (0, '', grep { $_ ne '' } split m{/}, $path);
    while (defined(my $name = shift @names)) {
        $at .= "/$name";
        if ($tree->{taken}{$at}) {
            return if !exists $dirs{$at};
            $parent = $dirs{$at};
            next;
        }
        my $kind = !@names ? $worlds->pick(@OPENED_KINDS) : $worlds->number(12) ? 'dir' : 'link';
        $tree->{taken}{$at} = 1;
        $$number++;
        push @{ $tree->{lines} }, join ' ', $$number, $kind, $parent, $name, $kind eq 'link' ? $worlds->_target : ();
        push @{ $worlds->{paths} }, $at;
        push @{ $worlds->{of}{$kind} }, $at;
        return if $kind ne 'dir';
        ($tree->{dirs}{$$number}, $parent) = ($at, $$number);
    }
    return;
}

# One of the paths that a promise opens, or one below it.
sub _opened_path { return $_[0]->_opened_at($_[0]->_opening) }

sub _opened_at {
    my ($worlds, $opening) = @_;
    my ($path) = split / /, $opening;
    return $path =~ m{/\z} ? $path . $worlds->name : $path;
}

# A line on what a promise opens, as lists have it: mostly one about /tmp, or of stdio or dns.
sub _opening {
    my ($worlds) = @_;
    my $promise = $worlds->pick(qw(dns dns getpw stdio stdio tmppath tmppath tmppath tty));
    return $worlds->pick(@{ $OPENINGS{$promise} });
}

# A call that a promise opens on its path, which is spelled in several ways; seldom another call.
sub opened_call {
    my ($worlds) = @_;
    my $opening = $worlds->_opening;
    my $path = $worlds->_opened_at($opening);
    ($opening, $path) = @{ $worlds->pick(@{ $worlds->{opened} }) } if $worlds->number(4);
    my (undef, $calls) = split / /, $opening;
    my $call = $worlds->number(8) ? $worlds->pick(split /,/, $calls) : $worlds->pick($worlds->calls);
    return "$call " . $worlds->_spelled_somehow($path);
}

# A pledge of few promises, of which some open paths.
sub opening_pledge {
    my ($worlds, $asker) = @_;
    return join ' ', $asker, 'pledge', $worlds->pick(@OPENERS), $worlds->promises(@EXECPROMISES);
}

# Lines of one process that pledges so, and asks for these paths.
sub _opening_stretch {
    my ($worlds, $asker) = @_;
    my @calls = map { "$asker " . $worlds->opened_call } 0 .. 2 + $worlds->number(4);
    return map { "$_\n" } $worlds->opening_pledge($asker), @calls;
}

# A path from the root, with dots, or slashes, that mostly lead to the same.
sub _spelled_somehow {
    my ($worlds, $path) = @_;
    my $way = $worlds->number(24);
    my ($above, $last) = $path =~ m{\A(.*)/(.*)\z};
    return
          $way == 0  ? "/$path"
        : $way == 1  ? "$above//$last"
        : $way == 2  ? "/.$path"
        : $way == 3  ? "/..$path"
        : $way == 4  ? '/' . $worlds->name . "/..$path"
        : $way == 5  ? "$above/../" . $above =~ s{.*/}{}r . "/$last"
        : $way == 6  ? "$path/"
        : $way == 7  ? "$path/."
        : $way == 8  ? "$path/../$last"
        : $way == 9  ? "$above/" . $worlds->name . "/./..//$last"
        : $way == 10 ? "$path/.."
        : $way == 11 ? "$above/"
        : $way == 12 ? $path =~ s{\A/}{}r
        : $way == 13 ? "$path/" . $worlds->name
        :              $path;
}

# A target of a link: a path that was listed already, or any one; so some dangle, and some lead in a circle.
sub _target {
    my ($worlds) = @_;
    return $worlds->pick('.', '..', '/', $worlds->name, $worlds->name) if $worlds->number(5) == 0;
    return $worlds->pick(@{ $worlds->{paths} })   if $worlds->number(3) == 0;
    return $worlds->path;
}

# A spelled path of the last listing, or near one; now and then relative, through `..`, or with odd slashes.
sub path {
    my ($worlds) = @_;
    my $path = $worlds->pick(@{ $worlds->{paths} });
    my $way  = $worlds->number(16);
    $path = "/$path"                               if $way == 0;
    $path = "$path/"                               if $way == 1;
    $path = "$path/" . $worlds->pick(@STEPS)       if $way == 2;
    $path = "$path/../" . $worlds->name            if $way == 3 || $way == 4;
    $path = "$path/" . $worlds->name               if $way == 5 || $way == 6;
    $path =~ s{[^/]*\z}{$worlds->name}e            if $way == 7 || $way == 8;
    $path = '/' . join '/', map { $worlds->name } 0 .. $worlds->number(3) if $way == 9;
    $path =~ s{\A/(?=.)}{}                         if $worlds->number(4) == 0;
    $path =~ s{\A/}{../}                           if $worlds->number(30) == 0;
    return $path;
}

# A path that is near the root, where a veil covers much.
sub _high_path {
    my ($worlds) = @_;
    my @high = grep { tr{/}{} <= 2 } @{ $worlds->{paths} };
    return $worlds->pick(@high);
}

# A path in a directory of the listing under any of all names, so mostly under one that is not there.
sub _new_path {
    my ($worlds) = @_;
    return $worlds->pick(@{ $worlds->{of}{dir} }) . '/' . $worlds->pick(@NAMES);
}

# Mostly a path of one of these kinds, if there is one: a directory but the root, a leaf, which is a directory in
# which nothing stands, a full one, in which something does, a file, and so on.
sub _path_of {
    my ($worlds, @kinds) = @_;
    my @paths = grep { $_ ne '' } map { @{ $worlds->{of}{$_} || [] } } @kinds;
    return @paths && $worlds->number(4) ? $worlds->pick(@paths) : $worlds->path;
}

# Mostly a directory in which something stands.
sub jail { return $_[0]->_path_of('full') }

# A number of lines, each of one of some processes.
sub requests {
    my ($worlds, $count, @processes) = @_;
    return map { $worlds->pick(@processes) . ' ' . $worlds->_request . "\n" } 1 .. $count;
}

sub _request {
    my ($worlds) = @_;
    my @requests = (@REQUESTS, $worlds->{further} ? @MORE : (), $worlds->uses ? @WITHOUT_PATH : ());
    push @requests, @OPENING_REQUESTS if $worlds->opens;
    push @requests, (@FILE_REQUESTS) x 2 if $worlds->files;
    push @requests, (@ROOT_REQUESTS) x 2 if $worlds->roots;
    push @requests, @MOUNT_REQUESTS if $worlds->{of}{mount};
    my $request = $worlds->pick($worlds->number($SELDOM_IN) ? @requests : @SELDOM);
    $request =~ s/([A-Z]+)/$worlds->_drawn($1)/ge;
    $request =~ s{ /[^/ ]+(?=/)}{ } if $worlds->roots && $worlds->number(3) == 0;
    return $request;
}

# Lines of one process that belong together, without the end of the last.
sub _stretch {
    my ($worlds, $asker) = @_;
    my @stretches
        = $worlds->roots && $worlds->number(3) ? @ROOT_STRETCHES
        : $worlds->files && $worlds->number(3) ? @FILE_STRETCHES : @STRETCHES;
    my $lines = $worlds->pick(@stretches);
    $lines =~ s/ASKER/$asker/g;
    my %drawn;
    $lines =~ s/([A-Z]+)/$worlds->_drawn_once($1, \%drawn)/ge;
    return "$lines\n";
}

# What is drawn for a word, the same as before, if it was; and beside a directory JAIL for a path in it, as it is from there,
# or for a directory in it or itself.
sub _drawn_once {
    my ($worlds, $word, $drawn) = @_;
    return $drawn->{$word} if exists $drawn->{$word};
    return $drawn->{$word} = $worlds->_drawn($word) if $word !~ /\A(?:INSIDE|WITHIN)\z/;
    my $jail = $worlds->_drawn_once('JAIL', $drawn);
    my @paths = $word eq 'INSIDE' ? @{ $worlds->{paths} } : @{ $worlds->{of}{dir} };
    my @inside = map { m{\A\Q$jail\E(/.+)}s ? $1 : () } @paths;
    return $drawn->{$word} = @inside && $worlds->number(6) ? $worlds->pick(@inside) : '/';
}

# The calls that there are by the rules of the worlds.
sub calls { return (@CALLS, $_[0]{further} ? @FURTHER : ()) }

# One of some lists of promises, by rules with further calls mostly with the promises of some of these.
sub promises {
    my ($worlds, @lists) = @_;
    my $list = $worlds->pick(@lists);
    return $list if !$worlds->{further} || $list =~ /\A[-=]\z/;
    my @more = $worlds->number(3) ? $worlds->pick('unix', 'dpath', 'unix,dpath,chown') : ();
    push @more, $worlds->pick(@BESIDE) if $worlds->opens && $worlds->number(3);
    push @more, $worlds->pick(@PASSING) if $worlds->files && $worlds->number(3);
    push @more, 'id' if $worlds->roots && $worlds->number(3) == 0;
    return join ',', $list, @more;
}

# Whether by the rules of the worlds promises open paths, and scripts ask for these.
sub opens { return $_[0]{further} && $_[0]{openings} }

# Whether scripts are about descriptors, and about roots.
sub files { return $_[0]{further} && $_[0]{files} }
sub roots { return $_[0]{further} && $_[0]{roots} }

# Whether scripts have calls without a path, and what one asks for.
sub uses { return $_[0]{further} && !$_[0]{paths_alone} }
sub used { return $_[0]->pick(@USED) }

# What is drawn for a word, or the word itself.
sub _drawn {
    my ($worlds, $word) = @_;
    return
          $word eq 'PATH'         ? $worlds->path
        : $word eq 'HIGH'         ? $worlds->_high_path
        : $word eq 'TARGET'       ? $worlds->_target
        : $word eq 'CALL'         ? $worlds->pick($worlds->calls)
        : $word eq 'DIR'          ? $worlds->_path_of('dir')
        : $word eq 'LEAF'         ? $worlds->_path_of('leaf')
        : $word eq 'JAIL'         ? $worlds->jail
        : $word eq 'MOUNT'        ? $worlds->_path_of('mount')
        : $word eq 'PROG'         ? $worlds->_path_of('prog')
        : $word eq 'FILE'         ? $worlds->_path_of(qw(file any sock fifo dev prog link hard))
        : $word eq 'NEW'          ? $worlds->_new_path
        : $word eq 'PERMISSIONS'  ? $worlds->pick(@PERMISSIONS)
        : $word eq 'MILD'         ? $worlds->promises(@MILD)
        : $word eq 'LAST'         ? $worlds->promises(@LAST)
        : $word eq 'EXECPROMISES' ? $worlds->promises(@EXECPROMISES)
        : $word eq 'SET'          ? $worlds->promises(grep { $_ ne '-' } @EXECPROMISES)
        : $word eq 'NAME'         ? $worlds->name
        : $word eq 'USED'         ? $worlds->used
        : $word eq 'OPENING'      ? $worlds->opened_call
        : $word eq 'OPENED'       ? $worlds->_opened_path
        : $word eq 'OPENERS'      ? $worlds->pick(@OPENERS)
        : $word eq 'CHILD'        ? $worlds->pick(3, 4)
        : $word eq 'ANYONE'       ? $worlds->pick(1, 1, 2, 2, 3, 4)
        : $word eq 'OPEN'         ? $worlds->pick(@OPENS)
        : $word eq 'FD'           ? $worlds->pick(@FDS)
        :                           $word;
}

# The text of a random script over the last listing. In %$how, all of it optional:
# - veils: how many veils process 1 puts first (0 to 3);
# - locks: whether it locks itself then, before it forks process 2. Where this isn't given it is so in one of three
#   scripts, and in half of them process 2 is there before the veils, which it hasn't then;
# - lines: how many lines follow (4 to 11, and before them some more, and some that belong together);
# - askers: a list of the processes that make them (1 and 2, and seldom 3);
# - ends: whether 1 and 2 may pledge and lock at the end (yes).
sub script {
    my ($worlds, $how) = @_;
    my $veils = defined $how->{veils} ? $how->{veils} : $worlds->number(4);
    my $is_early = !defined $how->{locks} && $worlds->number(2);
    my $locks = defined $how->{locks} ? $how->{locks} : $worlds->number(3) == 0;
    my $lines = defined $how->{lines} ? $how->{lines} : 4 + $worlds->number(8);
    my @askers = $how->{askers} ? @{ $how->{askers} } : ((1) x 6, (2) x 6, 3);
    my @script = map { $worlds->_veil(1) } 1 .. $veils;
    push @script, $worlds->_lock(1) if $locks;
    $is_early ? unshift @script, "1 fork 2\n" : push @script, "1 fork 2\n";
    for (defined $how->{lines} ? () : (1, 2)) {
        push @script, $worlds->requests(2 + $worlds->number(3), @askers), $worlds->_stretch($worlds->pick(1, 2));
        push @script, $worlds->_opening_stretch($worlds->pick(1, 2)) if $worlds->opens && $worlds->number(2);
        push @script, $worlds->_stretch($worlds->pick(1, 2)) if $worlds->roots;
    }
    push @script, $worlds->requests($lines, @askers);
    push @script, map { $worlds->_end($_) } 1, 2 if !defined $how->{ends} || $how->{ends};
    return join '', @script;
}

# What process 2, which sees all, does with a directory at which others have put veils, or in its place.
my @MOVES = (
    '2 rmdir DIRECTORY', "2 rmdir DIRECTORY\n2 mkdir DIRECTORY", "2 rmdir DIRECTORY\n2 create DIRECTORY",
    '2 rename DIRECTORY NEW', "2 rename DIRECTORY NEW\n2 mkdir DIRECTORY", '2 rename NEW DIRECTORY',
    "2 unlink DIRECTORY\n2 mkdir DIRECTORY", '2 mkdir DIRECTORY',
);

# The text of a script in which process 2 moves, takes away and makes again that on which 1 and 3 have veils.
sub moving_script {
    my ($worlds) = @_;
    my @script = ("1 fork 2\n", "1 fork 3\n");
    for (1 .. 6) {
        my $path = $worlds->pick($worlds->_path_of('dir'), ($worlds->_path_of('leaf')) x 3, $worlds->_new_path);
        my $move = $worlds->pick(@MOVES);
        $move =~ s/DIRECTORY/$path/g;
        $move =~ s/NEW/$worlds->_new_path/e;
        push @script, $worlds->pick(1, 1, 3) . " unveil $path " . $worlds->pick(@PERMISSIONS) . "\n", "$move\n";
        push @script, $worlds->requests(1, 1, 3);
    }
    return join '', @script, map { $worlds->_end($_) } 1, 3;
}

# A line by which a process puts a veil, often on much.
sub _veil {
    my ($worlds, $process) = @_;
    my $path = $worlds->pick($worlds->path, ($worlds->_new_path) x 2, ($worlds->_high_path) x 4);
    return "$process unveil $path " . $worlds->pick(@PERMISSIONS) . "\n";
}

# A line after which a process can put no veil any more, if it is alive.
sub _lock {
    my ($worlds, $process) = @_;
    return "$process unveil - -\n" if $worlds->number(3);
    return "$process pledge stdio,rpath,wpath,cpath,fattr,exec,proc -\n";
}

# The last lines of a process, some of which leave it fewer promises.
sub _end {
    my ($worlds, $process) = @_;
    return if $worlds->number(3) == 0;
    my @lines;
    push @lines, $worlds->_veil($process) if $worlds->number(3) == 0;
    push @lines, "$process unveil - -\n" if $worlds->number(3) == 0;
    push @lines, "$process pledge " . $worlds->promises(@LAST) . ' ' . $worlds->promises(@EXECPROMISES) . "\n"
        if $worlds->number(3);
    return @lines;
}

# The rules by which a script can be read: OpenBSD's alone where it has a call of theirs.
sub rules_of {
    my ($script) = @_;
    my $further = join '|', @FURTHER, qw(uses hold close fchdir take chroot);
    return $script =~ /^[0-9]+ (?:$further) /m ? ('openbsd') : ('profile', 'openbsd');
}

# The text of a random table of calls: rows of two or three of the calls.
sub table {
    my ($worlds) = @_;
    my %rows;
    for (0 .. 2) {
        my @sets = map { qq("$_") } map { $worlds->pick(@SETS) } 0 .. $worlds->number(3);
        $rows{ $worlds->pick($worlds->calls, 'symlink') } = [ join(', ', @sets), $worlds->pick(qw(r w x c rw rc wc), '') ];
    }
    return join '', map { "[$_]\npromises = [$rows{$_}[0]]\nveil = \"$rows{$_}[1]\"\n" } sort keys %rows;
}

# The directory in which the program is run; it goes when the test ends.
my $room;

# The program that a test is about: the one that its words name, or else the one that the gate has built.
sub program_in {
    my ($named) = @_;
    my $here = File::Basename::dirname(File::Spec->rel2abs(__FILE__));
    my $program = File::Spec->rel2abs(defined $named ? $named : "$here/../../crates/pua/out/pua");
    -x $program or die "$program: no such program; name one\n";
    return $program;
}

# Runs a program once, without a shell, in a directory that has some files by their names and texts: its
# status, and what it wrote on its two outputs.
sub answer_of {
    my ($program, $files, @words) = @_;
    _write(_room() . "/$_", $files->{$_}) for sort keys %$files;
    return answer_in(_room(), $program, @words);
}

# Runs a program once, without a shell, in a directory: its status, and what it wrote on its two outputs.
sub answer_in {
    my ($folder, $program, @words) = @_;
    my ($out, $err) = map { _room() . "/$_" } '.out', '.err';
    my $child = fork;
    die "fork: $!" unless defined $child;
    _become($folder, $out, $err, $program, @words) if !$child;
    waitpid $child, 0;
    my $status = $? & 127 ? 128 + ($? & 127) : $? >> 8;
    return ($status, content($out), content($err));
}

# The directory for files and outputs.
sub _room {
    $room = tempdir(CLEANUP => 1) unless defined $room;
    return $room;
}

# Runs the program in place of this process.
sub _become {
    my ($folder, $out, $err, $program, @words) = @_;
    chdir $folder or POSIX::_exit(99);
    open STDIN,  '<', File::Spec->devnull or POSIX::_exit(99);
    open STDOUT, '>', $out                or POSIX::_exit(99);
    open STDERR, '>', $err                or POSIX::_exit(99);
    { no warnings 'exec'; exec {$program} $program, @words }
    POSIX::_exit(99);
}

sub _write {
    my ($name, $text) = @_;
    open my $out, '>:raw', $name or die "$name: $!";
    print $out $text or die "$name: $!";
    close $out or die "$name: $!";
    return;
}

# The texts of a world, for a diagnostic: each file under its name, and the command.
sub worlds_told {
    my ($files, @words) = @_;
    return join '', "pua @words\n", map { "--- $_\n$files->{$_}" } sort keys %$files;
}

1;
