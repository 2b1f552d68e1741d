#!/usr/bin/perl
# Tests of glance.pl: perl tools/glance.t
use strict;
use warnings;
use FindBin qw($Bin);
use lib "$Bin/lib";
use Test::More;
use Tried;

my $GLANCE = "$Bin/glance.pl";
enter_room();

# Runs glance.pl with these words and, as its input, the file `list`.
sub glance { return ran($GLANCE, { in => 'list' }, @_) }

# That these lists are told by these lines.
sub tells {
    my ($what, $lists, @lines) = @_;
    file('list', split /\n/, $lists);
    my ($status, $out, $err) = glance();
    is($out, join('', map { "$_\n" } @lines), $what);
    is("$status $err", '0 ', "$what: the status");
    return;
}

is_clean($GLANCE, '-wc', '-Twc');
file('list');
helps($GLANCE, 'Prints at a glance');

# One line a process, whatever its list.
tells('a site', <<'END', 'answers: ENOENT 1, ok 2', 'process 1: veils 1, locked; read 3, written 2, executed 0, made 2, removed 1');
1 ok
2 ENOENT no veil on /x or above since line 1
3 ok by dns
objects 1
process alive
promises cpath,rpath,stdio,wpath
execpromises -
unveil locked
veil /www rwc
dir /www stat,lstat,open-r,chdir
other /www create,mkdir,symlink
file /www/key open-w,open-rw,create,unlink,chmod
file /www/page open-r
file /www/log open-w
missing /www/pid create
END

tells('what no object line shows', <<'END', split /\n/, <<'OUT');
1 killed
2 gone
objects 1
process ended
objects 2
process alive
promises -
execpromises -
unveil open
dir / stat,lstat,open-r,chdir
prog /bin/sh stat,exec
objects 3
process alive
promises exec,proc,stdio
execpromises -
unveil locked
veil /nosuch r
objects 4
process alive
promises exec,stdio
execpromises rpath,stdio
unveil given-up
veil - rwc
objects 5
process alive
promises dns,inet,recvfd,stdio,unix
execpromises -
unveil locked
veil /run rw
veil /var wc
veil /etc r
objects 6
process alive
promises stdio,unix
execpromises -
unveil locked
objects 7
process alive
promises getpw,stdio,tty
execpromises =
unveil locked
objects 8
process alive
promises =
execpromises -
unveil given-up
END
answers: gone 1, killed 1
process 1: ended
process 2: veils 0, open; read 2, written 0, executed 1, made 0, removed 0
    no veils at all: it touches what is not listed too
    it never pledged: it holds all promises
    not locked: it can put further veils
    programs that it starts have no sandbox: 1 can be executed
    connects to each socket, and binds sockets anywhere: no line shows it
process 3: veils 1, locked; read 0, written 0, executed 0, made 0, removed 0
    programs that it starts have no sandbox, though none that is listed can be executed
process 4: veils 1, given-up; read 0, written 0, executed 0, made 0, removed 0
process 5: veils 3, locked; read 0, written 0, executed 0, made 0, removed 0
    takes descriptors from others (recvfd)
    connects to each socket at or below /run, /var: no line shows it
    binds sockets at or below /var: no line shows it
    the network: inet,dns
    opens past the veils /etc/resolv.conf, /etc/hosts, /etc/services, /etc/protocols
process 6: veils 0, locked; read 0, written 0, executed 0, made 0, removed 0
    no veils at all: it touches what is not listed too
    connects to each socket, and binds sockets anywhere: no line shows it
process 7: veils 0, locked; read 0, written 0, executed 0, made 0, removed 0
    opens past the veils /etc/pwd.db, /etc/group, /etc/netid, /var/run/ypbind.lock, /var/yp/binding/
process 8: veils 0, given-up; read 0, written 0, executed 0, made 0, removed 0
OUT

# A list by OpenBSD's rules, with calls on sockets that such lists are to have; one that has none; and lists for ever.
tells('openings and sockets that have lines', <<'END', split /\n/, <<'OUT');
1 ok
objects 1
process alive
rules openbsd
promises dns,stdio,unix
execpromises -
unveil locked
opening /etc/resolv.conf stat,open-r
opening /etc/hosts open-r
opening /dev/null open-r,open-w,open-rw
opening /usr/share/zoneinfo/ open-r
opening /tmp/ create,unlink,create-rw veils
veil /run wc
file /run/d.sock connect
other /run bind
missing /run/ctl bind
objects 2
process alive
rules openbsd
promises stdio,unix
execpromises -
unveil locked
opening /dev/null open-r,open-w,open-rw
opening /etc/localtime stat,open-r
opening /usr/share/zoneinfo/ open-r
no veils
END
answers: ok 1
process 1: veils 1, locked; read 0, written 1, executed 0, made 2, removed 0
    connects, if these are sockets, to /run/d.sock
    binds sockets in /run, /run/ctl
    the network: dns
    opens past the veils /etc/resolv.conf, /etc/hosts
process 2: veils 0, locked; read 0, written 0, executed 0, made 0, removed 0
    no veils at all: it touches what is not listed too
OUT

# What is known to be a socket, and what may be one.
tells('sockets that are known', <<'END', split /\n/, <<'OUT');
objects 1
process alive
rules openbsd
promises unix
execpromises -
unveil locked
veil /run w
veil /srv wc
fifo /run/f chmod
sock /run/a connect
file /run/b connect
sock /run/c chmod,connect
other /srv bind
missing /srv/new bind
END
answers: none
process 1: veils 2, locked; read 0, written 4, executed 0, made 2, removed 0
    connects to /run/a, /run/c
    connects, if these are sockets, to /run/b
    binds sockets in /srv, /srv/new
OUT

# Veils that can be moved below another one.
tells('veils that can be moved', <<'END', split /\n/, <<'OUT');
objects 1
process alive
promises cpath,rpath,stdio
execpromises -
unveil locked
veil /a rwc
veil /a/b/f r
veil /c c
objects 2
process alive
promises cpath,rpath,stdio
execpromises -
unveil locked
veil /a rwc
veil /a/b/f r
veil /c r
objects 3
process alive
promises rpath,stdio
execpromises -
unveil locked
veil /a rwc
veil /c rwc
objects 4
process alive
promises -
execpromises -
unveil locked
veil / rwc
veil /a/b r
veil /ab wc
veil - rwc
objects 5
process alive
rules openbsd
promises cpath,rpath,stdio
execpromises -
unveil locked
veil /in wc
veil /www r
veil /www/tmp rwc
objects 6
process alive
promises cpath,rpath,stdio
execpromises -
unveil locked
veil /run/pid rwc
veil /tmp rwc
missing /run/pid create
END
answers: none
process 1: veils 3, locked; read 0, written 0, executed 0, made 0, removed 0
    can move below another veil, where a kernel may go by the old place: /a, /a/b/f, /c
process 2: veils 3, locked; read 0, written 0, executed 0, made 0, removed 0
process 3: veils 2, locked; read 0, written 0, executed 0, made 0, removed 0
process 4: veils 4, locked; read 0, written 0, executed 0, made 0, removed 0
    it never pledged: it holds all promises
    programs that it starts have no sandbox, though none that is listed can be executed
    connects to each socket at or below /, /ab, -: no line shows it
    binds sockets at or below /, /ab, -: no line shows it
    can move below another veil, where a kernel may go by the old place: /a/b
process 5: veils 3, locked; read 0, written 0, executed 0, made 0, removed 0
    can move below another veil, where a kernel may go by the old place: /www/tmp
process 6: veils 2, locked; read 0, written 0, executed 0, made 1, removed 0
    can move below another veil, where a kernel may go by the old place: /tmp
OUT

tells('lists for ever', <<'END', split /\n/, <<'OUT');
ever 1
process alive
promises cpath,exec,rpath,stdio
execpromises -
unveil locked
exec open
veil /in wc
dir /in chdir
file /in/a stat,unlink
file new open-r
dir new mkdir
prog /in/run exec
ever 2
process alive
promises cpath,exec,stdio
execpromises stdio
unveil locked
exec bounded
veil /in wc
prog /in/run exec
ever 3
process alive
promises exec,rpath,stdio
execpromises -
unveil locked
veil /a r
file /a stat
ever 4
process alive
promises exec,stdio
execpromises -
unveil locked
veil /a x
prog /a exec
END
answers: none
process 1 ever: veils 1, locked; read 3, written 0, executed 1, made 1, removed 1
    the list holds until a program is started
process 2 ever: veils 1, locked; read 0, written 0, executed 1, made 0, removed 0
process 3 ever: veils 1, locked; read 1, written 0, executed 0, made 0, removed 0
process 4 ever: veils 1, locked; read 0, written 0, executed 1, made 0, removed 0
    programs that it starts have no sandbox: 1 can be executed
OUT

# What the help of others adds, and what goes from one to another: several outputs, one after another.
my $STATE = "process alive\nrules openbsd\npromises rpath,stdio\nexecpromises -\nunveil given-up\n";
my $ALONE = "ever 2\n${STATE}veil /cache r\ndir /cache stat,lstat,open-r,chdir\nfile /cache/x stat,lstat,open-r\nlink /cache/l lstat\n";
my $MAIN  = 'stat,lstat,open-r,open-w,open-rw,create,unlink,create-rw';
tells('help of others', <<"END", split /\n/, <<'OUT');
1 ok
2 ok by dns
3 killed
ever 1
${STATE}veil /cache rwc
dir /cache stat,open-r,rmdir
other /cache create
file /cache/x $MAIN
file /cache/y $MAIN
prog /cache/p unlink
link /cache/l lstat,readlink,unlink
file new $MAIN
1 ok
2 ok by dns
3 killed
${ALONE}1 ok
2 ok by dns
3 killed
ever 2 beside 1
${STATE}veil /cache r
file /etc/arin stat,lstat,open-r
dir /cache stat,lstat,open-r,chdir
file /cache/x stat,lstat,open-r
link /cache/l lstat,readlink
dir new stat,open-r
file new stat
1 ok
2 ok by dns
3 killed
ever 2 beside 3,7
${STATE}veil /cache r
dir /cache stat,lstat,open-r,chdir
file /cache/x stat,lstat,open-r
link /cache/l lstat
ever 3 beside 1,2
${STATE}exec open
veil /cache x
file /cache/y stat,open-r
prog /cache/p exec
file /cache/x open-r
ever 2 beside 7
${STATE}veil /cache r
dir /cache stat,lstat,open-r,chdir,rmdir
file /cache/x stat,lstat,open-r
link /cache/l lstat
END
answers: killed 1, ok 2
process 1 ever: veils 1, given-up; read 5, written 3, executed 0, made 1, removed 6
process 2 ever: veils 1, given-up; read 3, written 0, executed 0, made 0, removed 0
process 3 ever beside 1,2: veils 1, given-up; read 2, written 0, executed 1, made 0, removed 0
    the list holds until a program is started
process 2: with 1: 4 lines, 7 calls more
process 2: with 3,7: none more
process 2: with 7: 1 line, 1 call more
prog /cache/p: 3 exec, 1 unlink
dir /cache: 1 open-r, 2 open-r, 1 rmdir, 2 rmdir
file /cache/x: 2 open-r, 3 open-r, 1 open-w,open-rw,create,unlink,create-rw
file /cache/y: 3 open-r, 1 open-w,open-rw,create,unlink,create-rw
link /cache/l: 2 readlink, 1 unlink
OUT

# Things with the same calls are one line, which names the first ones in the order of the lists, in
# whatever directories they are.
{
    my @first = map { "/d$_/f" } reverse 1 .. 9;
    my @late  = ('/a', map { "/d$_/g" } 1 .. 5);
    my $list  = sub {
        my ($process, $calls, @paths) = @_;
        return join "\n", "ever $process", 'process ended', map { "file $_ $calls" } @paths;
    };
    my $list_of_5 = join ', ', @first[0 .. 4];
    file('list', $list->(1, 'unlink', @first), 'prog /d1/p unlink', $list->(2, 'open-r', reverse(@first), @late),
        'prog /d1/p exec', $list->(3, 'chmod', @late, $first[8]), $list->(2, 'stat,readlink', @late[3 .. 5]));
    my ($status, $out, $err) = glance();
    is("$status $err", '0 ', 'many things: the status');
    is(join('', $out =~ /^((?!answers|process).*\n)/mg), <<"END", 'many things: the first ones are named');
prog /d1/p: 2 exec, 1 unlink
file $list_of_5 and 3 more: 2 open-r, 1 unlink
file $first[8]: 2 open-r, 1 unlink, 3 chmod
file /a, /d1/g, /d2/g: 2 open-r, 3 chmod
file /d3/g, /d4/g, /d5/g: 2 readlink,open-r, 3 chmod
END
}

# A process as it was before an exec, and as it is.
tells('images', <<"END", split /\n/, <<'OUT');
1 ok
2 ok
objects 1 before 2
process alive
promises exec,stdio
execpromises -
unveil locked
veil /a rx
prog /a stat,exec
objects 1
process ended
END
answers: ok 2
process 1 before 2: veils 1, locked; read 1, written 0, executed 1, made 0, removed 0
    programs that it starts have no sandbox: 1 can be executed
process 1: ended
OUT

# Many paths, several files, and what the listing lacks.
{
    file('list', 'objects 1', 'process alive', 'promises stdio,unix', 'execpromises -',
        'unveil locked',
        (map { "veil /s$_ w" } 1 .. 7));
    file('other', '1 ok', 'objects 1', 'process ended', 'objects 2', 'process alive',
        'promises =', 'execpromises -', 'unveil locked');
    file('manifest', 'left-out /usr/include', 'passed-over /root', 'left-out /a\\040b',
        'not-all /var', 'not-all /');
    my ($status, $out, $err) = glance('-m', 'manifest', 'list', 'other');
    is($out, <<'END', 'two files, and a manifest');
not in the listing /a\040b, /root, /usr/include
not all listed in /, /var
list:
answers: none
process 1: veils 7, locked; read 0, written 0, executed 0, made 0, removed 0
    connects to each socket at or below /s1, /s2, /s3, /s4, /s5 and 2 more: no line shows it
other:
answers: ok 1
process 1: ended
process 2: veils 0, locked; read 0, written 0, executed 0, made 0, removed 0
END
    is("$status $err", '0 ', 'two files, and a manifest: the status');
    file('manifest');
    is((glance('-m', 'manifest', 'other'))[1], (glance('other'))[1], 'an empty manifest');
}

# What is open stands before all else.
{
    file('list', split /\n/, <<'END');
1 ok
objects 1
process alive
rules openbsd
promises -
execpromises -
unveil open
no veils
held 3 file /tmp/other read,write,chmod,chown
held 3 file /tmp/two read,write,chmod,chown
held 4 dir - read,chdir,chmod,chown
dir / stat
ever 2
process alive
rules openbsd
promises recvfd,rpath
execpromises -
unveil given-up
receive open
veil /etc r
held 0 file - =
dir /etc stat
objects 3
process alive
rules openbsd
promises recvfd,stdio
execpromises -
unveil given-up
no veils
END
    my ($status, $out, $err) = glance('list');
    is($out, <<'END', 'what is open');
answers: ok 1
process 1: veils 0, open; read 1, written 0, executed 0, made 0, removed 0
    holds open /tmp/other (read,write,chmod,chown), /tmp/two (read,write,chmod,chown), a removed dir (read,chdir,chmod,chown)
    no veils at all: it touches what is not listed too
    it never pledged: it holds all promises
    not locked: it can put further veils
    programs that it starts have no sandbox, though none that is listed can be executed
process 2 ever: veils 1, given-up; read 1, written 0, executed 0, made 0, removed 0
    holds open a removed file (=)
    takes descriptors from others: the list holds until it receives one
process 3: veils 0, given-up; read 0, written 0, executed 0, made 0, removed 0
    takes descriptors from others (recvfd)
END
    is("$status $err", '0 ', 'what is open: the status');
}

# The root stands before what is open; a line of it is none of an object.
{
    my @state = ('process alive', 'rules openbsd', 'execpromises -', 'unveil locked', 'veil /srv r');
    file('list', 'objects 1', @state, 'promises rpath,stdio', 'root /srv open', 'held 3 dir / read,chdir', 'dir /srv stat',
        'objects 2', @state, 'promises rpath,stdio', 'root /srv closed', 'dir /srv stat',
        'objects 3', @state, 'promises id,stdio', 'root /srv/www closed',
        'ever 4', @state, 'promises recvfd,rpath,stdio', 'receive open', 'root - open', 'dir /srv stat',
        'objects 5', @state, 'promises -', 'root /srv closed');
    my ($status, $out, $err) = glance('list');
    is($out, <<'END', 'roots');
answers: none
process 1: veils 1, locked; read 1, written 0, executed 0, made 0, removed 0
    has the root /srv, and gets out of it
    holds open / (read,chdir)
process 2: veils 1, locked; read 1, written 0, executed 0, made 0, removed 0
    has the root /srv
process 3: veils 1, locked; read 0, written 0, executed 0, made 0, removed 0
    has the root /srv/www, and can get out of it by a further chroot
process 4 ever: veils 1, locked; read 1, written 0, executed 0, made 0, removed 0
    has a root that was removed, and gets out of it
    takes descriptors from others: the list holds until it receives one
process 5: veils 1, locked; read 0, written 0, executed 0, made 0, removed 0
    has the root /srv, and can get out of it by a further chroot
    it never pledged: it holds all promises
    programs that it starts have no sandbox, though none that is listed can be executed
END
    is("$status $err", '0 ', 'roots: the status');
}

# Regions. A directory begins one where another veil covers it, where its calls are others, and where
# the one that it is in has no line; a veil on a file begins none, and is told with its calls.
{
    file('list', split /\n/, <<'END');
1 ok
objects 1
process alive
rules openbsd
promises cpath,rpath,stdio,wpath
execpromises -
unveil locked
veil / r
veil /etc/key rw
veil /var rwc
veil /a/b/c x
veil - r
dir / stat,open-r
dir /etc stat,open-r
file /etc/hosts stat,open-r
file /etc/key stat,open-r,open-w
file /etc/motd stat,open-r
dir /etc/ssl stat,open-r
file /etc/ssl/cert stat,open-r
link /etc/ssl/old lstat
file /etc/ssl/other stat,open-r
file /motd stat,open-r
dir /var stat,open-r
other /var create
dir /var/empty stat,open-r,rmdir
other /var/empty create
dir /var/log stat,open-r
other /var/log create
file /var/log/a open-w
file /var/log/b open-w
file /var/log/c open-w
file /var/log/d open-w
dir /var/odd stat
file /var/odd/x stat
dir /variant stat,open-r
file /variant/y stat,open-r
file /gone/deep/z stat
prog /a/b/c exec
ever 2
process alive
promises cpath,rpath,stdio
execpromises -
unveil locked
no veils
dir / stat
other / mkdir
missing /x mkdir
dir new stat,rmdir
other new mkdir
link new lstat
objects 3
process ended
END
    my ($status, $out, $err) = glance('-d', 'list');
    is("$status $err", '0 ', '-d: the status');
    is($out, <<'END', '-d: the regions');
answers: ok 1
process 1: veils 5, locked; read 18, written 5, executed 1, made 3, removed 1
    below / (veil r): 12 lines, and regions inside: 1
        6 file stat,open-r
        4 dir stat,open-r
        file stat,open-r,open-w (veil rw): /etc/key
        link lstat: /etc/ssl/old
    below /var (veil rwc): 10 lines, and regions inside: 1
        4 file open-w
        other create: /var, /var/empty, /var/log
        dir stat,open-r: /var, /var/log
        dir stat,open-r,rmdir: /var/empty
    below /var/odd (veil rwc on /var): 2 lines
        dir stat: /var/odd
        file stat: /var/odd/x
    below /gone/deep (veil r on /): 1 line
        file stat: /gone/deep/z
    below /a/b (veil r on /): 1 line
        prog exec (veil x): /a/b/c
process 2 ever: veils 0, locked; read 3, written 0, executed 0, made 3, removed 1
    no veils at all: it touches what is not listed too
    below / (no veil): 3 lines
        dir stat: /
        missing mkdir: /x
        other mkdir: /
    what is made: 3 lines
        dir stat,rmdir
        link lstat
        other mkdir
process 3: ended
END
    my $plain = join '', grep { !/\A {4}(?:below|what is made)|\A {8}/ } split /^/, $out;
    is((glance('list'))[1], $plain, 'without -d there is all else');
}

# Faults: nothing is written, and one line says why.
{
    my $list = file('list', '1 ok', 'objects 1', 'process ended');
    my @faults = (
        [['none'], 'none: No such file or directory'],
        [['.'], '.: it cannot be read'],
        [[file('tree', 'tree 1', '0 dir')], 'tree: line 1: no line of a list of objects'],
        [[file('run', '1 ok')], 'run: it has no list of objects'],
        [[file('tab', "objects\t1")], 'tab: line 1: bad line'],
        [[$list, 'run'], 'run: it has no list of objects'],
        [['-m', file('bad', 'left-out usr'), $list], 'bad: line 1: no line of a manifest'],
        [['-m', 'none', $list], 'none: No such file or directory'],
    );
    is_deeply([glance(@{ $_->[0] })], [1, '', "glance.pl: $_->[1]\n"], "a fault: $_->[1]")
        for @faults;
    my $usage = "usage: glance.pl [-d] [-m MANIFEST] [LIST]...\n";
    for my $words ([''], ['-m', ''], ['-o', 'held', 'list'], ['-q'], ['-m']) {
        my ($status, $out, $err) = glance(@$words);
        is("$status$out", '2', "wrong words: @$words");
        like($err, qr/\Q$usage\E\z/, "wrong words: @$words: the report");
    }
    SKIP: {
        skip 'there is no /dev/full here', 1 unless -c '/dev/full';
        isnt(system("$^X -T $GLANCE $list > /dev/full 2> err"), 0, 'an output that is full');
    }
}

# Each list of the examples is told, with a line for each process that it has.
for my $output (glob "$Bin/../examples/*/*{objects,all,ever}*-output") {
    my $text = content($output);
    my ($status, $out, $err) = glance($output);
    my @processes = $text =~ /^(?:objects|ever) [0-9]+$/mg;
    my @told = $out =~ /^process [0-9]+/mg;
    is("$status $err" . @told, '0 ' . @processes, ($output =~ m{([^/]*/[^/]*)\z})[0]);
    ($status, $out, $err) = glance('-d', $output);
    my @objects = $text =~ m{^(?!veil |opening |root |promises |execpromises )[a-z]+ (?:/\S*|new) \S}mg;
    my ($in_regions, $in_groups) = (0, 0);
    $in_regions += $_ for $out =~ /^    (?:below \S+ \(.*?\)|what is made): ([0-9]+) line/mg;
    for my $group ($out =~ /^ {8}(.*)/mg) {
        $in_groups += $group =~ /\A([0-9]+) /      ? $1
            : $group =~ /: (.*)/ ? scalar split(/, /, $1) : 1;
    }
    is("$in_regions $in_groups", "@{[scalar @objects]} @{[scalar @objects]}", '-d: each line is in one');
}
chdir '/';
done_testing;
