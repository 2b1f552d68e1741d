#!/usr/bin/perl
# Tests of keep.pl: PUA=PROGRAM perl tools/keep.t
#
# A sandbox is kept, then changed as a mistake changes it, and what keep.pl -c prints has to name
# what came of it: over three daemons that stand here, and over some of examples/.
use strict;
use warnings;
use Cwd qw(abs_path);
use FindBin qw($Bin);
use lib "$Bin/lib";
use Test::More;
use Tried;

plan skip_all => 'it asks pua: PUA=PROGRAM perl tools/keep.t' unless defined $ENV{PUA};

my $KEEP     = abs_path("$Bin/keep.pl");
my $EXAMPLES = abs_path("$Bin/../examples");
my $PUA      = abs_path($ENV{PUA});
enter_room();

sub keep { return ran($KEEP, { perl => [] }, '-p', $PUA, @_) }

# A front end of a web server that starts a command for each question, which asks a daemon.
my %front = (listing => <<'END', script => <<'END_SCRIPT');
tree 1
0 dir
1 dir 0 etc
2 file 1 hosts
3 file 1 spwd.db
4 dir 0 usr
5 prog 4 bgpctl
6 prog 4 bgpd
7 dir 0 run
8 file 7 bgpd.sock
9 file 7 front.sock
END
1 unlink /run/front.sock
1 bind /run/front.sock
1 unveil /usr/bgpctl x
1 pledge stdio,rpath,unix,proc,exec -
1 fork 2
2 pledge stdio,rpath,exec -
2 exec /usr/bgpctl
2 pledge stdio,rpath,wpath,cpath,unix,inet -
2 pledge stdio,unix -
2 connect /run/bgpd.sock
2 pledge stdio -
END_SCRIPT

# A client of repositories: a parser, a process that starts a program for each fetch, and a main
# process that ends.
my %cache = (listing => <<'END', script => <<'END_SCRIPT');
tree 2
0 dir
1 dir 0 bin
2 prog 1 openrsync
3 dir 0 db
4 dir 3 rpki
5 file 4 openbgpd
6 file 3 ntpd.drift
7 dir 0 etc
8 file 7 master.passwd
9 file 7 skiplist
10 dir 0 cache
11 dir 10 rrdp
12 file 11 a.mft
13 dir 10 valid
14 file 13 a.mft
END
1 pledge stdio,rpath,wpath,cpath,inet,fattr,proc,exec,unveil -
1 fork 2
2 chdir /cache
2 unveil . r
2 pledge stdio,rpath -
2 open-r rrdp/a.mft
1 fork 3
3 pledge stdio,rpath,proc,exec,unveil -
3 unveil /bin/openrsync x
3 pledge stdio,proc,exec -
3 fork 4
4 pledge stdio,exec -
4 exec /bin/openrsync
4 create /cache/rrdp/b.roa
1 pledge stdio,rpath,wpath,cpath,fattr,unveil -
1 open-r /etc/skiplist
1 unveil /db/rpki rwc
1 unveil /cache rwc
1 pledge stdio,rpath,wpath,cpath,fattr -
1 chdir /cache
1 rename rrdp/a.mft valid/a.mft
1 exit
END_SCRIPT

# A locker of mailboxes, whose last line is refused: its process is killed.
my %spool = (listing => <<'END', script => <<'END_SCRIPT');
tree 1
0 dir
1 dir 0 etc
2 file 1 spwd.db
3 dir 0 mail
4 file 3 alice
5 file 3 bob
6 link 3 carol.lock ../etc/spwd.db
END
1 unveil /mail rwc
1 pledge stdio,rpath,wpath,cpath,fattr -
1 lstat /mail/bob.lock
1 readlink /mail/carol.lock
1 create /mail/bob.lock
1 unlink /mail/bob.lock
1 unveil /etc r
1 open-r /mail/bob
END_SCRIPT

# The files of an example.
sub example {
    my ($name) = @_;
    return map { $_ => content("$EXAMPLES/$name/$_") } qw(listing script);
}

my %daemons = (
    front => \%front, cache => \%cache, spool => \%spool,
    map { $_ => { example($_) } } qw(cgi-server log-daemon separated-pair socket-server),
);

# What is kept of each.
for my $name (sort keys %daemons) {
    file("$name.$_", split /\n/, $daemons{$name}{$_}) for qw(listing script);
    my @files = ("$name.listing", "$name.script");
    my ($status, $out, $err) = keep(@files);
    is("$status $err", '0 ', "$name: it is kept");
    file("$name.kept", split /\n/, $out);
    is_deeply([keep('-c', "$name.kept", @files)], [0, '', ''], "$name: nothing has changed");
}

is_deeply([grep { /\Aobjects 2 before|\Arun 2: exec/ } split /\n/, content('front.kept')], [
    'run 2: exec /usr/bgpctl: ok',
    (map { "objects 2 before pledge 1: $_" } 'process alive', 'rules openbsd',
        'promises exec,proc,rpath,stdio,unix', 'execpromises -', 'unveil given-up',
        'opening /dev/null open-r,open-w,open-rw', 'opening /etc/localtime stat,open-r',
        'opening /usr/share/zoneinfo/ open-r', 'veil /usr/bgpctl x', 'prog /usr/bgpctl exec'),
    (map { "objects 2 before exec 1: $_" } 'process alive', 'rules openbsd',
        'promises exec,rpath,stdio', 'execpromises -', 'unveil given-up',
        'opening /dev/null open-r,open-w,open-rw', 'opening /etc/localtime stat,open-r',
        'opening /usr/share/zoneinfo/ open-r', 'veil /usr/bgpctl x', 'prog /usr/bgpctl exec'),
    'objects 2 before pledge 2: unrestricted',
    grep { /\Aobjects 2 before pledge [34]: / } split /\n/, content('front.kept'),
], 'each line has its process, and a list as it was the process and what ended it');

# What changes, in the script or in the listing, and lines that -c has to print then. Where it is
# `midway`, it is over at the end: neither the lists at the end nor those for ever have it.
sub changed {
    my ($name, $what, $where, $from, $to, @wanted) = @_;
    my $midway = @wanted && $wanted[0] eq 'midway' ? shift @wanted : '';
    my $text = $daemons{$name}{$where};
    my $count = () = $text =~ /^\Q$from\E$/mg;
    is($count, 1, "$name: $what: the line is there") or return;
    $text =~ s/^\Q$from\E\n/$to eq '' ? '' : "$to\n"/me;
    file($where, split /\n/, $text);
    my @files = map { $_ eq $where ? $_ : "$name.$_" } qw(listing script);
    my ($status, $out, $err) = keep('-c', "$name.kept", @files);
    is("$status $err", '1 ', "$name: $what: the status");
    my %printed = map { $_ => 1 } split /\n/, $out;
    my @lacking = grep { !$printed{$_} } @wanted;
    is_deeply(\@lacking, [], "$name: $what") or diag $out;
    my @at_end = $out =~ /^[-+](?:objects|ever) [0-9]+: .*/mg;
    is_deeply(\@at_end, [], "$name: $what: it is over at the end") if $midway;
    return;
}

my @changes = (
    # A pledge that is lost, or has a promise more.
    ['front', 'the child keeps all promises until its exec', 'script',
        '2 pledge stdio,rpath,exec -', '2 pledge stdio,rpath,unix,proc,exec -', 'midway',
        '-run 2: pledge stdio,rpath,exec -: ok', '+run 2: pledge stdio,rpath,unix,proc,exec -: ok',
        '-objects 2 before exec 1: promises exec,rpath,stdio',
        '+objects 2 before exec 1: promises exec,proc,rpath,stdio,unix'],
    ['front', 'the first of two pledges has a promise more', 'script',
        '2 pledge stdio,rpath,wpath,cpath,unix,inet -',
        '2 pledge stdio,rpath,wpath,cpath,fattr,unix,inet -', 'midway',
        '-objects 2 before pledge 3: file /etc/spwd.db '
            . 'stat,lstat,open-r,open-w,open-rw,create,unlink,connect,create-rw',
        '+objects 2 before pledge 3: file /etc/spwd.db '
            . 'stat,lstat,open-r,open-w,open-rw,create,unlink,chmod,connect,chown,create-rw,fchmod,fchown'],
    ['front', 'the second of them has one', 'script', '2 pledge stdio,unix -',
        '2 pledge stdio,rpath,unix -', 'midway',
        '+objects 2 before pledge 4: file /etc/spwd.db stat,lstat,open-r,connect'],
    ['front', 'the last pledge is lost', 'script', '2 pledge stdio -', '',
        '+objects 2: promises stdio,unix', '+objects 2: file /etc/spwd.db connect',
        '+ever 2: file /etc/spwd.db connect'],
    ['front', 'the parent may write', 'script', '1 pledge stdio,rpath,unix,proc,exec -',
        '1 pledge stdio,rpath,wpath,unix,proc,exec -',
        '+objects 1: promises exec,proc,rpath,stdio,unix,wpath'],
    ['front', 'the parent never pledges', 'script', '1 pledge stdio,rpath,unix,proc,exec -', '',
        '+objects 1: promises -', '+objects 1: unveil open',
        '-ever 1: prog /usr/bgpctl exec', '+objects 2 before pledge 1: promises -'],
    ['cache', 'the first pledge has a promise more', 'script',
        '1 pledge stdio,rpath,wpath,cpath,inet,fattr,proc,exec,unveil -',
        '1 pledge stdio,rpath,wpath,cpath,inet,fattr,unix,proc,exec,unveil -', 'midway',
        '+objects 1 before pledge 2: file /etc/master.passwd '
            . 'stat,lstat,open-r,open-w,open-rw,create,unlink,chmod,connect,chown,create-rw,fchmod,fchown',
        '+objects 2 before pledge 1: promises '
            . 'cpath,exec,fattr,inet,proc,rpath,stdio,unix,unveil,wpath'],
    ['cache', 'the parser may write', 'script', '2 pledge stdio,rpath -',
        '2 pledge stdio,rpath,wpath -', '+objects 2: promises rpath,stdio,wpath'],
    ['cache', 'the fetcher may read', 'script', '3 pledge stdio,proc,exec -',
        '3 pledge stdio,rpath,proc,exec -', '+objects 3: promises exec,proc,rpath,stdio'],
    ['cache', 'its first pledge is lost', 'script', '3 pledge stdio,rpath,proc,exec,unveil -', '',
        'midway', '-objects 3 before pledge 2: promises exec,proc,rpath,stdio,unveil',
        '+objects 3 before unveil 1: file /etc/master.passwd '
            . 'stat,lstat,open-r,open-w,open-rw,create,unlink,chmod,chown,create-rw,fchmod,fchown'],
    ['cache', 'its child keeps proc before its exec', 'script', '4 pledge stdio,exec -',
        '4 pledge stdio,proc,exec -', 'midway',
        '+objects 4 before exec 1: promises exec,proc,stdio'],
    ['cache', 'the main process keeps what it asks of files', 'script',
        '1 pledge stdio,rpath,wpath,cpath,fattr -', '', 'midway',
        '+objects 1 before its end: unveil open', '-objects 1 before its end: unveil given-up'],
    ['spool', 'the process that is killed held one promise more', 'script',
        '1 pledge stdio,rpath,wpath,cpath,fattr -',
        '1 pledge stdio,rpath,wpath,cpath,fattr,chown -',
        'midway', '+objects 1 before its end: promises chown,cpath,fattr,rpath,stdio,wpath'],
    ['separated-pair', 'so that a process is killed no more', 'script',
        '2 pledge stdio,rpath,cpath -', '2 pledge stdio,rpath,wpath,cpath -',
        '-run 2: open-w /run/sock: killed', '+run 2: open-w /run/sock: ok',
        '-objects 2: process ended', '+objects 2: promises cpath,rpath,stdio,wpath'],

    # Execpromises.
    ['cgi-server', 'the program may change modes', 'script',
        '1 pledge stdio,rpath,proc,exec stdio,rpath,wpath,cpath',
        '1 pledge stdio,rpath,proc,exec stdio,rpath,wpath,cpath,fattr',
        '+objects 1: execpromises cpath,fattr,rpath,stdio,wpath',
        '+objects 2: promises cpath,fattr,rpath,stdio,wpath'],
    ['cgi-server', 'the program has no sandbox', 'script',
        '1 pledge stdio,rpath,proc,exec stdio,rpath,wpath,cpath',
        '1 pledge stdio,rpath,proc,exec -',
        '+objects 1: execpromises -', '+objects 2: unrestricted', '+ever 1: exec open'],
    ['separated-pair', 'execpromises of a process that was killed', 'script',
        '2 pledge stdio,exec stdio,rpath,wpath,cpath',
        '2 pledge stdio,exec stdio,rpath,wpath,cpath,inet', 'midway',
        '+objects 2 before exec 1: execpromises cpath,inet,rpath,stdio,wpath',
        '+objects 2 before pledge 2: promises cpath,inet,rpath,stdio,wpath'],

    # Veils, letters, locks.
    ['front', 'the veil has a letter more', 'script', '1 unveil /usr/bgpctl x',
        '1 unveil /usr/bgpctl rx', '+objects 1: prog /usr/bgpctl stat,lstat,open-r,exec'],
    ['front', 'the veil is wider', 'script', '1 unveil /usr/bgpctl x', '1 unveil /usr x',
        '+objects 1: veil /usr x', '+objects 1: prog /usr/bgpd exec',
        '+objects 2 before exec 1: prog /usr/bgpd exec'],
    ['front', 'the veil is lost', 'script', '1 unveil /usr/bgpctl x', '',
        '+objects 1: no veils', '+objects 1: prog /usr/bgpd stat,lstat,open-r,exec',
        '-objects 1 before unveil 1: unrestricted',
        '+objects 1: file /run/bgpd.sock stat,lstat,open-r,connect'],
    ['cache', 'the parser sees its veil lost', 'script', '2 unveil . r', '',
        '+objects 2: no veils', '+objects 2: file /etc/master.passwd stat,lstat,open-r'],
    ['cache', 'the process that ended had a wider veil', 'script', '1 unveil /db/rpki rwc',
        '1 unveil /db rwc', 'midway', '+objects 1 before pledge 3: veil /db rwc',
        '+objects 1 before its end: file /db/ntpd.drift '
            . 'stat,lstat,open-r,open-w,open-rw,create,unlink,chmod,chown,create-rw,fchmod,fchown'],
    ['cache', 'a veil more', 'script', '1 unveil /cache rwc',
        "1 unveil /cache rwc\n1 unveil /etc r", 'midway',
        '+run 1: unveil /etc r: ok', '+objects 1 before its end: veil /etc r',
        '+objects 1 before its end: file /etc/master.passwd stat,lstat,open-r,fchmod,fchown'],
    ['cache', 'a veil for a while, which a second one on its place narrows', 'script',
        '1 unveil /cache rwc',
        "1 unveil /etc rw\n1 chdir /cache\n1 unveil /etc =\n1 unveil /cache rwc",
        'midway', '+objects 1 before unveil 3: veil /etc rw',
        '+objects 1 before its end: veil /etc ='],
    ['log-daemon', 'the veil on /dev can create', 'script', '1 unveil /dev rw', '1 unveil /dev rwc',
        '+objects 1: veil /dev rwc'],
    ['log-daemon', 'the lock is lost, and unveil kept', 'script', '1 pledge stdio,rpath,wpath -',
        '1 pledge stdio,rpath,wpath,unveil -', '-objects 1: promises rpath,stdio,wpath'],
    ['log-daemon', 'the lock is lost', 'script', '1 unveil - -', '',
        '-objects 1: unveil locked', '+objects 1: unveil given-up'],
    ['socket-server', 'the lock comes too early', 'script', '1 unveil /run rwc',
        "1 unveil - -\n1 unveil /run rwc", '+run 1: unveil /run rwc: EPERM',
        '-objects 1: veil /run rwc',
        '-objects 1: file /run/bgpd.rsock stat,lstat,open-r,unlink,connect'],
    ['socket-server', 'a letter more, on what is removed', 'script', '1 unveil /cgi-bin rx',
        '1 unveil /cgi-bin rxc', '+objects 1: prog /cgi-bin/search stat,lstat,open-r,unlink,exec'],

    # Where a process is, what it opens, and in which order.
    ['cache', 'the parser goes elsewhere', 'script', '2 chdir /cache', '2 chdir /',
        '+objects 2: veil / r', '+objects 2: file /etc/master.passwd stat,lstat,open-r'],
    ['cache', 'the parser goes nowhere', 'script', '2 chdir /cache', '', '+objects 2: veil / r'],
    ['cache', 'what is opened before the veils', 'script', '1 open-r /etc/skiplist',
        '1 open-rw /etc/master.passwd', 'midway', '+run 1: open-rw /etc/master.passwd: ok'],
    ['cache', 'another name is lost by a rename', 'script', '1 rename rrdp/a.mft valid/a.mft',
        '1 rename rrdp/a.mft /db/rpki/openbgpd', 'midway',
        '-run 1: rename rrdp/a.mft valid/a.mft: ok',
        '+run 1: rename rrdp/a.mft /db/rpki/openbgpd: ok'],
    ['front', 'another program', 'script', '2 exec /usr/bgpctl', '2 exec /usr/bgpd',
        '+run 2: exec /usr/bgpd: ENOENT', '-objects 2: promises stdio'],
    ['front', 'the pledge comes after the fork', 'script', '1 pledge stdio,rpath,unix,proc,exec -',
        "1 fork 3\n1 pledge stdio,rpath,unix,proc,exec -", '+run 1: fork 3: ok',
        '+objects 3: prog /usr/bgpctl exec', '+objects 3: unveil open'],
    ['spool', 'the end is no longer refused', 'script', '1 open-r /mail/bob', '1 stat /mail/bob',
        '+run 1: stat /mail/bob: gone'],

    # The files.
    ['log-daemon', 'a device more', 'listing', '16 file 15 utmp', "16 file 15 utmp\n17 file 1 bpf",
        '+objects 1: file /dev/bpf stat,lstat,open-r,open-w,open-rw'],
    ['front', 'a daemon is a program no more', 'listing', '5 prog 4 bgpctl', '5 file 4 bgpctl',
        '-objects 1: prog /usr/bgpctl exec', '+run 2: exec /usr/bgpctl: EACCES'],
    ['spool', 'a mailbox is a link', 'listing', '5 file 3 bob', '5 link 3 bob ../etc/spwd.db',
        'midway', '+objects 1 before its end: link /mail/bob lstat,readlink,unlink'],
    ['cache', 'a second name of a secret', 'listing', '14 file 13 a.mft',
        "14 file 13 a.mft\n15 hard 13 key 8",
        '+objects 2: file /cache/valid/key stat,lstat,open-r'],
);
changed(@$_) for @changes;

# Which requests a list is kept before: not within unveils that follow each other, but where one of
# them was refused; and what is no restriction.
{
    file('script', '1 unveil /etc r', '1 unveil /no/such/dir r', '1 unveil /usr r', '1 unveil /run r',
        '1 stat /etc', '1 unveil - -', '1 fork 2', '2 exit', '1 exec /nosuch');
    my ($status, $out, $err) = keep('front.listing', 'script');
    my @headings = do { my %seen; grep { !$seen{$_}++ } $out =~ /^((?:objects|ever)[^:]*): /mg };
    is_deeply(\@headings, ['objects 1 before unveil 1', 'objects 1 before unveil 3',
        'objects 1 before unveil 5', 'objects 1', 'ever 1', 'objects 2 before its end', 'objects 2'],
        'before which requests a list is kept');
    file('script', '1 fork 2', '2 unveil - -', '1 fork 3', '3 pledge - stdio');
    ($status, $out, $err) = keep('front.listing', 'script');
    is(join(' ', $out =~ /^(.*): unrestricted$/mg),
        'objects 1 objects 2 before unveil 1 objects 3 before pledge 1', 'what is not restricted');
    like($out, qr/^objects 2: unveil locked\n(?s:.*)^objects 3: execpromises stdio$/m,
        'a lock and execpromises are restrictions');
    file('script', '1 hold 3 open-r /etc # it stays', '1 fork 2', '2 chroot /etc # a root', '2 take 4 1 3 # and more');
    ($status, $out, $err) = keep('front.listing', 'script');
    like($out, qr{^run 1: hold 3 open-r /etc: ok\nrun 1: fork 2: ok\nrun 2: chroot /etc: ok\nrun 2: take 4 1 3: ok
objects 1: unrestricted\nobjects 2: process alive\n(?s:.*)^objects 2: root /etc open$}m, 'files and roots, of which one is a restriction');
}

# A line that is put in or taken away changes no line but what comes of it.
sub put_in {
    my ($name, $before, $line, @wanted) = @_;
    file('script', split /\n/, $daemons{$name}{script} =~ s/^(?=\Q$before\E$)/$line\n/mr);
    my @kept = keep('-c', "$name.kept", "$name.listing", 'script');
    is_deeply(\@kept, [1, join('', map { "$_\n" } @wanted), ''], "$name: $line, and nothing else");
    return;
}
put_in('front', '1 unlink /run/front.sock', '1 stat /etc', '+run 1: stat /etc: ok');
put_in('cache', '3 fork 4', '1 stat /nosuch', '+run 1: stat /nosuch: ENOENT');
put_in('cache', '1 exit', '1 unveil /nosuch r', '-run 1: exit: ok',
    '+run 1: unveil /nosuch r: killed', '+run 1: exit: gone');
put_in('socket-server', $daemons{'socket-server'}{script} =~ /^(1 pledge .*)/m,
    '1 unveil /nosuch r', '+run 1: unveil /nosuch r: EPERM');

# Its options. The first line has those by which it was made, and -c goes by them.
my @front = ('front.listing', 'front.script');
my @all = split /^/, content('front.kept');
my @ends = grep { !/ before / } @all;
for my $case (['-l', '-l ', @ends], ['-n', '-n ', grep { !/\Aever / } @all],
    ['-ln', '-l -n ', grep { !/\Aever / } @ends]) {
    my ($option, $named, @lines) = @$case;
    my ($status, $out, $err) = keep($option, @front);
    $lines[0] = "kept $named-r openbsd\n";
    is_deeply([split /^/, $out], \@lines, "$option leaves out the others");
    file('kept', split /\n/, $out);
    is_deeply([keep('-c', 'kept', @front)], [0, '', ''], "$option is kept");
}
{
    file('a table', '[stat]', 'promises = ["rpath"]', 'veil = "x"');
    my @files = ('log-daemon.listing', 'log-daemon.script');
    my ($status, $out, $err) = keep('-r', 'profile', '-t', 'a table', @files);
    is("$status $err", '0 ', '-r and -t: the status');
    like($out, qr/\Akept -r profile -t a\\040table\n/, '-r and -t stand in the first line');
    unlike($out, qr/rules openbsd/, '-r: the rules of the profile');
    like($out, qr/^objects 1: file \/etc\/syslog.conf lstat,open-r$/m, '-t: the table');
    file('kept', split /\n/, $out);
    is_deeply([keep('-c', 'kept', @files)], [0, '', ''], '-c: by the same rules and table');
    unlink 'a table';
    ($status, $out, $err) = keep('-c', 'kept', @files);
    is("$status $out", '2 ', '-c: the table is gone');
    is($err, "pua: cannot read a table\nkeep.pl: $PUA objects ended with 3\n", '-c: it is said');
}

# Wrong words, and what goes wrong.
for my $words ([], ['front.listing'], [@front, 'front.script'], ['-?'], ['-r', 'linux', @front],
    ['-r', '', @front], ['-c', '', @front], ['-c', 'front.kept', '-l', @front], ['-p', '', @front],
    ['-c', 'front.kept', '-r', 'openbsd', @front], ['', 'front.script']) {
    my ($status, $out, $err) = ran($KEEP, { perl => [] }, @$words);
    is("$status $out", '2 ', "wrong words: @$words");
    like($err, qr/^usage: keep\.pl \[-ln\] .* TREE SCRIPT\n\z/m, "wrong words: @$words: usage");
}
sub fails {
    my ($what, $words, $said) = @_;
    my ($status, $out, $err) = keep(@$words);
    is("$status $out", '2 ', "$what: the status");
    like($err, qr/\A$said\z/, "$what: it is said");
    return;
}
my $ended = qr/keep\.pl: \Q$PUA\E objects ended with 1\n/;
file('bad', '1 open /etc/hosts');
fails('a bad script', ['front.listing', 'bad'], qr/pua: script: line 1: bad call\npua: no call "open" by these rules\n$ended/);
fails('a script that is not there', ['front.listing', 'no'],
    qr/pua: cannot read no\nkeep\.pl: .* ended with 3\n/);
fails('a file that was not kept', ['-c', 'front.script', @front],
    qr/keep\.pl: front\.script: it is nothing that keep\.pl made\n/);
fails('a file that is not there', ['-c', 'no', @front], qr/keep\.pl: no: .+\n/);
fails('a program that is not there', ['-p', './no', @front], qr/keep\.pl: \.\/no: .+\n/);
file('kept', 'kept -r openbsd -x');
fails('an option that it does not know', ['-c', 'kept', @front], qr/(?:.*\n)?keep\.pl: kept: .*\n/);
file('free', map { ("[$_]", 'promises = ["cpath"]', 'veil = ""') } 'unlink');
fails('a table by which there is no list for ever', ['-t', 'free', @front],
    qr/pua: table: unlink: no c\n$ended/);
is((keep('-n', '-t', 'free', @front))[0], 0, 'but one for now');
SKIP: {
    skip 'there is no /dev/full', 1 unless -w '/dev/full';
    is(system("$^X $KEEP -p $PUA @front > /dev/full 2> err") >> 8, 2, 'a full disk');
}
is_clean($KEEP, '-wc');
helps($KEEP, 'Prints what to keep under version control');
done_testing;
