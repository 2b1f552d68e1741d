#!/usr/bin/perl
# Tests of conform.pl: perl tools/conform.t. As root it performs scripts, by perl's calls and, where a C compiler is, by
# conform.c too; without root what needs none.
use strict;
use warnings;
use FindBin qw($Bin);
use lib "$Bin/lib";
use Test::More;
use Tried qw(:DEFAULT may_chroot);

my $CONFORM = "$Bin/conform.pl";
my $room    = enter_room();
chmod 0755, $room;
mkdir "$room/cases" or die "$room/cases: $!\n";

my $helper;
if (system("cc -static -O1 -o '$room/helper' '$Bin/conform.c' > '$room/cc' 2>&1") == 0) { $helper = "$room/helper" }
note defined $helper ? 'with conform.c' : 'without conform.c: cc makes no static program of it';

# Runs conform.pl with these words, as this user or another one.
my ($user, @perl);
sub conform { return ran($CONFORM, { perl => [@perl], user => $user }, @_) }

sub answers { my ($text) = @_; return join ' ', $text =~ /^[0-9]+ (\S+)$/mg }

# What needs no root.
is_clean($CONFORM, '-wc');
my $tree = put('tree', <<'END_TREE');
tree 2
0 dir
1 dir 0 etc
2 file 1 passwd
3 dir 0 tmp
4 link 0 t tmp
5 link 3 up ../etc
6 link 3 self self
7 prog 3 sh
9 hard 3 again 2
END_TREE
my $script = put('script', "1 stat /etc\n");
my @both = ($tree, $script);
for my $words ([], [$tree], [@both, $tree], ['--what', @both], ['--trials'], ['--trials', 'a', 'b'], ['-?'],
    ['--helper', '', @both]) {
    my ($status, $out, $err) = conform(@$words);
    is($status, 2, "wrong words: @$words");
    like($err, qr/usage: conform\.pl .*--trials DIR\n\z/, "wrong words: @$words: the usage");
}
{
    my ($status, $out, $err) = conform('--help');
    is($status, 0, '--help');
    like($out, qr/\APerforms a script of pua\(1\).*^Status 0: .*do not fit\.\n\z/ms, '--help prints the head');
}
if ($> == 0) { $user = 65534 }
{
    my ($status, $out, $err) = conform($tree, $script);
    is("$status $out", '1 ', 'without root');
    is($err, "conform.pl: it has to be root, for chroot(2)\n", 'without root, and it is said');
}
undef $user;
if ($> != 0 || !may_chroot($room)) { note 'no root here: no script is performed'; done_testing; exit }

# That a script is answered so, in each way of making calls.
sub answered {
    my ($what, $listing, $lines, $wanted, @more) = @_;
    my @ways = ([], ['--builtins'], defined $helper ? ['--helper', $helper] : ());
    for my $way (@ways) {
        my ($status, $out, $err) = conform('--room', "$room/cases", @$way, @more, put('t', $listing), put('s', $lines));
        is(answers($out), $wanted, "$what @$way") or diag $err;
        is($status, 0, "$what @$way: the status");
        is(join(' ', glob "$room/cases/*"), '', "$what @$way: nothing is left behind");
    }
    return;
}
my $LISTING = content($tree);
answered('paths', $LISTING, <<'END_SCRIPT', 'ok ok ok ok EINVAL ELOOP ENOTDIR ENOENT ENOENT ENOTDIR');
1 stat /etc/passwd
1 stat /tmp/up/../etc/passwd
1 lstat /t
1 readlink /t
1 readlink /tmp
1 stat /tmp/self
1 stat /etc/passwd/x
1 stat /none
1 stat =
1 stat /etc/passwd/
END_SCRIPT
my $no_open = $^O eq 'linux' ? 'ENXIO' : 'EOPNOTSUPP';    # of a socket
answered('calls', $LISTING, <<'END_SCRIPT', join ' ', ('ok') x 13, 'ENOTEMPTY', ('ok') x 6, 'EADDRINUSE', $no_open);
1 create /new
1 open-r /new
1 open-w /new
1 open-rw /new
1 mkdir /d
1 symlink /etc /d/l
1 rename /new /d/n
1 link /d/n /n
1 chmod /n
1 chown /n
1 chdir /d/l
1 open-r passwd
1 unlink /n
1 rmdir /d
1 unlink /d/l
1 unlink /d/n
1 rmdir /d
1 mknod /f
1 open-r /f
1 bind /s
1 bind /s
1 open-w /s
END_SCRIPT
answered('comments', $LISTING, "# x\n\n1 fork 2  # y\n  \n2 exit #\n1 stat /none\n", 'ok ok ENOENT');
my ($short, $long) = map { 'x' x $_ } 102, 103;
answered('a path for a socket', $LISTING, "1 bind /$long\n1 bind /$short\n1 connect =\n", 'too-long ok ENOENT');
answered('processes', $LISTING, <<'END_SCRIPT', 'ok ok ok ENOENT ok ok ok gone ok ok EAGAIN gone ok ok ok ok');
1 fork 2
2 chdir /etc
2 open-r passwd
1 open-r passwd
2 fork 3
3 open-r passwd
2 exit
2 stat /
3 mkdir x
1 rmdir /etc/x
1 fork 3
9 stat /
3 fork 4
4 stat .
1 exit
3 stat /
END_SCRIPT
answered('programs', $LISTING, <<'END_SCRIPT', 'ok EACCES EACCES ENOENT ok ok ok ok ENOENT ok ok gone ok ok ok gone');
1 exec /tmp/sh
1 exec /etc/passwd
1 exec /tmp
1 exec /none
1 stat /etc
1 fork 2
2 exec /t/sh
2 chdir /etc
1 open-r passwd
2 open-r passwd
2 exit
2 stat /
1 chmod /tmp/sh
1 exec /tmp/sh
1 exit
1 stat /
END_SCRIPT
answered('names', "tree 1\n0 dir\n1 dir 0 a\\040b\n2 file 1 x=\n3 file 1 \\377\\134\n4 file 0 -\n",
    "1 stat /a\\040b/x=\n1 stat a\\040b/\\377\\134\n1 stat ./-\n1 stat -\n1 rename - a\\040b/...\n"
        . join('', map { '1 mkdir ' . 'x' x $_ . "\n" } 255, 256),
    'ok ok ok ok ok ok ENAMETOOLONG');
my $gone = 'ok ok ok ENOENT ok ENOENT ENOENT ok ok ok';
answered('a removed working directory', "tree 1\n0 dir\n1 dir 0 a\n", <<'END_SCRIPT', $gone);
1 fork 2
1 chdir /a
2 rmdir /a
1 create f
2 mkdir /a
1 create f
1 stat /a/f
1 chdir /a
1 create f
2 stat /a/f
END_SCRIPT
my $HELD = <<'END_SCRIPT';
1 hold 3 open-r /etc
1 fork 2
2 hold 4 open-rw /etc/passwd
2 hold 4 open-w /etc
2 fchdir 3
2 stat passwd
2 unlink /etc/passwd
2 fchdir 4
2 close 3
2 fchdir 3
1 rename /etc /tmp/etc
1 hold 5 open-r /t
1 close 5
1 close 5
END_SCRIPT
answered('descriptors', $LISTING, $HELD, 'ok ok ok EISDIR ok ok ok ENOTDIR ok EBADF ok ok ok EBADF', '--left');
for my $way ([], defined $helper ? ['--helper', $helper] : ()) {
    last if $^O ne 'linux';
    my $more = "1 take 6 2 4\n1 take 6 2 9\n1 unlink /tmp/again\n2 exec /tmp/sh\n1 take 7 2 4\n2 exit\n1 take 8 2 4\n";
    my ($status, $out, $err) = conform('--room', "$room/cases", @$way, '--left', put('t', $LISTING), put('s', "$HELD$more"));
    is(join(' ', (split / /, answers($out))[-7 .. -1]), 'ok EBADF ok ok ok ok EBADF', "what is taken, as Linux lets it @$way") or diag $err;
    is(join('', $out =~ /^(held .*\n)/mg), "held 1 3 /tmp/etc\nheld 1 6 -\nheld 1 7 -\n", "and what is open at last @$way");
}
for my $way ([], ['--builtins'], defined $helper ? ['--helper', $helper] : ()) {
    last if $^O ne 'linux';
    my ($status, $out, $err) = conform('--room', "$room/cases", @$way, '--left', put('t', $LISTING), put('s', <<'END_SCRIPT'));
1 fork 2
1 hold 3 open-r /
1 hold 4 open-r /etc
1 hold 5 open-r /etc/passwd
1 chroot /etc
1 stat /passwd
1 stat /../passwd
1 stat ../../../../../../../proc
1 chdir /
1 stat ../t
1 fchdir 3
1 stat ../t
2 mkdir /d
2 fork 3
3 chroot d
2 rmdir /d
3 stat /..
3 create /x
2 chroot /tmp
2 exec /sh
2 stat /again
2 chdir /
2 chroot /none
2 chroot again
END_SCRIPT
    if ($out =~ /left-out/) { note 'no root can be moved here'; last }
    is(answers($out), join(' ', ('ok') x 7, 'ENOENT', 'ok', 'ENOENT', ('ok') x 7, 'ENOENT', ('ok') x 4, 'ENOENT', 'ENOTDIR'),
        "a root that is moved @$way") or diag $err;
    is(join('', $out =~ /^(root .*\n)/mg), "root 1 /etc open\nroot 2 /tmp closed\nroot 3 - open\n", "and who is in it @$way");
    is(join(' ', glob "$room/cases/*"), '', "nothing is left behind @$way");
}
my $name = 'd' x 200;
answered('a deep tree', join("\n", 'tree 1', '0 dir', map({ "$_ dir " . ($_ - 1) . " $name" } 1 .. 40), ''),
    "1 stat /$name\n1 chdir $name/$name/$name/$name\n1 chdir $name/$name/$name/$name\n", 'ok ok ok');

# What is left, in names as they are spelled.
{
    my ($status, $out, $err) = conform('--left', $tree, put('s', "1 rename /tmp /x\n1 mkdir /x/a\\040b\n1 unlink /t\n"));
    is($out, <<'END_LEFT', '--left') or diag $err;
1 ok
2 ok
3 ok
dir /
dir /etc
dir /x
dir /x/a\040b
file /etc/passwd
file /x/again
link /x/self
link /x/up
prog /x/sh
END_LEFT
}

# Faults.
for my $fault (
    ['no listing', 'tree 0', $script],
    ['no listing', '', $script],
    ['no line of a listing', "tree 1\n0 dir\n1 what 0 x\n", $script],
    ['m: no file system is mounted here', "tree 3\n0 dir\n1 mount 0 m\n", $script],
    ['no request', $LISTING, put('bad', "1 nothing /t\n")],
    ['no request', $LISTING, put('worse', "1 stat\n")],
    ['cannot', $LISTING, "$room/none"],
) {
    my ($what, $listing, $of) = @$fault;
    my ($status, $out, $err) = conform(put('t', $listing), $of);
    is("$status $out", '1 ', "a fault: $what");
    like($err, $what eq 'cannot' ? qr/none: / : qr/\Aconform\.pl: .*\Q$what\E/, "a fault: $what, and it is said");
}
is((conform('--helper', $room, $tree, $script))[0], 1, 'a helper that is no program');

# Trials.
mkdir "$room/trials" or die "$room/trials: $!\n";
put('trials/01-made-so', <<'END_TRIAL');
# A directory is made
# confidence 90
#
# It isn't there.
tree 1
0 dir
1 dir 0 a

1 mkdir /a/b -> ok
1 mkdir /a -> EEXIST (pua EPERM)
1 rmdir /a -> ok
END_TRIAL
put('trials/02-veiled', "# A veil\n# confidence 5\n#\ntree 1\n0 dir\n\n1 unveil / r -> ok\n");
put('trials/README', 'no trial');
{
    my ($status, $out, $err) = conform('--trials', "$room/trials");
    is($status, 0, 'trials') or diag $err;
    my $unveil = eval { require OpenBSD::Unveil; 1 };
    SKIP: {
        skip 'there is an unveil here', 4 if $unveil;
        my $plain = $out =~ s/ +/ /gr;
        like($plain, qr/^trials: 1 of 2 performed, 1 with lines/m, 'trials: how many');
        like($plain, qr/^lines: 3, as expected 2, as pua says 1\n/m, 'trials: the counts');
        like($plain, qr/^WHAT\ DIFFERS\n\n01-made-so:\ A\ directory\ is\ made\ \(confidence\ 90\)\n
            \*\ 2\ EEXIST\ EEXIST\ EPERM\ 1\ mkdir\ \/a\n!\ 3\ ENOTEMPTY\ ok\ ok\ 1\ rmdir\ \/a\n\n/mx,
            'trials: what differs');
        like($plain, qr/^ALL\n\n01-made-so:\ .*\n\ 1\ ok\ ok\ ok\ 1\ mkdir\ \/a\/b\n(?:.*\n)+
            02-veiled:\ A\ veil\ \(confidence\ 5\)\n\ 1\ -\ ok\ ok\ 1\ unveil\ \/\ r\n/mx,
            'trials: all, and what was passed over');
    }
}
put('trials/03-wrong', "# A title\n1 stat / -> ok\n");
is((conform('--trials', "$room/trials"))[0], 1, 'a trial that is none');
is((conform('--trials', "$room/cases"))[0], 1, 'a folder without trials');
is((conform('--trials', "$room/none"))[0], 1, 'no folder');

# Modules that stand in for OpenBSD's: what they are handed, what they refuse, and a kill.
mkdir "$room/OpenBSD" or die "$room/OpenBSD: $!\n";
for my $module (qw(Pledge Unveil)) {
    my $call = lc $module;
    put("OpenBSD/$module.pm", <<"END_MODULE");
package OpenBSD::$module;
open my \$out, '>>', '$room/calls' or die;
sub $call {
    my \$text = join ' ', '$call', map { "<\$_>" } \@_;
    syswrite \$out, "\$text\\n";
    if (\$text eq 'pledge <stdio> <cpath>') { kill 'ABRT', \$\$; sleep 5 }
    if (\$text eq 'unveil </etc> <r>') { \$! = 1; return }
    return 1;
}
1;
END_MODULE
}
{
    @perl = "-I$room";
    my ($status, $out, $err) = conform($tree, put('s', <<'END_SCRIPT'));
1 unveil /tmp/up/a\040b rwc
1 unveil /etc =
1 unveil - -
1 pledge stdio,rpath -
1 pledge = -
1 pledge - -
1 unveil /etc r
1 fork 2
1 pledge stdio,cpath -
1 stat /
2 stat /
END_SCRIPT
    is(content("$room/calls"), <<'END_CALLS', 'what the modules are handed') or diag $err;
unveil </tmp/up/a b> <rwc>
unveil </etc> <>
unveil
pledge <stdio> <rpath>
pledge <stdio>
unveil </etc> <r>
pledge <stdio> <cpath>
END_CALLS
    is(answers($out), 'ok ok ok ok ok ok EPERM ok killed gone ok', 'what they refuse, and a kill');
    is($err, '', 'nothing is left out');
    @perl = ();
}
if ($^O ne 'openbsd') {
    my ($status, $out, $err) = conform($tree, put('s', "1 unveil /etc r\n1 pledge stdio -\n1 stat /\n"));
    is(answers($out), 'left-out left-out ok', 'without modules their lines are left out');
    like($err, qr/lines with pledge are left out: there is no OpenBSD::Pledge here\n.*unveil/s, 'and it is said');
}
done_testing;
