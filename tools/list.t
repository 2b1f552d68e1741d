#!/usr/bin/perl
# Tests of list.pl, over real directories that they make: perl tools/list.t
# With PUA=PROGRAM each listing is also handed to that pua, which has to accept it.
use strict;
use warnings;
use Cwd qw(abs_path);
use File::Copy qw(copy);
use File::Path qw(make_path);
use File::Temp qw(tempdir);
use FindBin qw($Bin);
use lib "$Bin/lib";
use IO::Socket::UNIX;
use List::Util qw(shuffle);
use POSIX qw(mkfifo);
use Test::More;
use Tried qw(content enter_room helps is_clean put ran);

my $LIST = "$Bin/list.pl";
my $PUA  = defined $ENV{PUA} ? abs_path($ENV{PUA}) : undef;
my $room = enter_room();
chmod 0755, $room or die "$room: $!";
umask 022;

# A new directory, which is the working directory from now on.
my $made = 0;
sub room {
    my $path = "$room/" . ++$made;
    make_path($path);
    chdir $path or die "$path: $!";
    return $path;
}

sub file {
    my ($name, $mode) = @_;
    open my $out, '>', $name or die "$name: $!";
    close $out or die "$name: $!";
    chmod $mode, $name or die "$name: $!" if defined $mode;
    return;
}

# Fills a directory with directories, files, links and further names, by chance.
sub random_tree {
    my ($root) = @_;
    my (@directories, @others) = ($root);
    my @bytes = ('a' .. 'd', '!', '.', ' ', '0', '\\', "\xff", "\t");
    for (1 .. 10 + rand 60) {
        my $directory = $directories[rand @directories];
        my $name = join '', map { $bytes[rand @bytes] } 0 .. rand 3;
        my $path = "$directory/$name";
        next if $name eq '.' || $name eq '..' || lstat $path;
        my $chance = rand;
        if ($chance < 0.3) {
            mkdir $path or die "$path: $!";
            push @directories, $path;
            next;
        }
        my @targets = ($name, "../$name", '/' . substr($directory, length $root), map { /([^\/]+)\z/ } @others);
        if    ($chance < 0.5)             { symlink $targets[rand @targets], $path or die "$path: $!" }
        elsif ($chance < 0.6 && @others)  { link $others[rand @others], $path or die "$path: $!" }
        else                              { file($path, $chance < 0.8 ? 0644 : 0755) }
        push @others, $path if !-l $path;
    }
    return;
}

# The paths in a listing.
sub paths_of {
    my ($listing) = @_;
    my @paths = ('');
    for my $line (split /\n/, $listing) {
        my (undef, $parent, $name) = $line =~ /\A[0-9]+ ([a-z]+) ([0-9]+) (\S+)/ or next;
        $name =~ s/\\([0-7]{3})/chr oct $1/ge;
        push @paths, "$paths[$parent]/$name";
    }
    return @paths[1 .. $#paths];
}

# Runs list.pl with these words. What it reads is in the file `in`, if one was put there.
sub list { return ran($LIST, { in => -e "$room/in" ? "$room/in" : undef }, @_) }

# A copy of the tool, which reads 4,096 names at most.
sub small_list {
    my $folder = tempdir(CLEANUP => 1);
    my $text   = content($LIST);
    $text =~ s/^my \$MOST_LISTED = 1_000_000;/my \$MOST_LISTED = 4096;/m or die 'no limit';
    open my $out, '>:raw', "$folder/list.pl" or die "$folder: $!";
    print {$out} $text;
    close $out or die "$folder: $!";
    return "$folder/list.pl";
}

# A listing with these lines; its header is that of a listing with so many names, or with hard links.
sub lines {
    my $header = @_ > 4095 || grep({ /\A[0-9]+ (?:sock|fifo|dev|mount) / } @_) ? 'tree 3' : grep({ /\A[0-9]+ hard / } @_) ? 'tree 2' : 'tree 1';
    return join '', map { "$_\n" } $header, '0 dir', @_;
}

# The word of a directory of this machine: whether it is on another device than the one above it.
sub word_of {
    my ($path) = @_;
    return (stat $path)[0] eq (stat "$path/..")[0] ? 'dir' : 'mount';
}

# That the words give this listing and these reports.
sub lists {
    my ($what, $words, $lines, @reports) = @_;
    my ($status, $out, $err) = list(@$words);
    is($out, lines(@$lines), "$what: the listing");
    is($err, join('', map { "list.pl: $_\n" } @reports), "$what: the reports");
    is($status, 0, "$what: the status");
    if (defined $PUA) {
        is(system($PUA, 'run', "$room/out", '/dev/null'), 0, "$what: pua reads it");
    }
    return;
}

# Tests the listing, below a root, of what a script can be about, which is written into this file.
sub lists_script {
    my ($root, $script, $what, $text, $lines, @reports) = @_;
    open my $out, '>', $script or die;
    print $out $text;
    close $out;
    lists("a script: $what", ['-r', $root, '-s', $script], $lines, @reports);
    return;
}

# That the words are refused with this report, and nothing is printed.
sub refuses {
    my ($what, $words, $wanted, $report) = @_;
    my ($status, $out, $err) = list(@$words);
    is($out, '', "$what: nothing is printed");
    like($err, $report, "$what: the report");
    is($status, $wanted, "$what: the status");
    return;
}

# Directories at their own places, with what leads there and nothing beside it.
{
    my $root = room();
    make_path('etc/ssl', 'var/www/logs', 'var/log', 'usr');
    file($_) for 'etc/passwd', 'etc/ssl/cert.pem', 'var/www/logs/access', 'var/log/daemon', 'usr/x';
    my @etc = ('1 dir 0 etc', '2 file 1 passwd', '3 dir 1 ssl', '4 file 3 cert.pem');
    my @www = ('5 dir 0 var', '6 dir 5 www', '7 dir 6 logs', '8 file 7 access');
    lists('one directory',   ['-r', $root, '/etc'], \@etc);
    lists('two directories', ['-r', $root, '/etc', '/var/www'], [@etc, @www]);
    lists('in another order, and one within another',
        ['-r', $root, '/var/www', '/etc/ssl', '/etc', '/etc'], [@etc, @www]);
    lists('paths with slashes and dots',
        ['-r', "$root//", 'etc/', '//var/./log/../www//'], [@etc, @www]);
    lists('a file', ['-r', $root, '/etc/ssl/cert.pem'],
        ['1 dir 0 etc', '2 dir 1 ssl', '3 file 2 cert.pem']);
    lists('an empty directory', ['-r', "$root/usr", '-x', 'x'], []);
    lists('all of a root', ['-r', "$root/etc"], ['1 file 0 passwd', '2 dir 0 ssl', '3 file 2 cert.pem']);
    chdir "$root/var" or die;
    lists('a root that is named from here', ['-r', '../etc', 'ssl'], ['1 dir 0 ssl', '2 file 1 cert.pem']);

    my ($status, $out) = list("$root/etc");
    my ($number, $at) = (0, '');
    my @way = map { $at .= "/$_"; my $line = ($number + 1) . ' ' . word_of($at) . " $number $_"; $number++; $line }
        grep { $_ ne '' } split m{/}, "$root/etc";
    is($out, lines(@way, ($number + 1) . " file $number passwd", ($number + 2) . " dir $number ssl",
        ($number + 3) . ' file ' . ($number + 2) . ' cert.pem'), 'below the real root');
    my ($again, $same) = list('../etc');
    is($same, $out, 'named from the working directory');
    refuses('a file in place of a directory', ['-r', $root, '/etc/passwd/../ssl'], 1,
        qr/\Alist\.pl: \/etc\/passwd: not a directory\n\z/);
}

# What is left out.
{
    my $root = room();
    make_path('a/b', 'a/c', 'd');
    file($_) for 'a/b/1', 'a/c/2', 'd/3';
    my $empty = 'left out, and listed as an empty directory';
    lists('one is left out', ['-r', $root, '-x', '/a/b'],
        ['1 dir 0 a', '2 dir 1 b', '3 dir 1 c', '4 file 3 2', '5 dir 0 d', '6 file 5 3'], "/a/b: $empty");
    lists('several are left out', ['-r', $root, '-x', '/a/b', '-x', 'd/3', '-x', '/a/c/2/'],
        ['1 dir 0 a', '2 dir 1 b', '3 dir 1 c', '4 dir 0 d'], "/a/b: $empty");
    lists('an operand is left out', ['-r', $root, '-x', '/a', '/a/b', '/d'],
        ['1 dir 0 a', '2 dir 0 d', '3 file 2 3'], "/a: $empty");
    lists('nothing is left out', ['-r', $root, '-x', '/a', '-x', '/none'],
        ['1 dir 0 a', '2 dir 0 d', '3 file 2 3'], "/a: $empty", '/none: nothing was left out');
    lists('all is left out', ['-r', $root, '-x', '/'], [], "/: $empty");
    symlink 'b/1', 'a/l' or die;
    lists('a link into what is left out', ['-r', $root, '-x', '/a/b', '/a'],
        ['1 dir 0 a', '2 dir 1 b', '3 dir 1 c', '4 file 3 2', '5 link 1 l b/1'],
        '/a/l: the link to b/1 leads to /a/b/1, which is not listed', "/a/b: $empty");
}

# Kinds.
{
    my $root = room();
    file('plain', 0644);
    file('mine',  0744);
    file('ours',  0654);
    file('yours', 0645);
    file('none',  0000);
    mkfifo('fifo', 0755) or die "fifo: $!";
    my $socket = IO::Socket::UNIX->new(Local => 'socket', Listen => 1) or die "socket: $!";
    mkdir 'dir';
    symlink 'plain', 'link' or die "link: $!";
    lists('kinds', ['-r', $root], [
        '1 dir 0 dir', '2 fifo 0 fifo', '3 link 0 link plain', '4 prog 0 mine', '5 file 0 none',
        '6 prog 0 ours', '7 file 0 plain', '8 sock 0 socket', '9 prog 0 yours'
    ]);
    lists('devices', ['/dev/null'], ['1 ' . word_of('/dev') . ' 0 dev', '2 dev 1 null']);
}

# Names of any bytes, in the order of their bytes.
{
    my $root = room();
    file($_) for 'a b', 'a', 'a!', '~', "\xff", "\\", "\n", "\xc3\xa9", '\\141', '=', '-x';
    symlink "a b/\\\xff", 'l' or die;
    lists('names of any bytes', ['-r', $root], [
        '1 file 0 \012', '2 file 0 -x', '3 file 0 =', '4 file 0 \134', '5 file 0 \134141',
        '6 file 0 a', '7 file 0 a\040b', '8 file 0 a!', '9 link 0 l a\040b/\134\377',
        '10 file 0 ~', '11 file 0 \303\251', '12 file 0 \377'
    ]);
    my ($status, $first) = list('-r', $root);
    my ($again,  $second) = list('-r', $root);
    is($first, $second, 'two runs are equal');

    my $bytes = room();
    my @all = grep { $_ ne '/' && $_ ne '.' } map { chr } 1 .. 255;
    file($_) for @all;
    my ($done, $out) = list('-r', $bytes);
    my @names;
    for my $line (split /\n/, $out) {
        my ($name) = $line =~ /\A[0-9]+ file 0 ([\x21-\x7e]+)\z/ or next;
        $name =~ s/\\([0-7]{3})/chr oct $1/ge;
        push @names, $name;
    }
    is_deeply(\@names, \@all, 'each byte is a name');
}

# The order is that of names, each directory followed by what is in it.
{
    my $root = room();
    make_path('a/z', 'a!');
    file($_) for 'a/z/1', 'a!/2', 'b';
    lists('the order', ['-r', $root],
        ['1 dir 0 a', '2 dir 1 z', '3 file 2 1', '4 dir 0 a!', '5 file 4 2', '6 file 0 b']);
}

# Links that lead out of what is listed.
{
    my $root = room();
    make_path('in/deep', 'out');
    file($_) for 'in/page', 'out/secret';
    my %target = (
        here    => 'page',
        up      => '../in/deep/../page',
        missing => 'nothing',
        nowhere => '../none/x',
        leads   => '../out/secret',
        whole   => '/out/secret',
        by      => 'deep/../../out',
        first   => 'leads',
        loop    => 'loop',
        beyond  => 'page/x',
        top     => '/../in/./',
    );
    symlink $target{$_}, "in/$_" or die "$_: $!" for keys %target;
    my ($status, $out, $err) = list('-v', '-r', $root, '/in');
    is($err, join('', map { "list.pl: /in/$_, which is not listed\n" }
        'by: the link to deep/../../out leads to /out',
        'first: the link to leads leads to /out',
        'leads: the link to ../out/secret leads to /out',
        'whole: the link to /out/secret leads to /out'), 'links that lead out');
    is($status, 0, 'links that lead out: the status');
    ($status, $out, $err) = list('-r', $root, '/in');
    is($err, "list.pl: /in/by: the link to deep/../../out leads to /out, which is not listed;"
        . " so do further links: 3\n", 'links that lead out are summed up');
    ($status, $out, $err) = list('-r', $root, '/in', '/out');
    is($err, '', 'none of them leads out where all is listed');
    ($status, $out, $err) = list('-v', '-r', $root, '-x', '/out/secret');
    is($err, join('', map { "list.pl: /in/$_ leads to /out/secret, which is not listed\n" }
        'first: the link to leads', 'leads: the link to ../out/secret', 'whole: the link to /out/secret'),
        'links to what is left out');
}

# An operand that is reached through links.
{
    my $root = room();
    make_path('private/var/run');
    file('private/var/run/pid');
    symlink 'private/var', 'var' or die;
    symlink '/var/run',    'run' or die;
    my @private = ('1 dir 0 private', '2 dir 1 var', '3 dir 2 run', '4 file 3 pid');
    lists('through one link', ['-r', $root, '/var/run'], [@private, '5 link 0 var private/var']);
    lists('through two links', ['-r', $root, '/run/'], ['1 link 0 run /var/run'],
        '/run: the link to /var/run leads to /var, which is not listed');
    lists('and beyond', ['-r', $root, '/run/pid'], [@private, '5 link 0 run /var/run', '6 link 0 var private/var']);
    symlink 'self', 'self' or die;
    refuses('a link to itself', ['-r', $root, '/self/x'], 1, qr/\Alist\.pl: \/self\/x: too many links\n\z/);
}

# Files with several names.
{
    my $root = room();
    make_path('d', 'a');
    file('d/one');
    link 'd/one', 'd/three' or die "link: $!";
    link 'd/one', 'd/two'   or die "link: $!";
    lists('several names', ['-r', $root, '/d'],
        ['1 dir 0 d', '2 file 1 one', '3 hard 1 three 2', '4 hard 1 two 2'],
        '/d/three: a further name of /d/one', '/d/two: a further name of /d/one');
    lists('one of them is left out', ['-r', $root, '-x', '/d/three', '/d'],
        ['1 dir 0 d', '2 file 1 one', '3 hard 1 two 2'],
        '/d/one: the file has a further name, which is not listed', '/d/two: a further name of /d/one');
    lists('a name that is not listed', ['-r', $root, '/d/two'], ['1 dir 0 d', '2 file 1 two'],
        '/d/two: the file has a further name, which is not listed');
    link 'd/one', 'a/z\\' or die "link: $!";
    lists('the first name is the first in the listing', ['-r', $root, '/d', '/a'],
        ['1 dir 0 a', '2 file 1 z\134', '3 dir 0 d', '4 hard 3 one 2', '5 hard 3 three 2', '6 hard 3 two 2'],
        map { "/d/$_: a further name of /a/z\\134" } qw(one three two));
}

# Each kind that may have several names; directories have one, and copies are no names.
{
    my $root = room();
    make_path('d/e');
    file('prog', 0755);
    file('same');
    file('other');
    mkfifo('fifo', 0644) or die "fifo: $!";
    symlink 'd', 'link' or die "link: $!";
    link 'prog', 'd/prog' or die "link: $!";
    link 'fifo', 'd/fifo' or die "link: $!";
    my $links = link('link', 'd/link') && -l 'd/link';
    unlink 'd/link' unless $links;
    lists('kinds with several names', ['-r', $root], [
        '1 dir 0 d', '2 dir 1 e', '3 fifo 1 fifo',
        $links
        ? ('4 link 1 link d', '5 prog 1 prog', '6 hard 0 fifo 3', '7 hard 0 link 4', '8 file 0 other', '9 hard 0 prog 5', '10 file 0 same')
        : ('4 prog 1 prog', '5 hard 0 fifo 3', '6 link 0 link d', '7 file 0 other', '8 hard 0 prog 4', '9 file 0 same')
    ],
        '/fifo: a further name of /d/fifo',
        $links ? ('/link: a further name of /d/link') : (),
        '/prog: a further name of /d/prog');
    lists('none of them twice', ['-r', $root, '-x', '/d'],
        ['1 dir 0 d', '2 fifo 0 fifo', '3 link 0 link d', '4 file 0 other', '5 prog 0 prog', '6 file 0 same'],
        '/fifo: the file has a further name, which is not listed',
        $links ? ('/link: the file has a further name, which is not listed') : (),
        '/prog: the file has a further name, which is not listed',
        '/d: left out, and listed as an empty directory');
}

# A directory that is mounted at a second place: its files have two names, though the disk says one.
SKIP: {
    my $root = room();
    make_path('a/deep', 'b');
    file($_) for 'a/x', 'a/deep/y';
    my $mount = "mount --bind $root/a $root/b";
    skip 'nothing can be mounted here', 1 if system "unshare -m sh -c '$mount' 2> $room/err > $room/out";
    is(scalar `unshare -m sh -c '$mount && $^X $LIST -r $root' 2> $room/err`, lines('1 dir 0 a', '2 dir 1 deep',
        '3 file 2 y', '4 file 1 x', '5 dir 0 b', '6 dir 5 deep', '7 hard 6 y 3', '8 hard 5 x 4'), 'a second mount');
    unlink "$room/$_" for qw(out err);
}

# Mount points: directories on another device than that of the directory above, also where they are left out, or on the way;
# a root is none.
SKIP: {
    my $root = room();
    make_path('a/m', 'b');
    file('a/f');
    my $inner = "$root/a/m/d/n";
    my $mounts = "mount -t tmpfs none $root/a/m && mkdir -p $inner && mount -t tmpfs none $inner && mkdir $inner/e && > $root/a/m/f";
    skip 'nothing can be mounted here', 5 if system "unshare -m sh -c '$mounts' 2> $room/err > $room/out";
    my $lists = sub {
        my ($what, $words, @lines) = @_;
        is(scalar `unshare -m sh -c '$mounts && $^X $LIST $words' 2> $room/err`, lines(@lines), "mount points: $what");
    };
    $lists->('all', "-r $root", '1 dir 0 a', '2 file 1 f', '3 mount 1 m', '4 dir 3 d', '5 mount 4 n', '6 dir 5 e', '7 file 3 f', '8 dir 0 b');
    $lists->('left out', "-r $root -x /a/m", '1 dir 0 a', '2 file 1 f', '3 mount 1 m', '4 dir 0 b');
    $lists->('on the way', "-r $root /a/m/d/n", '1 dir 0 a', '2 mount 1 m', '3 dir 2 d', '4 mount 3 n', '5 dir 4 e');
    $lists->('a root', "-r $root/a/m", '1 dir 0 d', '2 mount 1 n', '3 dir 2 e', '4 file 0 f');
    $lists->('no file of them', "-r $root -n 0", '1 dir 0 a', '2 mount 1 m', '3 dir 2 d', '4 mount 3 n', '5 dir 4 e', '6 dir 0 b');
    unlink "$room/$_" for qw(out err);
}
SKIP: {
    skip '/proc is no mount point here', 3 if !-d '/proc' || word_of('/proc') eq 'dir';
    lists('a mount point of this machine', ['-x', '/proc', '/proc'], ['1 mount 0 proc'], '/proc: left out, and listed as an empty directory');
}

# What is refused.
{
    my $root = room();
    make_path('d');
    file('f');
    my $usage = qr/^usage: list\.pl \[-kv\] \[-f PATHS\] \[-m FILE\] \[-n N\] \[-r ROOT\] \[-s SCRIPT\] \[-x PATH\]\.\.\. \[PATH\]\.\.\.\n\z/m;
    refuses('no words',          [],                     2, $usage);
    refuses('an unknown option', ['-q', '/etc'],         2, $usage);
    refuses('no path',           ['-x', '/etc'],         2, $usage);
    refuses('an empty path',     ['/etc', ''],           2, $usage);
    refuses('an empty manifest', ['-m', '', '/etc'],     2, $usage);
    refuses('no file of paths',  ['-f', '', '/etc'],     2, $usage);
    refuses('-n of no number', ['-n', $_, '/etc'], 2, $usage) for '', '-1', 'x', '1.5', "1\n";
    refuses('a missing path',    ['-r', $root, '/none'], 1, qr/\Alist\.pl: \/none: \S.*\n\z/);
    refuses('a file on the way', ['-r', $root, '/f/x'],  1, qr/\Alist\.pl: \/f(\/x)?: \S.*\n\z/);
    refuses('a missing root',    ['-r', "$root/none"],   1, qr/: not a directory\n\z/);
    refuses('a file as the root', ['-r', "$root/f"],     1, qr/: not a directory\n\z/);
    symlink 'x/' x 511 . 'y', 'd/long' or die;
    lists('a target as long as may be', ['-r', "$root/d"], ['1 link 0 long ' . 'x/' x 511 . 'y']);
    symlink 'x/' x 512, 'd/longer' or die;
    refuses('a target that is too long', ['-r', "$root/d"], 1, qr/\Alist\.pl: \/longer: the target is too long/);
    unlink 'd/longer';
    symlink 'x' x 256, 'd/wide' or die;
    refuses('a target with a long component', ['-r', "$root/d"], 1, qr/\Alist\.pl: \/wide: the target is too long/);
    lists('what is passed over', ['-k', '-r', "$root/d"], ['1 link 0 long ' . 'x/' x 511 . 'y'],
        '/wide: the target is too long; leave it out with -x; passed over',
        'passed over, since they could not be read or listed: 1');
}

# As many names as the first two forms have, and one more, also where it is a further name.
{
    my $root = room();
    file("f$_") for 1 .. 4095;
    my ($status, $out) = list('-r', $root);
    is($status, 0, '4,096 names: the status');
    is(() = $out =~ /\n/g, 4097, '4,096 names: the lines');
    like($out, qr/\Atree 1\n0 dir\n/, '4,096 names: the form');
    link 'f1', 'more' or die "link: $!";
    ($status, $out) = list('-r', $root);
    like($out, qr/\Atree 3\n0 dir\n.*^4096 hard 0 more 1\n\z/ms, '4,097 names of 4,096 nodes: the form');
    unlink 'more';
    file('more');
    ($status, $out) = list('-r', $root);
    like($out, qr/\Atree 3\n0 dir\n.*^4096 file 0 more\n\z/ms, '4,097 names: the form');

    # A tool that reads as many names at most says where most of them are.
    my $all = $LIST;
    $LIST = small_list();
    refuses('4,097 names where there may be 4,096', ['-r', $root], 1, qr/\Alist\.pl: 4097 names, and pua reads at most 4096/);
    ($status, $out) = list('-r', $root, '-x', '/f7');
    is($status, 0, 'all of them except one');
    for my $directory ('big/a', 'big/b', map { "d$_" } 1 .. 12) {
        make_path($directory);
        file("$directory/$_") for 1 .. ($directory =~ /big/ ? 30 : 5);
    }
    my @most = ('/big: 62', '/big/a: 30', '/big/b: 30', map { "/$_: 5" } qw(d1 d10 d11 d12 d2 d3 d4));
    refuses('where most of them are', ['-r', $root], 1,
        qr/\Alist\.pl: 4232 names, and pua reads at most 4096; .*\n@{[ join '', map { "list\\.pl: $_ names in it\\n" } @most ]}\z/);
    $LIST = $all;
}

# What a script can be about.
{
    my $root = room();
    make_path('www/site/deep', 'www/other', 'etc/x y', 'real/a', 'bin', 'old');
    file($_) for 'www/site/index', 'www/site/deep/page', 'www/other/key', 'etc/passwd', 'etc/x y/z', 'old/f', 'real/a/f';
    file('bin/worker', 0755);
    symlink '/real', 'etc/to' or die;
    symlink '../etc/passwd', 'bin/last' or die;
    my $script = "$room/script";
    my $try = sub { return lists_script($root, $script, @_) };
    my $sees = sub {
        my ($process, $left, $why) = (@_, 'it never pledged');
        return "process $process has no veil, and may touch all by path ($why); names that are not listed: $left";
    };
    my @site = ('1 dir 0 www', '2 dir 1 site', '3 dir 2 deep', '4 file 3 page', '5 file 2 index');
    $try->('a veil', "1 unveil /www/site r\n1 unveil - -\n1 pledge stdio,rpath -\n1 stat /www\n", \@site);
    $try->('DOS ends, and none', "1 unveil /www/site r\r\n1 stat /www", \@site);
    $try->('comments and blank lines', "# x\n\n  \n1 unveil /www/site r # y\n1 stat /www   #z\n", \@site);
    $try->('it opens a directory', "1 open-r /www/site\n", \@site, $sees->(1, 15));
    $try->('it names a directory', "1 unveil /www/site/index r\n1 stat /www/other\n",
        ['1 dir 0 www', '2 dir 1 other', '3 dir 1 site', '4 file 3 index']);
    $try->('links on the way and at the end', "1 unveil /etc/to/a r\n1 stat /bin/last\n",
        ['1 dir 0 bin', '2 link 1 last ../etc/passwd', '3 dir 0 etc', '4 file 3 passwd', '5 link 3 to /real',
            '6 dir 0 real', '7 dir 6 a', '8 file 7 f']);
    $try->('spelled paths', "1 unveil /etc/x\\040y r\n", ['1 dir 0 etc', '2 dir 1 x\040y', '3 file 2 z']);
    $try->('what it makes, and what is not there', "1 unveil /www/sitee r\n1 create /www/new\n1 stat /etc/passwd/x\n",
        ['1 dir 0 etc', '2 file 1 passwd', '3 dir 0 www'],
        'the script names /www/sitee, which leads nowhere: /www/sitee: No such file or directory',
        'the script names /etc/passwd/x, which leads nowhere: /etc/passwd: not a directory');
    my $relative = 'relative paths of the script are taken from /, where no chdir is before them';
    $try->('relative paths', "1 unveil www/site r\n1 stat ./www\n1 stat www/site\n", \@site, "$relative: 2");
    $try->('it moves, and what it forks is there too', "1 unveil /old r\n1 chdir /www\n1 fork 2\n1 chdir ..\n2 chdir site/./deep\n"
        . "2 open-r ../deep\n2 fork 3\n2 chdir /old\n3 stat ../index\n1 stat www/other\n2 unlink f\n",
        ['1 dir 0 old', '2 file 1 f', '3 dir 0 www', '4 dir 3 other', '5 dir 3 site', '6 dir 5 deep', '7 file 6 page', '8 file 5 index']);
    $try->('what it made, and what is not there is named once', "1 unveil /www r\n1 mkdir /new\n1 stat /new/x\n1 chdir /new\n1 stat y\n1 stat /none\n"
        . "1 symlink /old /l\n1 stat /l\n1 stat /none\n1 rename /old /moved\n1 stat /moved/f\n1 bind /sock\n1 chmod /sock\n1 stat /newer\n"
        . "1 create /made\n1 connect /s2\n1 chown /made\n1 mknod /fifo\n1 open-r //fifo\n",
        ['1 dir 0 old', '2 file 1 f', '3 dir 0 www', '4 dir 3 other', '5 file 4 key', '6 dir 3 site', '7 dir 6 deep', '8 file 7 page',
            '9 file 6 index'],
        'the script names /none, which leads nowhere: /none: No such file or directory',
        'the script names /newer, which leads nowhere: /newer: No such file or directory',
        'the script names /s2, which leads nowhere: /s2: No such file or directory');
    $try->('who has no veil, and what of it', "1 fork 2\n1 fork 3\n1 fork 4\n1 fork 5\n1 fork 6\n1 pledge stdio,dns,inet -\n2 pledge stdio,unix,rpath -\n"
        . "3 pledge = -\n4 pledge stdio,cpath,exec stdio,fattr\n4 exec /bin/worker\n5 pledge stdio,exec -\n5 exec /bin/worker\n6 unveil /old r\n",
        ['1 dir 0 bin', '2 prog 1 worker', '3 dir 0 old', '4 file 3 f'], $sees->(2, 16, 'rpath,unix'), $sees->(4, 16, 'fattr'), $sees->(5, 16));
    $try->('what is renamed and removed', "1 unveil = r\n1 rename /old /new\n1 symlink /etc /s\n", ['1 dir 0 old', '2 file 1 f']);
    $try->('processes', "1 fork 2\n1 unveil /old r\n1 fork 3\n3 exec /bin/worker\n1 pledge - stdio\n1 fork 4\n4 exec /bin/worker\n2 exit\n1 fork 5\n",
        ['1 dir 0 bin', '2 prog 1 worker', '3 dir 0 old', '4 file 3 f'], $sees->(3, 16));
    $try->('no line', '', [], $sees->(1, 20));
    my ($status, $out) = list('-r', $root, '-s', $script, '/old');
    is($out, lines('1 dir 0 old', '2 file 1 f'), 'a script and an operand');
    for my $bad (["1 stat  /x\n", 'bad line'], ["1 stat /\t\n", 'bad line'], ["1 stat / \n", 'bad line'], ["1 stat # /\n", 'bad call'],
        ["0 exit\n", 'bad line'], ["1\n", 'bad call'], ["1 open /x\n", 'bad call'], ["1 stat\n", 'bad call'],
        ["1 stat /\\141\n", 'bad path'], ["1 stat /\\000\n", 'bad path'], ["1 stat /\\08\n", 'bad path']) {
        open my $to, '>', $script or die;
        print $to "1 unveil - -\n$bad->[0]";
        close $to;
        refuses("a script: $bad->[1]", ['-r', $root, '-s', $script], 1, qr/\Alist\.pl: \S+: line 2: $bad->[1]\n\z/);
    }
    refuses('no script', ['-s', "$root/none"], 1, qr/\Alist\.pl: \S+: \S.*\n\z/);
    refuses('a directory as a script', ['-s', $root], 1, qr/\Alist\.pl: \S+: \S.*\n\z/);
}

# What is open, and roots of processes.
{
    my $root = room();
    make_path('jail/in/deep', 'out', 'real/a');
    file($_) for 'jail/in/deep/f', 'jail/g', 'out/h', 'real/a/f';
    symlink '/in', 'jail/link' or die;
    symlink 'jail', 'to' or die;
    my $script = "$room/script";
    my $try = sub { return lists_script($root, $script, @_) };
    my @jail = ('1 dir 0 jail', '2 file 1 g', '3 dir 1 in', '4 dir 3 deep', '5 file 4 f', '6 link 1 link /in');
    $try->('it enters a root, from which links and `..` lead', "1 chroot /jail # its site\n1 chdir /\n1 stat /../link/deep/f\n1 stat ../g\n"
        . "1 fork 2\n2 stat /link\n1 pledge stdio,rpath -\n", \@jail);
    $try->('it enters one by a link, and stays where it was', "1 chroot to\n1 stat /in/deep\n1 stat out/h\n1 create /in/new\n1 stat /in/new\n",
        [@jail, '7 dir 0 out', '8 file 7 h', '9 link 0 to jail'], 'relative paths of the script are taken from /, where no chdir is before them: 2',
        'process 1 has no veil, and may touch all by path (it never pledged); names that are not listed: 3');
    $try->('a root in a root', "1 chroot /jail\n1 chroot /in\n1 chdir /deep\n1 stat /deep/f\n1 stat f\n1 stat /g\n",
        \@jail, 'the script names /g, which leads nowhere: /jail/in/g: No such file or directory');
    $try->('what is open', "1 hold 3 open-r /real\n1 fork 2\n2 fchdir 3 # there\n2 stat a/f\n2 take 4 1 3\n2 close 3\n1 fchdir 9\n2 fchdir 4\n"
        . "2 stat a\n1 uses id\n1 unveil /none r\n2 unveil /real r\n",
        ['1 dir 0 real', '2 dir 1 a', '3 file 2 f'], 'the script names /none, which leads nowhere: /none: No such file or directory');
    for my $bad ('1 chroot', '1 hold 3 /jail', '1 close', '1 take 3 1') {
        open my $to, '>', $script or die;
        print $to "$bad\n";
        close $to;
        refuses("a script: $bad", ['-r', $root, '-s', $script], 1, qr/\Alist\.pl: \S+: line 1: bad call\n\z/);
    }
}

# A directory that can't be read, by a user who is not root.
SKIP: {
    my $root = room();
    make_path('open', 'closed');
    file('open/x');
    chmod 0311, 'closed' or die;
    if ($> == 0) {
        copy($LIST, "$room/list.pl") or die;
        $LIST = "$room/list.pl";
        my $child = fork;
        die "fork: $!" unless defined $child;
        if (!$child) {
            ($(, $)) = (65534, '65534 65534');
            ($<, $>) = (65534, 65534);
            POSIX::_exit($> == 65534 && !opendir(my $closed, 'closed') ? 0 : 1);
        }
        waitpid $child, 0;
        skip('this root can be no other user', 9) if $?;
        chmod 0777, $room;
        unlink "$room/out", "$room/err";
        ($(, $)) = (65534, '65534 65534');
        $> = 65534;
    }
    refuses('an unreadable directory', ['-r', $root], 1, qr/\Alist\.pl: \/closed: \S.*\n\z/);
    lists('beside it', ['-r', $root, '-x', '/closed'], ['1 dir 0 closed', '2 dir 0 open', '3 file 2 x'],
        '/closed: left out, and listed as an empty directory');
    lists('passed over', ['-k', '-r', $root], ['1 dir 0 closed', '2 dir 0 open', '3 file 2 x'],
        '/closed: Permission denied; passed over', 'passed over, since they could not be read or listed: 1');
    unlink "$room/out", "$room/err";
    $> = $<;
    chmod 0755, 'closed';
}

# What isn't listed though it was asked for is kept beside the listing.
{
    my $root = room();
    make_path('a/b b', 'a/c', 'd');
    file($_) for 'a/b b/1', 'a/c/2', 'd/3';
    symlink 'x' x 256, 'd/wide' or die;
    my $kept = "$room/manifest";
    lists('a manifest', ['-k', '-m', $kept, '-r', $root, '-x', '/a/b b', '-x', '/d/3', '-x', '/none'],
        ['1 dir 0 a', '2 dir 1 b\\040b', '3 dir 1 c', '4 file 3 2', '5 dir 0 d'],
        '/d/wide: the target is too long; leave it out with -x; passed over', '/a/b\\040b: left out, and listed as an empty directory',
        '/none: nothing was left out', 'passed over, since they could not be read or listed: 1');
    is(content($kept), "left-out /a/b\\040b\nleft-out /d/3\npassed-over /d/wide\n", 'a manifest: what it has');
    lists('a manifest of nothing', ['-m', $kept, '-r', "$root/a/c"], ['1 file 0 2']);
    is(content($kept), '', 'a manifest of nothing: what it has');
    refuses('a manifest that can not be written', ['-m', "$root/none/m", '-r', "$root/a/c"], 1, qr{\Alist\.pl: \S+/none/m: \S.*\n\z});
}

# What the lines of a file name.
{
    my $root = room();
    make_path('etc/ssl/deep', 'var/log');
    file($_) for 'etc/passwd', 'etc/ssl/key', 'var/log/a b', 'var/log/\\040', 'var/log/l';
    symlink '../etc/ssl', 'var/to' or die;
    symlink 'self', 'self' or die;
    my $gives = sub {
        my ($what, $text, $words, $lines, @reports) = @_;
        put('in', $text);
        lists("-f: $what", ['-r', $root, '-f', '-', @$words], $lines, @reports);
        lists("-f: $what, in a file", ['-r', $root, '-f', "$room/in", @$words], $lines, @reports);
        return;
    };
    my @ssl = ('1 dir 0 etc', '2 dir 1 ssl');
    $gives->('a file', "/etc/ssl/key\n", [], [@ssl, '3 file 2 key']);
    $gives->('of a directory nothing in it', "/etc/ssl\n", [], \@ssl);
    $gives->('in another order, twice, and without an end', "var/log/l\n./etc/ssl/\n//etc/./ssl", [],
        [@ssl, '3 dir 0 var', '4 dir 3 log', '5 file 4 l']);
    $gives->('bytes stand for themselves', "/var/log/a b\n/var/log/\\040\n", [],
        ['1 dir 0 var', '2 dir 1 log', '3 file 2 \134040', '4 file 2 a\040b']);
    $gives->('no line', '', [], []);
    $gives->('the root', "/\n", [], []);
    $gives->('a link, and through it', "/var/to/key\n/self\n", [],
        [@ssl, '3 file 2 key', '4 link 0 self self', '5 dir 0 var', '6 link 5 to ../etc/ssl']);
    $gives->('beside an operand', "/etc/passwd\n", ['/var/log'],
        ['1 dir 0 etc', '2 file 1 passwd', '3 dir 0 var', '4 dir 3 log', '5 file 4 \134040', '6 file 4 a\040b', '7 file 4 l']);
    $gives->('without what is left out', "/etc/ssl/key\n/etc/passwd\n/var\n", ['-x', '/etc/ssl', '-x', '/etc/passwd'],
        [@ssl, '3 dir 0 var'], '/etc/ssl: left out, and listed as an empty directory');
    $gives->('what is not there is passed over', "/none\n/etc/none/x\n/etc/passwd/x\n/self/x\n/none\n/var\n", ['-k', '-m', "$room/manifest"],
        ['1 link 0 self self', '2 dir 0 var'], '/none: No such file or directory; passed over',
        '/etc/none/x: No such file or directory; passed over', '/etc/passwd/x: not a directory; passed over', '/self/x: too many links; passed over',
        'passed over, since they could not be read or listed: 4');
    is(content("$room/manifest"), join('', map { "passed-over $_\n" } qw(/etc/none/x /etc/passwd/x /none /self/x)), '-f: what was passed over');
    for my $bad (["/etc\n/none\n", qr{/none: No such file}], ["/etc/passwd/x\n", qr{/etc/passwd/x: not a directory}],
        ["/self/x\n", qr{/self/x: too many links}], ["/etc\n\n", qr{-: line 2: bad path}], ["/etc\0\n", qr{-: line 1: bad path}]) {
        put('in', $bad->[0]);
        refuses('-f: a bad line', ['-r', $root, '-f', '-'], 1, qr/\Alist\.pl: $bad->[1]/);
    }
    refuses('-f: no such file', ['-r', $root, '-f', "$root/none"], 1, qr/\Alist\.pl: \S+: No such file/);
    refuses('-f: a directory', ['-r', $root, '-f', $root], 1, qr/\Alist\.pl: \S+: it cannot be read/);
    unlink "$room/in";
}

# Random trees: all paths of a walk give the same listing and reports as the walk.
for my $seed (1 .. 40) {
    srand $seed;
    my $root = room();
    random_tree($root);
    my ($status, $out, $err) = list('-r', $root);
    my @paths = paths_of($out);
    put('in', join '', map { "$_\n" } shuffle(@paths));
    is_deeply([list('-r', $root, '-f', '-')], [$status, $out, $err], "random tree $seed, " . @paths . ' names: -f gives the walk');
    unlink "$room/in";
    is_deeply([list('-r', $root, '-n', 100)], [$status, $out, $err], "random tree $seed: -n of many files too");

    # By what the walk lists, what -n lists of it.
    my $most = int rand 3;
    my (%files, @first);
    for my $path (@paths) {
        my ($directory) = $path =~ m{(.*)/};
        push @first, $path if !-l "$root$path" && -d _ || ++$files{$directory} <= $most;
    }
    ($status, $out, $err) = list('-r', $root, '-n', $most);
    is_deeply([paths_of($out)], \@first, "random tree $seed: -n $most");
    my $rest = @paths - @first;
    my $in = grep { $_ > $most } values %files;
    is(join('', $err =~ /^(.*beyond.*\n)/mg), $rest
        ? "list.pl: files that are not listed, beyond the first $most of a directory: $rest, in so many directories: $in\n"
        : '', "random tree $seed: what -n $most leaves");
}

# Of each directory the first files.
{
    my $root = room();
    make_path('a/b', 'a/z', 'd');
    file($_) for 'a/1', 'a/2', 'a/3', 'a/b/1', 'a/b/2', 'd/x';
    symlink '1', 'a/0' or die;
    my $rest = sub {
        my ($most, $count, $in) = @_;
        return "files that are not listed, beyond the first $most of a directory: $count, in so many directories: $in";
    };
    lists('-n 0', ['-r', $root, '-n', 0], ['1 dir 0 a', '2 dir 1 b', '3 dir 1 z', '4 dir 0 d'], $rest->(0, 7, 3));
    my @one = ('1 dir 0 a', '2 link 1 0 1', '3 dir 1 b', '4 file 3 1');
    lists('-n 1', ['-r', $root, '-n', 1], [@one, '5 dir 1 z', '6 dir 0 d', '7 file 6 x'],
        '/a/0: the link to 1 leads to /a/1, which is not listed', $rest->(1, 4, 2));
    my @named = ('1 dir 0 a', '2 link 1 0 1', '3 file 1 1', '4 file 1 3', '5 dir 1 b', '6 file 5 1', '7 dir 1 z');
    lists('-n 1, and names', ['-r', $root, '-n', 1, '/a/3', '/a', '/a/1'], \@named, $rest->(1, 2, 2));
    put('in', "/a/1\n/a/3\n");
    lists('-n 1, and paths', ['-r', $root, '-n', 1, '-f', '-', '/a'], \@named, $rest->(1, 2, 2));
    unlink "$room/in";
    lists('-n 1, and a file that is left out', ['-r', $root, '-n', 1, '-x', '/a/0', '-x', '/a/b', '/a'],
        ['1 dir 0 a', '2 file 1 1', '3 dir 1 b', '4 dir 1 z'], '/a/b: left out, and listed as an empty directory', $rest->(1, 2, 1));
    lists('-n 4', ['-r', $root, '-n', 4], ['1 dir 0 a', '2 link 1 0 1', '3 file 1 1', '4 file 1 2', '5 file 1 3',
        '6 dir 1 b', '7 file 6 1', '8 file 6 2', '9 dir 1 z', '10 dir 0 d', '11 file 10 x']);
    put('in', "1 unveil /a r\n");
    lists('-n 1, and a script', ['-r', $root, '-n', 1, '-s', "$room/in"], [@one, '5 dir 1 z'],
        '/a/0: the link to 1 leads to /a/1, which is not listed', $rest->(1, 4, 2));
    unlink "$room/in";
    my $kept = "$room/manifest";
    my $writes = sub {
        my ($what, $words, @lines) = @_;
        is((list('-r', $root, '-m', $kept, @$words))[0], 0, "$what: the status");
        is(content($kept), join('', map { "$_\n" } @lines), "$what: the manifest");
    };
    $writes->('-n 0', ['-n', 0], 'not-all /a', 'not-all /a/b', 'not-all /d');
    $writes->('-n 2', ['-n', 2], 'not-all /a');
    $writes->('-n 4', ['-n', 4]);
    $writes->('-n 1, and all names', ['-n', 1, '/a', '/a/1', '/a/2', '/a/3'], 'not-all /a/b');
    $writes->('-n 1, and what is left out', ['-n', 1, '-x', '/a/1', '-x', '/a/b'],
        'not-all /a', 'left-out /a/1', 'left-out /a/b');
    file('0');
    $writes->('-n 0, in the root', ['-n', 0], 'not-all /', 'not-all /a', 'not-all /a/b', 'not-all /d');
    unlink '0';
    file("d/f$_") for 1 .. 5000;
    my ($status, $out) = list('-r', $root, '-n', 1);
    is($status, 0, '-n lists of a directory with more names than may be');
}

# A script that puts veils on some directories and files of a tree, by chance.
sub random_script {
    my ($root, @paths) = @_;
    my @letters = qw(r rw rwc rx x w c rwxc wc);
    my @places = ('/', grep { !-l "$root$_" } @paths);
    my @promises = grep { rand() < 0.7 } qw(rpath wpath cpath dpath exec fattr chown unix);
    my @lines = map {
        my $place = $places[rand @places] =~ s/([^\x21-\x5b\x5d-\x7e])/sprintf '\\%03o', ord $1/ger;
        "1 unveil $place $letters[rand @letters]\n";
    } 0 .. rand 5;
    return join '', @lines, '1 pledge ' . join(',', 'stdio', @promises) . " -\n";
}

# What pua lists by a listing of the first files: the lines of directories and of further names are
# those by the whole one, and no other line is about what is there.
SKIP: {
    skip 'it asks pua: PUA=PROGRAM perl tools/list.t', 160 if !defined $PUA;
    for my $seed (41 .. 60) {
        srand $seed;
        my $root = room();
        random_tree($root);
        put('script', random_script($root, paths_of((list('-r', $root))[1])));
        for my $rules (qw(profile openbsd)) {
            my (@about, @heads, @lines);
            for my $words ([], ['-n', 1 + int rand 2]) {
                put('listing', (list('-r', $root, '-s', "$room/script", @$words, '/'))[1]);
                my $told = `$PUA objects --rules $rules $room/listing $room/script`;
                put('told', $told);
                my $regions = `$^X $Bin/glance.pl -d $room/told`;
                push @lines, [$told =~ /^(.*)$/mg];
                push @about, join "\n", grep { m{\A(?:dir|other) /} } @{ $lines[-1] };
                my @regions = grep { /^ {8}(?:[0-9]+ )?(?:dir|other) /m } split /(?=^ {4}below)/m, $regions;
                push @heads, join '', map { /^ {4}(below \S+ \(.*\)):/m ? "$1\n" : () } @regions;
            }
            my %is_whole = map { $_ => 1 } @{ $lines[0] };
            my $what = "random tree $seed, $rules";
            cmp_ok(@{ $lines[0] }, '>', 3, "$what: there is a list");
            is($about[1], $about[0], "$what: -n keeps the lines of directories and further names");
            is($heads[1], $heads[0], "$what: and their regions");
            is_deeply([grep { !$is_whole{$_} } @{ $lines[1] }], [], "$what: and has no other line");
        }
    }
    unlink "$room/$_" for qw(script listing told);
}

# What isn't listed is counted up to 100,000.
{
    my $root = room();
    make_path('a', 'b', 'c');
    file('script');
    for my $directory ('a', 'b') {
        file("$directory/0");
        link "$directory/0", "$directory/$_" or die "link: $!" for 1 .. 49_998;
    }
    my ($status, $out, $err) = list('-r', $root, '-s', "$root/script");
    is($err, 'list.pl: process 1 has no veil, and may touch all by path (it never pledged); names that are not listed: more than '
        . "100000\n", 'counting ends');
    unlink "a/$_" for 1 .. 4;
    ($status, $out, $err) = list('-r', $root, '-s', "$root/script");
    like($err, qr/not listed: 99998\n\z/, 'up to there it is exact');
}

is_clean($LIST, '-wc', '-Twc');
unlink "$room/in";
helps($LIST, 'Prints the listing of real files');
chdir '/';
done_testing();
