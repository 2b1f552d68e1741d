# Random scripts most of whose lines are refused, each of them for what it asks and not for who asks: for a
# promise, a veil, a thing that is missing or in the way, a text. With them comes OBSERVER, a process that
# sees all.
package Why::Scripts;
use strict;
use warnings;
use Exporter qw(import);
use Why::World qw(OBSERVER);

our @EXPORT_OK = qw(refused_script each_kind);

# What a line may ask; the words in capitals stand for what is drawn. The last one removes a directory in
# which its asker works.
my @REQUESTS = (
    ('CALL HIGH') x 6, ('CALL PATH') x 4, ('rename HIGH HIGH') x 3, 'rename PATH PATH', 'link HIGH HIGH',
    'link PATH PATH', ('unveil HIGH LETTERS') x 2, ('pledge PROMISES PROMISES') x 3, 'symlink a/a HIGH', 'fork 3',
    "mkdir /q\nASKER chdir /q\nASKER CALL NAME\n2 rmdir /q\nASKER open-r NAME\nASKER rename /NAME NAME",
);

# What is drawn seldom.
my @SELDOM = (
    'rmdir HIGH/.', 'rmdir /', 'rename HIGH/.. PATH', 'rename HIGH /', 'rename /NAME /NAME/NAME', 'unveil - -',
    'pledge - nothing', 'unveil PATH rq', 'stat =', 'link HIGH =', 'chmod LONG', 'rename HIGH LONG',
    'create COMPONENT', 'symlink LONG PATH', 'symlink = PATH', 'fork 4', 'exit',
);
my $SELDOM_IN = 8;

# What a line may ask beside these, in a call without a path.
my @WITHOUT_PATH = ('uses USED') x 5;

my @CALLS = (
    qw(stat lstat readlink open-r open-w open-rw open-rw create create),
    qw(mkdir mkdir rmdir rmdir unlink chmod chdir exec exec),
);
my @LETTERS  = qw(r rw rwc rwxc rxc wc =);
my @PROMISES = (
    '-', 'stdio,rpath,wpath,cpath,fattr,exec,proc,unveil', 'rpath,wpath,cpath,exec,proc,unveil,error',
    'rpath,cpath,proc,unveil', 'rpath,cpath,error', 'wpath,fattr,unveil,error', 'fattr,error', 'stdio,rpath', '=',
);

# What process 3 may pledge: with `error` it goes on without the others.
my @FEW = ('error', 'fattr,error', 'rpath,error', 'cpath,unveil,error', 'rpath,wpath,cpath,unveil');

# A path of 1,024 bytes, and a name of 256.
my %TEXT = (LONG => '/a' x 511 . '/b', COMPONENT => 'c' x 256);

# A tree with a chain of 33 links, and a script that has a reason of each kind but of a full tree, table and
# world.
my @CHAIN = map { ($_ + 20) . " link 0 l$_ " . ($_ < 33 ? 'l' . ($_ + 1) : 'a') } 1 .. 33;
my @FIRST = (
    'tree 3', '0 dir', '1 dir 0 a', '2 file 1 b', '3 dir 0 e', '4 file 0 f', '5 dir 0 g', '6 prog 0 p', '7 sock 0 s',
    '8 fifo 0 i', '9 dev 0 d', '10 mount 0 m', '11 mount 10 n', '12 file 10 f', '13 dir 10 e',
);
my $TREE  = join "\n", @FIRST, @CHAIN, '';
my @EACH_KIND = (
    'rmdir /a/.', 'rmdir /a/..', 'rename /a/. /x', 'rename /f /a/..', 'rmdir /', 'rename / /x', 'rename /f /',
    'rename /a /a/x', 'rmdir /a', 'rename /g /a', 'pledge nothing -', 'pledge - nothing', 'unveil /a rq',
    'stat =', 'symlink = /x', 'rename = /x', 'link /f =', 'stat LONG', 'symlink LONG /x', 'rename /f LONG',
    'create COMPONENT', 'symlink COMPONENT /x', 'link COMPONENT /x', 'stat /l1', 'stat /l2', 'rename /l1/b /x',
    'readlink /f', 'exec /f', 'exec /a', 'exec /s', 'exec /i', 'exec /d', 'open-r /s', 'chdir /f', 'open-w /a',
    'unlink /a', 'link /a /x', 'rename /f /a', 'rename /a /f', 'mkdir /a', 'mkdir /', 'link /f /a', 'rename /x /y', 'rename /x/y /f', 'link /f /f/x', 'fork 2',
    'rmdir /m', 'unlink /m/n', 'rename /m /x', 'rename /e /m', 'rename /f /m/x', 'rename /m/e /e', 'link /m/f /x', 'rename /m /f',
    'link /f /m/e', 'rename /f /m/n', 'rename /m/n /m/x',
    'chdir /e', "stat x\n2 rmdir /e", 'stat x', 'rename x /y', 'rename /f y', 'chdir /',
    'unveil /a rw', 'unveil /a/b =', 'unveil /a rwxc', 'stat /f', 'rename /f /a/x', 'rename /a/x /f', 'open-rw /a/b',
    'create /a/x', 'rename /a/b /a/x', 'stat /a', 'unveil /g rwxc', 'create /g/x', 'link /g/x /g/y',
    'open-rw /g/x', 'unveil - -', 'unveil /f r', 'pledge rpath,error rpath', 'open-rw /a/b',
    'create /a/x', 'chmod /a/b', 'pledge rpath rpath', 'pledge rpath,wpath -', 'pledge - rpath,stdio', 'create /a/x',
    'stat /a',
);

# A world of all these: its listing, and its script.
sub each_kind {
    my @lines = map { split /\n/, s/([A-Z]{2,})/$TEXT{$1}/r } map { "1 $_" } @EACH_KIND;
    my @veils = ('2 unveil /a rwc', '2 unveil /f r', '2 unveil /a rw', '2 unveil /a/n rw', '2 unveil /f r');
    return ($TREE, [ '1 fork ' . OBSERVER, '1 fork 2', @lines, '3 stat /', @veils ]);
}

# The lines of a script over the last listing of some worlds: OBSERVER, processes 2 and 3, a few veils, and
# what these ask, some of it as the worlds' own scripts have it.
sub refused_script {
    my ($worlds) = @_;
    my @veils = map { "$_ unveil " . $worlds->pick('/', _high($worlds)) . ' ' . $worlds->pick(@LETTERS) } 1, 1, 2;
    my @lines = ('1 fork ' . OBSERVER, '1 fork 2', @veils, $worlds->pick(1, 2) . ' fork 3');
    push @lines, '3 pledge ' . $worlds->promises(@FEW) . ' ' . $worlds->promises(@PROMISES);
    push @lines, map { $worlds->number(4) ? _drawn($worlds) : $worlds->requests(1, 1 .. 3) } 1 .. 22;
    return [ map { split /\n/ } @lines ];
}

# A path of at most two components.
sub _high {
    my ($worlds) = @_;
    return $worlds->path =~ s{\A(/?[^/]+/[^/]+)/.*}{$1}r;
}

# The lines of a request, with what is drawn for its words.
sub _drawn {
    my ($worlds) = @_;
    my $asker   = $worlds->pick(1, 1, 2, 2, 3, 3);
    my @requests = (@REQUESTS, $worlds->uses ? @WITHOUT_PATH : (), $worlds->opens ? ('OPENING') x 12 : ());
    my $request = 'ASKER ' . $worlds->pick($worlds->number($SELDOM_IN) ? @requests : @SELDOM);
    my %drawn   = (
        ASKER    => sub { $asker },
        PATH     => sub { $worlds->path },
        HIGH     => sub { _high($worlds) },
        NAME     => sub { $worlds->name },
        USED     => sub { $worlds->used },
        OPENING  => sub { $worlds->opened_call },
        CALL     => sub { $worlds->pick(@CALLS, $worlds->{further} ? qw(connect bind bind mknod mknod chown create-rw fchmod fchown) : ()) },
        LETTERS  => sub { $worlds->pick(@LETTERS) },
        PROMISES => sub { $worlds->promises(@PROMISES) },
    );
    return $request =~ s/([A-Z]+)/$drawn{$1} ? $drawn{$1}->() : $TEXT{$1}/ger;
}

1;
