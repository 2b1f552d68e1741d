package Pua::Kernel;

# Makes the calls of a script on the kernel of this machine, in the process that asks, and tells
# what it answered: `ok`, the name of an errno, or a word of this tool.
use strict;
use warnings;
no warnings qw(newline);
use Errno ();
use Exporter qw(import);
use Fcntl qw(O_CREAT O_NONBLOCK O_RDONLY O_RDWR O_WRONLY S_ISFIFO);
use POSIX ();
use Socket qw(AF_UNIX SOCK_STREAM);
our @EXPORT_OK
    = qw(%TAKES $MOST_SOCKET answer_of_kernel answer_on_files execute has_pledge has_unveil let_move_root
    mounted named put_in);

# How many arguments each request of a script has.
our %TAKES = (
    (map { $_ => 1 } qw(stat lstat readlink open-r open-w open-rw create mkdir rmdir unlink)),
    (map { $_ => 1 } qw(chmod chdir exec connect bind mknod chown create-rw fchmod fchown fork)),
    (map { $_ => 1 } qw(access statfs truncate chflags utimes mkfifo)),
    (map { $_ => 2 } qw(symlink rename link pledge unveil)), exit => 0,
    hold => 3, close => 1, fchdir => 1, take => 3, chroot => 1,
);

# How many bytes of path a socket's address holds. Some systems have more; a longer path is asked of
# none.
our $MOST_SOCKET = 103;

my %FLAGS = (
    'open-r' => O_RDONLY, 'open-w' => O_WRONLY, 'open-rw' => O_RDWR, create => O_WRONLY | O_CREAT,
    'create-rw' => O_RDWR | O_CREAT,
);

my $O_PATH = 010000000;    # of Linux: an open that asks nothing of what it opens

my $PLEDGE = eval { require OpenBSD::Pledge; 1 };
my $UNVEIL = eval { require OpenBSD::Unveil; 1 };
sub has_pledge { return $PLEDGE }
sub has_unveil { return $UNVEIL }

# The names of errnos by their numbers. Where two have one number, it is the one that pua has.
my %NAMES;
for my $name (reverse(sort keys %!), qw(EAGAIN ENOTSUP EDEADLK)) {
    my $number = Errno->can($name) ? Errno->can($name)->() : 0;
    $NAMES{$number} = $name if $number;
}
sub named { my ($number) = @_; return $NAMES{$number} || "E$number" }

# The numbers of system calls, where perl knows them: its own mkdir and rmdir take slashes away, and
# its chdir, open and exec know further words.
my @NUMBERED = qw(stat lstat open mkdir rmdir unlink symlink rename link readlink chmod chdir chown
    access statfs execve pledge fchdir pidfd_open pidfd_getfd);
my @MOUNTING = qw(unshare mount pivot_root umount2);
my (%NUMBERS, %MOUNTING);
if (eval { local $SIG{__WARN__} = sub { }; require 'sys/syscall.ph'; 1 }) {
    for my $call (@NUMBERED, @MOUNTING) {
        my $number = eval { __PACKAGE__->can("SYS_$call")->() };
        $NUMBERS{$call} = $number if defined $number && $number =~ /\A[0-9]+\z/;
    }
    %MOUNTING = map { $_ => delete $NUMBERS{$_} } @MOUNTING;
}
sub forget_numbers { %NUMBERS = (); return }

# The answer to a call that perl made by itself, or by its number.
sub told  { my ($is_done) = @_; return $is_done ? 'ok' : named($! + 0) }
sub asked {
    my ($call, @arguments) = @_;
    return told(syscall($NUMBERS{$call}, @arguments) != -1);
}

# What is asked by number where the number is known, and else by perl's own function.
my %OWN = (
    mkdir    => sub { mkdir $_[0], 0755 },
    rmdir    => sub { rmdir $_[0] },
    unlink   => sub { unlink $_[0] },
    symlink  => sub { symlink $_[0], $_[1] },
    rename   => sub { rename $_[0], $_[1] },
    link     => sub { link $_[0], $_[1] },
    chmod    => sub { chmod $_[1], $_[0] },
    chown    => sub { chown -1, -1, $_[0] },
    chdir    => sub { $_[0] eq '' ? nothing_there() : chdir $_[0] },
    readlink => sub { defined readlink $_[0] },
    stat     => sub { my @fields = stat $_[0]; scalar @fields },
    statfs   => sub { my @fields = stat $_[0]; scalar @fields },
    access   => sub { POSIX::access($_[0], POSIX::F_OK()) },
    truncate => sub { my @fields = stat $_[0]; @fields && truncate $_[0], $fields[7] },
    utimes   => sub { my @fields = stat $_[0]; @fields && utime $fields[8], $fields[9], $_[0] },
    lstat    => sub { my @fields = lstat $_[0]; scalar @fields },
);
my %AFTER = (    # the arguments behind the paths
    mkdir => [0755], chown => [-1, -1], access => [0], statfs => ["\0" x 4096],
    stat => ["\0" x 512], lstat => ["\0" x 512], readlink => ["\0" x 4096, 4096],
);

# What this process is answered; an undefined argument is NULL.
sub answer_of_kernel {
    my ($call, @arguments) = @_;
    for (@arguments) { $_ = "$_" if defined }    # a text for the call, whatever it looks like
    my ($path) = @arguments;
    return opened($call, $path) if exists $FLAGS{$call};
    return on_socket($call, $path) if $call eq 'bind' || $call eq 'connect';
    return by_descriptor($call, $path) if $call eq 'fchmod' || $call eq 'fchown';
    return pledged(@arguments) if $call eq 'pledge';
    return rooted($path) if $call eq 'chroot';
    return unveiled(@arguments) if $call eq 'unveil';
    return told(POSIX::mkfifo($path, 0666)) if $call eq 'mknod' || $call eq 'mkfifo';
    if ($call eq 'exec') {
        execute($path, 'prog');
        return is_started($path) ? 'ok' : named($! + 0);
    }
    return 'unknown' unless $OWN{$call};
    push @arguments, mode_of($path) if $call eq 'chmod';
    return told($OWN{$call}->(@arguments)) unless defined $NUMBERS{$call};
    my @after = @{ $AFTER{$call} || [] };
    return asked($call, @arguments, @after);
}

sub nothing_there { $! = Errno::ENOENT(); return }

# The bits that a file has, so that a program stays one, and a file none.
sub mode_of { my ($path) = @_; my @fields = stat $path; return @fields ? $fields[2] & 07777 : 0644 }

# Whether execve(2) would have started it: a program of a listing is no format that any system has.
# Perl's own exec goes on to a shell then, which isn't there.
sub is_started {
    my ($path) = @_;
    my $errno = $! + 0;
    my $is_there = !defined $NUMBERS{execve} && $errno == Errno::ENOENT() && -f $path && -x _;
    $! = $errno;
    return $is_there || $errno == Errno::ENOEXEC();
}

# A fifo whose open would wait is a file to pua: ok. The answer, and the descriptor, if there is one.
sub opening {
    my ($path, $flags) = @_;
    my $fd;
    if    (defined $NUMBERS{open}) { $fd = syscall $NUMBERS{open}, $path, $flags | O_NONBLOCK, 0666 }
    elsif ($path eq '')            { nothing_there() }
    else                           { $fd = POSIX::open($path, $flags | O_NONBLOCK, 0666) }
    return ('ok', $fd) if defined $fd && $fd >= 0;
    my $errno = $! + 0;
    my @fields = $errno == Errno::ENXIO() ? stat $path : ();
    return @fields && S_ISFIFO($fields[2]) ? 'ok' : named($errno);
}

sub opened {
    my ($call, $path) = @_;
    my ($answer, $fd) = opening($path, $FLAGS{$call});
    POSIX::close($fd) if defined $fd;
    return $answer;
}

# A directory as the root of all: out of one that chroot(2) alone made, a later chroot(2) can lead,
# to what no script may touch. So a script moves its root on Linux alone, where a name space of
# mounts can have no more than the directory.
my ($CLONE_NEWNS, $MS_BIND, $MS_REC, $MS_PRIVATE, $MNT_DETACH) = (0x20000, 4096, 16384, 1 << 18, 2);
my $MAY_MOVE_ROOT = 0;

# Makes a directory a mount in a name space of its own, of this process and its children. Whether it
# could.
sub mounted {
    my ($dir) = @_;
    return 0 if $^O ne 'linux' || grep { !defined $MOUNTING{$_} } @MOUNTING;
    my ($none, $top, $from, $to) = ('none', '/', $dir, $dir);
    return syscall($MOUNTING{unshare}, $CLONE_NEWNS) != -1
        && syscall($MOUNTING{mount}, $none, $top, 0, $MS_REC | $MS_PRIVATE, 0) != -1
        && syscall($MOUNTING{mount}, $from, $to, 0, $MS_BIND, 0) != -1;
}

# Makes such a mount the root of all. Whether it could.
sub put_in {
    my ($dir) = @_;
    chdir $dir or return 0;
    my ($new, $old) = ('.', '.');
    return 0 if syscall($MOUNTING{pivot_root}, $new, $old) == -1;
    $MAY_MOVE_ROOT = syscall($MOUNTING{umount2}, $old, $MNT_DETACH) != -1 && chdir '/';
    return $MAY_MOVE_ROOT;
}

# Lets a process move its root, of whose script it is known that it touches nothing outside.
sub let_move_root { $MAY_MOVE_ROOT = 1; return }

sub rooted {
    my ($path) = @_;
    return 'left-out' if !$MAY_MOVE_ROOT;
    return $path eq '' ? told(nothing_there()) : told(chroot $path);
}

# The answer to a call about descriptors of this process, and what else is told: the new descriptor,
# or of `held` the device, the number and the links of what is open, and of `root` those of the
# root, and whether one of some descriptors, or the working directory, is outside of it.
my %ON_FILES = (
    close  => sub { told(POSIX::close($_[0])) },
    fchdir => \&enter,
    take   => \&take,
    held   => sub { my @fields = POSIX::fstat($_[0]); return @fields ? "ok @fields[0, 1, 3]" : told(0) },
    root   => \&root_of,
);
sub answer_on_files {
    my ($call, @words) = @_;
    return hold($1, pack 'H*', substr $words[0], 1) if $call =~ /\Ahold-(.*)/;
    return $ON_FILES{$call}->(map { $_ + 0 } @words);
}

# A fifo whose open would wait has a descriptor on Linux alone.
sub hold {
    my ($call, $path) = @_;
    my ($answer, $fd) = opening($path, $FLAGS{$call});
    ($answer, $fd) = opening($path, $O_PATH) if $answer eq 'ok' && !defined $fd && $^O eq 'linux';
    return $answer ne 'ok' ? $answer : defined $fd ? "ok $fd" : 'left-out';
}

sub enter {
    my ($fd) = @_;
    return told(syscall($NUMBERS{fchdir}, $fd) != -1) if defined $NUMBERS{fchdir};
    open my $dir, '<&', $fd or return told(0);
    return told(chdir $dir);
}

# What `..` leads to from a working directory at last is the root, if it is not outside of that.
sub root_of {
    my (@files) = @_;
    my @root = (stat '/')[0, 1, 3] or return told(0);
    my @ends = top_of_here();
    for my $file (@files) {
        push @ends, top_of_here() if enter($file) eq 'ok';
    }
    return "ok @root " . (grep({ $_ ne "@root[0, 1]" } @ends) ? 'open' : 'closed');
}

sub top_of_here {
    my ($here, $last) = (join(' ', (stat '.')[0, 1]), '');
    while ($here ne $last) {
        chdir '..' or return $here;
        ($last, $here) = ($here, join ' ', (stat '.')[0, 1]);
    }
    return $here;
}

# Takes a descriptor of another process, as Linux alone lets one that sends nothing.
sub take {
    my ($pid, $theirs) = @_;
    return 'left-out' if grep { !defined $NUMBERS{$_} } qw(pidfd_open pidfd_getfd);
    my $process = syscall $NUMBERS{pidfd_open}, $pid, 0;
    return told(0) if $process == -1;
    my $taken = syscall $NUMBERS{pidfd_getfd}, $process, $theirs, 0;
    my $answer = $taken == -1 ? told(0) : "ok $taken";
    POSIX::close($process);
    return $answer;
}

# What was opened for reading is changed by its descriptor, to the bits or the owner that it has.
sub by_descriptor {
    my ($call, $path) = @_;
    return opened('open-r', $path) unless sysopen my $file, $path, O_RDONLY | O_NONBLOCK;
    return told($call eq 'fchown' ? chown(-1, -1, $file) : chmod(mode_of($file), $file));
}

# `too-long` is this tool's: no kernel is asked. An address without a path is something else on some
# systems.
sub on_socket {
    my ($call, $path) = @_;
    return 'too-long' if length $path > $MOST_SOCKET;
    return 'ENOENT' if $path eq '';
    socket my $socket, AF_UNIX, SOCK_STREAM, 0 or return named($! + 0);
    my $address = Socket::pack_sockaddr_un($path);
    return told($call eq 'bind' ? bind $socket, $address : connect $socket, $address);
}

# execve(2) of a path as it is, without a search and without a shell. It returns where it failed.
sub execute {
    my ($path, @words) = @_;
    if (defined $NUMBERS{execve}) {
        my @held = map { "$_" } @words;
        my $list = pack('p*', @held) . pack 'J', 0;
        my $none = pack 'J', 0;
        syscall $NUMBERS{execve}, $path, $list, $none;
        return;
    }
    return nothing_there() if $path eq '';
    $path = "./$path" if $path !~ m{/};    # else it would be searched for
    { no warnings 'exec'; exec {$path} @words }
    return;
}

# OpenBSD::Pledge takes promises one by one, and adds stdio, without which no answer could be told.
# It has no execpromises: these need the number of the call.
sub pledged {
    my ($promises, $execpromises) = @_;
    return 'left-out' unless $PLEDGE;
    my ($now, $then) = map { defined $_ ? [promises_of($_)] : undef } $promises, $execpromises;
    return told(OpenBSD::Pledge::pledge(@$now)) if $now && !$then;
    return 'ok' if !$now && !$then;
    return 'left-out' unless defined $NUMBERS{pledge};
    return asked('pledge', map { $_ ? "@$_" : 0 } $now, $then);
}

sub promises_of {
    my ($list) = @_;
    return ('stdio', grep { $_ ne '' && $_ ne 'stdio' } split /,/, $list);
}

sub unveiled {
    my ($path, $permissions) = @_;
    return 'left-out' unless $UNVEIL;
    my @words = defined $path ? ($path, $permissions) : ();
    return told(OpenBSD::Unveil::unveil(@words));
}

1;
