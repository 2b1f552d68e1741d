package Pua::Perform;

# Performs a script of pua(1) over the tree of a listing by real processes and real calls. The tree
# is made in a fresh directory, which becomes `/` by chroot(2): so it has to be root, and nothing
# outside of that directory is touched. Where a script has chroot itself, it becomes the root of all
# for its processes; else, as on other systems than Linux, chroot is left out, but in what is trusted.
use strict;
use warnings;
use Exporter qw(import);
use Fcntl qw(O_CREAT O_WRONLY);
use File::Temp qw(tempdir);
use IO::Handle ();
use POSIX qw(mkfifo);
use Socket qw(PF_UNIX SOCK_STREAM pack_sockaddr_un);
use Pua::Kernel qw(%TAKES answer_of_kernel answer_on_files execute let_move_root mounted put_in);
our @EXPORT_OK = qw(perform requests_of);

my $PATIENCE = 3000;    # hundredths of a second in which a process has to answer
my $NO_FILE  = 999_999;    # a descriptor that no process has
my $ON_FILES = qr/\A(?:hold-.*|close|fchdir|take|held|root)\z/;

# The bytes that a field spells; `=` is the empty text where it is an argument.
sub bytes { my ($field) = @_; $field =~ s/\\([0-3][0-7][0-7])/chr oct $1/ge; return $field }
sub argument { my ($field) = @_; return $field eq '=' ? '' : bytes($field) }

sub spelled {
    my ($bytes) = @_;
    $bytes =~ s/([^\x21-\x7e]|\\)/sprintf '\\%03o', ord $1/ge;
    return $bytes;
}

# The fields of a line before its comment; none where that is all of it, or the line is blank. A
# comment comes after the arguments: by the profile a path may begin with `#`.
sub fields_of {
    my ($line) = @_;
    return if $line =~ /\A *(?:#|\z)/;
    my (undef, $call) = split / /, $line;
    my $fields = 1 + ($TAKES{ $call // '' } || 0);
    return split / /, $line =~ s/\A(\S+(?: \S+){$fields}) +#.*/$1/sr;
}

# The lines of a script's text, each as its request's fields; none where nobody asks.
sub requests_of {
    my ($text) = @_;
    my @requests = map { [fields_of($_)] } split /\r?\n/, $text;
    for my $number (1 .. @requests) {
        my ($process, $call, @arguments) = @{ $requests[ $number - 1 ] };
        next if !defined $process;
        die "line $number of the script: no request\n"
            if !defined $call || !defined $TAKES{$call} || @arguments != $TAKES{$call}
            || $process !~ /\A[1-9][0-9]*\z/;
    }
    return @requests;
}

# What the text of a listing has: by node its kind and target, and by directory its names.
sub tree_of {
    my ($text) = @_;
    my ($head, $root, @lines) = split /\r?\n/, $text;
    die "no listing\n" if !defined $root || $head !~ /\Atree [123]\z/ || $root ne '0 dir';
    my $tree = { node => {}, in => {}, names => {} };
    for my $line (@lines) {
        my ($number, $kind, $parent, $name, $end) = split / /, $line;
        die "no line of a listing: $line\n"
            if !defined $name || $kind !~ /\A(?:dir|mount|file|any|sock|fifo|dev|prog|link|hard)\z/;
        if ($kind eq 'hard') { $number = $end; $tree->{names}{$end}++ }
        else { $tree->{node}{$number} = [$kind, defined $end ? bytes($end) : undef] }
        push @{ $tree->{in}{$parent} }, [bytes($name), $number];
    }
    return $tree;
}

# Makes a socket, at which nobody listens.
sub bound {
    my ($name) = @_;
    socket my $socket, PF_UNIX, SOCK_STREAM, 0 or die "$name: $!\n";
    bind $socket, pack_sockaddr_un($name) or die "$name: $!\n";
    return close $socket;
}

# Makes what a node is, but no directory. Without a helper a program is a file that no system can
# start.
sub make {
    my ($name, $kind, $target, $helper) = @_;
    return symlink($target, $name) || die "$name: $!\n" if $kind eq 'link';
    return copy($helper, $name) if $kind eq 'prog' && defined $helper;
    return mkfifo($name, 0644) || die "$name: $!\n" if $kind eq 'fifo';
    return bound($name) if $kind eq 'sock';
    die "$name: no device is made here\n" if $kind eq 'dev';
    die "$name: no file system is mounted here\n" if $kind eq 'mount';
    my $mode = $kind eq 'prog' ? 0755 : 0644;
    sysopen my $out, $name, O_WRONLY | O_CREAT, $mode or die "$name: $!\n";
    print {$out} "\001\n" if $kind eq 'prog';
    return close $out;
}

sub copy {
    my ($from, $to) = @_;
    open my $in, '<:raw', $from or die "$from: $!\n";
    local $/ = undef;
    my $bytes = <$in>;
    sysopen my $out, $to, O_WRONLY | O_CREAT, 0755 or die "$to: $!\n";
    binmode $out;
    print {$out} $bytes;
    return close $out || die "$to: $!\n";
}

# Makes a tree in the directory $root; $stage is an empty one beside it, for what has several names.
sub make_tree {
    my ($tree, $root, $stage, $helper) = @_;
    my @shared = keys %{ $tree->{names} };
    make("$stage/$_", @{ $tree->{node}{$_} }[0, 1], $helper) for @shared;
    chdir $root or die "$root: $!\n";
    my $in;
    no warnings 'recursion';
    $in = sub {
        my ($dir) = @_;
        for my $row (@{ $tree->{in}{$dir} || [] }) {
            my ($name, $number) = @$row;
            my ($kind, $target) = @{ $tree->{node}{$number} };
            if ($tree->{names}{$number}) { link "$stage/$number", $name or die "$name: $!\n" }
            elsif ($kind ne 'dir')       { make($name, $kind, $target, $helper) }
            else {
                mkdir $name, 0755 or die "$name: $!\n";
                chdir $name or die "$name: $!\n";
                $in->($number);
                chdir '..' or die "..: $!\n";
            }
        }
        return;
    };
    $in->(0);
    undef $in;
    unlink map { "$stage/$_" } @shared;
    return;
}

# Goes through all that is in the working directory, however long the paths are, and hands each
# name with the path of its directory to what `before` or `after` its own names does.
sub walk {
    my ($path, $before, $after) = @_;
    opendir my $dir, '.' or die "$path: $!\n";
    my @names = grep { !/\A\.\.?\z/ } readdir $dir;
    closedir $dir;
    no warnings 'recursion';
    for my $name (@names) {
        lstat $name;
        my $kind = -l _ ? 'link' : -d _ ? 'dir' : -S _ ? 'sock' : -p _ ? 'fifo' : -f _ && -x _ ? 'prog' : 'file';
        $before->($path, $name, $kind);
        if ($kind eq 'dir') {
            chdir $name or die "$path/$name: $!\n";
            walk($path . '/' . spelled($name), $before, $after);
            chdir '..' or die "..: $!\n";
        }
        $after->($path, $name, $kind);
    }
    return;
}

# What stands below a directory: a line `KIND PATH` for each name, as `pua objects` has them; and what
# is open, `held PROCESS NUMBER PATH` for each of its names, or one line with `-`; and roots, each
# `root PROCESS PATH` with its word. @held has process, number, device, number of the node and links;
# of a root the word instead of the number.
sub left {
    my ($root, @held) = @_;
    chdir $root or die "$root: $!\n";
    my @lines = ('dir /');
    my %paths = (join(' ', (lstat '.')[0, 1]) => ['/']);
    my $note = sub {
        my ($path, $name, $kind) = @_;
        my $whole = "$path/" . spelled($name);
        push @lines, "$kind $whole";
        push @{ $paths{ join ' ', (lstat $name)[0, 1] } }, $whole;
    };
    walk('', $note, sub { });
    chdir '/';
    for my $file (@held) {
        my ($process, $number, $device, $node, $links) = @$file;
        my @paths = $links ? @{ $paths{"$device $node"} || ['?'] } : '-';
        if    ($number =~ /\A[0-9]+\z/) { push @lines, map { "held $process $number $_" } @paths }
        elsif ($paths[0] ne '/')       { push @lines, "root $process $paths[0] $number" }
    }
    return join '', map { "$_\n" } sort @lines;
}

sub clear {
    my ($dir) = @_;
    chdir $dir or return;
    my $remove = sub { my (undef, $name, $kind) = @_; $kind eq 'dir' ? rmdir $name : unlink $name };
    walk('', sub { }, $remove);
    chdir '/';
    rmdir $dir;
    return;
}

# Performs the text of a script over that of a listing. In %$how, optional: room, where temporary
# directories are made; helper, a static program made of conform.c, which then makes all calls;
# left, whether what is left, and open, is asked for; trusted, whether the script is known to change
# nothing where a chroot of its own may lead. Gives a list of the answers, and the lines of
# what is left.
sub perform {
    my ($listing, $script, $how) = @_;
    my $tree = tree_of($listing);
    my @requests = requests_of($script);
    my $case = tempdir('conform.XXXXXXXX', DIR => $how->{room} || '/tmp', CLEANUP => 0);
    my $back = POSIX::getcwd();
    my $mask = umask 0;
    my ($answers, $left, $held);
    my $is_done = eval {
        mkdir "$case/$_" or die "$case/$_: $!\n" for qw(root stage);
        make_tree($tree, "$case/root", "$case/stage", $how->{helper});
        chdir '/';
        ($answers, $held) = answers_to(\@requests, "$case/root", $how);
        $left = left("$case/root", @$held) if $how->{left};
        1;
    };
    my $fault = $@;
    clear($case);
    umask $mask;
    chdir $back if defined $back;
    die $fault unless $is_done;
    return ($answers, $left);
}

# The answers to requests in a directory, undef where nobody asks, and what is open in the end. Each
# process is told its calls by a pipe of its own, and all of them answer by one; who is gone without
# an answer was killed.
sub answers_to {
    my ($requests, $root, $how) = @_;
    local $^F = 255;    # pipes stay open when the helper is started
    local $SIG{PIPE} = 'IGNORE';
    my %to;
    for my $number (1, map { @$_ && $_->[1] eq 'fork' ? $_->[2] : () } @$requests) {
        next if $to{$number};
        pipe my $from, my $into or die "pipe: $!\n";
        $into->autoflush(1);
        $to{$number} = [$from, $into];
    }
    pipe my $from, my $teller or die "pipe: $!\n";
    my $moves = grep { @$_ && $_->[1] eq 'chroot' } @$requests;
    my $child = fork;
    die "fork: $!\n" unless defined $child;
    begin($root, { %$how, moves => $moves }, $from, $teller, \%to) if !$child;
    close $teller;
    close $_->[0] for values %to;
    my $run = {
        pid => { 1 => $child }, used => { 1 => 1 }, files => {}, to => \%to, from => $from, rest => '',
    };
    my @answers = map { @$_ ? answer_to($run, @$_) : undef } @$requests;
    my @held = $how->{left} ? held_in($run) : ();
    push @held, roots_in($run) if $how->{left} && $moves;
    close $_->[1] for values %to;
    close $from;
    waitpid $child, 0;
    return (\@answers, \@held);
}

# Process 1 in its child, which doesn't return.
sub begin {
    my ($root, $how, $from, $teller, $to) = @_;
    eval {
        my $helper = $how->{helper};
        close $from;
        close $_->[1] for values %$to;
        $SIG{CHLD} = 'IGNORE';
        $SIG{$_} = 'DEFAULT' for qw(HUP INT TERM);
        my $is_mounted = $how->{moves} && mounted($root);
        if (defined $helper) {
            my @pipes = map { $_ => fileno $to->{$_}[0] } keys %$to;
            my $name = $is_mounted ? 'mounted' : $how->{trusted} ? 'trusted' : 'helper';
            execute($helper, $name, fileno $teller, 1, "root=$root", @pipes);
            die "$helper: $!\n";
        }
        if (!$is_mounted || !put_in($root)) {
            chdir $root or die "$root: $!\n";
            chroot '.' or die "chroot: $!\n";
            chdir '/' or die "chdir: $!\n";
            let_move_root() if $how->{trusted};
        }
        work(1, $teller, $to);
    };
    print {*STDERR} "conform.pl: $@";
    POSIX::_exit(3);
}

# The answer to one request.
sub answer_to {
    my ($run, $process, $call, @arguments) = @_;
    return 'gone' unless defined $run->{pid}{$process};
    # A kernel has no such number: this is the tool's, as it is pua's.
    return 'EAGAIN' if $call eq 'fork' && $run->{used}{ $arguments[0] };
    return answer_on($run, $process, $call, @arguments)
        if $call =~ /\A(?:hold|close|fchdir|take)\z/;
    my ($answer, $pid) = asked($run, $process, $call, told_words($call, @arguments));
    if ($call eq 'fork' && $answer eq 'ok') {
        $run->{pid}{ $arguments[0] } = $pid;
        $run->{used}{ $arguments[0] } = 1;
        $run->{files}{ $arguments[0] } = { %{ $run->{files}{$process} || {} } };
    }
    delete $run->{pid}{$process} if $call eq 'exit';
    return $answer;
}

# What a process answers when it is told a call, and what else it tells.
sub asked {
    my ($run, $process, @words) = @_;
    print { $run->{to}{$process}[1] } "@words\n";
    my $told = next_answer($run, $process);
    my ($answer, @more) = defined $told ? split / /, $told : 'killed';
    delete $run->{pid}{$process} if $answer eq 'killed';
    return ($answer =~ /\A[0-9]+\z/ ? Pua::Kernel::named($answer) : $answer, @more);
}

# The answer to a request about descriptors. A process has others for those of the script; an exec
# leaves both. That nothing can be taken of who has it not is this tool's word, as it is pua's.
sub answer_on {
    my ($run, $process, $call, $number, @arguments) = @_;
    my $files = $run->{files}{$process} ||= {};
    my $own = exists $files->{$number} ? $files->{$number} : $NO_FILE;
    if ($call eq 'close' || $call eq 'fchdir') {
        my ($answer) = asked($run, $process, $call, $own);
        delete $files->{$number} if $call eq 'close' && $answer eq 'ok';
        return $answer;
    }
    my @words = ("hold-$arguments[0]", told_words($call, $arguments[1]));
    if ($call eq 'take') {
        my ($from, $theirs) = @arguments;
        my $file = $run->{files}{$from}{$theirs};
        return 'EBADF' if !defined $run->{pid}{$from} || !defined $file;
        @words = ('take', $run->{pid}{$from}, $file);
    }
    my ($answer, $new) = asked($run, $process, @words);
    return $answer if $answer ne 'ok';
    asked($run, $process, 'close', $own) if $own != $NO_FILE;
    $files->{$number} = $new;
    return 'ok';
}

# What the living processes have open: process and number, and what is told of it.
sub held_in {
    my ($run) = @_;
    my @held;
    for my $process (sort { $a <=> $b } keys %{ $run->{pid} }) {
        my $files = $run->{files}{$process} || {};
        for my $number (sort { $a <=> $b } keys %$files) {
            my ($answer, @node) = asked($run, $process, 'held', $files->{$number});
            push @held, [$process, $number, @node] if $answer eq 'ok';
        }
    }
    return @held;
}

# The roots of the living processes, as what they have open: with `open` where one of these, or the
# working directory, is outside of it, and else `closed`.
sub roots_in {
    my ($run) = @_;
    my @roots;
    for my $process (sort { $a <=> $b } keys %{ $run->{pid} }) {
        my @files = values %{ $run->{files}{$process} || {} };
        my ($answer, @node) = asked($run, $process, 'root', @files);
        push @roots, [ $process, pop @node, @node ] if $answer eq 'ok';
    }
    return @roots;
}

# The arguments as a process is told them: `.` and hexadecimal digits; `-` for NULL.
sub told_words {
    my ($call, @arguments) = @_;
    return @arguments if $call eq 'fork';
    my $has_null = $call eq 'pledge' || $call eq 'unveil';
    return map { $has_null && $_ eq '-' ? '-' : '.' . unpack 'H*', argument($_) } @arguments;
}

# The next line that a process answers; undef where it died instead.
sub next_answer {
    my ($run, $process) = @_;
    my ($pid, $is_dead) = ($run->{pid}{$process}, 0);
    for (0 .. $PATIENCE) {
        return $1 if $run->{rest} =~ s/\A([^\n]*)\n//;
        my $ready = '';
        vec($ready, fileno $run->{from}, 1) = 1;
        if (select $ready, undef, undef, $is_dead ? 0 : 0.01) {
            sysread $run->{from}, $run->{rest}, 65_536, length $run->{rest} or return;
            next;
        }
        return if $is_dead;
        $is_dead = $process == 1 ? waitpid($pid, POSIX::WNOHANG()) == $pid : !kill 0, $pid;
    }
    return 'no-answer';
}

# What a process does: the calls that it is told, until its pipe ends. A fork goes on in two.
sub work {
    my ($self, $teller, $to) = @_;
    my $from = $to->{$self}[0];
    my $say = sub { syswrite $teller, "$_[0]\n" };
    while (1) {
        my $line = '';
        until ($line =~ s/\n\z//) {
            sysread $from, $line, 1, length $line or POSIX::_exit(0);
        }
        my ($call, @words) = split / /, $line;
        if ($call eq 'exit') { $say->('ok'); POSIX::_exit(0) }
        if ($call eq 'fork') {
            my $child = fork;
            if    (!defined $child) { $say->($! + 0) }
            elsif ($child)          { $say->("ok $child") }
            else                    { $from = $to->{ $words[0] }[0] }
            next;
        }
        if ($call =~ $ON_FILES) { $say->(answer_on_files($call, @words)); next }
        $say->(answer_of_kernel($call, map { $_ eq '-' ? undef : pack 'H*', substr $_, 1 } @words));
    }
}

1;
