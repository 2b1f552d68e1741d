# A plain model of what pua answers, written from docs/DEFINITIONS.md and man/pua.1 alone: no proof, no speed, no care
# for memory. The program is tested beside it. Its inputs are listings, scripts and tables without faults.
#
# A model is a tree (Tree.pm, which also says what is *found* by a path), the table of calls, and processes by their
# numbers. A process has: root and dir, the numbers of its root and its working directory; promises and execpromises, each a
# set (a hash) or undef where no pledge gave any; veils, their places in their order, and letters, those kept by place;
# locked and ended; and files, by descriptor, each a node with its kind and the letters for which it is open. A place is the
# number of a directory, or that and a name, with a slash between them.
package Model;
use strict;
use warnings;
use parent qw(Tree);
use Openings qw(opening_for openings_of);
use Tree qw(spelled text_fault unspelled);

my $MOST_VEILS     = 128;
my $MOST_PROCESSES = 256;

my @KEYWORDS = qw(
    audio bpf chown cpath disklabel dns dpath drm error exec fattr flock getpw id inet mcast pf proc prot_exec
    ps recvfd route rpath sendfd settime stdio tape tmppath tty unix unveil video vminfo vmm wpath wroute
);
my %IS_KEYWORD = map { $_ => 1 } @KEYWORDS;
my $ERROR = 'error';

# The calls on one path, in their order.
our @CALLS = qw(
    stat lstat readlink open-r open-w open-rw create mkdir rmdir unlink symlink chmod chdir exec connect bind
    mknod chown create-rw fchmod fchown
);

# What each needs: sets of promises, of which one has to be held; and letters.
my %STANDARD = (
    stat     => [['rpath'], 'r'],
    lstat    => [['rpath'], 'r'],
    readlink => [['rpath'], 'r'],
    'open-r' => [['rpath'], 'r'],
    'open-w' => [['wpath'], 'w'],
    'open-rw' => [['rpath,wpath'], 'rw'],
    create   => [['wpath,cpath'], 'wc'],
    mkdir    => [['cpath'], 'c'],
    rmdir    => [['cpath'], 'c'],
    unlink   => [['cpath'], 'c'],
    symlink  => [['cpath'], 'c'],
    chmod    => [['fattr'], 'w'],
    chdir    => [['rpath'], 'r'],
    exec     => [['exec'], 'x'],
    connect  => [[], 'w'],
    bind     => [[], 'c'],
    mknod    => [[], 'c'],
    chown    => [[], 'w'],
    'create-rw' => [[], 'rwc'],
    fchmod   => [[], 'r'],
    fchown   => [[], 'r'],
    'old name of rename' => [['cpath'], 'c'],
    'new name of rename' => [['cpath'], 'c'],
    'old name of link'   => [['cpath'], 'c'],
    'new name of link'   => [['cpath'], 'c'],
);

# What is otherwise by OpenBSD's rules.
my %OPENBSD = (
    chmod                => [['rpath,fattr'], 'w'],
    connect              => [['unix'], 'w'],
    bind                 => [['unix'], 'c'],
    mknod                => [['dpath'], 'c'],
    chown                => [['rpath,chown', 'rpath,fattr'], 'w'],
    'create-rw'          => [['rpath,wpath,cpath'], 'rwc'],
    fchmod               => [['rpath,fattr'], 'r'],
    fchown               => [['rpath,chown', 'rpath,fattr'], 'r'],
    'old name of rename' => [['rpath,cpath'], 'rc'],
    'old name of link'   => [['rpath'], 'r'],
);

# By OpenBSD's rules, the calls as which a script has others.
my %NEIGHBOURS = (
    access => 'stat', statfs => 'stat', truncate => 'open-w', chflags => 'chmod', utimes => 'chmod', mkfifo => 'mknod',
);

# The calls that follow a link at their path's end, and those that drop a slash there.
my %FOLLOWS = map { $_ => 1 } qw(stat open-r open-w open-rw create create-rw chmod chdir exec connect chown
    fchmod fchown);
my %DROPS   = map { $_ => 1 } qw(mkdir rmdir rename);

# What becomes of a call on each kind of thing. An errno refuses it; `way` asks how a directory was named.
my %MISFITS = (
    stat       => { missing => 'ENOENT' },
    'open-r'   => { missing => 'ENOENT' },
    chmod      => { missing => 'ENOENT' },
    lstat      => { missing => 'ENOENT' },
    readlink   => { missing => 'ENOENT', dir => 'EINVAL', file => 'EINVAL', prog => 'EINVAL' },
    'open-w'   => { missing => 'ENOENT', dir => 'EISDIR' },
    'open-rw'  => { missing => 'ENOENT', dir => 'EISDIR' },
    create     => { dir => 'EISDIR' },
    'create-rw' => { dir => 'EISDIR' },
    mkdir      => { map { $_ => 'EEXIST' } qw(dir file prog link) },
    symlink    => { map { $_ => 'EEXIST' } qw(dir file prog link) },
    rmdir      => { missing => 'ENOENT', dir => 'way', file => 'ENOTDIR', prog => 'ENOTDIR', link => 'ENOTDIR' },
    unlink     => { missing => 'ENOENT', dir => 'EPERM' },
    chdir      => { missing => 'ENOENT', file => 'ENOTDIR', prog => 'ENOTDIR' },
    exec       => { missing => 'ENOENT', dir => 'EACCES', file => 'EACCES' },
    connect    => { missing => 'ENOENT', dir => 'ENOTSOCK', prog => 'ENOTSOCK' },
    bind       => { map { $_ => 'EADDRINUSE' } qw(dir file prog link) },
    mknod      => { map { $_ => 'EEXIST' } qw(dir file prog link) },
    chown      => { missing => 'ENOENT' },
    fchmod     => { missing => 'ENOENT' },
    fchown     => { missing => 'ENOENT' },
);

# A socket, fifo or device is as a file is, but that no socket is opened, and none but a socket is connected to.
for my $call (keys %MISFITS) {
    my $of_file = $MISFITS{$call}{file};
    @{ $MISFITS{$call} }{qw(sock fifo dev)} = ($of_file) x 3 if $of_file;
}
$MISFITS{$_}{sock} = 'EOPNOTSUPP' for qw(open-r open-w open-rw create create-rw fchmod fchown);
$MISFITS{connect}{$_} = 'ENOTSOCK' for qw(plain fifo dev);

# The requests beside the calls on one path, and symlink, which has a target too: each is a method of its name.
my %REQUESTS = map { $_ => "_$_" } qw(symlink rename link pledge unveil fork exit uses hold close fchdir take chroot);

# What calls make, but for files: by OpenBSD's rules these are plain ones.
my %MADE = (mkdir => 'dir', bind => 'sock', mknod => 'fifo');

# For which letters a call opens what is held.
my %OPENED = ('open-r' => 'r', 'open-w' => 'w', 'open-rw' => 'rw');

# A world: the tree of a listing, and process 1. In %$how, optional: rules, `openbsd` for OpenBSD's; table, the
# text of a table of calls.
sub new {
    my ($class, $listing, $how) = @_;
    my $is_openbsd = ($how->{rules} || '') eq 'openbsd';
    my $model = $class->SUPER::new($listing);
    $model->{openbsd}   = $is_openbsd;
    $model->{needs}     = { %STANDARD, $is_openbsd ? %OPENBSD : (), _rows_of($how->{table}) };
    $model->{processes} = { 1 => { root => 0, dir => 0, veils => [], letters => {}, files => {} } };
    return $model;
}

# The calls on one path that the table has, in their order.
sub calls {
    my ($model) = @_;
    return grep { @{ $model->{needs}{$_}[0] } } @CALLS;
}

# The rows of a table's text, as far as it has one call, one array and one text a line.
sub _rows_of {
    my ($text) = @_;
    my (%rows, $call);
    for (split /\n/, defined $text ? $text : '') {
        $call = $1 if /^\[(\S+)\]/;
        $rows{$call}[0] = [ /"([^"]*)"/g ] if /^promises *=/;
        $rows{$call}[1] = $1 if /^veil *= *"(\w*)"/;
    }
    return %rows;
}

# Whether a call is on what a link at its path's end leads to.
sub follows { return $FOLLOWS{ $_[0] } }

# What a path names to a process, by a call's rule for its end.
sub _named {
    my ($model, $process, $call, $path) = @_;
    return $model->resolve($process, $path, $FOLLOWS{$call}, $DROPS{$call});
}

# --- Promises and veils ---

# The set of a list of keywords; undef where one is unknown.
sub _set {
    my ($list) = @_;
    my @words = split /,/, $list;
    return if grep { !$IS_KEYWORD{$_} } @words;
    return { map { $_ => 1 } @words };
}

sub _holds {
    my ($process, $promise) = @_;
    return $process->{promises} ? $process->{promises}{$promise} : $promise ne $ERROR;
}

# The letters of a veil in their order, each once; undef where one is unknown.
sub _letters {
    my ($text) = @_;
    return $text =~ /[^rwxc]/ ? undef : join '', grep { index($text, $_) >= 0 } qw(r w x c);
}

# The letters of one text that another lacks.
sub _lacking {
    my ($wanted, $letters) = @_;
    return grep { index($letters, $_) < 0 } split //, $wanted;
}

# The answer to a process that holds none of the sets of promises; nothing where it holds one.
sub _unpromised {
    my ($process, @sets) = @_;
    return 'killed' if $process->{ended};
    for my $set (@sets) {
        return '' if !grep { !_holds($process, $_) } split /,/, $set;
    }
    return _holds($process, $ERROR) ? 'ENOSYS' : 'killed';
}

# The place of what was found, where a veil of its own stands.
sub _place {
    my ($found) = @_;
    return exists $found->{dir} ? $found->{dir} : "$found->{in}/$found->{name}";
}

# The letters that cover what was found; undef where nothing does.
sub _cover {
    my ($model, $process, $found) = @_;
    return 'rwxc' unless @{ $process->{veils} };
    my $letters = $process->{letters};
    my $place = _place($found);
    return $letters->{$place} if exists $letters->{$place};
    my $dir = exists $found->{dir} ? $found->{dir} : $found->{in};
    while (!exists $letters->{$dir}) {
        return if $dir == 0;
        $dir = $model->_parent($dir);
    }
    return $letters->{$dir};
}

# Why a veil refuses what needs some letters; nothing where none does.
sub _veiled {
    my ($model, $process, $found, $needed) = @_;
    my $letters = $model->_cover($process, $found);
    return 'ENOENT' unless defined $letters;
    return _lacking($needed, $letters) ? 'EACCES' : '';
}

# --- The calls on one path ---

# Why what was found does not suit a call; nothing where it does.
sub _misfit {
    my ($model, $call, $found) = @_;
    my $is_plain = defined $found->{node} && $model->{plain}{ $found->{node} };
    my $errno = $is_plain && $MISFITS{$call}{plain} || $MISFITS{$call}{ $model->_kind($found) } || '';
    return 'EBUSY' if $call eq 'unlink' && exists $found->{dir} && $model->{mount}{ $found->{dir} };
    return $errno unless $errno eq 'way';
    return 'EBUSY' if $found->{way} eq '';
    return 'EINVAL' if $found->{way} eq '.' || $found->{way} eq '..' && !$model->{openbsd};
    return 'EBUSY' if $found->{way} eq 'name' && $model->{mount}{ $found->{dir} };
    return 'ENOTEMPTY' if !$model->_is_empty($found->{dir});
    return $found->{way} eq '..' ? 'EINVAL' : '';
}

# Why a call is refused what was found: for its veil, or since it does not suit. Nothing where it isn't.
sub _judged {
    my ($model, $process, $call, $found) = @_;
    return $model->_veiled($process, $found, $model->{needs}{$call}[1]) || $model->_misfit($call, $found);
}

# What becomes of a call on a path: an errno or `killed`, or nothing, and what was found.
sub verdict {
    my ($model, $process, $call, $path) = @_;
    my $answer = _unpromised($process, @{ $model->{needs}{$call}[0] });
    return $answer if $answer;
    my ($errno, $found) = $model->_named($process, $call, $path);
    return ($errno || $model->_judged($process, $call, $found), $found);
}

# By which promise that a pledge gave a process a call on a path is opened, and whether the veils are asked all the
# same; undef where it isn't.
sub _opening {
    my ($model, $process, $call, $path) = @_;
    return if !$model->{openbsd} || !$process->{promises};
    return opening_for($call, $path, grep { $process->{promises}{$_} } @KEYWORDS);
}

# What becomes of a call that is opened so: the same as verdict has, without asking promises, nor perhaps veils.
sub _opened {
    my ($model, $process, $call, $path, $opening) = @_;
    my ($errno, $found) = $model->_named($process, $call, $path);
    return $errno if $errno;
    my $answer = $opening->{veils} ? $model->_judged($process, $call, $found) : $model->_misfit($call, $found);
    return ($answer, $found);
}

# What becomes of a call by an opening, if there is one, and else without; and notes the promise without which it would
# be refused.
sub _decided {
    my ($model, $process, $call, $path) = @_;
    my @plain = $model->verdict($process, $call, $path);
    my $opening = $model->_opening($process, $call, $path);
    return @plain if !$opening;
    $model->{opener} = $opening->{promise} if $plain[0];
    return $model->_opened($process, $call, $path, $opening);
}

# Makes a call on a path.
sub _call {
    my ($model, $process, $call, $path) = @_;
    my ($answer, $found) = $model->_decided($process, $call, unspelled($path));
    return $answer if $answer;
    $model->_make($MADE{$call} || ($model->{openbsd} ? 'plain' : 'file'), $found)
        if $call =~ /\A(?:create|create-rw|mkdir|bind|mknod)\z/ && $model->_kind($found) eq 'missing';
    $model->_cut(@{ $model->{above}{ $found->{dir} } }) if $call eq 'rmdir';
    $model->_cut($found->{in}, $found->{name}) if $call eq 'unlink';
    $process->{dir} = $found->{dir} if $call eq 'chdir';
    $model->_become($process) if $call eq 'exec';
    return 'ok';
}

# Another program: it has the execpromises; where there are none, all promises and no veils.
sub _become {
    my ($model, $process) = @_;
    $process->{promises} = $process->{execpromises};
    return if $process->{promises} && $model->{openbsd};
    @$process{qw(veils letters locked)} = ([], {}, 0) unless $process->{promises};
    $process->{execpromises} = undef;
    return;
}

sub _symlink {
    my ($model, $process, $target, $path) = @_;
    $target = unspelled($target);
    my $fault = _unpromised($process, @{ $model->{needs}{symlink}[0] }) || text_fault($target);
    return $fault if $fault;
    my ($answer, $found) = $model->verdict($process, 'symlink', unspelled($path));
    return $answer if $answer;
    $model->_make('link', $found, $target);
    return 'ok';
}

# --- Calls with two paths ---

# What the old and the new name are to rename or link, after the checks that both have: an answer, or
# nothing, and what was found.
sub _both_named {
    my ($model, $process, $call, @paths) = @_;
    my @needs = map { $model->{needs}{"$_ name of $call"} } qw(old new);
    for my $needed (@needs) {
        my $answer = _unpromised($process, @{ $needed->[0] });
        return $answer if $answer;
    }
    my @found;
    for my $path (@paths) {
        my $follows = $call eq 'link' && !@found && $model->{openbsd};
        my ($errno, $found) = $model->resolve($process, unspelled($path), $follows, $DROPS{$call});
        return $errno if $errno;
        push @found, $found;
    }
    for my $at (0, 1) {
        my $errno = $model->_veiled($process, $found[$at], $needs[$at][1]);
        return $errno if $errno;
    }
    return $model->_kind($found[0]) eq 'missing' ? 'ENOENT' : ('', @found);
}

sub _rename {
    my ($model, $process, @paths) = @_;
    my ($answer, $old, $new) = $model->_both_named($process, 'rename', @paths);
    return $answer if $answer;
    my @ways = map { $_->{way} } grep { exists $_->{dir} } $old, $new;
    return 'EINVAL' if grep { $_ eq '.' || $_ eq '..' } @ways;
    return 'EBUSY' if grep { $_ eq '' } @ways;
    return 'ENOTDIR' if $model->{openbsd} && $model->_kind($old) ne 'dir' && grep { unspelled($_) =~ m{/\z} } @paths;
    my ($from, $to) = map { $model->_row($_) } $old, $new;
    my ($node, $replaced) = map { $model->{rows}{ $_->[0] }{ $_->[1] } } $from, $to;
    return 'ok' if defined $replaced && $node == $replaced;
    my $errno = $model->_unmovable($old, $new);
    return $errno if $errno;
    $model->_cut(@$to) if defined $replaced;
    $model->_untie(@$from);
    $model->_tie(@$to, $node);
    return 'ok';
}

# The directory and the name that were found.
sub _row {
    my ($model, $found) = @_;
    return exists $found->{dir} ? [ @{ $model->{above}{ $found->{dir} } } ] : [ @$found{qw(in name)} ];
}

# Why what was found cannot come to another name, and replace what stands there.
sub _unmovable {
    my ($model, $old, $new) = @_;
    my ($is_dir, $onto_dir) = map { exists $_->{dir} } $old, $new;
    return 'EINVAL' if $is_dir && $model->_is_below($old->{dir}, $model->_row($new)->[0]);
    return 'EXDEV' if $model->_is_elsewhere($old, $new);
    return '' if $model->_kind($new) eq 'missing';
    return 'ENOTDIR' if $is_dir && !$onto_dir;
    return 'EISDIR' if !$is_dir && $onto_dir;
    return $onto_dir && !$model->_is_empty($new->{dir}) ? 'ENOTEMPTY' : '';
}

# Whether what gets a name, that name, and what has it are not on one device: what is no directory is on that of its name.
sub _is_elsewhere {
    my ($model, $old, $new) = @_;
    my $to = $model->device($model->_row($new)->[0]);
    return scalar grep { $model->device(exists $_->{dir} ? $_->{dir} : $_->{in}) != $to } $old, $new;
}

sub _link {
    my ($model, $process, @paths) = @_;
    my ($answer, $old, $new) = $model->_both_named($process, 'link', @paths);
    return $answer if $answer;
    return 'EPERM' if $model->_kind($old) eq 'dir';
    return 'EEXIST' if $model->_kind($new) ne 'missing';
    return 'EXDEV' if $model->_is_elsewhere($old, $new);
    $model->_tie(@$new{qw(in name)}, $old->{node});
    return 'ok';
}

# --- What a process does to itself ---

sub _pledge {
    my ($model, $process, @lists) = @_;
    my @sets = map { $_ eq '-' ? undef : _set($_ eq '=' ? '' : $_) } @lists;
    for my $at (0, 1) {
        return 'EINVAL' if $lists[$at] ne '-' && !$sets[$at];
    }
    my $errs = $process->{promises} && $process->{promises}{$ERROR};
    my @given = @$process{qw(promises execpromises)};
    for my $at (0, 1) {
        next unless $sets[$at] && $given[$at];
        my @more = grep { !$given[$at]{$_} } keys %{ $sets[$at] };
        return 'EPERM' if @more && !($errs && !($at && $model->{openbsd}));
        delete $sets[$at]{$_} for @more;
    }
    $process->{promises} = $sets[0] if $sets[0];
    $process->{execpromises} = $sets[1] if $sets[1];
    return 'ok';
}

sub _unveil {
    my ($model, $process, $path, $permissions) = @_;
    my $answer = _unpromised($process, 'unveil');
    return $answer if $answer;
    if ($path eq '-') {
        $process->{locked} = 1;
        return 'ok';
    }
    return 'EPERM' if $process->{locked};
    my $letters = _letters(unspelled($permissions));
    return 'EINVAL' unless defined $letters;
    my ($errno, $found) = $model->resolve($process, unspelled($path), 1, 0);
    return $errno || _keep($process, _place($found), $letters);
}

# Keeps letters at a place.
sub _keep {
    my ($process, $place, $letters) = @_;
    my $kept = $process->{letters}{$place};
    if (defined $kept) {
        return 'EPERM' if _lacking($letters, $kept);
    } else {
        return 'E2BIG' if @{ $process->{veils} } == $MOST_VEILS;
        push @{ $process->{veils} }, $place;
    }
    $process->{letters}{$place} = $letters;
    return 'ok';
}

sub _fork {
    my ($model, $process, $number) = @_;
    my $answer = _unpromised($process, 'proc');
    return $answer if $answer;
    my $processes = $model->{processes};
    return 'EAGAIN' if $processes->{$number} || keys %$processes == $MOST_PROCESSES;
    my %copies = (veils => [ @{ $process->{veils} } ], map { $_ => { %{ $process->{$_} } } } qw(letters files));
    $processes->{$number} = { %$process, %copies };
    return 'ok';
}

sub _exit {
    my ($model, $process) = @_;
    $process->{ended} = 1;
    return 'ok';
}

# A call without a path, by OpenBSD's rules: one of these promises is enough.
sub _uses {
    my ($model, $process, $promises) = @_;
    return _unpromised($process, split /\|/, $promises) || 'ok';
}

# --- Descriptors ---

# An open whose file is kept under a number.
sub _hold {
    my ($model, $process, $number, $call, $path) = @_;
    my ($answer, $found) = $model->_decided($process, $call, unspelled($path));
    return $answer if $answer;
    my $node = exists $found->{dir} ? $found->{dir} : $found->{node};
    $process->{files}{$number} = { node => $node, kind => $model->_kind($found), letters => $OPENED{$call} };
    return 'ok';
}

sub _close {
    my ($model, $process, $number) = @_;
    return delete $process->{files}{$number} ? 'ok' : 'EBADF';
}

sub _fchdir {
    my ($model, $process, $number) = @_;
    my $file = $process->{files}{$number} or return 'EBADF';
    return 'ENOTDIR' if $file->{kind} ne 'dir';
    $process->{dir} = $file->{node};
    return 'ok';
}

# The root is moved, and the working directory stays.
sub _chroot {
    my ($model, $process, $path) = @_;
    my $answer = _unpromised($process, 'id');
    return $answer if $answer;
    my ($errno, $found) = $model->_named($process, 'chdir', unspelled($path));
    $errno ||= $model->_judged($process, 'chdir', $found);
    return $errno if $errno;
    $process->{root} = $found->{dir};
    return 'ok';
}

# What another process has and sent.
sub _take {
    my ($model, $process, $number, $from, $theirs) = @_;
    my $answer = _unpromised($process, 'recvfd');
    return $answer if $answer;
    my $sender = $model->{processes}{$from};
    my $file = $sender && !$sender->{ended} && $sender->{files}{$theirs} or return 'EBADF';
    return 'EPERM' if !_holds($sender, 'sendfd');
    return 'EINVAL' if $file->{kind} eq 'dir' && ($process->{promises} || $sender->{promises});
    $process->{files}{$number} = $file;
    return 'ok';
}

# The lines of what a process has open: one for each name that a file has now, or one with a dash.
sub _held {
    my ($model, $process) = @_;
    my @lines;
    for my $number (sort { $a <=> $b } keys %{ $process->{files} }) {
        my $file = $process->{files}{$number};
        my @paths = $model->_paths_of($file);
        my $uses = join(',', _uses_of($process, $file)) || '=';
        push @lines, map { "held $number $file->{kind} $_ $uses\n" } @paths ? @paths : '-';
    }
    return @lines;
}

# Where an open file stands now, by the numbers of the directories.
sub _paths_of {
    my ($model, $file) = @_;
    my ($node, $rows) = ($file->{node}, $model->{rows});
    return if !$model->{kind}{$node};
    return $model->_path($node) if $file->{kind} eq 'dir';
    my @paths;
    for my $dir (sort { $a <=> $b } keys %$rows) {
        push @paths, map { $model->_path_in($dir, $_) } grep { $rows->{$dir}{$_} == $node } sort keys %{ $rows->{$dir} };
    }
    return @paths;
}

# Whether a process can come nowhere but to its root and below it: the root lives, and the working directory and each directory
# that is open, as far as they live, are that or below it.
sub is_enclosed {
    my ($model, $process) = @_;
    my ($root, @dirs) = (@$process{qw(root dir)}, map { $_->{node} } grep { $_->{kind} eq 'dir' } values %{ $process->{files} });
    return $model->_leads($root) && !grep { $model->_leads($_) && !$model->_is_below($root, $_) } @dirs;
}

# Whether a directory leads anywhere: it does unless it was removed.
sub _leads { return exists $_[0]{kind}{ $_[1] } }

# The line of a root that is not that of the listing.
sub rooted {
    my ($model, $process) = @_;
    my $root = $process->{root};
    return if !$root;
    my $path = $model->{kind}{$root} ? $model->_path($root) : '-';
    return "root $path " . ($model->is_enclosed($process) ? 'closed' : 'open') . "\n";
}

# What a process may do with an open file.
sub _uses_of {
    my ($process, $file) = @_;
    my %opened = map { $_ => 1 } split //, $file->{letters};
    my %is_for = (read => $opened{r}, write => $opened{w}, chdir => $file->{kind} eq 'dir');
    my @uses = _holds($process, 'stdio') ? grep { $is_for{$_} } qw(read write chdir) : ();
    push @uses, 'chmod' if _holds($process, 'fattr');
    push @uses, 'chown' if grep { _holds($process, $_) } qw(chown fattr);
    return @uses;
}

# --- The texts ---

# The answer to one request of a process, by its number: one word.
sub answer {
    my ($model, $number, $call, @words) = @_;
    my $process = $model->{processes}{$number};
    $model->{opener} = undef;
    $call = $NEIGHBOURS{$call} if $model->{openbsd} && $NEIGHBOURS{$call};
    return 'gone' if !$process || $process->{ended};
    my $method = $REQUESTS{$call};
    my $answer = $method ? $model->$method($process, @words) : $model->_call($process, $call, @words);
    $process->{ended} = 1 if $answer eq 'killed';
    return $answer;
}

# The same as a run tells it: `ok by` the promise that opened it, where it is refused without.
sub told {
    my ($model, @words) = @_;
    my $answer = $model->answer(@words);
    return $answer eq 'ok' && defined $model->{opener} ? "ok by $model->{opener}" : $answer;
}

# The text of a run.
sub run {
    my ($model, $script) = @_;
    my ($number, $text) = (0, '');
    for my $line (split /\r?\n/, $script) {
        $number++;
        next if $model->{openbsd} && $line =~ /\A *(?:#|\z)/;
        $line =~ s/ +#.*//s if $model->{openbsd};
        $text .= "$number " . $model->told(split / /, $line) . "\n";
    }
    return $text;
}

# The numbers of all processes, and of those that live.
sub processes { return sort { $a <=> $b } keys %{ $_[0]{processes} } }
sub living    { return grep { !$_[0]{processes}{$_}{ended} } $_[0]->processes }

# All names of the tree, each once; and the names that have a veil of their own of a process.
sub names {
    my %names = map { $_ => 1 } map { keys %$_ } values %{ $_[0]{rows} };
    return sort keys %names;
}

sub veiled_names {
    my ($model, $number) = @_;
    return map { m{/(.*)}s ? $1 : () } @{ $model->{processes}{$number}{veils} };
}

# The paths of all words of at most $how->{limit} letters, in their order. The letters are `..`, the names of the
# tree and $how->{names}; $how->{base} is `root` or `cwd`.
sub words {
    my ($model, $how) = @_;
    my %letters = map { $_ => 1 } '..', $model->names, @{ $how->{names} || [] };
    my $base = $how->{base} eq 'root' ? '/' : '';
    return ($base || '.', _words($base, $how->{limit}, sort keys %letters));
}

# Those that go on after a front of a path.
sub _words {
    my ($front, $limit, @letters) = @_;
    return () if $limit == 0;
    return map { ("$front$_", _words("$front$_/", $limit - 1, @letters)) } @letters;
}

# What an audit of a process finds by trying all pairs of some words and all calls: a line for each pair in their
# order, empty where the call would not be `ok`. What a path names is the same for all calls with one rule for its end.
sub tried {
    my ($model, $number, @words) = @_;
    my $process = $model->{processes}{$number};
    my %refused = map { $_ => _unpromised($process, @{ $model->{needs}{$_}[0] }) } @CALLS;
    my %end = map { $_ => join ' ', $FOLLOWS{$_} ? 'follows' : (), $DROPS{$_} ? 'drops' : () } @CALLS;
    my @lines;
    for my $path (@words) {
        my ($shown, %named) = spelled($path);
        for my $call (@CALLS) {
            my $named = $named{ $end{$call} } ||= [ $model->_named($process, $call, $path) ];
            my $answer = $refused{$call} || $named->[0] || $model->_judged($process, $call, $named->[1]);
            push @lines, $answer ? '' : "$shown $call\n";
        }
    }
    return @lines;
}

# The lines of a process's state in a list of now. Behind its line `unveil` stand those of $how->{bounds}, if some are handed
# over, and those of $how->{openings} in the place of its own.
sub state {
    my ($model, $number, $how) = @_;
    my $process = $model->{processes}{$number};
    return "process ended\n" if $process->{ended};
    my @rules = $model->{openbsd} ? "rules openbsd\n" : ();
    my $held = $process->{promises} || {};
    my @openings = $model->{openbsd} ? openings_of(grep { $held->{$_} } keys %$held) : ();
    @openings = @{ $how->{openings} } if $how->{openings};
    my @sets = map { "$_ " . _shown($process->{$_}) . "\n" } qw(promises execpromises);
    my $unveil = $process->{locked} ? 'locked' : _holds($process, 'unveil') ? 'open' : 'given-up';
    my @veils = map { "veil " . $model->_shown_place($_) . ' ' . ($process->{letters}{$_} || '=') . "\n" }
        @{ $process->{veils} };
    @veils = ("no veils\n") if !@veils;
    my @bounds = (@{ $how->{bounds} || [] }, $model->rooted($process), @openings);
    return join '', "process alive\n", @rules, @sets, "unveil $unveil\n", @bounds, @veils, $model->_held($process);
}

sub _shown {
    my ($set) = @_;
    return '-' unless $set;
    return join(',', grep { $set->{$_} } @KEYWORDS) || '=';
}

# The path at which a place is now.
sub _shown_place {
    my ($model, $place) = @_;
    my ($dir, $name) = split m{/}, $place;
    return '-' unless $model->{kind}{$dir};
    return defined $name ? $model->_path_in($dir, $name) : $model->_path($dir);
}

# The list of a process: its heading, its state and its objects.
sub list {
    my ($model, $number) = @_;
    return "objects $number\n" . $model->state($number) . join '', map { "$_\n" } $model->objects($number);
}

# The lines of a process's objects: where it is enclosed, of its root and what is below.
sub objects {
    my ($model, $number) = @_;
    my $process = $model->{processes}{$number};
    return $process->{ended} ? () : $model->_objects_in($process, $model->is_enclosed($process) ? $process->{root} : 0);
}

# Those of a directory, of its further names, and of what has or could have a name in it.
sub _objects_in {
    my ($model, $process, $dir) = @_;
    my ($path, $rows) = ($model->_path($dir), $model->{rows}{$dir});
    my @lines = $model->_object($process, 'dir', $path, { dir => $dir, way => $dir == 0 ? '' : 'name' });
    push @lines, $model->_object($process, 'other', $path, { in => $dir, name => '' });
    my %veiled = map { m{\A$dir/(.*)}s ? ($1 => 1) : () } @{ $process->{veils} };
    for my $name (sort keys %{ { %$rows, %veiled } }) {
        my $found = { in => $dir, name => $name, node => $rows->{$name} };
        my $kind  = $model->_kind($found);
        push @lines, $kind eq 'dir'
            ? $model->_objects_in($process, $rows->{$name})
            : $model->_object($process, $kind, $model->_path_in($dir, $name), $found);
    }
    return @lines;
}

# The line of a thing, if a call is allowed on it. A link that is followed is not what the call is about.
sub _object {
    my ($model, $process, $kind, $path, $found) = @_;
    my @calls = grep {
        !($kind eq 'link' && $FOLLOWS{$_})
            && !_unpromised($process, @{ $model->{needs}{$_}[0] })
            && !$model->_judged($process, $_, $found)
    } @CALLS;
    return @calls ? "$kind $path " . join(',', @calls) : ();
}

# The kind and path of the line that is about what a call's path names to a process.
sub subject {
    my ($model, $number, $call, $path) = @_;
    my $process = $model->{processes}{$number};
    my ($errno, $found) = $model->_named($process, $call, unspelled($path));
    return "nothing, $errno" if $errno;
    return 'dir ' . $model->_path($found->{dir}) if exists $found->{dir};
    return 'other ' . $model->_path($found->{in})
        if !defined $found->{node} && !exists $process->{letters}{ _place($found) };
    return $model->_kind($found) . ' ' . $model->_path_in($found->{in}, $found->{name});
}

1;
