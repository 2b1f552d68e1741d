#!/usr/bin/perl
# Prints the listing of real files and directories, as pua reads it:
#
#     list.pl [-kv] [-f PATHS] [-m FILE] [-n N] [-r ROOT] [-s SCRIPT] [-x PATH]... [PATH]...
#
# Each PATH is listed at its own place below the root, with all that is in it; of the directories
# on the way to it, only what leads there is listed. What isn't listed, pua takes for missing. For
# a script that is made of a trace take the listing before the run: afterwards the files are what
# the run left.
#
#     -f PATHS   lists what the lines of the file PATHS name, a path each as find(1) prints it, and
#                the directories on the way; of a directory nothing that is in it. Each byte stands
#                for itself. PATHS may be `-` for standard input.
#     -k         goes on where a file, a directory or a link can't be read or listed. A directory
#                that can't be read is listed as an empty one.
#     -m FILE    writes into FILE what isn't listed though it was asked for: a line `left-out
#                PATH` for what a -x left out, `passed-over PATH` for what -k did, and `not-all
#                PATH` for a directory of which -n left files out. It is kept beside the listing,
#                which doesn't show it; page.pl and glance.pl do.
#     -n N       lists of what is in a directory all directories, and at most N files: the first
#                ones in the order of the listing. Links, sockets and so on count as files. What a
#                PATH, SCRIPT or PATHS names by itself, and links on the way, are listed anyhow. How
#                many files aren't listed is reported; FILE of -m has their directories.
#     -r ROOT    takes the directory ROOT for the root, as after chroot(2); every other path is
#                then one below ROOT. With no PATH, SCRIPT or PATHS, all of ROOT is listed.
#     -s SCRIPT  lists what a script for pua can be about: for each path that it names the
#                directories on the way, the links and what they lead to, and what stands there.
#                Of a directory that it veils, opens, enters by chroot, renames or removes, or to
#                whose name it renames something, all that is in it is listed too. A relative path is
#                taken from where the process is by then, and from the root at first; any other one,
#                and the target of a link, from the root that it has by then. A script that is made
#                of a trace exists after its run alone: list by it on a machine where that run
#                wasn't.
#     -v         reports each link that leads out of the listing by itself.
#     -x PATH    leaves PATH out, with all that is in it; a directory is listed as an empty one.
#                It may be given several times. Links in it are not followed.
#     --help     prints this text.
#
# Directories are listed as `dir`, or as `mount` where their device is another one than that of the
# directory above; symbolic links as `link`, plain files that someone may execute as `prog`, other
# plain files as `file`, and sockets, fifos and devices as `sock`, `fifo` and `dev`. What has several
# names, by its device and inode, is listed once, under the first of them in the order of the listing;
# each other one is a `hard` line, and the listing's first line is then `tree 2`, else `tree 1`; it is
# `tree 3` where there are more than 4,096 names, or a socket, a fifo, a device or a mount point. Links
# are not followed, except on the way to a PATH; mount points are crossed. Names come in the order of
# their bytes, so two runs over the same files print the same.
#
# Lines on standard error report what a reader of the listing has to know: links whose target is
# there but isn't listed, summed up by where they lead to; each further name of what is listed,
# which a veil on the first one doesn't cover; that something has a name which isn't listed; a
# directory that was left out, and a -x that left nothing out; with -k what was passed over, and
# how much; with -n how many files aren't listed, and in how many directories; with -s what the
# script names in vain, each name once and no name that the script makes, how many relative paths
# are taken from the root, and each process that is left without a veil and holds a promise about
# paths, and how many names aren't listed, but for one that entered a root of its own and went to a
# path in it. To count these, -s reads the directories below the root then, up to 100,000 names.
#
# Status 0: the listing was printed. Status 1: a file, a directory, a link, the script or PATHS
# can't be read, the script isn't one, a line of PATHS is no path, there are more than 1,000,000
# names (how many, and in which directories most of them are, is reported), or a link's target is
# longer than pua reads; then nothing was printed. Status 2: the words do not fit.
use strict;
use warnings;
use Cwd qw(getcwd);
use Errno qw(ENOENT ENOTDIR ENAMETOOLONG);
use Getopt::Long qw(:config posix_default no_ignore_case bundling);
use List::Util qw(sum0);

my ($NAME) = $0 =~ m{([^/]*)\z};
my $USAGE = "usage: $NAME [-kv] [-f PATHS] [-m FILE] [-n N] [-r ROOT] [-s SCRIPT]"
    . " [-x PATH]... [PATH]...\n";

my $MOST_LISTED = 1_000_000;    # names, the root among them
my $MOST_SMALL  = 4096;         # under `tree 1` and `tree 2`
my $MOST_TARGET = 1023;    # bytes in a link's target
my $MOST_NAME   = 255;     # bytes in a component
my $MOST_LINKS  = 32;      # links followed in one resolution
my $MOST_NAMED  = 10;      # directories that are named where there are too many names
my $MOST_COUNTED = 100_000;    # names that are counted beside the listing
my $MOST_BLOCK = 65_536;       # bytes of lines that are printed together
my $PLACES = 1 << 24;          # bits in which files are marked

# The promises by which something is touched by a path.
my @ABOUT_PATHS = qw(rpath wpath cpath dpath tmppath exec fattr chown unix);

# By the name of a call in a script: what each of its arguments is. A `path` is followed to what
# stands there, and of a `tree` all that is in it matters too; with `new` nothing has to be there.
my %arguments = (
    (map { $_ => ['path'] } qw(stat lstat readlink unlink chmod chdir exec connect chown)),
    (map { $_ => ['path'] } qw(fchmod fchown access statfs truncate chflags utimes)),
    (map { $_ => ['tree'] } qw(open-r open-w open-rw rmdir chroot)),
    (map { $_ => ['new path'] } qw(create create-rw mkdir bind mknod mkfifo)),
    symlink => ['text', 'new path'],
    rename  => ['tree', 'new tree'],
    link    => ['path', 'new path'],
    unveil  => ['tree', 'text'],
    pledge  => ['text', 'text'],
    hold    => ['text', 'text', 'tree'],
    take    => ['text', 'text', 'text'],
    (map { $_ => ['text'] } qw(fork uses close fchdir)),
    exit    => [],
);

my $given;                 # ROOT, where it was given
my $root = '';             # the directory that is taken for the root, without a slash at its end
my ($go_on, $each_link);   # whether -k and -v were given
my $most_files;            # N, where it was given
my %left_out;              # by path: what this -x left out, `name` or `directory`; empty: nothing
my %passed_over;           # by path: that -k passed it over
my %walked;                # by a path: that all below it was taken
my %beyond;                # by a directory's path: the names beyond its first N, joined by `/`

# What is listed but the root, by the path of its directory, which is empty for the root, and by its
# name. Each is a string to keep memory small: `dir`, `dir mount`, or `KIND DEVICE:INODE`, and
# behind that a link's target.
my %inside;
my %mounted;    # by the path of a mount point, and of the root: its device
my $listed = 1;    # how many these are, and the root
my $has_types = 0;    # whether there is a word among them that `tree 3` alone has
my @links;         # the paths of those that are links

# What may have several names, by DEVICE:INODE: how many it has on the disk, and the paths of those
# that are listed. A file with one name has two paths where a file system is mounted twice; it gets
# in here by the second one, since a bit at its place says that one was taken before: then it is
# `unsure` whether that was one of its paths.
my %several;
my $marked = '';

sub report { print STDERR "$NAME: @_\n"; return }

sub fail { report(@_); exit 1 }

# Prints the head of this file; it asks no module, so that the file can be used alone.
sub help {
    open my $in, '<', __FILE__ or fail(__FILE__ . ": $!");
    my (undef, @lines) = <$in>;
    for my $line (@lines) {
        last if $line !~ s/\A# ?//;
        $line =~ s/\b([a-z]+)\.pl\b/pua-$1/g if $NAME =~ /\Apua-/;
        print $line;
    }
    return;
}

# What can't be read or listed, and why: the end, or with -k passed over. Answers an empty text.
sub pass_over {
    my ($path, $why) = @_;
    fail(shown($path) . ": $why") unless $go_on;
    report(shown($path) . ": $why; passed over") unless $passed_over{$path}++;
    return '';
}

# Bytes that aren't visible, and backslashes, as a backslash and three octal digits.
sub spelled {
    my ($bytes) = @_;
    $bytes =~ s/([^\x21-\x5b\x5d-\x7e])/sprintf '\\%03o', ord $1/ge;
    return $bytes;
}

# A path as it is reported: spelled, and `/` for the root.
sub shown { my ($path) = @_; return $path eq '' ? '/' : spelled($path) }

# The directory in which a path stands; the root stands in itself.
sub above { my ($path) = @_; return substr $path, 0, rindex $path, '/' }

# The last component of a path.
sub last_of { my ($path) = @_; return substr $path, 1 + rindex $path, '/' }

# What is listed at a path; undef where nothing is.
sub node {
    my ($path) = @_;
    return 'dir' if $path eq '';
    my $slash = rindex $path, '/';
    my $names = $inside{ substr $path, 0, $slash } or return;
    return $names->{ substr $path, $slash + 1 };
}

# The kind of what is listed at a path, and the target of a link.
sub kind { my ($path) = @_; return (split / /, node($path), 2)[0] }
sub target { my ($path) = @_; return (split / /, node($path), 3)[2] }

# Where a file has its bit. Two files may have the same one.
sub place_of {
    my ($device, $inode) = @_;
    return ($inode + 7919 * $device) % $PLACES;
}

# The components of a path.
sub parts { return grep { $_ ne '' } split m{/}, $_[0] }

# The working directory.
sub here { return getcwd() || fail("the working directory: $!") }

# The path of an operand, with neither `.` nor doubled slashes.
sub whole {
    my ($path) = @_;
    $path = here() . "/$path" if $path !~ m{\A/} && !defined $given;
    return join '', map { "/$_" } grep { $_ ne '.' } parts($path);
}

# What stands at a path on the disk: the fields of lstat, or none.
sub found { my ($path) = @_; return lstat($path eq '' && $root eq '' ? '/' : "$root$path") }

# Takes what stands at a path, whose directory is listed already, into the listing; answers its
# kind, and an empty one where it is passed over.
sub take {
    my ($path) = @_;
    my $slash = rindex $path, '/';
    return 'dir' if $slash < 0;
    my $names = $inside{ substr $path, 0, $slash } ||= {};
    my $name  = substr $path, $slash + 1;
    return kind($path) if exists $names->{$name};
    my ($device, $inode, $mode, $count) = (lstat "$root$path")[0 .. 3]
        or return pass_over($path, $!);
    if (-d _) {
        my $is_mount = $device ne device_of(above($path));
        $mounted{$path} = $device if $is_mount;
        $has_types ||= $is_mount;
        $names->{$name} = $is_mount ? 'dir mount' : 'dir';
        $listed++;
        return 'dir';
    }
    my ($kind, $file) = (kind_by($mode), "$device:$inode");
    if (-l _) {
        my $target = readlink "$root$path";
        my $fault = defined $target ? target_fault($target) : "$!";
        return pass_over($path, $fault) if $fault;
        push @links, $path;
        ($kind, $names->{$name}) = ('link', "link $file $target");
    } else {
        $names->{$name} = "$kind $file";
        $has_types ||= $kind =~ /\A(?:sock|fifo|dev)\z/;
    }
    $listed++;
    my $place = place_of($device, $inode);
    my $is_marked = vec $marked, $place, 1;
    vec($marked, $place, 1) = 1;
    if ($count > 1 || $is_marked) {
        my $names = $several{$file} ||= { count => $count, paths => [], unsure => $is_marked };
        push @{ $names->{paths} }, $path;
    }
    return $kind;
}

# The device of a directory that is listed: that of the nearest mount point at or above it.
sub device_of {
    my ($path) = @_;
    $path = above($path) while $path ne '' && !exists $mounted{$path};
    return $mounted{$path} //= (stat($root eq '' ? '/' : $root))[0] // '';
}

# The kind of what was found last, which is no directory and no link, by its mode.
sub kind_by {
    my ($mode) = @_;
    return $mode & 0111 ? 'prog' : 'file' if -f _;
    return -S _ ? 'sock' : -p _ ? 'fifo' : -b _ || -c _ ? 'dev' : 'any';
}

# Why pua reads no such target, or nothing.
sub target_fault {
    my ($target) = @_;
    return '' if length $target <= $MOST_TARGET && !grep { length > $MOST_NAME } parts($target);
    return 'the target is too long; leave it out with -x';
}

# The names in a directory on the disk, and the error where they can't be read.
sub names_in {
    my ($path) = @_;
    opendir my $directory, "$root$path/" or return ([], "$!");
    local $! = 0;
    my @names = grep { $_ ne '.' && $_ ne '..' } readdir $directory;
    my $fault = $! ? "$!" : '';
    closedir $directory;
    return (\@names, $fault);
}

# Leaves out what a -x names; of a directory the name stays.
sub leave_out {
    my ($path) = @_;
    $left_out{$path} ||= 'name';
    return unless found($path) && -d _;
    take_way($path);
    take($path);
    $left_out{$path} = 'directory';
    return;
}

# Takes a path, with all that is in it: what is in one directory, then what is in the directories
# in it.
sub take_all {
    my ($path) = @_;
    return leave_out($path) if exists $left_out{$path};
    return if take($path) ne 'dir' || is_walked($path);
    my @directories = ($path);
    while (defined(my $directory = pop @directories)) {
        push @directories, reverse grep { !exists $walked{$_} } take_in($directory);
    }
    $walked{$path} = 1;
    return;
}

# Whether all below a path was taken.
sub is_walked {
    my ($path) = @_;
    while ($path ne '' && !exists $walked{$path}) { $path = above($path) }
    return exists $walked{$path};
}

# Takes what is in a directory, but not what is in directories there; answers the paths of these.
sub take_in {
    my ($directory) = @_;
    my ($names, $fault) = names_in($directory);
    pass_over($directory, $fault) if $fault;
    my @names = sort @$names;
    my @directories;
    for my $name (defined $most_files ? first_of($directory, @names) : @names) {
        my $path = "$directory/$name";
        if    (exists $left_out{$path}) { leave_out($path) }
        elsif (take($path) eq 'dir')    { push @directories, $path }
    }
    return @directories;
}

# What -n lists of the names in a directory; the others are noted.
sub first_of {
    my ($directory, @names) = @_;
    my ($files, @first, @beyond) = (0);
    for my $name (@names) {
        my $path = "$directory/$name";
        my $is_listed = exists $left_out{$path} || !found($path) || -d _ || ++$files <= $most_files;
        push @{ $is_listed ? \@first : \@beyond }, $name;
    }
    $beyond{$directory} = join '/', @beyond if @beyond;
    return @first;
}

# Takes the directories that lead to a path.
sub take_way {
    my ($path) = @_;
    my $above = above($path);
    return if node($above);
    take_way($above);
    take($above);
    return;
}

# Follows a path on the disk, and takes the links by which it leads on. With $follows a link at
# its end leads on too. Where a process follows it that has a root of its own, $top is that: `..`
# doesn't lead out of it, and targets of links begin there. Answers the path of what is there, and
# nothing where a -x left it out; where the path leads nowhere, how far it leads, at which path it
# doesn't go on and why, and the error of the system there.
sub follow {
    my ($operand, $follows, $top) = @_;
    $top //= '';
    my ($path, $links, @parts) = ('', 0, parts(whole($operand)));
    while (defined(my $part = shift @parts)) {
        if ($part eq '..') {
            $path = above($path) if $path ne $top;
            next;
        }
        my $next = "$path/$part";
        return leave_out($next) if exists $left_out{$next};
        found($next) or return ($path, $next, "$!", $! + 0);
        if (-l _ && (@parts || $follows)) {
            return ($path, $operand, 'too many links') if ++$links > $MOST_LINKS;
            take_way($next);
            return ($path) if take($next) ne 'link';
            my $target = target($next);
            $path = $top if $target =~ m{\A/};
            unshift @parts, grep { $_ ne '.' } parts($target);
        } elsif (-d _ || !@parts) {
            $path = $next;
        } else {
            return ($next, $next, 'not a directory');
        }
    }
    return ($path);
}

# Takes an operand: all that is there, the directories that lead to it, and the links by which the
# operand leads to it.
sub take_operand {
    my ($operand) = @_;
    my ($path, $at, $why) = follow($operand, 0);
    fail(shown($at) . ": $why") if defined $why;
    return unless defined $path;
    take_way($path);
    take_all($path);
    return;
}

# Takes what the lines of a file name, each by itself.
sub take_lines {
    my ($file) = @_;
    my ($number, $in) = (0, \*STDIN);
    $file eq '-' or open $in, '<', $file or fail(spelled($file) . ": $!");
    binmode $in;
    while (defined(my $line = <$in>)) {
        $number++;
        chomp $line;
        fail(spelled($file) . ": line $number: bad path") if $line eq '' || $line =~ /\0/;
        my $named = whole($line);
        my ($path, undef, $why) = follow($named, 0);
        if (defined $why) {
            pass_over($named, $why);
        } elsif (defined $path) {
            take_way($path);
            take($path);
        }
    }
    fail(spelled($file) . ': it cannot be read') if $in->error;
    return;
}

# Takes what a script names by a path, in the role that the table of arguments has for it, and from
# the root of its process. Answers why it leads nowhere, if nothing is there that has to be.
sub take_named {
    my ($named, $role, $top) = @_;
    my ($path, $at, $why, $error) = follow($named, 1, $top);
    return unless defined $path;
    take_way($path);
    take($path);
    if (!defined $why) {
        take_all($path) if $role =~ /tree/;
    } elsif ($error && !grep { $error == $_ } ENOENT, ENOTDIR, ENAMETOOLONG) {
        pass_over($at, $why);
    } elsif ($role !~ /new/) {
        return shown($at) . ": $why";
    }
    return;
}

# The bytes that a field of a script spells, or undef where it spells none: a NUL, no three digits
# after a backslash, or three for a byte that stands for itself.
sub unspelled {
    my ($field) = @_;
    return '' if $field eq '=';
    return unless $field =~ /\A(?:[\x21-\x5b\x5d-\x7e]|\\[0-3][0-7]{2})+\z/;
    (my $bytes = $field) =~ s/\\([0-7]{3})/chr oct $1/ge;
    return $bytes !~ /\0/ && spelled($bytes) eq $field ? $bytes : undef;
}

# A line of a script before its comment. That comes after the arguments: by the profile a path may
# begin with `#`.
sub uncommented {
    my ($line) = @_;
    my (undef, $call) = split / /, $line;
    my $fields = 1 + @{ $arguments{ $call // '' } || [] };
    return $line =~ s/\A(\S+(?: \S+){$fields}) +#.*/$1/sr;
}

# The requests of a script, each with its line's number, its process, its call and the arguments.
sub requests {
    my ($script) = @_;
    my ($number, @requests) = (0);
    open my $in, '<:raw', $script or fail(spelled($script) . ": $!");
    while (defined(my $line = <$in>)) {
        $number++;
        $line =~ s/\r?\n\z//;
        next if $line =~ /\A *(?:#|\z)/;
        $line = uncommented($line);
        my $where = spelled($script) . ": line $number";
        my ($process, $call, @words) = split / /, $line, -1;
        fail("$where: bad line")
            if $line !~ /\A[\x21-\x7e]+(?: [\x21-\x7e]+)*\z/ || $process !~ /\A[1-9][0-9]{0,5}\z/;
        fail("$where: bad call")
            if !defined $call || !$arguments{$call} || @words != @{ $arguments{$call} };
        push @requests, [$where, $process, $call, @words];
    }
    fail(spelled($script) . ': it cannot be read') if $in->error;
    return @requests;
}

# Takes what the requests of a script name, and reports what isn't there though the script doesn't
# make it.
sub take_script {
    my (%made, %in_vain, @named, %relative);
    my %has;    # by process: its root, where it went, and by their numbers the paths that it holds
    for my $request (@_) {
        my ($where, $process, $call, @words) = @$request;
        my $has = $has{$process} ||= { root => '' };
        follow_files(\%has, $process, $call, @words);
        my ($number, $here, $root) = ($words[0], @$has{qw(directory root)});
        next if $call eq 'unveil' && $words[0] eq '-';
        for my $role (@{ $arguments{$call} }) {
            my $word = shift @words;
            next if $role eq 'text';
            my $path = unspelled($word);
            fail("$where: bad path") unless defined $path;
            next if $path eq '';
            my $is_whole = $path =~ m{\A/};
            $relative{$path} = 1 if !$is_whole && !defined $here;
            my $whole = ($is_whole ? $root : $here // '') . "/$path";
            my $place = join '', map { "/$_" } grep { $_ ne '.' } parts($whole);
            $made{$place} = 1 if $role =~ /new/;
            $has->{directory} = $whole if $call eq 'chdir';
            $has->{files}{$number} = $whole if $call eq 'hold';
            my $fault = take_named($whole, $role, $root);
            $has->{root} = (follow($whole, 1, $root))[0] // $root
                if $call eq 'chroot' && !defined $fault;
            next if !defined $fault || $in_vain{$place}++;
            push @named, [$path, $place, $fault];
        }
    }
    for my $name (@named) {
        my ($path, $place, $fault) = @$name;
        my $way = $place;
        $way = above($way) while $way ne '' && !$made{$way};
        report('the script names ' . spelled($path) . ", which leads nowhere: $fault")
            if $way eq '';
    }
    report('relative paths of the script are taken from /, where no chdir is before them: '
        . keys %relative)
        if %relative;
    return;
}

# What a fork, a take, a close and an fchdir do to what processes have.
sub follow_files {
    my ($has, $process, $call, $number, $other, $theirs) = @_;
    my ($mine, $files) = ($has->{$process}, $has->{$process}{files} ||= {});
    if ($call eq 'fork') {
        $has->{$number} = { %$mine, files => {%$files} };
    } elsif ($call eq 'take') {
        $files->{$number} = $has->{$other}{files}{$theirs};
    } elsif ($call eq 'close') {
        delete $files->{$number};
    } elsif ($call eq 'fchdir') {
        $mine->{directory} = $files->{$number} if defined $files->{$number};
    }
    return;
}

# What a process holds after a pledge: the promises of its first or second word, none where it is
# `-`.
sub held_by {
    my ($word) = @_;
    return $word eq '-' ? undef : { map { $_ => 1 } split /,/, $word };
}

# The processes that a script leaves without a veil, though they may touch something by a path, as
# far as its text shows: each with its promises about paths. Each request is taken to succeed. An
# exec drops the veils where no execpromises were set, and else they are the promises from then
# on. All below a root that was entered is listed: who went to a path from there is none of them.
sub unveiled {
    my %state = (1 => { veils => 0 });
    for my $request (@_) {
        my (undef, $process, $call, @words) = @$request;
        my $state = $state{$process} or next;
        if ($call eq 'unveil') {
            $state->{veils}++ if $words[0] ne '-';
        } elsif ($call eq 'pledge') {
            $state->{promises} = held_by($words[0]) if $words[0] ne '-';
            $state->{next}     = held_by($words[1]) if $words[1] ne '-';
        } elsif ($call eq 'chroot') {
            @$state{qw(root inside)} = (1, 0);
        } elsif ($call eq 'chdir') {
            $state->{inside} = 1 if $state->{root} && $words[0] =~ m{\A/};
        } elsif ($call eq 'exec') {
            $state->{veils} = 0 unless $state->{next};
            $state->{promises} = delete $state->{next};
        } elsif ($call eq 'fork') {
            $state{ $words[0] } ||= {%$state};
        } elsif ($call eq 'exit') {
            delete $state{$process};
        }
    }
    my %unveiled;
    for my $process (grep { !$state{$_}{veils} && !$state{$_}{inside} } keys %state) {
        my $promises = $state{$process}{promises};
        my @held = grep { !$promises || $promises->{$_} } @ABOUT_PATHS;
        $unveiled{$process} = $promises ? join ',', @held : 'it never pledged' if @held;
    }
    return %unveiled;
}

# How many names there are on the disk, the root among them, as far as directories can be read.
# Counting ends where there are more than anyone wants to know.
sub names_there {
    my ($count, @paths) = (1, '');
    while ($count <= $MOST_COUNTED && defined(my $path = pop @paths)) {
        my ($names) = names_in($path);
        $count += @$names;
        push @paths, grep { found($_) && -d _ } map { "$path/$_" } @$names;
    }
    return $count;
}

# Reports the processes that may touch all, and how much of it isn't listed.
sub report_unveiled {
    my %unveiled = unveiled(@_) or return;
    my $count = names_there();
    my $left = $count > $MOST_COUNTED ? "more than $MOST_COUNTED" : $count - $listed;
    report("process $_ has no veil, and may touch all by path ($unveiled{$_}); "
        . "names that are not listed: $left") for sort { $a <=> $b } keys %unveiled;
    return;
}

# Ends where there are more names than pua reads, and reports where most of them are.
sub judge_size {
    return if $listed <= $MOST_LISTED;
    report("$listed names, and pua reads at most $MOST_LISTED; leave some out with -x");
    my %below;
    for my $directory (keys %inside) {
        my $names = keys %{ $inside{$directory} };
        for (my $path = $directory; $path ne ''; $path = above($path)) { $below{$path} += $names }
    }
    my @largest = sort { $below{$b} <=> $below{$a} || $a cmp $b } keys %below;
    splice @largest, $MOST_NAMED if @largest > $MOST_NAMED;
    fail(join "\n$NAME: ", map { shown($_) . ": $below{$_} names in it" } @largest) if @largest;
    exit 1;
}

# The path, not listed but there on the disk, to which a link leads; undef where there is none.
sub outside {
    my ($link) = @_;
    my ($path, $links, @parts) = (above($link), 0, last_of($link));
    while (defined(my $part = shift @parts)) {
        next if $part eq '.';
        if ($part eq '..') {
            $path = above($path);
            next;
        }
        my $next = "$path/$part";
        return found($next) ? $next : undef unless node($next);
        my $kind = kind($next);
        if ($kind eq 'link') {
            return if ++$links > $MOST_LINKS;
            my $target = target($next);
            $path = '' if $target =~ m{\A/};
            unshift @parts, parts($target);
        } elsif ($kind eq 'dir') {
            $path = $next;
        } else {
            return;
        }
    }
    return;
}

# Paths in the order of the listing: that of the bytes of names, and behind a name what is in it.
sub in_order { return map { tr{\0}{/}r } sort map { tr{/}{\0}r } @_ }

# Finds the paths of files of which it is unsure whether all are known, and drops what has but one
# name then.
sub complete_several {
    my @unsure = grep { $several{$_}{unsure} } keys %several or return;
    my %paths = map { $_ => [] } @unsure;
    while (my ($directory, $names) = each %inside) {
        for my $name (keys %$names) {
            my $paths = $paths{ (split / /, $names->{$name}, 3)[1] // next } or next;
            push @$paths, "$directory/$name";
        }
    }
    $several{$_}{paths} = $paths{$_} for @unsure;
    delete @several{ grep { $several{$_}{count} == 1 && @{ $paths{$_} } == 1 } @unsure };
    return;
}

# Of each file that is listed several times the DEVICE:INODE, by the path of a directory and a name
# in it.
sub listed_again {
    my %again;
    for my $file (grep { @{ $several{$_}{paths} } > 1 } keys %several) {
        $again{ above($_) }{ last_of($_) } = $file for @{ $several{$file}{paths} };
    }
    return \%again;
}

# A directory whose names are still to be printed, with the number of its line.
sub way_into {
    my ($path, $number, $again) = @_;
    my $nodes = $inside{$path} || {};
    return { path => $path, number => $number, nodes => $nodes, again => $again->{$path},
        names => [reverse sort keys %$nodes] };
}

# The lines, in a form, of what is left in a directory, up to a directory that has names, and that
# one's path; or a block of them. The numbers go on behind $$last, and %$first has, by
# DEVICE:INODE, those of the first names of files.
sub lines_on {
    my ($way, $form, $last, $first) = @_;
    my ($path, $above, $nodes, $again, $names) = @$way{qw(path number nodes again names)};
    my ($number, $lines, $inner) = ($$last, '');
    while (defined(my $name = pop @$names)) {
        my ($kind, $file, $target) = split / /, $nodes->{$name}, 3;
        my $is_dir = $kind eq 'dir';
        $kind = 'file' if $kind eq 'any' && $form < 3;
        $kind = 'mount' if $is_dir && defined $file;
        $number++;
        my $field = $name =~ tr/\x21-\x5b\x5d-\x7e//c ? spelled($name) : $name;
        $field .= ' ' . spelled($target) if defined $target;
        if (my $file = $again && $again->{$name}) {
            ($kind, $field) = ('hard', spelled($name) . " $first->{$file}") if $first->{$file};
            $first->{$file} ||= $number;
        }
        $lines .= "$number $kind $above $field\n";
        $inner = "$path/$name" if $is_dir && $inside{"$path/$name"};
        last if defined $inner || length $lines > $MOST_BLOCK;
    }
    $$last = $number;
    return ($lines, $inner);
}

# Prints the listing: a name, then what is in it.
sub print_listing {
    my $again = listed_again();
    my $form  = $has_types || $listed > $MOST_SMALL ? 3 : %$again ? 2 : 1;
    print "tree $form\n", "0 dir\n" or return 0;
    my ($number, %first) = (0);
    my @ways = way_into('', 0, $again);
    while (@ways) {
        my ($lines, $directory) = lines_on($ways[-1], $form, \$number, \%first);
        print $lines or return 0;
        if    (defined $directory)     { push @ways, way_into($directory, $number, $again) }
        elsif (!@{ $ways[-1]{names} }) { pop @ways }
    }
    return 1;
}

# Reports the links that lead out of the listing, by where they lead to, or with -v one by one.
sub report_links {
    my %leading;    # by what isn't listed: the links that lead there
    for my $link (@_) {
        my $outside = outside($link);
        push @{ $leading{ $each_link ? $link : $outside } }, [$link, $outside] if defined $outside;
    }
    for my $links (map { $leading{$_} } sort keys %leading) {
        my ($link, $outside) = @{ $links->[0] };
        my $what = 'the link to ' . spelled(target($link)) . ' leads to ' . shown($outside)
            . ', which is not listed';
        $what .= '; so do further links: ' . (@$links - 1) if @$links > 1;
        report(shown($link) . ": $what");
    }
    return;
}

# By the path of a directory, how many of its files -n left out, and nothing else listed.
sub not_all {
    my %count;
    for my $directory (keys %beyond) {
        my $count = grep { !node("$directory/$_") } parts($beyond{$directory});
        $count{$directory} = $count if $count;
    }
    return %count;
}

# Reports what was left out, what was passed over, and how much is beyond the first files.
sub report_gaps {
    for my $path (sort keys %left_out) {
        report(shown($path) . ': nothing was left out') unless $left_out{$path};
        report(shown($path) . ': left out, and listed as an empty directory')
            if $left_out{$path} eq 'directory';
    }
    report('passed over, since they could not be read or listed: ' . keys %passed_over)
        if %passed_over;
    my %beyond = not_all();
    my $beyond = sum0(values %beyond);
    report("files that are not listed, beyond the first $most_files of a directory: $beyond, in "
        . 'so many directories: ' . keys %beyond) if $beyond;
    return;
}

# Writes what isn't listed though it was asked for, in the order of the bytes of its paths.
sub write_manifest {
    my ($name) = @_;
    my ($file) = $name =~ /\A(.*)\z/s;    # the user's own word, also under -T
    my %not_all = not_all();
    my %lines = map { $_ => 'not-all' } keys %not_all;
    $lines{$_} = 'passed-over' for keys %passed_over;
    $lines{$_} = 'left-out' for grep { $left_out{$_} } keys %left_out;
    open my $out, '>', $file or fail(spelled($file) . ": $!");
    print {$out} map { "$lines{$_} " . shown($_) . "\n" } sort keys %lines
        or fail(spelled($file) . ": $!");
    close $out or fail(spelled($file) . ": $!");
    return;
}

# Reports, in the order of the listing, the names of what has several.
sub report_names {
    my %report;
    for my $names (values %several) {
        my ($first, @further) = in_order(@{ $names->{paths} });
        $report{$_} = 'a further name of ' . shown($first) for @further;
        $report{$first} = 'the file has a further name, which is not listed'
            if $names->{count} > 1 + @further;
    }
    report(shown($_) . ": $report{$_}") for in_order(keys %report);
    return;
}

my ($script, $paths, $manifest, @exclusions);
my $understood = GetOptions(
    'f=s' => \$paths,
    'k'   => \$go_on,
    'm=s' => \$manifest,
    'n=s' => \$most_files,
    'r=s' => \$given,
    's=s' => \$script,
    'v'   => \$each_link,
    'x=s' => \@exclusions,
    'help' => \my $help,
);
if ($understood && $help) {
    help();
    exit 0;
}
my @words = (@ARGV, @exclusions, grep { defined } $manifest, $paths);
my $names_some = @ARGV || defined $script || defined $paths;
$understood &&= !defined $most_files || $most_files =~ /\A[0-9]{1,9}\z/;
if (!$understood || !($names_some || defined $given) || grep { $_ eq '' } @words) {
    print STDERR $USAGE;
    exit 2;
}
utf8::is_utf8($_) && utf8::encode($_)
    for @ARGV, @exclusions, grep { defined } $given, $script, $paths;
if (defined $given) {
    fail(spelled($given) . ': not a directory') unless -d $given;
    ($root = $given =~ m{\A/} ? $given : here() . "/$given") =~ s{/+\z}{};
    @ARGV = ('/') unless $names_some;
}
$left_out{ whole($_) } = '' for @exclusions;
my @requests = defined $script ? requests($script) : ();
take_operand($_) for @ARGV;
take_lines($paths) if defined $paths;
take_script(@requests);
judge_size();
complete_several();
report_links(in_order(@links));
report_names();
report_gaps();
report_unveiled(@requests) if defined $script;
write_manifest($manifest) if defined $manifest;
binmode STDOUT;
print_listing() or fail("standard output: $!");
close STDOUT or fail("standard output: $!");
