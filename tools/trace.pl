#!/usr/bin/perl
# Prints the script of a trace, as pua reads it:
#
#     trace.pl [-hklvx] [-c ROOT] [-d DIRECTORY] [-e FILE] [TRACE]
#
# TRACE is the text that kdump(1) prints of what `ktrace -i` traced; standard input if it is left
# out. The script has a line for each call that pua knows, in the order in which the calls
# returned. Processes are numbered from 1, that of the first record, in the order of their forks.
# Take the listing of the files before the run that is traced: afterwards they are what the run
# left.
#
#     -c ROOT        prints the script of one root alone: the calls that were made in it, with
#                    paths from there, and the forks that lead to them. `-c /` leaves out what was
#                    done after chroot(2).
#     -d DIRECTORY   the working directory in which the first process began: the script begins
#                    with a chdir to it. If it is left out, it is what __getcwd(2) says, and else
#                    the root.
#     -e FILE        writes into FILE what the kernel answered to the lines of the script, as `pua
#                    run` does: so `pua run TREE SCRIPT | diff FILE -` shows where the two differ.
#                    By its rules of OpenBSD pua says by which promise a path was opened, and FILE
#                    doesn't: take it out by `sed 's/ by .*//'`.
#     -h             writes what an open leaves open as a line `hold`, with a number from 3 on that no
#                    other open file of the process has, a line `close` where its last descriptor is
#                    closed, and `fchdir` where it is entered. One that is closed before any other
#                    line stays an open. A chroot(2) is a line `chroot`, and paths are those of its
#                    process from then on. By its rules of OpenBSD alone pua knows these lines; it
#                    prints what each process has open, and its root. With -c what was opened outside
#                    of ROOT has no line, nor has a chroot.
#     -k             writes connect, bind, mknod (mkfifo too), chown, create-rw (an open with
#                    O_RDWR and O_CREAT), and fchmod and fchown by a descriptor that was opened for
#                    reading, as lines of their own, which `pua` knows as calls by `--rules openbsd`
#                    alone; and, for a process that has pledged, a line `uses` for what its calls
#                    without a path ask for, such as accept, setuid, kill and flock: one for the
#                    same promises since its last pledge or exec.
#     -l             keeps what ld.so opens for a program.
#     -v             names each report.
#     -x             keeps exits, and what comes after the end of a process.
#     --help         prints this text.
#
# Descriptors are followed, over copies, forks and execs. So a path that begins at a directory's
# descriptor is written whole, without -h fchdir is a chdir, and fchmod and its like are about the path that
# was opened: a chmod of it, or, with -k and where it was opened for reading, an fchmod. What was
# renamed or removed by the same path since then is followed too. Where such a path isn't known the
# call is left out.
#
# After chroot(2) paths are written with the new root before them, without -c and -h. With -h a path that
# begins at the descriptor of a directory outside of its process's root is written with two fchdir, there
# and back, where that directory is held and no veil is in the way; else the call is left out.
#
# Two kinds of calls are left out since pua would end the process for them, and answer all its later
# lines `gone`: without -h and -k, what a promise opens by itself, such as /etc/resolv.conf for dns; and
# a call about a descriptor, where the process doesn't hold the promises that the call needs by a path.
#
# open is open-r, open-w, open-rw, create or, with -k, create-rw by its flags; access, statfs,
# pathconf and realpath are stat; truncate is open-w; utimes and chflags are chmod: with -k those of
# them for which a script has a word are written by it. A relative path stays as it is. An execve that fails is no line. Where pledge refused a call before its path was
# recorded, the path is written as the empty one: it decides nothing.
#
# Standard error has first whether the trace begins in the middle of a process; then what makes
# lines wrong; then what was left out and might matter; then the count of all other reports; and
# at last a table of the processes. Each kind of report stands there once, with the line of the
# trace where it is first and how often it is there.
#
# It was tried on texts that were written by hand (trace.t) and on records of real calls of Linux
# (followed.t), not on the system whose kdump it reads.
#
# Status 0: the script was printed. Status 1: a file can't be read or written, or TRACE has no
# record of kdump. Status 2: the words do not fit.
use strict;
use warnings;

BEGIN {
    my ($here) = __FILE__ =~ m{\A(.*/)}s;
    unshift @INC, map { ($here || './') . $_ } '../share/pua/perl', 'lib';
}
use Getopt::Long qw(:config posix_default no_ignore_case bundling);
use Pua::Calls qw(%ABOUT %ASKS %BITS %CALLS %FLAGS_AT %FROM %FURTHER $HERE %LIKE @MODES %NEEDS
    %NEIGHBOURS %OPENINGS asks descriptor domain_of flags flags_of_open is_null opens promises);
use Pua::Help qw(help_of);
use Pua::Kdump;
use Pua::Process qw($START climbs moved plain tidy);
use Pua::Reports qw($WRONG $MATTERS $REST spelled);

my ($NAME) = $0 =~ m{([^/]*)\z};
my $USAGE = "usage: $NAME [-hklvx] [-c ROOT] [-d DIRECTORY] [-e FILE] [TRACE]\n";

my $MOST_LINES     = 60_000;    # in a script
my $MOST_PROCESSES = 256;       # that a script makes
my $MOST_PATH      = 1023;      # bytes in a path
my $MOST_NUMBER    = 1023;      # of what is held

# What is followed, though it is no line: what each of these calls does to its process, if it
# succeeds.
my %FOLLOWED = (
    (map { $_ => sub { $_[0]->opens($_[1]{value}) } } qw(kqueue kqueue1)),
    (map { $_ => \&follow_socket } qw(socket accept accept4)),
    close     => sub { $_[0]->closes($_[2]) if defined $_[2] },
    closefrom => sub { $_[0]->closes_from($_[2]) if defined $_[2] },
    dup       => sub { $_[0]->opens($_[1]{value}, $_[0]->file($_[2])) },
    dup2      => \&follow_copy,
    dup3      => \&follow_copy,
    fcntl     => \&follow_fcntl,
    __getcwd  => \&follow_getcwd,
    chroot    => \&follow_chroot,
);

my $NO_DIRECTORY = qr/\A(?:EBADF|ENOTDIR)\z/;    # what a descriptor of none is answered

my ($directory, $answers_to, $only);                # what -d, -e and -c gave
my ($holds, $further, $loaders, $verbose, $exits);  # whether -h, -k, -l, -v and -x were given
my $started;       # the directory in which the first process began, where it is known
my $first;         # process 1
my @processes;     # those that have a number, in its order
my @entries;       # what becomes the lines of the script
my $number_of = 2; # the last number of what is held: an open file has one, whichever descriptors it has
my %roots = ('/' => 1);    # those that a process had
my $reports = Pua::Reports->new;
my $tells_roots;   # whether the script has lines `chroot`: -h without -c

sub report { print STDERR "$NAME: @_\n"; return }

sub fail { report(@_); exit 1 }

sub note { $reports->note(@_); return }

# Leaves a call out of the script; answers no fields. Without a pledge or an unveil later answers
# are wrong.
sub leave_out {
    my ($call, $what, $path) = @_;
    my $alters = ($call->{answer} || '') eq 'ok' && ($call->{as} || '') =~ /\A(?:pledge|unveil)\z/;
    note($alters ? $WRONG : $MATTERS, $call->{line},
        ($alters ? 'left out, so that later lines may be wrong: ' : 'left out: ') . $what, $path);
    return;
}

# A path as a script has it, in which neither `-` nor `=` stands for itself, and a `#` at the front begins
# a comment; of what begins where the first process began, from there.
sub path {
    my ($bytes) = @_;
    if ($bytes =~ s/\A$START//) {
        my $begin = defined $started && $started ne '/' ? $started : '';
        $bytes = $begin . $bytes eq '' ? '/' : $begin . $bytes;
    }
    return $bytes eq '' ? '=' : spelled($bytes =~ /\A(?:[=-]\z|#)/ ? "./$bytes" : $bytes);
}

# That pledge refused a call, so that its texts decide nothing.
sub refused {
    my ($call) = @_;
    return $call->{pledged} && $call->{answer} =~ /\A(?:killed|ENOSYS)\z/;
}

# Whether the script has what a process does now.
sub is_told { my ($has) = @_; return !defined $only || (!$has->{lost} && $has->{root} eq $only) }

# A whole path as a process of the script has it, from the root of the script, or from its own where
# the script has that; undef where it isn't below that root.
sub inside {
    my ($has, $path) = @_;
    my $root = $only // ($tells_roots ? $has->{root} : '');
    return if $tells_roots && $has->{lost};
    return $path if $root eq '';
    my $above = plain($root);
    return if $tells_roots && plain($path) !~ m{\A\Q$above\E(?:/|\z)};
    return unless $path =~ s{\A\Q$root\E(?=/|\z)}{};
    return if $tells_roots && climbs($path);
    return $path eq '' ? '/' : $path;
}

# The same of what a text names that doesn't begin at that root: no path from there has this root for
# its last component.
sub named_inside {
    my ($has, $path) = @_;
    my $inside = inside($has, $path);
    return if $tells_roots && $has->{root} ne '' && ($inside // '') eq '/';
    return $inside;
}

# Where it isn't, in words.
sub outside { return defined $only ? "outside of $only" : "outside of its process's root" }

# Whether a path from the root of a process is so in the script too.
sub is_from_root {
    my ($has) = @_;
    return !$has->{root_astray} if $tells_roots;
    return !$has->{lost} && (defined $only || $has->{root} eq '');
}

# The texts of a call that are paths, and as many as are asked for; none where it is left out.
sub texts {
    my ($call, $count) = @_;
    my ($name, @texts) = ($call->{name}, @{ $call->{paths} });
    @texts = $call->{texts}{socket} if !@texts && defined $call->{texts}{socket};
    return leave_out($call, "$name, of which a path can't be read")
        if $call->{broken} || grep { /\0/ } @texts;
    return @texts[0 .. $count - 1] if @texts >= $count;
    my $locked = $name eq 'unveil' && $call->{answer} eq 'EPERM';
    return leave_out($call, "$name, of which the trace doesn't have "
            . ($name =~ /\Asymlink/ ? 'the target' : @texts ? 'the second path' : 'the path'))
        unless $locked || refused($call);
    note($REST, $call->{line},
        "$name was answered $call->{answer} before its path was recorded: it is written =");
    my @missing = ('') x ($count - @texts);
    return $call->{as} eq 'symlink' ? (@missing, @texts) : (@texts, @missing);
}

# The directory from which a text of a call begins, if it isn't the working directory or the root:
# the number of its descriptor.
sub begins_from {
    my ($call, $place) = @_;
    my $from = ($FROM{ $call->{name} } || [])->[$place];
    return if !defined $from || ($call->{arguments}[$from] || '') =~ $HERE;
    my $number = descriptor($call, $from);
    return defined $number ? $number : '';
}

# The whole path of a text of a call; undef where it isn't known.
sub whole {
    my ($call, $text, $place) = @_;
    my ($has, $from) = ($call->{process}{has}, begins_from($call, $place));
    return if $text eq '' || ($call->{as} eq 'symlink' && $place == 0);
    my $file = defined $from ? $has->file($from) : undef;
    return $has->whole($text, defined $from ? $file && $file->{path} : $has->{directory});
}

# A text of a call as the script has it; undef where the call is left out.
sub written {
    my ($call, $text, $place) = @_;
    my ($name, $has) = ($call->{name}, $call->{process}{has});
    return $text if $text eq '' || ($call->{as} eq 'symlink' && $place == 0);
    my $from = begins_from($call, $place);
    my ($is_here, $is_whole) = (!defined $from, $text =~ m{\A/});
    return $text if $is_whole && is_from_root($has);
    return $text if $call->{enters} && !$is_here && $from eq $call->{enters}{from};
    my $whole = $is_whole && $tells_roots ? undef : whole($call, $text, $place);
    if (!defined $whole) {
        return leave_out($call, 'a path from the root of a process, since that root is not known')
            if $is_whole;
        return leave_out($call,
            'a relative path, since the working directory is not known any more') if $is_here;
        return note($REST, $call->{line}, "left out: $name from a descriptor of no directory")
            if $call->{answer} =~ $NO_DIRECTORY;
        return leave_out($call,
            "$name from a directory's descriptor, of which the path is not known");
    }
    my $inside = named_inside($has, $whole);
    my $is_near = $is_here && !$is_whole && !$has->{astray} && !$call->{enters};
    return leave_out($call, "$name " . outside(), spelled($whole))
        unless defined $inside || $tells_roots && ($is_near || refused($call));
    $call->{relative} = 1 if $whole =~ /\A$START/;
    return $text if $is_near || !defined $inside;
    return leave_out($call, "$name, of which the whole path is too long")
        if length $inside > $MOST_PATH;
    return $inside;
}

# The directory that a process enters for a call, of which a path begins there, and which no path from
# its root names: the descriptor that it is `from`, and the number under which it is held. Nothing where
# there is none, or it can't be entered and left again.
sub entered {
    my ($call, @texts) = @_;
    my $has = $call->{process}{has};
    return if !$tells_roots || $call->{answer} ne 'ok' || $has->{veiled} || !$has->holds('rpath')
        || !defined $has->{directory};
    for my $place (0 .. $#texts) {
        my ($from, $whole) = (begins_from($call, $place), $call->{whole}[$place]);
        next if !defined $from || !defined $whole || defined named_inside($has, $whole);
        my $file = $has->file($from);
        return { from => $from, number => $file->{hold} } if $file && $file->{hold};
    }
    return;
}

# The lines before and after a call for which its process enters a directory.
sub lines_around {
    my ($call) = @_;
    my $enters = delete $call->{enters} or return ([], []);
    my $here = next_number($call->{process}{has}) // $MOST_NUMBER;
    my @lines = map { { %$call, fields => $_, answer => 'ok' } }
        ['hold', $here, 'open-r', '.'], ['fchdir', $enters->{number}], ['fchdir', $here], ['close', $here];
    return ([@lines[0, 1]], [@lines[2, 3]]);
}

# The first paths of a call, as many as are asked for; none where it is left out.
sub paths {
    my ($call, $count) = @_;
    my @texts = texts($call, $count) or return;
    $call->{whole} = [map { tidy(whole($call, $texts[$_], $_)) } 0 .. $count - 1];
    $call->{enters} = entered($call, @texts);
    my @written;
    for my $place (0 .. $count - 1) {
        my $text = written($call, $texts[$place], $place);
        return unless defined $text;
        push @written, \$text;
    }
    return @written;
}

# The path of what a call's descriptor stands for; none where it is left out. What asks for no
# promise beside the descriptor isn't written where pua would end the process for the want of one.
sub path_of_descriptor {
    my ($call) = @_;
    my ($name, $has) = ($call->{name}, $call->{process}{has});
    my $file = $has->file(descriptor($call, 0));
    return if $call->{answer} =~ $NO_DIRECTORY;
    return leave_out($call, "$name, of which the path is not known")
        unless $file && defined $file->{path};
    $call->{whole} = [$file->{path}];
    my $inside = inside($has, $file->{path});
    return leave_out($call, "$name " . outside(), spelled($file->{path}))
        unless defined $inside;
    return leave_out($call, "$name, which asks for fewer promises than by a path", path($inside))
        if $call->{as} ne 'chdir' && !refused($call) && !$has->holds(@{ $NEEDS{ $call->{as} } });
    $call->{relative} = 1 if $file->{path} =~ /\A$START/;
    return \$inside;
}

# What an open is in a script; none where it is left out.
sub kind_of_open {
    my ($call) = @_;
    my ($name, $flags) = ($call->{name}, flags_of_open($call));
    return leave_out($call, "$name, of which the flags can't be read")
        if !defined $flags || ($flags & 3) == 3;
    my $mode   = $flags & 3;
    my $create = $flags & $BITS{O_CREAT};
    return leave_out($call, "$name with O_CREAT that doesn't write, which pua lacks")
        if $create && $mode == 0;
    note($REST, $call->{line},
        "$name with O_CREAT and O_RDWR is written create, which asks for neither rpath nor r")
        if $create && $mode == $BITS{O_RDWR} && !$further;
    for my $flag (qw(O_EXCL O_NOFOLLOW O_DIRECTORY O_SHLOCK O_EXLOCK)) {
        note($REST, $call->{line}, "$name with $flag is written without it")
            if $flags & $BITS{$flag};
    }
    note($REST, $call->{line}, "$name with O_TRUNC that doesn't write is written open-r")
        if $flags & $BITS{O_TRUNC} && $mode == 0;
    return 'create-rw' if $create && $mode == $BITS{O_RDWR} && $further;
    return $create ? 'create' : $MODES[$mode];
}

sub pledge_fields {
    my ($call) = @_;
    my @fields;
    for my $place (0, 1) {
        my $what = (qw(promise execpromise))[$place];
        my $text = $call->{texts}{$what};
        my $list = defined $text ? promises($text) : '-';
        return leave_out($call, "pledge, of which a script can't have the ${what}s")
            if $call->{broken} || !defined $list;
        if (!defined $text && !is_null($call->{arguments}[$place])) {
            return leave_out($call, "pledge, of which the trace doesn't have the ${what}s")
                if $call->{answer} eq 'ok' || ($place == 0 && !refused($call));
            note($REST, $call->{line}, "pledge was answered $call->{answer} before its ${what}s "
                . 'were recorded: they are written -');
        }
        push @fields, $list;
    }
    return ('pledge', @fields);
}

sub unveil_fields {
    my ($call) = @_;
    my ($path, $permissions) = @{ $call->{arguments} };
    return qw(unveil - -) if is_null($path) && is_null($permissions);
    my $letters = $call->{texts}{flags};
    my ($at) = paths($call, 1) or return;
    return leave_out($call, "unveil, of which the trace doesn't have the permissions")
        if !defined $letters && $$at ne '';
    $letters = '=' if !defined $letters || $letters eq '';
    return leave_out($call, "unveil, of which a script can't have the permissions")
        if $letters =~ /[^\x21-\x7e]|\A-\z/ || ($call->{texts}{flags} || '') eq '=';
    return ('unveil', $at, $letters);
}

# The word that a script has for a call which it takes as another one; with -k alone.
sub own_word { my ($call) = @_; return $further ? $NEIGHBOURS{ $call->{name} } : undef }

# Whether a call sets the mode, the times, the flags or the owner of what was opened for reading.
sub is_by_reading {
    my ($call) = @_;
    return 0 unless $ABOUT{ $call->{name} } && $call->{as} =~ /\A(?:chmod|chown)\z/;
    my $file = $call->{process}{has}->file(descriptor($call, 0));
    return $file && $file->{mode} eq 'open-r';
}

# The fields of a call on paths after the process; none where it is left out.
sub path_fields {
    my ($call) = @_;
    $call->{as} = "f$call->{as}" if $further && is_by_reading($call);
    my ($name, $as) = @$call{qw(name as)};
    if (is_pathless($call)) {
        return if !refused($call);    # it is about no path
        return leave_out($call,
            "$name, which pua lacks without a path, and which ended its process");
    }
    my @paths = $ABOUT{$name} ? path_of_descriptor($call)
        : paths($call, $as =~ /\A(?:symlink|rename|link)\z/ ? 2 : 1)
        or return;
    return leave_out($call, "$name, which pua has by its rules of OpenBSD alone (-k writes it)",
        path(${ $paths[0] }))
        if $FURTHER{$as} && !$further;
    $as = kind_of_open($call) or return if $as eq 'open';
    my $flags = defined $FLAGS_AT{$name} ? flags($call->{arguments}[ $FLAGS_AT{$name} ]) : 0;
    return leave_out($call, "$name, of which the flags can't be read") unless defined $flags;
    return leave_out($call, "$name of a link itself, which pua lacks", path(${ $paths[0] }))
        if $as =~ /\A(?:chmod|chown)\z/ && $flags & $BITS{AT_SYMLINK_NOFOLLOW};
    $as = 'lstat' if $name eq 'fstatat'  && $flags & $BITS{AT_SYMLINK_NOFOLLOW};
    $as = 'rmdir' if $name eq 'unlinkat' && $flags & $BITS{AT_REMOVEDIR};
    note($REST, $call->{line}, "$name is written $as") if $LIKE{$name} && !own_word($call);
    note($REST, $call->{line}, "$name is written $as, which asks the veils too")
        if $ABOUT{$name} && $as ne 'chdir';
    return ($as, @paths);
}

# The promise by which a kernel looks up a file by itself, where pua answers otherwise. By its rules of
# OpenBSD, for which -h and -k are, it answers alike.
sub opening {
    my ($call, $as) = @_;
    my ($has, $needs) = ($call->{process}{has}, $NEEDS{$as});
    return if !$needs || !$has->{promises} || $call->{answer} eq 'killed';
    my $is_hidden = $call->{answer} =~ /\A(?:ENOENT|EACCES)\z/;
    return if $has->holds(@$needs) && (!$has->{veiled} || $is_hidden);
    my ($path) = @{ $call->{paths} };
    my ($promise) = grep { $has->{promises}{$_} && opens($_, $path) } sort keys %OPENINGS;
    return if !defined $promise || ($holds || $further) && opens($promise, $path, $as);
    return $promise;
}

# Whether it is ld.so that opens, for a program that was started.
sub is_loaders {
    my ($call, $as) = @_;
    my $process = $call->{process};
    return 0 unless $process->{loading};
    return 1 if $as eq 'open-r' && $call->{paths}[0] =~ m{(?:\.so(?:\.[0-9]+)*|/ld\.so\.hints)\z};
    return $process->{loading} = 0;
}

# The fields of a call's line after the process; none where it is left out.
sub fields {
    my ($call) = @_;
    return pledge_fields($call) if $call->{as} eq 'pledge';
    return unveil_fields($call) if $call->{as} eq 'unveil';
    if ($call->{as} =~ /\A(?:exec|chroot)\z/ && $call->{answer} ne 'ok' && !refused($call)) {
        my $what = $call->{as} eq 'exec' ? 'an execve' : 'a chroot';
        note($REST, $call->{line}, "left out: $what that failed");
        return;
    }
    my $entered = $call->{name} eq 'fchdir' && $call->{process}{has}->file(descriptor($call, 0));
    if ($entered && $entered->{hold} && $call->{answer} !~ $NO_DIRECTORY) {
        $call->{whole} = [$entered->{path}];
        return ('fchdir', $entered->{hold});
    }
    my ($as, @paths) = path_fields($call) or return;
    if (is_loaders($call, $as) && !$loaders) {
        note($REST, $call->{line}, 'left out: what ld.so opens (-l keeps it)');
        return;
    }
    my $promise = $ABOUT{ $call->{name} } ? undef : opening($call, $as);
    return leave_out($call, "$call->{name} by the promise $promise itself", path(${ $paths[0] }))
        if $promise;
    return (own_word($call) || $as, @paths);
}

# What is accepted at a socket is of its domain.
sub follow_socket {
    my ($has, $call, $number) = @_;
    my $domain = $call->{name} eq 'socket' ? domain_of($call) : domain_at($has, $number);
    $has->opens($call->{value});
    $has->{domains}{ $call->{value} } = $domain if defined $domain && defined $call->{value};
    return;
}

# The domain of the socket of this number; undef where it isn't known.
sub domain_at {
    my ($has, $number) = @_;
    return defined $number ? $has->{domains}{$number} : undef;
}

sub follow_copy {
    my ($has, $call, $number) = @_;
    my $copy = descriptor($call, 1);
    return if !defined $copy || !defined $number || $copy == $number;
    my $flags = $call->{name} eq 'dup3' ? flags($call->{arguments}[2]) || 0 : 0;
    $has->opens($copy, $has->file($number), $flags & $BITS{O_CLOEXEC});
    my $domain = domain_at($has, $number);
    $has->{domains}{$copy} = $domain if defined $domain;
    return;
}

sub follow_fcntl {
    my ($has, $call, $number) = @_;
    my (undef, $what, $value) = (@{ $call->{arguments} }, '', '');
    return unless defined $number;
    $has->opens($call->{value}, $has->file($number), $1) if $what =~ /\AF_DUPFD(_CLOEXEC)?\b/;
    $has->sets_close_on_exec($number, (flags($value) || 0) & $BITS{FD_CLOEXEC})
        if $what =~ /\AF_SETFD\b/;
    return;
}

# The working directory is named. If the process has only gone on from where the first process
# began, that is known now; if it was lost, it is known again, though a script can't have it:
# relative paths are then written whole.
sub follow_getcwd {
    my ($has, $call) = @_;
    my ($path) = @{ $call->{paths} };
    return unless defined $path && $path =~ m{\A/};
    my ($is, $was) = (tidy($has->from_root($path)), $has->{directory});
    return unless defined $is;
    if (defined $was && $was =~ s/\A$START//) {
        if (!defined $started && $is =~ m{\A(.*)\Q$was\E\z}s) {
            $started = $1 eq '' ? '/' : $1;
            return;
        }
        return if defined $started && tidy("$started$was") eq $is;
    } elsif (defined $was) {
        note($WRONG, $call->{line},
            "may be wrong: relative paths, which begin at ${\spelled($was)} in the script: by "
            . '__getcwd the directory is ' . spelled($is)) if $was ne $is;
        return;
    }
    @$has{qw(directory astray)} = ($is, 1);
    return;
}

sub follow_chroot {
    my ($has, $call, $is_told) = @_;
    my ($path) = @{ $call->{paths} };
    my $root = defined $path ? tidy($has->whole($path, $has->{directory})) : undef;
    $has->{root_astray} = $tells_roots && !$is_told;
    $has->{lost} = !defined $root;
    return unless defined $root;
    $has->{root} = $root eq '/' ? '' : $root;
    $roots{ path($root) } = 1;
    return unless defined $only;
    $has->{astray} = 1;
    note($WRONG, $call->{line},
        'may be wrong: what was unveiled before the chroot is not in this script')
        if $has->{veiled} && is_told($has);
    return;
}

# What a call that succeeded does to its process, whether the script has a line for it or not.
sub follow {
    my ($call, $is_told) = @_;
    my ($process, $as, $path, $new) = (@$call{qw(process as)}, @{ $call->{whole} || [] });
    my $has = $process->{has};
    if ($as eq 'open') {
        my $flags = flags_of_open($call);
        my $mode = defined $flags ? $MODES[ $flags & 3 ] : undef;
        my $file = $mode && { path => $path, mode => $mode };
        $has->opens($call->{value}, $file, ($flags || 0) & $BITS{O_CLOEXEC});
    } elsif ($as eq 'chdir') {
        @$has{qw(directory astray)} = ($path, !$is_told);
    } elsif ($as eq 'chroot') {
        follow_chroot($has, $call, $is_told);
    } elsif ($as eq 'rename' && defined $path && defined $new) {
        my @all = map { $_->{has} } @processes;
        moved($new, undef, @all) if plain($new) ne plain($path);
        moved($path, $new, @all);
    } elsif ($as =~ /\A(?:unlink|rmdir)\z/ && defined $path) {
        moved($path, undef, map { $_->{has} } @processes);
    } elsif ($as eq 'exec') {
        $has->execs;
        $process->{program} = $call->{paths}[0];
        $process->{loading} = ($call->{paths}[1] || '') =~ m{/ld\.so\z};
    } elsif ($as eq 'pledge') {
        my @texts = @{ $call->{texts} }{qw(promise execpromise)};
        $has->pledges(map { defined $_ ? promises($_) : undef } @texts);
    } elsif ($as eq 'unveil') {
        $has->{veiled} = 1 unless is_null($call->{arguments}[0]);
    }
    return;
}

# Takes a process into the script.
sub number {
    my ($process, $has) = @_;
    push @processes, $process;
    @$process{qw(number has lines)} = (scalar @processes, $has, 0);
    return;
}

# Takes a fork: its line stands before the first line of the child.
sub take_fork {
    my ($call) = @_;
    return note($REST, $call->{line}, 'left out: a fork that failed') unless $call->{child};
    number($call->{child}, $call->{process}{has}->forked);
    $call->{child}{program} = $call->{process}{program};
    push @entries, { %$call, fields => ['fork'], aside => !is_told($call->{process}{has}) };
    return;
}

# Takes the end of a process.
sub take_end {
    my ($call) = @_;
    push @entries, { %$call, fields => ['exit'] } if $exits && is_told($call->{process}{has});
    $call->{process}{ended} = 1;
    return;
}

# Takes what a call without a path asks for, if the process has pledged: once, and each time that it
# is refused. Answers whether the script has a line for it.
sub take_asked {
    my ($call, $asks) = @_;
    my $has = $call->{process}{has};
    return 0 unless $has->{promises} && is_told($has);
    my $is_refused = refused($call);
    return 1 if !$is_refused && $has->{asked}{$asks}++;
    my $answer = $is_refused ? $call->{answer} : 'ok';
    push @entries, { %$call, fields => ['uses', $asks], answer => $answer };
    return 1;
}

# Whether a call that may have a path has none.
sub is_pathless {
    my ($call) = @_;
    return $call->{as} =~ /\A(?:connect|bind)\z/ && !@{ $call->{paths} }
        && !defined $call->{texts}{socket};
}

# Takes a call that is no line, but for what it asks for.
sub take_other {
    my ($call) = @_;
    my ($name, $answer, $has) = ($call->{name}, $call->{answer}, $call->{process}{has});
    return unless defined $answer;
    my $domain = domain_at($has, descriptor($call, 0));
    my $asks = $further ? asks($call, $call->{process}{pid}, $domain) : undef;
    my $is_told = defined $asks && take_asked($call, $asks);
    return if $is_told && $answer eq 'killed';
    return leave_out($call, "$name, which pua lacks, and which ended its process")
        if $answer eq 'killed';
    if (my $follow = $FOLLOWED{$name}) {
        $follow->($has, $call, descriptor($call, 0)) if $answer eq 'ok';
    } elsif (!$ASKS{$name}) {
        leave_out($call, "$name, which pua lacks", path($call->{paths}[0]));
    }
    return;
}

# Takes a call that may be a line.
sub take_line {
    my ($call) = @_;
    my $has = $call->{process}{has};
    return leave_out($call, "$call->{name}, of which $call->{lacks}")
        unless defined $call->{answer};
    return take_fork($call) if $call->{as} eq 'fork';
    $reports->be_quiet(!is_told($has));
    my @fields = fields($call);
    $reports->be_quiet(0);
    delete $call->{enters} if !@fields;
    my ($before, $after) = lines_around($call);
    push @entries, @$before, { %$call, fields => \@fields } if @fields && is_told($has);
    note($WRONG, $call->{line},
        'may be wrong: paths below ' . spelled($has->{root})
            . ', after chroot(2): links and .. may lead elsewhere (see -c, -h)')
        if @fields && !defined $only && !$tells_roots && $has->{root} ne '' && grep { ref } @fields;
    follow($call, scalar @fields) if $call->{answer} eq 'ok';
    hold($call) if $holds && $call->{answer} eq 'ok' && $call->{as} eq 'open' && @fields && is_told($has);
    push @entries, @$after;
    return;
}

# The open files of a process that are held, by their numbers.
sub held_now {
    my ($has) = @_;
    return {} unless $has;
    return { map { $_->{hold} => $_ } grep { $_->{hold} } values %{ $has->{files} } };
}

# The next number that no open file of a process has; undef where each is taken.
sub next_number {
    my ($has) = @_;
    my $taken = held_now($has);
    for (3 .. $MOST_NUMBER) {
        $number_of = $number_of == $MOST_NUMBER ? 3 : $number_of + 1;
        return $number_of if !$taken->{$number_of};
    }
    return;
}

# An open that succeeded gets a number; what O_CREAT opens is made first.
sub hold {
    my ($call) = @_;
    my $has = $call->{process}{has};
    my $file = $has->file($call->{value}) or return;
    my ($entry, $number) = ($entries[-1], next_number($has));
    return note($MATTERS, $call->{line}, "$call->{name} is not held: the process has too much open")
        if !defined $number;
    my ($as, $path) = @{ $entry->{fields} };
    $file->{hold} = $number;
    my @held = ('hold', $number, $file->{mode}, $path);
    if ($as =~ /\Acreate/) { push @entries, { %$entry, fields => \@held, maker => $entry } }
    else                   { $entry->{fields} = \@held }
    return;
}

# Files of which the last descriptor was closed. One that was closed before any other line was only
# opened.
sub close_held {
    my ($call, $before) = @_;
    my $after = held_now($call->{process}{has});
    for my $number (sort { $a <=> $b } grep { !$after->{$_} } keys %$before) {
        my $last = $entries[-1];
        my $is_last = $last->{process} == $call->{process}
            && $last->{fields}[0] eq 'hold' && $last->{fields}[1] == $number;
        if    (!$is_last)      { push @entries, { %$call, fields => ['close', $number], answer => 'ok' } }
        elsif ($last->{maker}) { pop @entries }
        else                   { splice @{ $last->{fields} }, 0, 2 }
    }
    return;
}

# Takes a call into the script, in the order of the returns.
sub take {
    my ($call) = @_;
    my $before = $holds && $call->{process} ? held_now($call->{process}{has}) : undef;
    take_one($call);
    close_held($call, $before) if $before && %$before;
    return;
}

sub take_one {
    my ($call) = @_;
    my $process = $call->{process} or return;
    $call->{as} = $CALLS{ $call->{name} };
    $call->{as} = 'chroot' if $tells_roots && $call->{name} eq 'chroot';
    my $killed = ($call->{answer} || '') eq 'killed';
    if (!$process->{has}) {
        leave_out($call, "process $process->{pid} (" . spelled($process->{command} || '')
            . '): its fork is not in the trace')
            if $call->{as};
    } elsif ($process->{ended} && !$exits) {
        leave_out($call, 'what comes after the end of its process');
    } elsif ($call->{name} =~ /\A(?:exit|signal)\z/) {
        take_end($call);
    } elsif ($call->{as} && !($further && is_pathless($call))) {
        take_line($call);
    } else {
        take_other($call);
    }
    $process->{ended} = 1 if $killed;
    return;
}

# Whether a trace begins before its first process began its program: the first call that is known
# here is an execve that succeeds.
sub begins_with_exec {
    my @calls = @_;
    my ($begin) = grep { ($_->{process} || 0) == $first
        && !($_->{name} eq 'execve' && ($_->{answer} || '') ne 'ok') } @calls;
    return $begin && $begin->{name} eq 'execve';
}

# The processes that did something in the root of the script, and those from which they were
# forked.
sub needed {
    my %needed = map { $_->{process}{number} => 1 } grep { !$_->{aside} } @entries;
    for my $process (reverse @processes) {
        $needed{ $process->{parent}{number} } = 1
            if $needed{ $process->{number} } && $process->{parent};
    }
    return \%needed;
}

# The lines of the script, and those of the answers.
sub lines {
    my (@script, @answers);
    my $needed = needed();
    my $moves = !defined $only || $only eq '' ? $directory : undef;
    $moves = $started
        if !defined $directory && defined $started && $started ne '/'
        && grep { $_->{relative} } @entries;
    unshift @entries, { process => $first, fields => ['chdir', \$moves], answer => 'ok' }
        if defined $moves;
    for my $entry (@entries) {
        my ($process, $child) = @$entry{qw(process child)};
        next if $entry->{aside} && !$needed->{ $child->{number} };
        my @fields = map { ref $_ ? path($$_) : $_ } @{ $entry->{fields} };
        push @fields, $child->{number} if $child;
        note($WRONG, $entry->{line},
            'may be wrong: relative paths, which are taken from the root: where the first process '
                . 'began is not known (-d)')
            if $entry->{relative} && !defined $started;
        push @script, join(' ', $process->{number}, @fields) . "\n";
        $child->{made} = 1 if $child;
        push @answers, @script . ' ' . ($process->{gone} ? 'gone' : $entry->{answer}) . "\n";
        $process->{lines}++;
        $process->{gone} = 1 if $fields[0] eq 'exit' || $entry->{answer} eq 'killed';
    }
    return (\@script, \@answers);
}

# Reports how the trace begins, and what was noted, by its weight.
sub report_all {
    my ($begins, $lines) = @_;
    my $command = spelled(defined $first->{command} ? $first->{command} : '');
    report("the trace begins in the middle of process 1 ($command, pid $first->{pid}): what it "
        . 'had pledged, unveiled and opened by then, and where it was, is not in the script')
        unless $begins;
    report("the script has $lines lines, and pua reads at most $MOST_LINES")
        if $lines > $MOST_LINES;
    report('the script has ' . @processes . " processes, and pua makes at most $MOST_PROCESSES")
        if @processes > $MOST_PROCESSES;
    my $root = !defined $only || $only eq '' ? '/' : path($only);
    report("no process had the root $root, but: " . join ', ', sort keys %roots)
        unless $roots{$root};
    report($_) for $reports->texts($verbose);
    return;
}

# Reports which processes there are, and how each of them ended.
sub report_processes {
    my @rows = [qw(process pid parent lines end program)];
    for my $process (grep { $_->{made} } @processes) {
        my $program = defined $process->{program} ? $process->{program} : $process->{command};
        my $parent = $process->{parent} ? $process->{parent}{number} : '-';
        my $end = $process->{end} || (defined $process->{command} ? 'alive' : 'no record');
        push @rows, [@$process{qw(number pid)}, $parent, $process->{lines}, $end,
            spelled(defined $program ? $program : '')];
    }
    report(sprintf '%-7s %7s %7s %6s  %-16s %s', map { defined $_ ? $_ : '-' } @$_) for @rows;
    return;
}

sub write_all {
    my ($out, $what, $lines) = @_;
    binmode $out;
    print {$out} @$lines or fail("$what: $!");
    close $out or fail("$what: $!");
    return;
}

sub write_file {
    my ($name, $lines) = @_;
    my ($file) = $name =~ /\A(.*)\z/s;    # the user's own word, also under -T
    open my $out, '>', $file or fail(spelled($file) . ": $!");
    return write_all($out, spelled($file), $lines);
}

my $understood = GetOptions(
    'c=s' => \$only, 'd=s' => \$directory, 'e=s' => \$answers_to, 'h' => \$holds, 'k' => \$further,
    'l' => \$loaders, 'v' => \$verbose, 'x' => \$exits, 'help' => \my $help,
);
if ($understood && $help) {
    print help_of(__FILE__, $NAME);
    exit 0;
}
if (!$understood || @ARGV > 1 || grep({ $_ eq '' } @ARGV, grep { defined } $answers_to)
    || grep { !m{\A/} } grep { defined } $only, $directory) {
    print STDERR $USAGE;
    exit 2;
}
($only = tidy($only)) =~ s{\A/\z}{} if defined $only;
$tells_roots = $holds && !defined $only;
my $in = \*STDIN;
if (@ARGV) {
    open $in, '<', $ARGV[0] or fail(spelled($ARGV[0]) . ": $!");
}
binmode $in;
my %wanted = map { $_ => 1 } keys %CALLS, keys %FOLLOWED, $further ? keys %ASKS : ();
my $trace = Pua::Kdump->new($in, sub { note($MATTERS, @_) }, \%wanted);
if (!eval { $trace->read_all; 1 }) {
    chomp(my $fault = $@);
    fail($fault);
}
fail('no record of kdump in the trace; what ktrace writes has to be read by kdump first')
    unless $trace->{records};
$first = $trace->{first};
number($first, Pua::Process->new);
$first->{made} = 1;
$started = $first->{has}{directory} = tidy($directory) if defined $directory;
my @calls = @{ $trace->{calls} };
take($_) for @calls;
my ($script, $answers) = lines();
write_file($answers_to, $answers) if defined $answers_to;
report_all(scalar begins_with_exec(@calls), scalar @$script);
report_processes();
write_all(\*STDOUT, 'standard output', $script);
