# A plain model of the list for ever, written from "All that can ever be touched", "The same through execs" and "What
# several can touch together" in docs/DEFINITIONS.md. It asks a world of Model.pm. A cover is a text of letters, or undef where no veil covers.
package EverModel;
use strict;
use warnings;
use Model;

# What each call suits. A `gone` directory is one that rmdir may find empty.
my %SUITS = (
    (map { $_ => 'missing file prog' } qw(create create-rw)), connect => 'file',
    (map { $_ => 'missing' } qw(mkdir symlink bind mknod)),
    unlink => 'file prog link', rmdir => 'gone', exec => 'prog', readlink => 'link',
    chdir => 'dir gone', lstat => 'dir gone file prog link',
    (map { $_ => 'dir gone file prog' } qw(stat open-r chmod chown fchmod fchown)),
    (map { $_ => 'file prog' } qw(open-w open-rw)),
);

# A plain file, fifo or device suits what a file does, but that connect asks for a socket; a socket, what opens nothing.
for my $call (grep { $_ ne 'connect' && $SUITS{$_} =~ /\bfile\b/ } keys %SUITS) {
    $SUITS{$call} .= ' plain fifo dev';
    $SUITS{$call} .= ' sock' if $call =~ /\A(?:stat|lstat|unlink|chmod|chown)\z/;
}
$SUITS{connect} .= ' sock';

my @EDITS = qw(create mkdir rmdir unlink symlink bind mknod create-rw);

# By OpenBSD's rules tmppath opens these calls by itself. For which paths no table of calls says, so in that of a list for
# ever the promise is one more set of these, whatever the path.
my @OPENED = qw(create unlink create-rw);
my $OPENER = 'tmppath';

# All devices, where something can come to be on any.
my $ALL = 'all';

# What a file is that can be made a program whatever covers it: one that is made, or that the process holds so.
my $TURNED = 'turned';

# What can be made, by its kind: the calls that make it, and what it is.
my @NEW = (
    { kind => 'dir', calls => ['mkdir'], is => 'gone' },
    { kind => 'other', calls => ['mkdir'], is => 'missing' },
    { kind => 'file', calls => ['create', 'create-rw'], is => $TURNED },
    { kind => 'link', calls => ['symlink'], is => 'link' },
    { kind => 'sock', calls => ['bind'], is => 'sock' },
    { kind => 'fifo', calls => ['mknod'], is => 'fifo' },
);

# The lines of the list for ever of a process that can put no veil any more; with reasons each has the covers under which
# its thing could come, in the order of the veils that leave them, as letters and the number of the veil.
sub lines {
    my ($model, $number, $with_reasons) = @_;
    $model = widened($model);
    my $process = $model->{processes}{$number};
    return if $process->{ended};
    $process = _numbered($process) if $with_reasons;
    my $ever = bless { model => $model, process => $process, reasons => $with_reasons }, __PACKAGE__;
    $ever->{dirs} = [ sort { $a <=> $b } grep { $model->{kind}{$_} eq 'dir' } keys %{ $model->{kind} } ];
    $ever->{edits} = grep { $ever->_promises($_) } @EDITS, 'new name of rename', 'new name of link';
    $ever->{links} = $ever->_promises('old name of link') && $ever->_promises('new name of link');
    $ever->{renames} = $ever->_promises('old name of rename') && $ever->_promises('new name of rename');
    $ever->_find_covers;
    $ever->{top} = $ever->_is_enclosed_for_ever ? $process->{root} : 0;
    return ($ever->_lines_in($ever->{top}), map { $ever->_new_line($_) } @NEW);
}

# Whether a process never comes out of its root: it is enclosed, and has pledged without id, by which it could move the root.
sub _is_enclosed_for_ever {
    my ($ever) = @_;
    my $process = $ever->{process};
    return $process->{promises} && !$process->{promises}{id} && $ever->{model}->is_enclosed($process);
}

# A model by whose table whoever holds tmppath may make the calls that it opens; none of these has the set twice, nor beside
# one that asks for no more.
sub widened {
    my ($model) = @_;
    return $model if !$model->{openbsd};
    my %needs = %{ $model->{needs} };
    for my $call (@OPENED) {
        my ($sets, $letters) = @{ $needs{$call} };
        $needs{$call} = [ [ @$sets, $OPENER ], $letters ] if !grep { _asks_no_more($_) } @$sets;
    }
    return bless { %$model, needs => \%needs }, ref $model;
}

sub _asks_no_more { return !grep { $_ ne $OPENER } split /,/, $_[0] }

# A process whose veils' letters are followed by their numbers in the order of the veils.
sub _numbered {
    my ($process) = @_;
    my @veils = @{ $process->{veils} };
    return { %$process, letters => { map { $veils[$_] => "$process->{letters}{ $veils[$_] }$_" } 0 .. $#veils } };
}

# The lines of the list that holds longest: of the process alone where none has exec, or what is started isn't bounded;
# else through execs.
sub lasting {
    my ($model, $number, $with_reasons) = @_;
    my @alone = lines($model, $number, $with_reasons);
    my $given = given($model, $number);
    return $given ? _through($model, $number, $given, $with_reasons) : @alone;
}

# What the programs hold that a process can start, where all that it starts is bounded; nothing where none can be started.
sub given {
    my ($model, $number) = @_;
    my $given = bound($model, $number);
    return $given && grep({ has_exec($_) } lines($model, $number)) ? $given : undef;
}

# The execpromises by which all that a process starts is bounded; nothing where it isn't.
sub bound {
    my ($model, $number) = @_;
    my $process = $model->{processes}{$number};
    return if !$process->{execpromises};
    my $started = { promises => $process->{execpromises} };
    return if !$model->{openbsd} && lets($model, $started, 'exec');
    return if !$process->{locked} && grep { Model::_holds($_, 'unveil') } $process, $started;
    return $process->{execpromises};
}

sub has_exec { return $_[0] =~ /[ ,]exec\b/ }

# The lines of a process that holds both sets, with the calls that one of the two lets through.
sub _through {
    my ($model, $number, $given, $with_reasons) = @_;
    $model = widened($model);
    my $process = $model->{processes}{$number};
    my $held = $process->{promises};
    my $both = $held && { map { $_ => 1 } grep { $held->{$_} || $given->{$_} } keys %$held, keys %$given };
    my %passes;
    for my $call (@Model::CALLS) {
        $passes{$call} = grep { lets($model, $_, $call) } $process, { promises => $given };
    }
    local $model->{processes}{$number} = { %$process, promises => $both, execpromises => undef };
    return map { _let_through($_, \%passes) } lines($model, $number, $with_reasons);
}

# What is left of a line: nothing of what is made by a call that isn't let through.
sub _let_through {
    my ($line, $passes) = @_;
    my ($kind, $path, $calls, @covers) = split / /, $line;
    return () if $path eq 'new' && !grep { $passes->{$_} } map { @{ $_->{calls} } } grep { $_->{kind} eq $kind } @NEW;
    my @left = grep { $passes->{$_} } split /,/, $calls;
    return @left ? join ' ', $kind, $path, join(',', @left), @covers : ();
}

# What lets the calls of a line with its covers through: the promises on which they rest, in order, and the numbers of the
# veils that let one of them through.
sub reasons {
    my ($model, $number, $line) = @_;
    $model = widened($model);
    my (undef, undef, $calls, @covers) = split / /, $line;
    my @holders = ($model->{processes}{$number}, map { $_ ? { promises => $_ } : () } given($model, $number));
    my (%promises, @veils);
    for my $call (split /,/, $calls) {
        my ($set) = grep { _is_held($_, @holders) } @{ $model->{needs}{$call}[0] };
        $promises{$_} = 1 for split /,/, $set;
    }
    for my $cover (@covers) {
        my ($letters, $veil) = $cover =~ /\A([a-z]*)([0-9]+)\z/ or next;
        push @veils, $veil if grep { !Model::_lacking($model->{needs}{$_}[1], $letters) } split /,/, $calls;
    }
    return (join(',', sort keys %promises), @veils);
}

sub _is_held {
    my ($set, @holders) = @_;
    for my $holder (@holders) {
        return 1 if !grep { !Model::_holds($holder, $_) } split /,/, $set;
    }
    return 0;
}

# A model in which process 0 stands for these that live ("What several can touch together" in docs/DEFINITIONS.md); it
# has ended where none of them lives.
sub joined {
    my ($model, @numbers) = @_;
    my @living = grep { !$_->{ended} } map { $model->{processes}{$_} } @numbers;
    my $one = @living ? _joint($model, @living) : { ended => 1 };
    return bless { %$model, processes => { %{ $model->{processes} }, 0 => $one } }, ref $model;
}

sub _joint {
    my ($model, @living) = @_;
    my $held  = _union(map { $_->{promises} } @living);
    my $given = _union(map { lets($model, $_, 'exec') ? $_->{execpromises} : {} } @living);
    my $open  = grep { !$_->{locked} } @living;
    undef $given if $given && $open && grep { Model::_holds({ promises => $_ }, 'unveil') } $held, $given;
    my %common = (root => 0, locked => 1, promises => $held, execpromises => $given);
    return { %{ $living[0] }, %common, files => { map { _numbered_files($_, $living[$_]) } 0 .. $#living } };
}

# What one of several has open, under numbers that are no other's.
sub _numbered_files {
    my ($number, $process) = @_;
    my $files = $process->{files};
    return map { ("$number $_" => $files->{$_}) } keys %$files;
}

# What one of some sets has; undef where one of them is.
sub _union {
    my (@sets) = @_;
    return if grep { !$_ } @sets;
    return { map { %$_ } @sets };
}

# --- Covers ---

# For each device, and for all together, the covers that can come over directories, over veiled names, and over anything else.
sub _find_covers {
    my ($ever) = @_;
    my @dirs = @{ $ever->{dirs} };
    my %on = map { $ever->_device($_) => 1 } @dirs;
    for my $device ($ALL, keys %on) {
        my @here = grep { $device eq $ALL || $ever->_device($_) eq $device } @dirs;
        my %is_here = map { $_ => 1 } @here;
        my @names = map { $_->{letters} } grep { $is_here{ $_->{dir} } && $ever->_is_open($_) } $ever->_veiled;
        my @in_dirs = map { $ever->_cover_of_dir($_) } grep { $ever->_is_way_in($_) } @here;
        my @open = grep { _has_c($_) } map { $ever->_cover_of_dir($_) } @here;
        my $some = grep { $ever->_can_move($_) } @open;
        $ever->{name_covers}{$device} = \@names;
        $ever->{dir_covers}{$device}  = \@in_dirs;
        $ever->{file_covers}{$device} = [ @names, @open, $some ? @in_dirs : () ];
    }
    return;
}

sub _device { return $_[0]{model}->device($_[1]) }

# Where that is under whose covers things in a directory can come: on its device; anywhere, if the mount point goes along with
# the directory in which it stands, as it has `c` and no veil of its own.
sub _on {
    my ($ever, $dir) = @_;
    my $device = $ever->_device($dir);
    return exists $ever->{process}{letters}{$device} || !_has_c($ever->_cover_of_dir($device)) ? $device : $ALL;
}

# Whether what has such a cover can be moved.
sub _can_move {
    my ($ever, $cover) = @_;
    return $ever->{renames}
        && _has_c($cover)
        && !Model::_lacking($ever->{model}{needs}{'old name of rename'}[1], $cover);
}

sub _has_c { return defined $_[0] && $_[0] =~ /c/ }

sub _cover_of_dir { return $_[0]{model}->_cover($_[0]{process}, { dir => $_[1] }) }

# What stands at a name, as the model has what a path names.
sub _found {
    my ($ever, $dir, $name) = @_;
    my $node = $ever->{model}{rows}{$dir}{$name};
    return { in => $dir, name => $name, node => $node }
        if !defined $node || $ever->{model}{kind}{$node} ne 'dir';
    return { dir => $node, way => 'name' };
}

# Whether that can come to leave its name: it has `c`, and is no mount point.
sub _can_leave {
    my ($ever, $dir, $name) = @_;
    return !$ever->_is_mount($ever->{model}{rows}{$dir}{$name})
        && _has_c($ever->{model}->_cover($ever->{process}, $ever->_found($dir, $name)));
}

sub _is_mount { return $_[0]{model}{mount}{ $_[1] } }

sub _is_free {
    my ($ever, $dir, $name) = @_;
    return !defined $ever->{model}{rows}{$dir}{$name} || $ever->_can_leave($dir, $name);
}

sub _can_be_emptied {
    my ($ever, $dir) = @_;
    return !grep { !$ever->_can_leave($dir, $_) } keys %{ $ever->{model}{rows}{$dir} };
}

# The names in living directories that have a veil of their own, with its letters.
sub _veiled {
    my ($ever) = @_;
    my $process = $ever->{process};
    my @veiled = map { m{\A([0-9]+)/(.*)\z}s ? { dir => $1, name => $2, letters => $process->{letters}{$_} } : () }
        @{ $process->{veils} };
    return grep { exists $ever->{model}{kind}{ $_->{dir} } } @veiled;
}

# Such a name to which something can be moved.
sub _is_open {
    my ($ever, $veiled) = @_;
    return _has_c($veiled->{letters}) && $ever->_is_free(@$veiled{qw(dir name)});
}

sub _is_way_in {
    my ($ever, $dir) = @_;
    return 1 if _has_c($ever->_cover_of_dir($dir));
    return 1 if grep { $_->{dir} == $dir && $ever->_is_open($_) } $ever->_veiled;
    return grep { $ever->_gives_way($_) } values %{ $ever->{model}{rows}{$dir} };
}

# A directory into whose place another can be moved.
sub _gives_way {
    my ($ever, $node) = @_;
    return $ever->{model}{kind}{$node} eq 'dir'
        && !$ever->_is_mount($node)
        && _has_c($ever->_cover_of_dir($node))
        && $ever->_can_be_emptied($node)
        && $ever->_has_c_outside($node);
}

sub _has_c_outside {
    my ($ever, $inner) = @_;
    return 1 if grep { !$ever->{model}->_is_below($inner, $_) && _has_c($ever->_cover_of_dir($_)) } @{ $ever->{dirs} };
    return grep { !$ever->{model}->_is_below($inner, $_->{dir}) && _has_c($_->{letters}) } $ever->_veiled;
}

# All covers that a directory can come to have, and those of anything else that stands at a name.
sub _covers_of_dir {
    my ($ever, $dir) = @_;
    my $cover = $ever->_cover_of_dir($dir);
    my $moves = !exists $ever->{process}{letters}{$dir} && $ever->_can_move($cover);
    return $moves ? @{ $ever->{dir_covers}{ $ever->_on($dir) } } : $cover;
}

sub _covers_of_name {
    my ($ever, $found, $kind) = @_;
    my $cover = $ever->{model}->_cover($ever->{process}, $found);
    my @covers = @{ $ever->{file_covers}{ $ever->_on($found->{in}) } };
    return @covers if $ever->_can_move($cover);
    return ($cover, $ever->_can_link($cover, $kind) ? @covers : ());
}

sub _can_link {
    my ($ever, $cover, $kind) = @_;
    my $model = $ever->{model};
    return $ever->{links}
        && defined $cover
        && !Model::_lacking($model->{needs}{'old name of link'}[1], $cover)
        && !($kind eq 'link' && $model->{openbsd});
}

# --- Lines ---

sub _promises { return lets($_[0]{model}, $_[0]{process}, $_[1]) }

# Whether what a process holds lets a call through.
sub lets {
    my ($model, $process, $call) = @_;
    for my $set (@{ $model->{needs}{$call}[0] }) {
        return 1 if !grep { !Model::_holds($process, $_) } split /,/, $set;
    }
    return 0;
}

# Whether a process has a file open so that it can write it, or set its mode: who holds fattr sets that of whatever is open.
sub is_turned_held {
    my ($process, $node) = @_;
    my $sets_modes = Model::_holds($process, 'fattr');
    return scalar grep { $_->{node} == $node && ($sets_modes || $_->{letters} =~ /w/) } values %{ $process->{files} };
}

# The line of something, if a call can be allowed on it under one of some covers. A file that can be written, or have its
# mode set, by a call or by what is open, and one that is new can be made a program: so exec is that of a program then.
sub _line {
    my ($ever, $kind, $path, $is, @covers) = @_;
    my $turns = $is =~ s/\A$TURNED //;
    my %has = map { $_ => $ever->_is_allowed($_, $is, @covers) } @Model::CALLS;
    $turns ||= $is =~ /\A(?:file|plain)\z/ && grep { $has{$_} } qw(open-w open-rw create create-rw chmod fchmod);
    $has{exec} = 1 if $turns && $ever->_is_allowed('exec', 'prog', @covers);
    my @calls = grep { $has{$_} } @Model::CALLS;
    return () if !@calls;
    my %covers = map { $_ => 1 } $ever->{reasons} ? grep { defined } @covers : ();
    return join ' ', $kind, $path, join(',', @calls), sort { _veil_of($a) <=> _veil_of($b) } keys %covers;
}

sub _veil_of { return $_[0] =~ /([0-9]+)\z/ ? $1 : 0 }

sub _is_allowed {
    my ($ever, $call, $is, @covers) = @_;
    return 0 if " $SUITS{$call} " !~ / $is / || !$ever->_promises($call);
    return scalar grep { defined && !Model::_lacking($ever->{model}{needs}{$call}[1], $_) } @covers;
}

# A directory, its further names, and what has or could have a name in it.
sub _lines_in {
    my ($ever, $dir) = @_;
    my ($model, @covers) = ($ever->{model}, $ever->_covers_of_dir($dir));
    my ($path, $rows) = ($model->_path($dir), $model->{rows}{$dir});
    my %names = (%$rows, map { $_->{dir} == $dir ? ($_->{name} => 1) : () } $ever->_veiled);
    return (
        $ever->_line('dir', $path, $ever->_is_gone($dir) ? 'gone' : 'dir', @covers),
        $dir == $ever->{top} ? () : $ever->_freed(@{ $model->{above}{$dir} }),
        $ever->_line('other', $path, 'missing', @covers),
        map { $ever->_lines_at($dir, $_) } sort keys %names,
    );
}

# Whether rmdir may find a directory empty that is no mount point.
sub _is_gone {
    my ($ever, $dir) = @_;
    return 0 if $dir == 0 || $ever->{model}{mount}{$dir} || !$ever->_can_be_emptied($dir);
    return $ever->{edits} || $ever->{model}->_is_empty($dir);
}

sub _lines_at {
    my ($ever, $dir, $name) = @_;
    my $model = $ever->{model};
    my $found = $ever->_found($dir, $name);
    my $kind  = $model->_kind($found);
    return $ever->_lines_in($found->{dir}) if $kind eq 'dir';
    return $ever->_missing($dir, $name)    if $kind eq 'missing';
    my @covers = $ever->_covers_of_name($found, $kind);
    my $is = $model->{plain}{ $found->{node} } ? 'plain' : $kind;
    $is = "$TURNED $is" if $kind eq 'file' && is_turned_held($ever->{process}, $found->{node});
    return ($ever->_line($kind, $model->_path_in($dir, $name), $is, @covers), $ever->_freed($dir, $name));
}

# A name that nothing has, and its own veil.
sub _missing {
    my ($ever, $dir, $name) = @_;
    my $path = $ever->{model}->_path_in($dir, $name);
    return $ever->_line('missing', $path, 'missing', $ever->{process}{letters}{"$dir/$name"});
}

# A name with a veil of its own, which something has that can be taken away.
sub _freed {
    my ($ever, $dir, $name) = @_;
    my $has_veil = exists $ever->{process}{letters}{"$dir/$name"};
    return $has_veil && $ever->{edits} && $ever->_is_free($dir, $name) ? $ever->_missing($dir, $name) : ();
}

sub _new_line {
    my ($ever, $new) = @_;
    my @names = map { @{ $ever->{$_}{$ALL} } } qw(name_covers dir_covers);
    return () if !$ever->{edits} || !grep { $ever->_is_allowed($_, 'missing', @names) } @{ $new->{calls} };
    my $is_dir = $new->{calls}[0] eq 'mkdir';
    my $is = $new->{is} ne $TURNED ? $new->{is} : "$TURNED " . ($ever->{model}{openbsd} ? 'plain' : 'file');
    return $ever->_line($new->{kind}, 'new', $is, @{ $ever->{ $is_dir ? 'dir_covers' : 'file_covers' }{$ALL} });
}

1;
