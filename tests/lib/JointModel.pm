# A plain model of the lists for ever with the help of others, written from "What processes with other veils can touch
# together" in docs/DEFINITIONS.md: it tries each fact until none follows any more. It asks a world of Model.pm, and
# shares with EverModel.pm what a call suits. A cover is a text of letters; that by which nothing is allowed is left out.
package JointModel;
use strict;
use warnings;
use EverModel;
use Model;

# The calls of which any process may need one to take a name away; and those by which a file can be made a program.
my @TAKES = ('rmdir', 'unlink', 'new name of rename');
my @TURNS = qw(open-w open-rw create create-rw chmod fchmod);

# What can be made, and the calls that make it.
my %MAKES = (dir => ['mkdir'], file => [qw(create create-rw)], link => ['symlink'], sock => ['bind'], fifo => ['mknod']);

# Whether what is open is sent: else a test sees what that adds.
our $SENDS = 1;

# A name that nothing has, and no veil.
my $FRESH = '';

# What these processes, which live, can ever touch together: `exec`, what they say of execs, nothing where none starts a
# program; and by number the `lines` of each. What one starts counts where all of it is bounded, and its list has exec.
sub found {
    my ($model, @numbers) = @_;
    my $wide = EverModel::widened($model);
    my %said;
    while (1) {
        my $joint = _of($wide, \%said, @numbers);
        my @more = grep { !$said{$_} && grep { EverModel::has_exec($_) } $joint->_lines($joint->{own}{$_}) } @numbers;
        if (!@more) {
            my ($exec) = grep { my $word = $_; grep { $_ eq $word } values %said } qw(open bounded);
            return { exec => $exec, lines => { map { $_ => [ $joint->_lines(_agents($joint, $_)) ] } @numbers } };
        }
        $said{$_} = EverModel::bound($model, $_) ? 'bounded' : 'open' for @more;
    }
}

# The facts of some processes, and of what those start of whom it is said that this is bounded.
sub _of {
    my ($model, $said, @numbers) = @_;
    my $joint = bless { model => $model, crew => [], own => {}, program => {} }, __PACKAGE__;
    for my $number (@numbers) {
        my $process = $model->{processes}{$number};
        $joint->{own}{$number} = $joint->_add($process);
        next if ($said->{$number} || '') ne 'bounded';
        my $given = { %$process, promises => EverModel::bound($model, $number), execpromises => undef };
        $joint->{program}{$number} = $joint->_add($given);
    }
    $joint->_begin;
    1 while $joint->_goes_on;
    return $joint;
}

sub _add {
    my ($joint, $process) = @_;
    push @{ $joint->{crew} }, bless { model => $joint->{model}, process => $process }, 'EverModel';
    return $#{ $joint->{crew} };
}

# By whom a process acts: their places in the crew.
sub _agents { return grep { defined } map { $_[0]{$_}{ $_[1] } } qw(own program) }

# --- Facts ---

sub _begin {
    my ($joint) = @_;
    my $model = $joint->{model};
    my @dirs = sort { $a <=> $b } grep { $model->{kind}{$_} eq 'dir' } keys %{ $model->{kind} };
    my %devices = map { $joint->_device($_) => 1 } @dirs;
    my @made = map { my $by = $_; map { "made $by on $_" } sort { $a <=> $b } keys %devices } 0 .. $#{ $joint->{crew} };
    $joint->{dirs} = \@dirs;
    $joint->{seats} = [ @dirs, @made ];
    $joint->{names} = { map { $_ => { $FRESH => 1 } } @dirs, @made };
    for my $dir (@dirs) {
        $joint->{names}{$dir}{$_} = 1 for keys %{ $model->{rows}{$dir} };
        for my $name (keys %{ $model->{rows}{$dir} }) {
            my $node = $model->{rows}{$dir}{$name};
            $joint->_has($model->{kind}{$node} eq 'dir' ? ('in', $node, $dir) : ('at', "row $dir/$name", $dir, $name));
        }
        $joint->_has('apart', $dir, 0) if $dir != 0;
    }
    for my $place (map { @{ $_->{process}{veils} } } @{ $joint->{crew} }) {
        my ($dir, $name) = $place =~ m{\A([0-9]+)/(.*)\z}s or next;
        $joint->{names}{$dir}{$name} = 1 if $joint->{names}{$dir};
    }
    return;
}

# The device of a directory, or of what one makes on a device.
sub _device {
    my ($joint, $seat) = @_;
    return $seat =~ / on ([0-9]+)\z/ ? $1 : $joint->{model}->device($seat);
}

# Notes a fact, and whether it is a new one.
sub _has {
    my ($joint, @fact) = @_;
    return 0 if $joint->{facts}{"@fact"}++;
    my $last = pop @fact;
    push @{ $joint->{of}{"@fact"} }, $last;
    $joint->{more} = 1;
    return 1;
}

sub _is { my ($joint, @fact) = @_; return $joint->{facts}{"@fact"} }

# What stands last in the facts that begin so.
sub _of_facts { my ($joint, @fact) = @_; return @{ $joint->{of}{"@fact"} || [] } }

# Notes what follows from the facts so far. Whether there was more.
sub _goes_on {
    my ($joint) = @_;
    $joint->{more} = 0;
    my @crew = 0 .. $#{ $joint->{crew} };
    $joint->_stand($_)   for @crew;
    $joint->_apart;
    $joint->_cover($_)   for @crew;
    $joint->_free($_)    for @crew;
    $joint->_ways_in($_) for @crew;
    $joint->_made($_)    for @crew;
    $joint->_move($_)    for @crew;
    return $joint->{more};
}

# Directories that one moves, and the one that it makes.
sub _stand {
    my ($joint, $by) = @_;
    my @ways = $joint->_of_facts('way', $by);
    my @seats = grep { $joint->_moves_dir($by, $_) } @{ $joint->{seats} };
    for my $in (@ways) {
        my $device = $joint->_device($in);
        my @here = grep { $joint->_device($_) == $device } @seats;
        $joint->_has('in', $_, $in) for grep { /\Amade/ || $joint->_is('apart', $_, $in) } @here;
        $joint->_has('in', "made $by on $device", $in) if $joint->_is('makes', $by, $device, 'dir');
    }
    return;
}

sub _moves_dir {
    my ($joint, $by, $seat) = @_;
    return grep { $joint->_can_move($by, $_) } $joint->_of_facts('cover', $by, $seat);
}

sub _can_move {
    my ($joint, $by, $cover) = @_;
    my $ever = $joint->{crew}[$by];
    return !grep({ !$ever->_promises("$_ name of rename") } qw(old new))
        && $cover =~ /c/
        && !Model::_lacking($joint->{model}{needs}{'old name of rename'}[1], $cover);
}

# Directories below which another isn't: up from it leads to the root, and not through these.
sub _apart {
    my ($joint) = @_;
    for my $over (@{ $joint->{dirs} }) {
        for my $seat (grep { $_ ne $over } @{ $joint->{seats} }) {
            $joint->_has('apart', $over, $seat) if grep { $joint->_is('apart', $over, $_) } $joint->_of_facts('in', $seat);
        }
    }
    return;
}

# Covers that come over directories by one's veils.
sub _cover {
    my ($joint, $by) = @_;
    my $process = $joint->{crew}[$by]{process};
    for my $seat (@{ $joint->{seats} }) {
        my $own = $process->{letters}{$seat};
        my @covers = defined $own ? $own : map { $joint->_of_facts('cover', $by, $_) } $joint->_of_facts('in', $seat);
        @covers = 'rwxc' if $seat eq '0' && !defined $own && !@{ $process->{veils} };
        $joint->_has('cover', $by, $seat, $_) for @covers;
    }
    return;
}

# Covers that come over a name in a directory.
sub _covers_at {
    my ($joint, $by, $seat, $name) = @_;
    my $own = $joint->{crew}[$by]{process}{letters}{"$seat/$name"};
    return defined $own ? $own : $joint->_of_facts('cover', $by, $seat);
}

# Names that one can take away, none of them a mount point's.
sub _free {
    my ($joint, $by) = @_;
    my ($model, $ever) = ($joint->{model}, $joint->{crew}[$by]);
    return if !grep { $ever->_promises($_) } @TAKES;
    for my $dir (@{ $joint->{dirs} }) {
        for my $name (keys %{ $model->{rows}{$dir} }) {
            my $node = $model->{rows}{$dir}{$name};
            next if $model->{mount}{$node};
            my @covers = $model->{kind}{$node} eq 'dir' ? $joint->_of_facts('cover', $by, $node) : $joint->_covers_at($by, $dir, $name);
            $joint->_has('free', $dir, $name) if grep { /c/ } @covers;
        }
    }
    return;
}

sub _is_free {
    my ($joint, $seat, $name) = @_;
    return $seat =~ /\Amade/ || !defined $joint->{model}{rows}{$seat}{$name} || $joint->_is('free', $seat, $name);
}

sub _can_be_emptied {
    my ($joint, $dir) = @_;
    return !grep { !$joint->_is_free($dir, $_) } keys %{ $joint->{model}{rows}{$dir} };
}

# Directories into which one can come to put another.
sub _ways_in {
    my ($joint, $by) = @_;
    my $letters = $joint->{crew}[$by]{process}{letters};
    for my $seat (@{ $joint->{seats} }) {
        my @names = grep { exists $letters->{"$seat/$_"} && $joint->_is_free($seat, $_) } keys %{ $joint->{names}{$seat} };
        $joint->_has('way', $by, $seat)
            if grep { /c/ } $joint->_of_facts('cover', $by, $seat), map { $letters->{"$seat/$_"} } @names;
    }
    for my $dir (grep { ($letters->{$_} || '') =~ /c/ && $joint->_can_be_emptied($_) } @{ $joint->{dirs} }) {
        next if $joint->{model}{mount}{$dir};
        my @others = grep { $_ ne $dir && $joint->_device($_) == $joint->_device($dir) } @{ $joint->{seats} };
        next if !grep { $joint->_is('apart', $dir, $_) && $joint->_moves_dir($by, $_) } @others;
        $joint->_has('way', $by, $_) for $joint->_of_facts('in', $dir);
    }
    return;
}

# Kinds that one can make, on each device.
sub _made {
    my ($joint, $by) = @_;
    my $ever = $joint->{crew}[$by];
    my %covers;
    for my $seat (@{ $joint->{seats} }) {
        push @{ $covers{ $joint->_device($seat) } }, map { $joint->_covers_at($by, $seat, $_) }
            grep { $joint->_is_free($seat, $_) } keys %{ $joint->{names}{$seat} };
    }
    for my $device (keys %covers) {
        for my $kind (keys %MAKES) {
            my @calls = grep { $ever->_is_allowed($_, 'missing', @{ $covers{$device} }) } @{ $MAKES{$kind} };
            $joint->_has('makes', $by, $device, $kind) if @calls;
        }
    }
    return;
}

# What is no directory, at the names to which one moves or links it, or where one makes it.
sub _move {
    my ($joint, $by) = @_;
    my @targets;
    for my $seat (@{ $joint->{seats} }) {
        push @targets, map { [$seat, $_] }
            grep { $joint->_is_free($seat, $_) && grep { /c/ } $joint->_covers_at($by, $seat, $_) } keys %{ $joint->{names}{$seat} };
    }
    for my $kind (qw(file link sock fifo)) {
        $joint->_comes_to("$kind $by", @$_) for grep { $joint->_is('makes', $by, $joint->_device($_->[0]), $kind) } @targets;
    }
    for my $source (keys %{ $joint->{places} || {} }, $joint->_rows) {
        my %leaves = map { $joint->_device($_->[0]) => 1 } grep { $joint->_leaves($by, $source, @$_) } $joint->_places($source);
        $joint->_comes_to($source, @$_) for grep { $leaves{ $joint->_device($_->[0]) } } @targets;
    }
    return;
}

# Whether one can move or link something from a name in a directory.
sub _leaves {
    my ($joint, $by, $source, $seat, $name) = @_;
    my $kind = $joint->_kind($source);
    return scalar grep { $joint->_can_move($by, $_) || $joint->_can_link($by, $_, $kind) } $joint->_covers_at($by, $seat, $name);
}

sub _comes_to {
    my ($joint, $source, $seat, $name) = @_;
    $joint->{places}{$source} = 1;
    return $joint->_has('at', $source, $seat, $name);
}

# The rows of what is no directory.
sub _rows {
    my ($joint) = @_;
    my $model = $joint->{model};
    my @rows;
    for my $dir (@{ $joint->{dirs} }) {
        push @rows, map { "row $dir/$_" } grep { $model->{kind}{ $model->{rows}{$dir}{$_} } ne 'dir' } keys %{ $model->{rows}{$dir} };
    }
    return @rows;
}

# Where something can come to stand: directories and names.
sub _places {
    my ($joint, $source) = @_;
    my @places;
    for my $seat (@{ $joint->{seats} }) {
        push @places, map { [$seat, $_] } $joint->_of_facts('at', $source, $seat);
    }
    return @places;
}

sub _kind {
    my ($joint, $source) = @_;
    return (split / /, $source)[0] if $source !~ /\Arow /;
    my ($dir, $name) = $source =~ m{\Arow ([0-9]+)/(.*)\z}s;
    return $joint->{model}{kind}{ $joint->{model}{rows}{$dir}{$name} };
}

# Whether one can link what has such a cover.
sub _can_link {
    my ($joint, $by, $cover, $kind) = @_;
    my ($model, $ever) = ($joint->{model}, $joint->{crew}[$by]);
    return !grep({ !$ever->_promises("$_ name of link") } qw(old new))
        && !Model::_lacking($model->{needs}{'old name of link'}[1], $cover)
        && !($kind eq 'link' && $model->{openbsd});
}

# --- Lines ---

# The lines of those at these places of the crew, which have the same veils.
sub _lines {
    my ($joint, @agents) = @_;
    return ($joint->_lines_in(0, @agents), map { $joint->_line($_, 'new', $joint->_new_calls($_, @agents)) } qw(dir other file link sock fifo));
}

sub _line {
    my ($joint, $kind, $path, %has) = @_;
    my @calls = grep { $has{$_} } @Model::CALLS;
    return @calls ? join ' ', $kind, $path, join ',', @calls : ();
}

# The calls that are allowed on something under one of some covers.
sub _calls {
    my ($joint, $by, $is, @covers) = @_;
    return grep { $joint->{crew}[$by]->_is_allowed($_, $is, @covers) } @Model::CALLS;
}

# The same of a file, which can have exec where it can be made a program.
sub _file_calls {
    my ($joint, $by, $is, $turns, @covers) = @_;
    my @exec = $turns && $joint->{crew}[$by]->_is_allowed('exec', 'prog', @covers) ? 'exec' : ();
    return ($joint->_calls($by, $is, @covers), @exec);
}

sub _new_calls {
    my ($joint, $kind, @agents) = @_;
    my %has;
    for my $by (@agents) {
        my @made = map { $joint->_of_facts('cover', $by, $_) } grep { /\Amade/ } @{ $joint->{seats} };
        my @at = map { $joint->_covers_at($by, @$_) } map { $joint->_places("$kind $_") } 0 .. $#{ $joint->{crew} };
        my @calls
            = $kind eq 'dir'   ? $joint->_calls($by, 'gone', @made)
            : $kind eq 'other' ? $joint->_calls($by, 'missing', @made)
            : $kind eq 'file'  ? $joint->_file_calls($by, $joint->{model}{openbsd} ? 'plain' : 'file', 1, @at)
            :                    $joint->_calls($by, $kind, @at);
        $has{$_} = 1 for @calls;
    }
    return %has;
}

# A directory, its further names, and what has or could have a name in it.
sub _lines_in {
    my ($joint, $dir, @agents) = @_;
    my $model = $joint->{model};
    my ($path, $rows) = ($model->_path($dir), $model->{rows}{$dir});
    my $is = $dir != 0 && !$model->{mount}{$dir} && $joint->_can_be_emptied($dir) ? 'gone' : 'dir';
    my %has = map { $_ => 1 } map { $joint->_calls($_, $is, $joint->_of_facts('cover', $_, $dir)) } @agents;
    my %others = map { $_ => 1 } map { $joint->_calls($_, 'missing', $joint->_of_facts('cover', $_, $dir)) } @agents;
    my $letters = $joint->{crew}[ $agents[0] ]{process}{letters};
    my %names = (%$rows, map { m{\A$dir/(.*)\z}s ? ($1 => 1) : () } keys %$letters);
    return (
        $joint->_line('dir', $path, %has),
        $dir == 0 ? () : $joint->_name_line(@{ $model->{above}{$dir} }, @agents),
        $joint->_line('other', $path, %others),
        map { $joint->_lines_at($dir, $_, @agents) } sort keys %names,
    );
}

sub _lines_at {
    my ($joint, $dir, $name, @agents) = @_;
    my $model = $joint->{model};
    my $node = $model->{rows}{$dir}{$name};
    my $kind = defined $node ? $model->{kind}{$node} : 'missing';
    return $joint->_lines_in($node, @agents) if $kind eq 'dir';
    my @name = $joint->_name_line($dir, $name, @agents);
    return @name if $kind eq 'missing';
    my $turns = $kind eq 'file' && $joint->_turns($node);
    my %has;
    for my $by (@agents) {
        my @covers = map { $joint->_covers_at($by, @$_) } $joint->_places("row $dir/$name");
        my $is = $kind eq 'file' && $model->{plain}{$node} ? 'plain' : $kind;
        my @calls = $kind eq 'file' ? $joint->_file_calls($by, $is, $turns, @covers) : $joint->_calls($by, $kind, @covers);
        $has{$_} = 1 for @calls;
    }
    return ($joint->_line($kind, $model->_path_in($dir, $name), %has), @name);
}

# Whether one of the crew can make a file a program, at any of its names or by what it has open; or can send it to one that
# sets its mode, by what it has open or opens.
sub _turns {
    my ($joint, $node) = @_;
    my $model = $joint->{model};
    my @senders = grep { $joint->_sends_to_set($_->{process}) } @{ $joint->{crew} };
    return 1 if grep { EverModel::is_turned_held($_->{process}, $node) } @{ $joint->{crew} };
    return 1 if grep { $_->{node} == $node } map { values %{ $_->{process}{files} } } @senders;
    for my $source ($joint->_rows) {
        my ($dir, $name) = $source =~ m{\Arow ([0-9]+)/(.*)\z}s;
        next if $model->{rows}{$dir}{$name} != $node;
        for my $by (0 .. $#{ $joint->{crew} }) {
            my @covers = map { $joint->_covers_at($by, @$_) } $joint->_places($source);
            my @calls = (@TURNS, (grep { $_ == $joint->{crew}[$by] } @senders) ? 'open-r' : ());
            return 1 if grep { $joint->{crew}[$by]->_is_allowed($_, 'file', @covers) } @calls;
        }
    }
    return 0;
}

# Whether a process can send what it has open to one of the crew that sets its mode, where fchmod is a call.
sub _sends_to_set {
    my ($joint, $process) = @_;
    return 0 if !$SENDS || !@{ $joint->{model}{needs}{fchmod}[0] } || !Model::_holds($process, 'sendfd');
    my @crew = map { $_->{process} } @{ $joint->{crew} };
    return scalar grep { Model::_holds($_, 'recvfd') && Model::_holds($_, 'fattr') } @crew;
}

# A name with a veil of its own at which nothing stands, or what stands there can be taken away.
sub _name_line {
    my ($joint, $dir, $name, @agents) = @_;
    my $letters = $joint->{crew}[ $agents[0] ]{process}{letters}{"$dir/$name"};
    return () if !defined $letters || !$joint->_is_free($dir, $name);
    my %has = map { $_ => 1 } map { $joint->_calls($_, 'missing', $letters) } @agents;
    return $joint->_line('missing', $joint->{model}->_path_in($dir, $name), %has);
}

1;
