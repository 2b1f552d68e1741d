package Pua::Together;

# What lists for ever of one text say beside each other: what a process gets by the takeover of
# others, and what one of them executes or reads and another writes, makes or takes away. Of each
# line it keeps the name and two numbers, in one string for each directory.
use strict;
use warnings;
use List::Util qw(min);
use Pua::Lists qw(columns);

# The calls by which what one process did to a thing reaches another one.
my %TAKES = map { $_ => 1 } qw(open-r open-rw create-rw readlink exec);

# Knows no list yet; a line will name $most paths at most.
sub new {
    my ($class, $most) = @_;
    return bless { most => $most, lists => [], classes => [], in => {}, lines => 0 }, $class;
}

# Begins a list of a process, which may have the help of those `beside` it.
sub begin {
    my ($self, $process, $beside) = @_;
    push @{ $self->{lists} }, { process => $process, beside => $beside };
    $self->{class} = {};
    return;
}

# Takes the next line of the list that was begun last.
sub take {
    my ($self, $kind, $path, $calls) = @_;
    my $class = $self->{class}{"$kind $calls"} //= $self->class_of($kind, $calls);
    my $slash = rindex $path, '/';
    my $directory = $slash < 0 ? 'new' : substr $path, 0, $slash;
    $self->{in}{$directory} .= substr($path, $slash + 1) . " $class $self->{lines}\n";
    $self->{lines}++;
    return;
}

# A further class: the lines of a list about a kind with the same calls.
sub class_of {
    my ($self, $kind, $calls) = @_;
    my $classes = $self->{classes};
    push @$classes, { list => $#{ $self->{lists} }, kind => $kind, calls => $calls };
    return $#$classes;
}

# The things in a directory: of each the classes of its lines, the number of the first one, and the
# path.
sub things_in {
    my ($self, $directory) = @_;
    my %things;
    for my $line (split /\n/, $self->{in}{$directory}) {
        my ($name, $class, $number) = split / /, $line;
        my $thing = $things{"$self->{classes}[$class]{kind} $name"} ||= [
            '', $number, $directory eq 'new' ? 'new' : "$directory/$name"
        ];
        $thing->[0] .= "$class ";
    }
    return values %things;
}

# All things, by the classes of their lines: how many they are, and the first ones, each with its
# number and its path.
sub groups {
    my ($self) = @_;
    my %groups;
    for my $directory (keys %{ $self->{in} }) {
        for my $thing ($self->things_in($directory)) {
            my ($classes, @first) = @$thing;
            my $key = $directory eq 'new' ? "new $classes" : $classes;
            add_first($groups{$key} ||= { count => 0, first => [] }, $self->{most}, 1, \@first);
        }
    }
    return \%groups;
}

# Adds things to a group, of which it keeps the first ones.
sub add_first {
    my ($group, $most, $count, @things) = @_;
    my $first = $group->{first};
    $group->{count} += $count;
    return if @$first == $most && $first->[-1][0] < min(map { $_->[0] } @things);
    @$first = sort { $a->[0] <=> $b->[0] } @$first, @things;
    splice @$first, $most if @$first > $most;
    return;
}

# The kind of things by their classes, and by each list the calls on them.
sub calls_by_list {
    my ($self, $classes) = @_;
    my @classes = map { $self->{classes}[$_] } $classes =~ /[0-9]+/g;
    return ($classes[0]{kind}, { map { $_->{list} => $_->{calls} } @classes });
}

# What the lists say beside each other. A line names the paths that $some_of gives for their number
# and the first ones.
sub lines {
    my ($self, $some_of) = @_;
    return if @{ $self->{lists} } < 2;
    my $groups = $self->groups;
    return ($self->help_of_others($groups), $self->flows_between($groups, $some_of));
}

# Of each list with the help of others, of a process whose list without it is there, how many lines
# have more calls by that help, and how many calls these are.
sub help_of_others {
    my ($self, $groups) = @_;
    my $lists = $self->{lists};
    my (%alone, @lines);
    for my $number (0 .. $#$lists) {
        my ($process, $beside) = @{ $lists->[$number] }{qw(process beside)};
        $alone{$process} = $number unless defined $beside;
    }
    for my $number (grep { defined $lists->[$_]{beside} } 0 .. $#$lists) {
        my ($process, $beside) = @{ $lists->[$number] }{qw(process beside)};
        my $alone = $alone{$process} // next;
        my ($lines, $calls) = $self->more_than($groups, $number, $alone);
        push @lines, "process $process: with $beside: " . ($lines
            ? counted($lines, 'line') . ', ' . counted($calls, 'call') . ' more' : 'none more');
    }
    return @lines;
}

# How many lines of a list have more calls than those of another one, and how many these are.
sub more_than {
    my ($self, $groups, $list, $other) = @_;
    my ($lines, $calls) = (0, 0);
    for my $classes (keys %$groups) {
        my (undef, $by) = $self->calls_by_list($classes);
        my %has = map { $_ => 1 } split /,/, $by->{$other} // '';
        my $more = grep { !$has{$_} } split /,/, $by->{$list} // '';
        $lines += $groups->{$classes}{count} if $more;
        $calls += $groups->{$classes}{count} * $more;
    }
    return ($lines, $calls);
}

sub counted { my ($count, $what) = @_; return "$count $what" . ($count == 1 ? '' : 's') }

# Of what stands in the tree, each thing that one process takes and another changes, with the calls
# of both, where these are by any of their lists; the things that are executed first. Those with the
# same calls are one line, which names the first of them.
sub flows_between {
    my ($self, $groups, $some_of) = @_;
    my %flows;
    for my $classes (grep { !/\Anew / } keys %$groups) {
        my ($kind, $calls) = $self->calls_by_list($classes);
        my $flow = flow_of($kind, $self->by_process($calls)) // next;
        my $line = $flows{"$kind\n$flow"} ||=
            { kind => $kind, flow => $flow, count => 0, first => [] };
        my $group = $groups->{$classes};
        add_first($line, $self->{most}, $group->{count}, @{ $group->{first} });
    }
    my @lines;
    for my $line (sort { $a->{first}[0][0] <=> $b->{first}[0][0] } values %flows) {
        my @paths = map { $_->[1] } @{ $line->{first} };
        push @lines, "$line->{kind} " . $some_of->($line->{count}, @paths) . ": $line->{flow}";
    }
    return ((grep { / exec(?:,|\z)/m } @lines), grep { !/ exec(?:,|\z)/m } @lines);
}

# Of calls by lists, those by each process.
sub by_process {
    my ($self, $calls) = @_;
    my %by;
    for my $list (keys %$calls) {
        $by{ $self->{lists}[$list]{process} }{$_} = 1 for split /,/, $calls->{$list};
    }
    return \%by;
}

# Which processes take a thing that another one changes, and which of these do, by their calls; undef
# where there is no such pair.
sub flow_of {
    my ($kind, $by) = @_;
    my (%takes, %changes);
    for my $process (keys %$by) {
        my @calls = in_order(keys %{ $by->{$process} });
        my @takes   = grep { $TAKES{$_} } @calls;
        my @changes = grep { is_change($kind, $_) } @calls;
        $takes{$process}   = join ',', @takes   if @takes;
        $changes{$process} = join ',', @changes if @changes;
    }
    my @takers   = grep { my $one = $_; grep { $_ != $one } keys %changes } keys %takes;
    my @changers = grep { my $one = $_; grep { $_ != $one } keys %takes } keys %changes;
    return if !@takers;
    return join ', ', (map { "$_ $takes{$_}" } sort { $a <=> $b } @takers),
        map { "$_ $changes{$_}" } sort { $a <=> $b } @changers;
}

sub is_change {
    my ($kind, $call) = @_;
    my $cells = columns($kind, $call);
    return scalar grep { $cells->{$_} } qw(written made removed);
}

# Calls in the order in which lists have them.
my $PLACE = 0;
my %PLACE = map { $_ => $PLACE++ } qw(stat lstat readlink open-r open-w open-rw create mkdir rmdir
    unlink symlink chmod chdir exec connect bind mknod chown create-rw fchmod fchown);
sub in_order { return sort { ($PLACE{$a} // 99) <=> ($PLACE{$b} // 99) || $a cmp $b } @_ }

1;
