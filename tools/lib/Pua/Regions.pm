package Pua::Regions;

# Sums up a list of objects by regions, while it is read. A region is a directory with all below it
# that the same veil covers and whose directories may be treated alike: the calls on them but rmdir,
# which asks for an empty one, and those on their further names. Of a region it keeps how many
# objects of a kind have which calls, and the first paths of these: so it needs memory for the
# regions and for one path.
use strict;
use warnings;

my $MOST_NAMED = 3;    # paths that are named where no more have these calls

# For a list of a process that has these veils: letters by path.
sub new {
    my ($class, $veils) = @_;
    return bless { veils => $veils, regions => [], way => [] }, $class;
}

# The directory in which a path stands.
sub above { my ($path) = @_; return substr($path, 0, rindex $path, '/') || '/' }

# Whether a path is a directory's own, or one below it.
sub is_in { my ($path, $above) = @_; return $above eq '/' || index("$path/", "$above/") == 0 }

# The place of the veil that covers a path; an empty one where none does.
sub cover {
    my ($self, $path) = @_;
    for (my $at = $path; ; $at = above($at)) {
        return $at if defined $self->{veils}{$at};
        return '' if $at eq '/';
    }
}

# The region in which a directory is. $calls are those on it and on its further names, if a line
# has some. What is kept of the directories on the way to it goes where the list leaves them.
sub region_of {
    my ($self, $path, $calls) = @_;
    my $way = $self->{way};
    pop @$way while @$way && !is_in($path, $way->[-1]{path});
    my $last = $way->[-1];
    return $last->{region} if $last && $last->{path} eq $path && !defined $calls;
    my $up    = $last && $path ne '/' && $last->{path} eq above($path) ? $last->{region} : undef;
    my $cover = $up && !defined $self->{veils}{$path} ? $up->{cover} : $self->cover($path);
    my $like  = "$cover " . ($calls // '');
    my $region = $up;
    if (!$up || $up->{like} ne $like) {
        $region = { path => $path, like => $like, cover => $cover, lines => 0, inside => 0 };
        push @{ $self->{regions} }, $region;
        $up->{inside}++ if $up;
    }
    push @$way, { path => $path, region => $region };
    return $region;
}

# Adds a line to a region.
sub add {
    my ($region, $kind, $calls, $path) = @_;
    my $group = $region->{groups}{"$kind $calls"} ||= { count => 0, paths => [] };
    push @{ $group->{paths} }, $path if $group->{count}++ < $MOST_NAMED;
    $region->{lines}++;
    return;
}

# Adds a directory, whose further names are known by now.
sub add_directory {
    my ($self) = @_;
    my $directory = delete $self->{directory} or return;
    my ($path, $calls, $others) = @$directory{qw(path calls others)};
    my $alike = join ',', grep { $_ ne 'rmdir' } split /,/, $calls // '';
    my $region = $self->region_of($path, "$alike " . ($others // ''));
    add($region, 'dir', $calls, $path) if defined $calls;
    add($region, 'other', $others, $path) if defined $others;
    return;
}

# Adds what is no directory; a veil of its own is told with its calls.
sub add_name {
    my ($self, $kind, $path, $calls) = @_;
    my ($own, $directory, $last) = ($self->{veils}{$path}, above($path), $self->{way}[-1]);
    $calls .= " (veil $own)" if defined $own;
    my $is_there = $last && $last->{path} eq $directory;
    add($is_there ? $last->{region} : $self->region_of($directory), $kind, $calls, $path);
    return;
}

# Takes the next line of the list.
sub take {
    my ($self, $kind, $path, $calls) = @_;
    my $directory = $self->{directory};
    if ($path eq 'new') {
        $self->add_directory;
        add($self->{new} ||= { lines => 0 }, $kind, $calls, $path);    # no path is known
    } elsif ($kind eq 'other' && $directory && $directory->{path} eq $path) {
        $directory->{others} = $calls;
    } else {
        $self->add_directory if $directory;
        if    ($kind eq 'dir')   { $self->{directory} = { path => $path, calls => $calls } }
        elsif ($kind eq 'other') { $self->{directory} = { path => $path, others => $calls } }
        else                     { $self->add_name($kind, $path, $calls) }
    }
    return;
}

# The lines of a region's groups, the largest first.
sub group_lines {
    my ($region) = @_;
    my $groups = $region->{groups};
    my $order  = sub { $groups->{$b}{count} <=> $groups->{$a}{count} || $a cmp $b };
    my @lines;
    for my $name (sort $order keys %$groups) {
        my ($count, $paths) = @{ $groups->{$name} }{qw(count paths)};
        push @lines, '    '
            . ($count > $MOST_NAMED ? "$count $name" : "$name: " . join ', ', @$paths);
    }
    return @lines;
}

# The regions of the list that was taken, as lines.
sub lines {
    my ($self) = @_;
    $self->add_directory;
    my @lines;
    for my $region (@{ $self->{regions} }) {
        my ($path, $cover, $count) = @$region{qw(path cover lines)};
        my $veil = $cover eq '' ? 'no veil'
            : "veil $self->{veils}{$cover}" . ($cover eq $path ? '' : " on $cover");
        my $inside = $region->{inside} ? ", and regions inside: $region->{inside}" : '';
        push @lines, "below $path ($veil): " . counted($count) . $inside, group_lines($region);
    }
    my $new = $self->{new};
    push @lines, 'what is made: ' . counted($new->{lines}),
        map { s/: new.*//r } group_lines($new) if $new;
    return @lines;
}

sub counted { my ($count) = @_; return $count == 1 ? '1 line' : "$count lines" }

1;
