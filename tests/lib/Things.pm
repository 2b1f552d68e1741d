# The things of a model's tree, by numbers that stay when they get other names. No number is given twice, so
# what has one that an earlier tree had is the same thing.
package Things;
use strict;
use warnings;
use Tree;

# What a line `KIND PATH CALLS` of a list is about: `node N`, a thing; `other N`, the further names of a
# directory; or `missing N NAME`, a name that has a veil of its own. And the number of the thing or of the
# directory. It dies where the tree has nothing of this kind at the path.
sub thing {
    my ($model, $kind, $path) = @_;
    my ($top, $name) = $path =~ m{\A(.*)/([^/]*)\z};
    my $dir = _walked($model, $top);
    return ("missing $dir $name", $dir) if $kind eq 'missing';
    my $node   = $name eq '' ? $dir : $model->{rows}{$dir}{ Tree::unspelled($name) };
    my $wanted = $kind eq 'other' ? 'dir' : $kind;
    die "no $kind is at $path\n" if !defined $node || $model->{kind}{$node} ne $wanted;
    return (($kind eq 'other' ? 'other' : 'node') . " $node", $node);
}

# The directory at a path, through names alone.
sub _walked {
    my ($model, $path) = @_;
    my $dir = 0;
    for my $name (grep { $_ ne '' } split m{/}, $path) {
        $dir = $model->{rows}{$dir}{ Tree::unspelled($name) };
        die "no directory is at $path\n" if !defined $dir || $model->{kind}{$dir} ne 'dir';
    }
    return $dir;
}

# Whether a tree has a thing of this number.
sub has {
    my ($model, $number) = @_;
    return exists $model->{kind}{$number};
}

# All names of a tree, the root first: each its spelled path, and of what stands there the kind and the number; and
# but for the root the directory and the name in it.
sub rows {
    my ($model) = @_;
    return ({ path => '/', kind => 'dir', node => 0 }, _rows_in($model, 0, ''));
}

sub _rows_in {
    my ($model, $dir, $top) = @_;
    my @rows;
    for my $name (sort keys %{ $model->{rows}{$dir} }) {
        my $node = $model->{rows}{$dir}{$name};
        my ($path, $kind) = ("$top/" . Tree::spelled($name), $model->{kind}{$node});
        push @rows, { path => $path, kind => $kind, node => $node, dir => $dir, name => $name };
        push @rows, _rows_in($model, $node, $path) if $kind eq 'dir';
    }
    return @rows;
}

# How the tree differs from what a list has that is of a process without veils; nothing where it doesn't.
sub unlike {
    my ($model, $list) = @_;
    my @seen   = sort map { "$_->{kind} $_->{path}" } grep { $_->{kind} ne 'other' } @{ $list->{lines} };
    my @wanted = sort map { "$_->{kind} $_->{path}" } rows($model);
    return if "@seen" eq "@wanted";
    return join "\n", 'the tree has', @seen, 'and not', @wanted, '';
}

1;
