# What a list for ever has of each thing, and which of its calls were met later on.
package Foreseen;
use strict;
use warnings;
use Things;

# The calls of a list for ever over a model's tree: {calls}{THING}{CALL} is 1 once the call was met on the thing,
# and 0 till then. Of a file with two names the list has two lines, and it is one thing.
sub new {
    my ($class, $model, $list) = @_;
    my $foreseen = bless { model => $model, calls => {}, every => {} }, $class;
    for my $line (@{ $list->{lines} }) {
        my $thing = $foreseen->about($model, $line->{kind}, $line->{path});
        $foreseen->{calls}{$thing}{$_} = 0 for @{ $line->{calls} };
        $foreseen->{every}{$_} = 1 for @{ $line->{calls} };
    }
    return $foreseen;
}

# Each call that some line has.
sub every { return $_[0]{every} }

# What a line over a later tree is about: something that was there in the beginning, or something new of its kind.
sub about {
    my ($foreseen, $model, $kind, $path) = @_;
    return "new $kind" if $path eq 'new';
    my ($thing, $number) = Things::thing($model, $kind, $path);
    return Things::has($foreseen->{model}, $number) ? $thing : "new $kind";
}

# Notes that some calls on something were met. Nothing where all of them were foreseen, and else the first that
# was not, with the thing.
sub meet {
    my ($foreseen, $thing, @calls) = @_;
    my $known = $foreseen->{calls}{$thing} || {};
    for my $call (@calls) {
        return "no $call of $thing" if !exists $known->{$call};
        $known->{$call} = 1;
    }
    return;
}

# The same of all lines of a list over a later tree.
sub meet_list {
    my ($foreseen, $model, $list) = @_;
    for my $line (@{ $list->{lines} }) {
        my $fault = $foreseen->meet($foreseen->about($model, @$line{qw(kind path)}), @{ $line->{calls} });
        return "$line->{text}: $fault" if defined $fault;
    }
    return;
}

# How many calls there are, and how many of them were met.
sub counted {
    my ($foreseen) = @_;
    my @all = map { values %$_ } values %{ $foreseen->{calls} };
    return (scalar @all, scalar grep { $_ } @all);
}

1;
