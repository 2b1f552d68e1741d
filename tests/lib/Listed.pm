# What `pua objects` and `pua objects --ever` print, by process, and whether one list lies within another.
package Listed;
use strict;
use warnings;
use Exporter qw(import);
use FindBin qw($Bin);
use lib "$Bin/../tools/lib";
use Pua::Lists qw(all_lists_of state_of);

our @EXPORT_OK = qw(lists_of state_of);

# The answers of a text, in the order of the script's lines; and its lists, by the number of the process.
# A list has the lines of its state; its lines, each a kind, a path (or `new`), a list of calls, and the
# steps to calls where they are told; its text without the heading; and beside whom it is.
sub lists_of {
    my ($text) = @_;
    my ($answers, @lists) = all_lists_of('a text', split /\n/, $text);
    return {
        answers => [ map { (split / /)[1] } @$answers ],
        lists   => { map { ($_->{process} => _list($_)) } @lists },
    };
}

sub _list {
    my ($list) = @_;
    my @lines;
    for (@{ $list->{objects} }) {
        my ($kind, $path, $calls) = @$_;
        my $steps = ($list->{steps} || {})->{"$kind $path"} || {};
        push @lines, { text => "@$_", kind => $kind, path => $path, calls => [ split /,/, $calls ], steps => $steps };
    }
    my $text = join '', map { "$_\n" } @{ $list->{state} }, map { $_->{text} } @lines;
    return { state => $list->{state}, lines => \@lines, text => $text, beside => $list->{beside} };
}

sub is_alive { return !state_of($_[0])->{ended} }

# Whether the process can put no veil any more.
sub is_confined {
    my ($list) = @_;
    my $unveil = state_of($list)->{unveil};
    return !defined $unveil || $unveil ne 'open';
}

# Whether the process holds a promise; and whether it hands one down.
sub holds {
    my ($list, $promise) = @_;
    my $state = state_of($list);
    return !$state->{ended} && Pua::Lists::holds($state, $promise) ? 1 : 0;
}

sub hands_down {
    my ($list, $promise) = @_;
    my $promises = state_of($list)->{execpromises};
    return $promises && $promises->{$promise} ? 1 : 0;
}

# Whether the process never pledged, or what it starts will not have.
sub has_all {
    my ($list) = @_;
    my $state = state_of($list);
    return !$state->{ended} && !($state->{promises} && $state->{execpromises});
}

# The calls of each line of a list, by its kind and path.
sub calls_at {
    my ($list) = @_;
    return { map { ("$_->{kind} $_->{path}" => { map { $_ => 1 } @{ $_->{calls} } }) } @{ $list->{lines} } };
}

# Whether a list's calls (calls_at), of a process that holds cpath, tell that the veils give c on what stands at a
# name: such a file can be unlinked, and in such a directory one can be made.
sub gives_c {
    my ($calls, $row) = @_;
    my ($kind, $path) = @$row{qw(kind path)};
    return $kind eq 'dir' ? $calls->{"other $path"}{mkdir} : $calls->{"$kind $path"}{unlink};
}

# The first line of a list that another one doesn't have with all its calls, under the same kind and path.
sub beyond {
    my ($list, $other) = @_;
    my $calls = calls_at($other);
    for my $line (@{ $list->{lines} }) {
        my $there = $calls->{"$line->{kind} $line->{path}"} || {};
        return "$line->{text}\n" if grep { !$there->{$_} } @{ $line->{calls} };
    }
    return;
}

1;
