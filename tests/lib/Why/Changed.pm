# A request asked once more, in a world in which something is otherwise, and what it is told there beside what
# it is told in its own case.
package Why::Changed;
use strict;
use warnings;
use Exporter qw(import);
use Why::World qw(OBSERVER fields_of);

our @EXPORT_OK = qw(
    $NEW $NOTHING told_behind told_instead same_words_fault same_kind_fault state_of things_of place_of without joined
);

# A name that no listing has, and a line that changes nothing.
our $NEW     = '/new';
our $NOTHING = OBSERVER . ' pledge - -';

# What the request is told behind further lines.
sub told_behind {
    my ($case, @lines) = @_;
    return $case->{world}->told([ @{ $case->{script} }, @lines ], $case->{request});
}

# What another request is told in its place, by its fields.
sub told_instead {
    my ($case, @fields) = @_;
    return $case->{world}->told($case->{script}, join ' ', $case->{process}, @fields);
}

# '' where something isn't told the case's own reason, in the same words.
sub same_words_fault {
    my ($case, $told, $what) = @_;
    return '' if !defined $told->{reason} || $told->{reason} ne $case->{told}{reason};
    return "the same reason $what";
}

# '' where something is told a reason of another kind, or about another side.
sub same_kind_fault {
    my ($case, $told, $what) = @_;
    my $own = $case->{told};
    return '' if !defined $told->{kind} || $told->{kind} ne $own->{kind} || $told->{side} ne $own->{side};
    return "the same kind of reason $what: $told->{reason}";
}

sub state_of  { my ($case) = @_; return $case->{world}->state_of($case->{script}, $case->{process}) }
sub things_of { my ($case) = @_; return $case->{world}->things($case->{script}) }

# Where in the fields the text stands that a reason about a path, or a target, is about.
sub place_of {
    my ($case, $what) = @_;
    my ($call, @texts) = fields_of($case->{request});
    return $case->{told}{side} eq 'new' || $call eq 'symlink' && $what eq 'path' ? 2 : 1;
}

# Without members.
sub without {
    my ($out, @members) = @_;
    my %is_out = map { $_ => 1 } split /$out->[0]/, $out->[1];
    return grep { !$is_out{$_} } @members;
}

sub joined {
    my ($between, @members) = @_;
    return @members ? join $between, @members : '=';
}

1;
