# What each kind of reason says, in its own words: what it names is looked at where the request was made, and
# another script, in which just that is otherwise, doesn't have the reason any more. The checks are in one
# module for each thing that reasons speak of.
package Why::Otherwise;
use strict;
use warnings;
use Exporter qw(import);
use Why::Changed qw($NEW same_words_fault told_instead);
use Why::Files;
use Why::Processes;
use Why::Promises;
use Why::Texts;
use Why::Things;
use Why::Veils;
use Why::World qw(fields_of);

our @EXPORT_OK = qw(words_fault);

my %FAULT_OF = (
    %Why::Promises::FAULT_OF, %Why::Veils::FAULT_OF, %Why::Things::FAULT_OF, %Why::Texts::FAULT_OF,
    %Why::Processes::FAULT_OF, %Why::Files::FAULT_OF,
);

# The kinds of reasons that are about no path.
my %HAS_NO_SIDE = map { $_ => 1 } 'promises', 'never made', 'ended';

# What is wrong with the words of a case's reason: '' for nothing. In %$case are its world, the script before
# it and its answers, the request's line, and what it is told.
sub words_fault {
    my ($case) = @_;
    my $fault_of = $FAULT_OF{ $case->{told}{kind} } or return 'a reason that no script can have';
    return $fault_of->($case, @{ $case->{told}{about} }) || _side_fault($case);
}

# A side is told of a call with two paths, and of each path and veil of such a call. With another new name
# nothing else is told of the old one, unless that new one is refused first; and something else is told of the
# new one.
sub _side_fault {
    my ($case) = @_;
    my ($kind, $side) = @{ $case->{told} }{qw(kind side)};
    my ($call, @paths) = fields_of($case->{request});
    my $is_pair = $call eq 'rename' || $call eq 'link';
    return "a side of $call" if $side ne '' && !$is_pair;
    return '' if !$is_pair || $HAS_NO_SIDE{$kind};
    return 'no side' if $side eq '';
    my $told = told_instead($case, $call, $paths[0], $NEW);
    return same_words_fault($case, $told, "with $NEW for the new name") if $side eq 'new' && $kind ne 'letters';
    return '' if $side eq 'new' || ($told->{side} // '') eq 'new';
    return ($told->{reason} // '') eq $case->{told}{reason} ? '' : "another reason with $NEW for the new name";
}

1;
