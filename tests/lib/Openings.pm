# What promises open by themselves, by OpenBSD's rules: as lists tell it, and for a request.
package Openings;
use strict;
use warnings;
use Exporter qw(import);
use FindBin qw($Bin);
use lib "$Bin/../tools/lib";
use Pua::Calls qw(%OPENINGS is_opened opens);

our @EXPORT_OK = qw(by_openbsd has_opening opening_for openings_of);

# The calls that change nothing.
my %ONLY_LOOKS = map { $_ => 1 } qw(stat open-r open-w open-rw);

# The lines of what some promises open, given in any order.
sub openings_of {
    my @promises = @_;
    return map { "opening $_\n" } map { @{ $OPENINGS{$_} || [] } } sort @promises;
}

# The opening that one of some promises is for a call on a path: the `promise`, and whether the `veils` are asked;
# undef where none is.
sub opening_for {
    my ($call, $path, @promises) = @_;
    for my $promise (@promises) {
        my $opening = opens($promise, $path, $call);
        return { promise => $promise, veils => $opening =~ / veils\z/ ? 1 : 0 } if defined $opening;
    }
    return;
}

# Whether among the lines of a state there is an opening by which a call that changes nothing is opened on a path: of the
# others, a list for ever has what they are on.
sub has_opening {
    my ($call, $path, @lines) = @_;
    return $ONLY_LOOKS{$call} && grep { /\Aopening (.*)\z/s && is_opened($1, $path, $call) } @lines;
}

# A text of lists of now by the standard rules, as it is by OpenBSD's where the objects are the same.
sub by_openbsd {
    my ($text) = @_;
    my ($told, @promises) = ('');
    for my $line (split /^/, $text) {
        @promises = $1 eq '-' ? () : split /,/, $1 if $line =~ /^promises (\S+)$/;
        $told .= $line;
        $told .= "rules openbsd\n" if $line eq "process alive\n";
        $told .= join '', openings_of(@promises) if $line =~ /^unveil /;
    }
    return $told;
}

1;
