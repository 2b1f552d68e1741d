# That no line of `pua why` is left out: there are lines for just the checks that a call passes, and the links
# that they tell lead from the call's path to what they name.
package Why::Chain;
use strict;
use warnings;
use Exporter qw(import);
use Openings qw(opening_for);
use Tree qw(unspelled);
use Why::World qw(above fields_of);

our @EXPORT_OK = qw(chain_fault opening_of_case);

# A letter for the first word of each line behind its side.
my %LETTER = (needs => 'n', opened => 'o', link => 'l', names => 'm', veil => 'v', no => 'v');

# The lines of a call with one path, with two, and without, that passes all checks.
my ($ONE, $TWO, $NONE) = ('nl*mv', 'nl*ml*mvv', 'n');

# How far a call comes that is refused for a reason of a kind, by the side that it is about. By any other kind it
# comes to its end; what is missing or no directory may be what a path names, or stand on its way; and where the new
# one of two paths lacks promises, the old one may have its own.
my %BY_PATH  = ('' => 'nl*', old => 'nl*', new => 'nl*ml*');
my %BY_VEIL  = ('' => 'nl*m', old => 'nl*ml*m', new => 'nl*ml*mv');
my %COMES_TO = (
    (map { $_ => { '' => '' } } 'promises', 'never made', 'ended'),
    (map { $_ => \%BY_PATH } 'empty', 'long', 'long component', 'removed', 'no root', 'links'),
    (map { $_ => \%BY_VEIL } 'letters', 'no veil'),
);
my %IS_EITHER = map { $_ => 1 } 'missing', 'no directory';

# The opening that a case's request has, by the rules that know of them: its promise, and whether the veils are asked.
sub opening_of_case {
    my ($case) = @_;
    my ($call, @paths) = fields_of($case->{request});
    return if !$case->{world}->is_openbsd || @paths != 1 || $call =~ /\A(?:fork|exit|uses)\z/;
    my $state = $case->{world}->state_of($case->{script}, $case->{process});
    return opening_for($call, unspelled($paths[0]), split /,/, $state->{promises} // '-');
}

# What is wrong with the lines of a case, without the last: '' for nothing.
sub chain_fault {
    my ($case, @lines) = @_;
    my ($call, @paths) = fields_of($case->{request});
    shift @paths if $call eq 'symlink';
    return '' if $call =~ /\A(?:pledge|unveil|fork|exit)\z/ || ($case->{told}{reason} // '') =~ /\Atarget /;
    my $letters = join '', map { $LETTER{ (split / /, s/\A(?:old|new): //r)[0] } // '?' } @lines;
    my $told    = $case->{told};
    my ($kind, $side) = ($told->{kind} // 'none', $told->{side} // '');
    my $whole   = $call eq 'uses' ? $NONE : @paths == 2 ? $TWO : $ONE;
    my $pattern = $COMES_TO{$kind} ? $COMES_TO{$kind}{$side} : $whole;
    $pattern .= "|$BY_PATH{$side}" if $IS_EITHER{$kind};
    $pattern .= '|n' if $kind eq 'promises' && @paths == 2;
    my $opening = opening_of_case($case);
    $pattern =~ tr/n/o/ if $opening;
    $pattern =~ tr/v//d if $opening && !$opening->{veils};
    return "lines $letters, and not $pattern" if $letters !~ /\A(?:$pattern)\z/;
    for my $place (0 .. $#paths) {
        my $own   = @paths == 1 ? '' : $place == 0 ? 'old: ' : 'new: ';
        my $fault = _way_fault($case, $paths[$place], $own, grep { index($_, $own) == 0 } @lines);
        return $fault if $fault ne '';
    }
    return '';
}

# What is wrong with the way of a path from the root, by the lines about it, which have this before them: the
# links lead, in their order and all of them, to what is named, or by the name that the reason says.
sub _way_fault {
    my ($case, $path, $own, @lines) = @_;
    return '' if $path !~ m{\A/};
    my @links   = map { /\A\Q$own\Elink (\S+) to (\S+)\z/ ? [ $1, $2 ] : () } @lines;
    my ($named) = map { /\A\Q$own\Enames \S+ (\S+)\z/ } @lines;
    my ($at, @parts) = ('/', split m{/}, $path);
    my @passed;
    while (defined(my $part = shift @parts)) {
        my $next = _step($at, $part);
        push @passed, $next if !@links;
        if (@links && $links[0][0] eq $next && $next ne $at) {
            my $target = (shift @links)->[1];
            unshift @parts, split m{/}, $target;
            $next = $target =~ m{\A/} ? '/' : $at;
        }
        $at = $next;
    }
    return 'a link is not on the way' if @links;
    return $named eq $at ? '' : "the links lead to $at" if defined $named;
    my ($stop) = grep { m{\A/} } @{ $case->{told}{about} || [] };
    return '' if !defined $stop || "$case->{told}{side}: " ne $own && $own ne '';
    return (grep { $_ eq $stop } @passed) ? '' : "the way doesn't lead by $stop";
}

# The path behind one part more.
sub _step {
    my ($at, $part) = @_;
    return $at        if $part eq '' || $part eq '.';
    return above($at) if $part eq '..';
    return $at eq '/' ? "/$part" : "$at/$part";
}

1;
