# What reasons say of promises, and of what a pledge asks for.
package Why::Promises;
use strict;
use warnings;
use Exporter qw(import);
use Why::Changed qw(joined same_words_fault told_instead without);
use Why::World qw(fields_of);

our @EXPORT_OK = qw(%FAULT_OF);

# The check of each kind.
our %FAULT_OF = (
    'promises'        => \&_promises,
    'pledge asks'     => \&_pledge_asks,
    'unknown promise' => \&_unknown_promise,
);

# With all of one list more the process isn't without it; with all of it but one, just this one is missing.
sub _promises {
    my ($case) = @_;
    my @sets = $case->{told}{reason} =~ /no ([a-z_,]+)/g;
    for my $set (@sets) {
        my @lacks = split /,/, $set;
        my $fault = _held($case, $set, @lacks);
        return $fault if $fault ne '';
        next if @lacks == 1;
        for my $one (@lacks) {
            $fault = _held_but_one($case, \@sets, grep { $_ ne $one } @lacks);
            return $fault if $fault ne '';
        }
    }
    return '';
}

# The new names of rename and link may need further promises, which are asked for next.
sub _held {
    my ($case, $set, @lacks) = @_;
    my $told = $case->{world}->told(_more_promises($case->{script}, @lacks), $case->{request});
    return '' if !defined $told->{kind} || $told->{kind} ne 'promises';
    my %is_one = map { $_ => 1 } @lacks;
    return '' if $case->{request} =~ / (?:rename|link) / && !grep { $is_one{$_} } $told->{reason} =~ /([a-z_]+)/g;
    return "with $set pledged it is told $told->{reason}";
}

# Only where the lines before it are answered as they were is it the same process. Where another set is whole then, nothing is lacking.
sub _held_but_one {
    my ($case, $sets, @held) = @_;
    my $script = _more_promises($case->{script}, @held);
    return '' if !$case->{world}->is_alike($script, $case->{answers});
    my @rest = map { join ',', without([ ',', join ',', @held ], split /,/) } @$sets;
    return '' if grep { $_ eq '' } @rest;
    my $told = $case->{world}->told($script, $case->{request});
    my $reason = join ', ', map { "no $_" } @rest;
    return '' if defined $told->{reason} && $told->{reason} eq $reason;
    return "with @held pledged it isn't told $reason";
}

# A script in which each pledge has some promises more, in each argument that is no NULL. So all processes
# hold them always.
sub _more_promises {
    my ($script, @more) = @_;
    return [ map { /\A(\d+ pledge) (\S+) (\S+)\z/ ? join(' ', $1, map { _added($_, @more) } $2, $3) : $_ } @$script ];
}

sub _added {
    my ($set, @more) = @_;
    return $set eq '-' ? '-' : join ',', ($set eq '=' ? () : $set), @more;
}

# Without what it asks for beyond what was given it isn't refused for that; with one of this it is, for this one.
sub _pledge_asks {
    my ($case, $beyond, $where) = @_;
    my @beyond = split /,/, $beyond;
    my $told = told_instead($case, _asking_less($case, $where, @beyond));
    return "without $beyond it is told $told->{reason}"
        if defined $told->{kind} && $told->{kind} eq 'pledge asks' && $told->{about}[1] eq $where;
    for my $one (@beyond) {
        $told = told_instead($case, _asking_less($case, $where, grep { $_ ne $one } @beyond));
        return "with $one alone it isn't told so" if ($told->{reason} // '') ne "no $one$where";
    }
    return '';
}

# The fields of a pledge without some promises in one of its arguments.
sub _asking_less {
    my ($case, $where, @out) = @_;
    my @fields = fields_of($case->{request});
    my $place  = $where eq '' ? 1 : 2;
    $fields[$place] = joined(',', without([ ',', join ',', @out ], split /,/, $fields[$place]));
    return @fields;
}

sub _unknown_promise {
    my ($case, $where) = @_;
    my ($call, @sets) = fields_of($case->{request});
    my $told = told_instead($case, $call, $where eq '' ? ('-', $sets[1]) : ($sets[0], '-'));
    return same_words_fault($case, $told, 'without this argument');
}

1;
