# Which of a process's veils covers a path, by the state of the process alone: the nearest one at the path or
# above it; and since which line it has its letters.
package Why::Covers;
use strict;
use warnings;
use Exporter qw(import);
use Why::World qw(fields_of forebear is_over);

our @EXPORT_OK = qw(cover_fault veil_fault);

# What is wrong with the veil that is said to cover what stands, or would stand, at a path: '' for nothing. It
# is said by its path and letters, 'none' where none covers, and '-' where the process has no veils. In %$case
# are a world, a script and its answers, and the process.
sub cover_fault {
    my ($case, $path, $said) = @_;
    my $veils = _veils($case, scalar @{ $case->{script} });
    return @$veils ? 'there are veils' : '' if $said eq '-';
    return 'there are no veils' if !@$veils;
    my @over = grep { is_over($veils->[$_][0], $path) } 0 .. $#$veils;
    @over = sort { length $veils->[$b][0] <=> length $veils->[$a][0] } @over;
    return '' if $said eq (@over ? "@{ $veils->[$over[0]] }" : 'none');
    my ($nearest) = grep { !_is_beside($case, $_) } @over;
    my $veil = defined $nearest ? "@{ $veils->[$nearest] }" : 'none';
    return $said eq $veil ? '' : "$path is covered by $veil and not by $said";
}

sub _front { my ($case, $count) = @_; return [ @{ $case->{script} }[ 0 .. $count - 1 ] ] }

# The veils that a process of the end, or who it was then, has behind so many lines.
sub _veils {
    my ($case, $count) = @_;
    my $process = forebear($case->{script}, $case->{answers}, $count, $case->{process});
    return $case->{world}->state_of(_front($case, $count), $process)->{veils};
}

# Whether a veil, by its place among those of the end, is one of a name that a directory has taken: it covers
# nothing. It is so if there is a directory now, and none was there behind the line that put it.
sub _is_beside {
    my ($case, $place) = @_;
    my $count = @{ $case->{script} };
    my $things = $case->{world}->things($case->{script});
    return 0 if ($things->{ _veils($case, $count)->[$place][0] } // '') ne 'dir';
    --$count while $place < @{ _veils($case, $count - 1) };
    my $path = _veils($case, $count)->[$place][0];
    return ($case->{world}->things(_front($case, $count))->{$path} // '') ne 'dir';
}

# What is wrong with the line since which a veil of the end is said to have its letters. Just before that line
# it hadn't, the line is an unveil with these letters, and no later unveil or exec gave it others.
sub veil_fault {
    my ($case, $veil, $line) = @_;
    my ($script, $answers) = @$case{qw(script answers)};
    return 'there is no such line' if $line !~ /\A[1-9]\d*\z/ || $line > @$script;
    my $veils = _veils($case, scalar @$script);
    my @places = grep { "@{ $veils->[$_] }" eq $veil } 0 .. $#$veils;
    return "there is no veil $veil" if !@places;
    return '' if grep { _is_since($case, $_, $line) } @places;
    return "veil $veil doesn't have its letters since line $line";
}

sub _is_since {
    my ($case, $place, $line) = @_;
    my $letters = _veils($case, scalar @{ $case->{script} })->[$place][1];
    return 0 if _has($case, $place, $letters, $line - 1) || !_changes($case, $line, 'unveil');
    my (undef, undef, $given) = fields_of($case->{script}[ $line - 1 ]);
    return 0 if $letters ne (join('', grep { $given =~ /$_/ } qw(r w x c)) || '=');
    for my $count (grep { $_ == $line || _changes($case, $_, 'unveil|exec') } $line .. @{ $case->{script} }) {
        return 0 if !_has($case, $place, $letters, $count);
    }
    return 1;
}

# Whether a veil had these letters behind so many lines.
sub _has {
    my ($case, $place, $letters, $count) = @_;
    my $veil = _veils($case, $count)->[$place];
    return defined $veil && $veil->[1] eq $letters;
}

# Whether a line is such a call of who the process was then, which was answered ok.
sub _changes {
    my ($case, $line, $calls) = @_;
    my $process = forebear($case->{script}, $case->{answers}, $line, $case->{process});
    return $case->{answers}[ $line - 1 ] eq 'ok' && $case->{script}[ $line - 1 ] =~ /\A$process (?:$calls) /;
}

1;
