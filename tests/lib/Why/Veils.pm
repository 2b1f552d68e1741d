# What reasons say of veils, their letters, and locks.
package Why::Veils;
use strict;
use warnings;
use Exporter qw(import);
use Why::Changed qw($NOTHING joined same_kind_fault state_of told_behind told_instead without);
use Why::Covers qw(cover_fault);
use Why::World qw(fields_of above);

our @EXPORT_OK = qw(%FAULT_OF);

# The check of each kind.
our %FAULT_OF = (
    'no veil'        => \&_no_veil,
    'letters'        => \&_letters,
    'unveil asks'    => \&_unveil_asks,
    'unknown letter' => \&_unknown_letter,
    'locked'         => \&_locked,
    'places'         => \&_places,
);

# There are veils, and none covers the path; with one on its directory, or from the start on the root, it is
# covered.
sub _no_veil {
    my ($case, $path) = @_;
    my $state = state_of($case);
    my $fault = cover_fault($case, $path, 'none');
    return $fault if $fault ne '';
    my $process = $case->{process};
    if ($state->{unveil} eq 'open') {
        my $veil = "$process unveil " . above($path) . ' =';
        return same_kind_fault($case, told_behind($case, $veil), "behind $veil");
    }
    my ($first, @rest) = grep { !/ exec / } @{ $case->{script} };
    my $told = $case->{world}->told([ $first, '1 unveil / rwxc', @rest ], $case->{request});
    return same_kind_fault($case, $told, 'with a veil on the root');
}

# With the letters that lack in all veils none lacks; with all of these but one, just this one does.
sub _letters {
    my ($case, $lacks, $given, $path) = @_;
    return "no such veil on $path" if !grep { "@$_" eq "$path $given" } @{ state_of($case)->{veils} };
    my $script = _more_letters($case->{script}, $lacks);
    my $told   = $case->{world}->told($script, $case->{request});
    if (defined $told->{kind} && $told->{kind} eq 'letters' && $told->{side} eq $case->{told}{side}) {
        return "with $lacks in each veil it is told $told->{reason}"
            if $told->{about}[0] =~ /[$lacks]/ || $case->{world}->is_alike($script, $case->{answers});
    }
    return '' if length $lacks == 1;
    for my $one (split //, $lacks) {
        my $fault = _lettered_but_one($case, $one, $given, $path);
        return $fault if $fault ne '';
    }
    return '';
}

sub _lettered_but_one {
    my ($case, $one, $given, $path) = @_;
    my $more   = $case->{told}{about}[0] =~ s/$one//r;
    my $script = _more_letters($case->{script}, $more);
    return '' if !$case->{world}->is_alike($script, $case->{answers});
    my $letters = join '', grep { "$given$more" =~ /$_/ } qw(r w x c);
    my $told    = $case->{world}->told($script, $case->{request});
    my $side    = $case->{told}{side} eq '' ? '' : "$case->{told}{side}: ";
    my $reason  = "${side}no $one in veil $letters on $path";
    return ($told->{reason} // '') eq $reason ? '' : "with $more in each veil it isn't told $reason";
}

# A script in which each unveil of a path has some letters more. So all veils always have them.
sub _more_letters {
    my ($script, $more) = @_;
    return [ map { /\A(\d+ unveil (?!- -\z)\S+) (\S+)\z/ ? "$1 " . ($2 eq '=' ? '' : $2) . $more : $_ } @$script ];
}

sub _unveil_asks {
    my ($case, $lacks, $given, $path) = @_;
    return "no such veil on $path" if !grep { "@$_" eq "$path $given" } @{ state_of($case)->{veils} };
    my ($call, $text, $letters) = fields_of($case->{request});
    for my $one ('', split //, $lacks) {
        my $less = joined('', without([ '', $lacks ], split //, $letters), $one eq '' ? () : $one);
        my $told = told_instead($case, $call, $text, $less);
        my $reason = $one eq '' ? undef : "no $one in veil $given on $path";
        return "with $less it isn't told so" if ($told->{reason} // 'none') ne ($reason // 'none');
    }
    return '';
}

sub _unknown_letter {
    my ($case) = @_;
    my ($call, $path, $letters) = fields_of($case->{request});
    my $known = joined('', $letters =~ /[rwxc]/g);
    return 'all are known' if $known eq $letters;
    return same_kind_fault($case, told_instead($case, $call, $path, $known), "with $known");
}

# A lock is what locked it, or an exec was what gave it the promise to be told so; and without any lock it
# isn't locked.
sub _locked {
    my ($case) = @_;
    return 'its state says otherwise' if state_of($case)->{unveil} ne 'locked';
    my ($line, $answer) = map { $_->[ $case->{told}{since} - 1 ] } @$case{qw(script answers)};
    return "it was locked by $line" if $line !~ / unveil - -\z| exec / || $answer ne 'ok';
    my @script = map { / unveil - -\z/ ? $NOTHING : $_ } @{ $case->{script} };
    return same_kind_fault($case, $case->{world}->told(\@script, $case->{request}), 'without a lock');
}

# As many places as it says have veils, and behind one less there is room.
sub _places {
    my ($case) = @_;
    return 'there are fewer' if @{ state_of($case)->{veils} } != 128;
    my @script = @{ $case->{script} };
    $script[ $case->{told}{since} - 1 ] = $NOTHING;
    return same_kind_fault($case, $case->{world}->told(\@script, $case->{request}), 'behind 127 places');
}

1;
