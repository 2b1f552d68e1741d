# Since which line a reason is so, by the definition: the same request, asked by whoever the process was then,
# has the same reason behind that line and behind each later one up to the refused one, and another reason
# just before it.
package Why::Since;
use strict;
use warnings;
use Exporter qw(import);
use Why::World qw(forebear fields_of process_of);

our @EXPORT_OK = qw(ask_throughout since_fault);

# At how many places a request that would end its process is asked.
my $PLACES = 6;

# Of these kinds the words say which of them it is, and of all others kind and side; of letters see
# below.
my %HAS_WORDS = map { $_ => 1 } 'promises', 'pledge asks', 'unknown promise', 'dots', 'process exists', 'empty',
    'long', 'long component';
my %HAS_VEIL = map { $_ => 1 } 'letters', 'unveil asks';

# Of these kinds it also counts how many of the paths name something.
my %HAS_NAMES = map { $_ => 1 } 'missing', 'no directory';

# What is wrong with the line since which a request is told to have its reason: '' for nothing. In %$case are
# its world, the script before it and its answers, the request's line, and what it is told.
sub since_fault {
    my ($case) = @_;
    my $since = $case->{told}{since};
    return 'this has no line' if defined $since && $case->{told}{kind} =~ /\A(?:never made|full)\z/;
    my ($first, $last) = (defined $since ? $since : 0, scalar @{ $case->{script} });
    return "since line $since, which is not before it" if $first > $last;
    my $does_end = $case->{told}{answer} eq 'killed';
    my $fault = $does_end ? _by_places($case, $first, $last) : _throughout($case, $first, $last);
    return $fault if $fault ne '' || !defined $since;
    my $has_veil = $HAS_VEIL{ $case->{told}{kind} };
    return "another reason in these words behind line $since" if $has_veil && !_may_be($case, $since);
    return _is_sure($case, $since - 1) ? "the same reason just before line $since" : '';
}

# The request, as it is asked behind so many lines.
sub _request {
    my ($case, $count) = @_;
    my $asker = forebear($case->{script}, $case->{answers}, $count, process_of($case->{request}));
    return join ' ', $asker, fields_of($case->{request});
}

# The first lines of a case's script.
sub _front {
    my ($case, $count) = @_;
    return [ @{ $case->{script} }[ 0 .. $count - 1 ] ];
}

# A request that is refused changes nothing, unless it ends its process: so it is asked behind each of the
# lines in one run, and all such requests of a script are asked in the same one. What they are told is kept in
# their cases.
sub ask_throughout {
    my (@cases) = grep { $_->{told}{answer} ne 'killed' } @_;
    return if !@cases;
    my (@script, @asked);
    for my $count (0 .. @{ $cases[-1]{script} }) {
        push @script, $cases[-1]{script}[ $count - 1 ] if $count > 0;
        for my $case (grep { ($_->{told}{since} || 0) <= $count && $count <= @{ $_->{script} } } @cases) {
            push @script, _request($case, $count);
            push @asked, [ $case, $count, $#script ];
        }
    }
    my @told = $cases[0]{world}->reasons(\@script);
    $_->[0]{throughout}{ $_->[1] } = $told[ $_->[2] ] for @asked;
    return;
}

# Where another of these wasn't refused, what came after it says nothing: then it is asked alone.
sub _throughout {
    my ($case, $first, $last) = @_;
    return '' if !grep { !_is_alike($case, $_, $case->{throughout}{$_}) } $first .. $last;
    return _by_places($case, $first, $last) if $case->{told}{kind} eq 'promises';
    ask_throughout($case);
    for my $count ($first .. $last) {
        my $told = $case->{throughout}{$count};
        return "another reason behind line $count: " . _words($told) if !_is_alike($case, $count, $told);
    }
    return '';
}

# The same for one that ends its process: a run for each of some of the lines.
sub _by_places {
    my ($case, $first, $last) = @_;
    my %is_asked = map { $_ => 1 } $first, $last, map { $first + int(($last - $first) * $_ / $PLACES) } 1 .. $PLACES;
    for my $count (sort { $a <=> $b } keys %is_asked) {
        my $told = $case->{world}->told(_front($case, $count), _request($case, $count));
        return "another reason behind line $count: " . _words($told) if !_is_alike($case, $count, $told);
    }
    return '';
}

sub _words {
    my ($told) = @_;
    return join ' ', grep { defined } @$told{qw(answer reason)};
}

# Whether what is told behind so many lines is the case's own reason, where a path may have become another.
sub _is_alike {
    my ($case, $count, $told) = @_;
    my $own = $case->{told};
    return 0 if !_is_near($own, $told);
    return !$HAS_VEIL{ $own->{kind} } || $own->{about}[2] eq $told->{about}[2] || _may_be($case, $count);
}

# Whether behind so many lines the request may have the case's own reason; and whether it has it for sure.
sub _may_be {
    my ($case, $count) = @_;
    my ($there, $own) = _both_details($case, $count) or return 0;
    my %is_own = map { $_ => 1 } @$own;
    return scalar grep { $is_own{$_} } @$there;
}

sub _is_sure {
    my ($case, $count) = @_;
    my ($there, $own) = _both_details($case, $count) or return 0;
    return @$there == 1 && @$own == 1 && $there->[0] eq $own->[0];
}

# The details of what is told behind so many lines, and of the case's own reason; nothing where the words differ.
sub _both_details {
    my ($case, $count) = @_;
    my $told = $case->{world}->told(_front($case, $count), _request($case, $count));
    return if !_is_near($case->{told}, $told);
    return map { [ _details($case, @$_) ] } [ $count, $told ], [ scalar @{ $case->{script} }, $case->{told} ];
}

# Whether two reasons are the same, as far as their words without paths say. What the answer is to one that lacks
# promises, killed or ENOSYS, makes no other reason.
sub _is_near {
    my ($one, $other) = @_;
    for my $key (qw(kind side)) {
        return 0 if !defined $other->{$key} || $one->{$key} ne $other->{$key};
    }
    return $one->{reason} eq $other->{reason} if $HAS_WORDS{ $one->{kind} };
    return "@{ $one->{about} }[0, 1]" eq "@{ $other->{about} }[0, 1]" if $HAS_VEIL{ $one->{kind} };
    return 1;
}

# What the words of a reason don't say: of a veil which of the process's it may be, in the order in which they
# were put; of what is missing or no directory, whether a path names it or goes through it.
sub _details {
    my ($case, $count, $told) = @_;
    my ($world, $front, $request) = ($case->{world}, _front($case, $count), _request($case, $count));
    return scalar grep { /\A(?:\w+: )?names / } $world->facts($front, $request) if $HAS_NAMES{ $told->{kind} };
    return '' if !$HAS_VEIL{ $told->{kind} };
    my $veils = $world->state_of($front, process_of($request))->{veils};
    my (undef, $letters, $path) = @{ $told->{about} };
    return grep { "@{ $veils->[$_] }" eq "$path $letters" } 0 .. $#$veils;
}

1;
