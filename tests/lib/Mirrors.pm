# Scripts in which each process has two mirrors, which do to themselves what it does, up to some line, and then
# nothing. Its twin does all of that: so it is, later on, what the process was. Its bare one puts the same veils and
# pledges nothing: what that may do is what the veils leave. Neither edits the tree. Where roots are moved, the bare one has the
# root of the listing open from the beginning, so that its list is of the whole tree.
package Mirrors;
use strict;
use warnings;
use Exporter qw(import);

our @EXPORT_OK = qw(twin bare mirrored);

sub twin { return $_[0] + 100 }
sub bare { return $_[0] + 200 }

# What a twin and a bare mirror do where the process was answered ok.
my %TWIN = map { $_ => 1 } qw(pledge unveil chdir exec exit fork hold close fchdir take chroot);
my %BARE = map { $_ => 1 } qw(unveil chdir fork hold close fchdir take chroot);

# A descriptor that no script has.
my $TOP = 1023;

# Lines with those of the mirrors behind each of them, by the answers to the former.
sub mirrored {
    my ($lines, $answers) = @_;
    my @mirrored = ('1 fork ' . twin(1), '1 fork ' . bare(1));
    push @mirrored, bare(1) . " hold $TOP open-r /" if grep { / chroot / } @$lines;
    for my $at (0 .. $#$lines) {
        my ($asker, $call, @words) = split / /, $lines->[$at];
        push @mirrored, $lines->[$at];
        push @mirrored, _line(\&twin, $asker, $call, @words) if $answers->[$at] eq 'ok' && $TWIN{$call};
        push @mirrored, _line(\&bare, $asker, $call, @words) if $answers->[$at] eq 'ok' && $BARE{$call};
        push @mirrored, twin($asker) . ' exit' if $answers->[$at] eq 'killed';
    }
    return @mirrored;
}

# The line of a mirror, whose children are mirrors of the children.
sub _line {
    my ($mirror, $asker, $call, @words) = @_;
    @words = map { $mirror->($_) } @words if $call eq 'fork';
    return join ' ', $mirror->($asker), $call, @words;
}

1;
