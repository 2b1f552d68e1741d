# What reasons say of descriptors: of the one that is asked for, and of what another process has and sends.
package Why::Files;
use strict;
use warnings;
use Exporter qw(import);
use Why::Changed qw(same_kind_fault state_of told_instead);
use Why::World qw(fields_of);

our @EXPORT_OK = qw(%FAULT_OF);

# The check of each kind.
our %FAULT_OF = (
    'closed'            => \&_closed,
    'no directory open' => \&_no_directory,
    'not there'         => \&_not_there,
    'may not send'      => \&_may_not_send,
    'sends a directory' => \&_sends_directory,
);

# It is in no line of the state; and one that is, is not closed.
sub _closed {
    my ($case, $number) = @_;
    my $held = state_of($case)->{held};
    return "$number is open" if exists $held->{$number};
    my ($call) = fields_of($case->{request});
    my ($open) = sort keys %$held or return '';
    return same_kind_fault($case, told_instead($case, $call, $open), 'of what is open');
}

sub _no_directory {
    my ($case, $number) = @_;
    my $kind = state_of($case)->{held}{$number};
    return !defined $kind ? "$number is closed" : $kind eq 'dir' ? "$number is one" : '';
}

# What the other process has, by its number and the descriptor's.
sub _theirs {
    my ($case, $process, $number) = @_;
    my $state = $case->{world}->state_of($case->{script}, $process);
    return ($state->{process} // '') eq 'alive' ? $state->{held}{$number} : undef;
}

sub _not_there {
    my ($case, $process, $number) = @_;
    return defined _theirs($case, $process, $number) ? "$process has $number" : '';
}

sub _may_not_send {
    my ($case, $process) = @_;
    my $number = (fields_of($case->{request}))[3];
    return "$process has no $number" if !defined _theirs($case, $process, $number);
    my $promises = $case->{world}->state_of($case->{script}, $process)->{promises};
    return $promises ne '-' && ",$promises," !~ /,sendfd,/ ? '' : "$process holds $promises";
}

sub _sends_directory {
    my ($case, $number, $process) = @_;
    my $kind = _theirs($case, $process, $number) // 'nothing';
    return "$process has $kind as $number" if $kind ne 'dir';
    my @promises = map { $_->{promises} } state_of($case), $case->{world}->state_of($case->{script}, $process);
    return "@promises" eq '- -' ? 'nobody was pledged' : '';
}

1;
