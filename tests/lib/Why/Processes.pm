# What reasons say of processes: that they were never made, have ended, or are there already.
package Why::Processes;
use strict;
use warnings;
use Exporter qw(import);
use Why::Changed qw($NOTHING same_kind_fault told_behind told_instead);
use Why::World qw(OBSERVER process_of);

our @EXPORT_OK = qw(%FAULT_OF);

# The check of each kind.
our %FAULT_OF = (
    'never made'     => \&_never_made,
    'ended'          => \&_ended,
    'process exists' => \&_process_exists,
    'processes'      => \&_processes,
);

sub _never_made {
    my ($case) = @_;
    my $process = $case->{process};
    return "process $process was made" if _is_made($case, $process);
    return same_kind_fault($case, told_behind($case, OBSERVER . " fork $process"), 'behind its fork');
}

# The line since which it has ended is one of its own; without that line it hasn't ended since then.
sub _ended {
    my ($case) = @_;
    my ($since, @script) = ($case->{told}{since}, @{ $case->{script} });
    return 'no line' if !defined $since;
    my ($line, $answer) = ($script[ $since - 1 ], $case->{answers}[ $since - 1 ]);
    return "line $since has another process" if process_of($line) != $case->{process};
    return "line $since ends none" if $answer ne 'killed' && ($answer ne 'ok' || $line !~ / exit\z/);
    $script[ $since - 1 ] = $NOTHING;
    my $told = $case->{world}->told(\@script, $case->{request});
    return $told->{answer} eq 'gone' && $told->{since} == $since ? 'ended by a line that does nothing' : '';
}

sub _process_exists {
    my ($case, $process) = @_;
    return "process $process wasn't made" if !_is_made($case, $process);
    return same_kind_fault($case, told_instead($case, 'fork', OBSERVER + 1), 'with a new number');
}

sub _processes {
    my ($case) = @_;
    my ($script, $answers) = @$case{qw(script answers)};
    my $made = 1 + grep { $answers->[$_] eq 'ok' && $script->[$_] =~ / fork / } 0 .. $#$script;
    return "there are $made" if $made != 256;
    my @script = @$script;
    $script[ $case->{told}{since} - 1 ] = $NOTHING;
    return same_kind_fault($case, $case->{world}->told(\@script, $case->{request}), 'behind 255 processes');
}

sub _is_made {
    my ($case, $process) = @_;
    my ($script, $answers) = @$case{qw(script answers)};
    return $process == 1 || grep { $answers->[$_] eq 'ok' && $script->[$_] =~ / fork $process\z/ } 0 .. $#$script;
}

1;
