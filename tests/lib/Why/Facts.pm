# The lines of `pua why`: the last one is what a run with reasons prints, and the others are true, and none is
# left out.
package Why::Facts;
use strict;
use warnings;
use Exporter qw(import);
use Why::Chain qw(chain_fault opening_of_case);
use Why::Covers qw(cover_fault veil_fault);
use Why::World qw(OBSERVER);

our @EXPORT_OK = qw(facts_fault is_held);

# What is wrong with them: '' for nothing. In %$case are the world, the script before the request and its
# answers, the request's line and its process, what it is told, and as line its line of the run, without the
# number.
sub facts_fault {
    my ($case) = @_;
    my @lines = $case->{world}->facts($case->{script}, $case->{request});
    my $last  = pop @lines;
    return "it ends with $last" if $last ne $case->{line};
    my %named;
    for my $line (@lines) {
        my ($side, $words) = $line =~ /\A(?:(old|new): )?(.*)\z/;
        $side = '' if !defined $side;
        $named{$side} = $1 if $words =~ /\Anames \S+ (\S+)\z/;
        my $fault = _fact_fault($case, $words, $named{$side});
        return "$line: $fault" if $fault ne '';
    }
    return _refusal_fault($case, \%named) || chain_fault($case, @lines);
}

# What is wrong with a fact about the path that names this.
sub _fact_fault {
    my ($case, $words, $named) = @_;
    return _opened_fault($case, $1) if $words =~ /\Aopened by (\S+)\z/;
    return _needs_fault($case, $1) if $words =~ /\Aneeds (\S+)\z/;
    return _link_fault($case, $1, $2) if $words =~ /\Alink (\S+) to (\S+)\z/;
    return _name_fault($case, $1, $2) if $words =~ /\Anames (\S+) (\S+)\z/;
    return 'of what no line names' if !defined $named;
    return cover_fault($case, $named, '-') if $words eq 'no veils';
    return 'no fact' if $words !~ /\Aveil (\S+) on (\S+) since line (\d+)\z/;
    return cover_fault($case, $named, "$2 $1") || veil_fault($case, "$2 $1", $3);
}

# The promise opens what is asked for; and where the answer says so too, the request is refused behind a pledge without it.
sub _opened_fault {
    my ($case, $promise) = @_;
    my $opening = opening_of_case($case);
    return "$promise opens nothing here" if !$opening || $opening->{promise} ne $promise;
    my $by = $case->{told}{by};
    return "the answer says by $by" if defined $by && $by ne $promise;
    return '' if $case->{told}{answer} ne 'ok';
    my $held = $case->{world}->state_of($case->{script}, $case->{process})->{promises};
    my $rest = join ',', grep { $_ ne $promise } split /,/, $held;
    my $pledge = "$case->{process} pledge " . ($rest eq '' ? '=' : $rest) . ' -';
    my $is_ok = $case->{world}->told([ @{ $case->{script} }, $pledge ], $case->{request})->{answer} eq 'ok';
    return $is_ok == !defined $by ? '' : $is_ok ? 'without it the answer is ok too' : 'without it the answer is another';
}

# The promises are held; and behind a pledge of these alone the call isn't without promises, but behind one of these
# without one of them it is.
sub _needs_fault {
    my ($case, $set) = @_;
    return 'not held' if !is_held($case, $set);
    return '' if ($case->{told}{kind} // '') eq 'promises';
    my @set = grep { $_ ne '=' } split /,/, $set;
    return 'there is another need' if _lacks_with($case, @set);
    for my $one (@set) {
        return "$one isn't needed" if !_lacks_with($case, grep { $_ ne $one } @set);
    }
    return '';
}

# Whether the request lacks promises behind a pledge of some.
sub _lacks_with {
    my ($case, @set) = @_;
    my $pledge = "$case->{process} pledge " . (join(',', @set) || '=') . ' -';
    my $told = $case->{world}->told([ @{ $case->{script} }, $pledge ], $case->{request});
    return ($told->{kind} // '') eq 'promises';
}

# Whether the process holds a set of promises.
sub is_held {
    my ($case, $set) = @_;
    my $held = $case->{world}->state_of($case->{script}, $case->{process})->{promises};
    my @set = grep { $_ ne '=' } split /,/, $set;
    return !grep { $_ eq 'error' } @set if $held eq '-';
    my %is_held = map { $_ => 1 } split /,/, $held;
    return !grep { !$is_held{$_} } @set;
}

# There is a link, and with another one with this target in its place the same lines come.
sub _link_fault {
    my ($case, $path, $target) = @_;
    my ($world, $script, $request) = @$case{qw(world script request)};
    return 'there is none' if ($world->things($script)->{$path} // '') ne 'link';
    my $observer = OBSERVER;
    my @script = (@$script, "$observer unlink $path", "$observer symlink $target $path");
    my ($one, $other) = map { join "\n", _without_lines($world->facts($_, $request)) } $script, \@script;
    return $one eq $other ? '' : "with that target other lines come:\n$other";
}

sub _without_lines { return map { s/ since line \d+\z//r } @_ }

sub _name_fault {
    my ($case, $kind, $path) = @_;
    my $there = $case->{world}->things($case->{script})->{$path} // 'missing';
    return $kind eq $there ? '' : "there is $there";
}

# Of a refusal by a veil, or for want of one, that it is the one that covers what was named.
sub _refusal_fault {
    my ($case, $named) = @_;
    my $told = $case->{told};
    my ($kind, $path) = ($told->{kind} // '', $named->{ $told->{side} // '' });
    return '' if $kind ne 'letters' && $kind ne 'no veil';
    return 'no line has what is named' if !defined $path;
    if ($kind eq 'letters') {
        my (undef, $letters, $place) = @{ $told->{about} };
        return cover_fault($case, $path, "$place $letters");
    }
    return "$path is named" if $path ne $told->{about}[0];
    return cover_fault($case, $path, 'none');
}

1;
