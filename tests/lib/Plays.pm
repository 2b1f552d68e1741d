# What the program prints of a random world: its files, the words that name its rules, and the program. And a future,
# played by lines that are put behind the world's script.
package Plays;
use strict;
use warnings;
use Exporter qw(import);
use Listed qw(lists_of);
use Test::More;
use Worlds qw(answer_of worlds_told);

our @EXPORT_OK = qw(asked behind differs told);

# What the program prints of a world, behind these words; it has to end with status 0.
sub asked {
    my ($world, @words) = @_;
    my ($status, $out, $err) = answer_of($world->{program}, $world->{files}, _words_of($world, @words));
    return $out if $status == 0 && $err eq '';
    diag(told($world, @words));
    BAIL_OUT("status $status: $err");
}

# The texts of a world and the command with these words, for a diagnostic.
sub told {
    my ($world, @words) = @_;
    return worlds_told($world->{files}, _words_of($world, @words));
}

sub _words_of {
    my ($world, @words) = @_;
    return (@words, @{ $world->{rules} }, 'listing', 'script');
}

# How the lines of a list differ from those of a model, if they do.
sub differs {
    my ($list, @wanted) = @_;
    my @lines = map { $_->{text} } @{ $list->{lines} };
    return "@lines" eq "@wanted" ? undef : join "\n", 'the lines:', @lines, 'and by the model:', @wanted;
}

# The first fault of some lines, which are put behind the world's script, and of the lists after them: by what tells the
# fault of a line and its answer, {answer}, and that of the lists, {lists}. The lines end behind an exec that ends a
# future.
sub behind {
    my ($world, $play, $lines, $faults) = @_;
    my $script  = $world->{files}{script};
    my $told    = _asked_behind($world, $script, @$lines);
    my @answers = splice @{ $told->{answers} }, -@$lines;
    for my $place (0 .. $#$lines) {
        chomp(my $line = $lines->[$place]);
        my $fault = $faults->{answer}->($world, $play, $line, $answers[$place]);
        return $fault if defined $fault;
        next if !$play->{has_exec};
        $told = _asked_behind($world, $script, @$lines[ 0 .. $place - 1 ]);
        last;
    }
    return $faults->{lists}->($world, $play, $told->{lists});
}

# All lists behind a script and some lines, which become the world's.
sub _asked_behind {
    my ($world, @parts) = @_;
    $world->{files}{script} = join '', @parts;
    return lists_of(asked($world, 'objects', '--process', 'all'));
}

1;
