# Lists with reasons beside the same lists without: four fields more behind each object, the promises on which
# its calls rest, and the veil that covers it, by its path, its letters, and the line since which it has
# these.
package Why::Columns;
use strict;
use warnings;
use Exporter qw(import);
use Why::Covers qw(cover_fault veil_fault);
use Why::Facts qw(is_held);

our @EXPORT_OK = qw(columns_fault);

# What is wrong with the lists of all processes at a script's end: '' for nothing. In %$case are the world,
# the script and its answers, and what calls need. The line that is wrong is left in it.
sub columns_fault {
    my ($case) = @_;
    my ($world, $script) = @$case{qw(world script)};
    my @plain = $world->lines_of($script, 'objects', '--process', 'all');
    my @lines = $world->lines_of($script, 'objects', '--why', '--process', 'all');
    return 'not as many lines' if @plain != @lines;
    for my $place (0 .. $#lines) {
        $case->{line} = $lines[$place];
        $case->{process} = $1 if $lines[$place] =~ /\Aobjects (\d+)\z/;
        my $is_answer = $place < @$script;
        my $fault = $is_answer ? _answer_fault($lines[$place], $plain[$place]) : _line_fault($case, $plain[$place]);
        return $fault if $fault ne '';
    }
    return '';
}

# An answer goes on with a reason if it isn't ok.
sub _answer_fault {
    my ($line, $plain) = @_;
    return $line eq $plain || $plain !~ / ok(?: by \S+)?\z/ && index($line, "$plain ") == 0 ? '' : "it is $plain";
}

# What is wrong with a line of a list beside the one without reasons.
sub _line_fault {
    my ($case, $plain) = @_;
    my $line = $case->{line};
    return $line eq $plain ? '' : "it is $plain" if $plain !~ m{\A(?:dir|file|prog|link|sock|fifo|dev|missing|other) /};
    my ($path, $calls, @fields) = (split / /, $line)[ 1 .. 6 ];
    return 'no four fields' if @fields != 4 || $line ne "$plain @fields";
    ++$case->{objects};
    my $promises = _promises($case, $calls);
    return "its calls rest on $promises" if $fields[0] ne $promises;
    return cover_fault($case, $path, '-') if "@fields[1 .. 3]" eq '- - -';
    my $veil = "@fields[1, 2]";
    return cover_fault($case, $path, $veil) || veil_fault($case, $veil, $fields[3]);
}

# The promises on which calls rest: of each the first set that is held.
sub _promises {
    my ($case, $calls) = @_;
    my %rests;
    for my $call (split /,/, $calls) {
        my ($set) = grep { is_held($case, $_) } @{ $case->{needs}{$call} };
        $rests{$_} = 1 for split /,/, defined $set ? $set : 'nothing';
    }
    return join(',', sort keys %rests) || '=';
}

1;
