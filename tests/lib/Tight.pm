# A script without the words that none of its answers needs, by docs/DEFINITIONS.md ("A script with the fewest
# rights") and man/pua.1 alone: what may be left out of each line is tried, and each trial is a run of the program over
# the whole script.
package Tight;
use strict;
use warnings;
use FindBin qw($Bin);
use lib "$Bin/../tools/lib";
use Pua::Calls qw(%ASKS);
use Worlds qw(answer_of);

# The keywords that calls need by the rules of the profile; those on one path are the ones for which a table can have a row.
my %NEEDS = (
    (map { $_ => ['rpath'] } qw(stat lstat readlink open-r chdir)),
    (map { $_ => ['cpath'] } qw(mkdir rmdir unlink symlink rename link)),
    'open-w' => ['wpath'], 'open-rw' => ['rpath', 'wpath'], create => ['wpath', 'cpath'],
    chmod => ['fattr'], exec => ['exec'], fork => ['proc'], unveil => ['unveil'],
);

# What is otherwise by OpenBSD's.
my %OPENBSD = (
    chmod => ['rpath', 'fattr'], rename => ['rpath', 'cpath'], link => ['rpath', 'cpath'],
    connect => ['unix'], bind => ['unix'], mknod => ['dpath'], chown => ['rpath', 'chown', 'fattr'],
    'create-rw' => ['rpath', 'wpath', 'cpath'], fchmod => ['rpath', 'fattr'], fchown => ['rpath', 'chown', 'fattr'],
);

my @LETTERS = qw(r w x c);

# The calls without a path that ask for a promise, in alphabetical order.
my %PATHLESS;
for my $call (sort keys %ASKS) {
    push @{ $PATHLESS{$_} }, $call for split /\|/, $ASKS{$call};
}

# The scripts over a listing, by some rules or by a table, as they are answered by a program.
sub new {
    my ($class, $program, $listing, %how) = @_;
    my $self = bless { program => $program, files => { TREE => $listing }, words => [], known => {}, runs => 0 }, $class;
    $self->{openbsd} = ($how{rules} || '') eq 'openbsd';
    my %needs = (%NEEDS, $self->{openbsd} ? %OPENBSD : ());
    push @{ $self->{words} }, '--rules', $how{rules} if defined $how{rules};
    if (defined $how{table}) {
        $self->{files}{TABLE} = $how{table};
        push @{ $self->{words} }, '--table', 'TABLE';
        while ($how{table} =~ /^\[(\S+)\]\npromises = \[(.*)\]$/mg) {
            my ($call, $sets) = ($1, $2);
            $needs{$call} = [$sets =~ /(\w+)/g];
        }
    }
    $self->{asked} = { map { $_ => 1 } map { @$_ } values %needs };
    return $self;
}

# How many runs there were.
sub runs { return $_[0]{runs} }

# What a command writes over these lines; it has to end well. Its words end with the inputs.
sub written {
    my ($self, $lines, @command) = @_;
    my %files = (%{ $self->{files} }, SCRIPT => join "\n", @$lines);
    my @words = (@command, @{ $self->{words} }, 'TREE', 'SCRIPT');
    my ($status, $out, $err) = answer_of($self->{program}, \%files, @words);
    return ($status, $out, $err);
}

# What lines are answered, in one text; whether a promise opened what is ok isn't asked.
sub answers {
    my ($self, @lines) = @_;
    my $text = join "\n", @lines;
    if (!defined $self->{known}{$text}) {
        my ($status, $out, $err) = $self->written(\@lines, 'run');
        $status == 0 or die "$err$text\n";
        $self->{known}{$text} = $out =~ s/^([0-9]+ ok) by [a-z]+$/$1/mgr;
        $self->{runs}++;
    }
    return $self->{known}{$text};
}

# What may be left out of lines, in their order: a line's index, the argument that has it, and the word.
sub pieces {
    my ($self, @lines) = @_;
    my %answers = map { (split)[0, 1] } split /\n/, $self->answers(@lines);
    my @used = map { split /\|/ }
        map { /\A[0-9]+ uses (\S+)/ ? $1 : / take / ? 'recvfd|sendfd' : / chroot / ? 'id' : () } @lines;
    local $self->{asked} = { %{ $self->{asked} }, map { $_ => 1 } @used };
    my @pieces;
    for my $index (grep { ($answers{ $_ + 1 } // '') eq 'ok' } 0 .. $#lines) {
        push @pieces, map { [$index, @$_] } $self->_pieces_of($lines[$index]);
    }
    return @pieces;
}

# The same of one line that is answered ok: the keywords that some call needs but `error`, and letters, each once, in the
# order of all keywords and of all letters.
sub _pieces_of {
    my ($self, $line) = @_;
    my ($process, $call, $first, $second) = split / /, $line =~ s/\r\z//r;
    if ($call eq 'unveil' && $second ne '-') {
        return map { ['veil', $_] } grep { index($second, $_) >= 0 } @LETTERS;
    }
    return if $call ne 'pledge';
    return (map({ ['promises', $_] } $self->_asked_in($first)), map { ['execpromises', $_] } $self->_asked_in($second));
}

# The keywords of a list that some call needs, or some line without a path.
sub _asked_in {
    my ($self, $list) = @_;
    my %in = map { $_ => 1 } split /,/, $list;
    return grep { $_ ne 'error' && $self->{asked}{$_} } sort keys %in;
}

# Lines without a piece.
sub without {
    my ($piece, @lines) = @_;
    my ($index, $argument, $word) = @$piece;
    my @fields = split / /, $lines[$index];
    my $end = $fields[3] =~ s/(\r?)\z// ? $1 : '';
    my $field = $argument eq 'promises' ? 2 : 3;
    my $between = $argument eq 'veil' ? '' : ',';
    $fields[$field] = join $between, grep { $_ ne $word } split /$between/, $fields[$field];
    $fields[$field] = '=' if $fields[$field] eq '';
    $lines[$index] = join(' ', @fields) . $end;
    return @lines;
}

# The lines, tightened: from the last one to the first, and in a line in the order of its pieces.
sub tightened {
    my ($self, @lines) = @_;
    my $wanted = $self->answers(@lines);
    for my $piece (sort { $b->[0] <=> $a->[0] } $self->pieces(@lines)) {
        my @less = without($piece, @lines);
        @lines = @less if $self->answers(@less) eq $wanted;
    }
    return @lines;
}

# What is said of each piece of lines by what is left of them: which line is answered otherwise without it.
sub reasons {
    my ($self, $given, $left) = @_;
    my @wanted = split /\n/, $self->answers(@$left);
    my @reasons;
    for my $piece ($self->pieces(@$given)) {
        my @answers = split /\n/, $self->answers(without($piece, @$left));
        my ($first) = grep { $answers[$_] ne $wanted[$_] } 0 .. $#wanted;
        my $reason = defined $first ? 'needed by ' . (split / /, $wanted[$first])[0] : 'spare';
        my $calls = $self->{openbsd} && !defined $first && $PATHLESS{ $piece->[2] };
        $reason .= ' ' . join ',', @$calls if $calls;
        push @reasons, join(' ', $piece->[0] + 1, @$piece[1, 2], $reason) . "\n";
    }
    return join '', @reasons;
}

1;
