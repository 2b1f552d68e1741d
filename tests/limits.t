#!/usr/bin/perl
# Tests of inputs that are as large as the limits let them be, or larger by one, by the table data/limits.toml, whose head
# says how its texts are to be read:
#
#     perl tests/limits.t [PROGRAM]
use strict;
use warnings;
use FindBin qw($Bin);
use lib "$Bin/lib";
use Tables qw(ended table_in);
use Test::More;
use Worlds qw(answer_of program_in);

my $PROGRAM = program_in(@ARGV);

# A text whose parts are repeated, with a path where one is named; nothing where there is none.
sub expanded {
    my ($text, $path) = @_;
    $text = '' unless defined $text;
    $text =~ s/\{([0-9]+)-([0-9]+):([^}]*)\}/repeated($1, $2, $3)/ge;
    $text =~ s/\@/$path/g;
    return $text;
}

# A part once for each number.
sub repeated {
    my ($first, $last, $part) = @_;
    my %mark = ('#' => sub { $_[0] }, '<' => sub { $_[0] - 1 }, '~' => \&long_name);
    my $whole = '';
    for my $number ($first .. $last) {
        $whole .= $part =~ s/([#<~])/$mark{$1}->($number)/ger;
    }
    return $whole;
}

# A name of 255 bytes, each of which is escaped, by its number in the order of such names.
sub long_name {
    my ($number) = @_;
    return '\377' x 252 . join '', map { sprintf '\%03o', 0200 | $number >> $_ & 15 } 8, 4, 0;
}

# What is told otherwise than expected, in words; the empty text where nothing is.
sub otherwise {
    my ($files, $line, $out, $err, $status) = @_;
    my ($is_status, $is_out, $is_err) = answer_of($PROGRAM, $files, split / /, $line);
    return '' if $is_status == $status && $is_out eq $out && $is_err eq $err;
    return sprintf "%.80s: status %s, %s bytes for %s, %s", $line, $is_status, length $is_out, length $out, $is_err;
}

# What is wrong with what each command of some lines writes over a limit's files.
sub wrong_command {
    my ($command, $path, $answers, %files) = @_;
    $files{TREE} .= ended($command->{more});
    my ($status, $out, $err) = (0, $answers . expanded($command->{text}, $path), '');
    ($status, $out, $err) = (1, '', "$command->{fault}\n") if defined $command->{fault};
    my $lines = $out =~ tr/\n//;
    my @wrong = map { otherwise(\%files, $_, $out, $err, $status) } split /\n/, expanded($command->{command}, $path);
    push @wrong, "$lines lines" if defined $command->{lines} && $command->{lines} != $lines;
    return join '', @wrong;
}

# What is wrong with a limit: with what its commands write, and with the length of its path.
sub wrong_limit {
    my ($limit) = @_;
    my $path = expanded($limit->{path}, '');
    my $number = 0;
    my $answers = join '', map { ++$number . " $_\n" } split ' ', expanded($limit->{answers}, '');
    my %files = (TREE => expanded($limit->{tree}, $path), SCRIPT => expanded($limit->{script}, $path));
    my @wrong = map { wrong_command($_, $path, $answers, %files) } @{ $limit->{command} };
    push @wrong, "a path of " . length $path if defined $limit->{bytes} && $limit->{bytes} != length $path;
    return join '', @wrong;
}

for my $limit (@{ table_in("$Bin/data/limits.toml")->{limit} }) {
    my $wrong = wrong_limit($limit);
    ok($wrong eq '', $limit->{name}) or diag $wrong;
}
done_testing;
