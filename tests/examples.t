#!/usr/bin/perl
# Tests of the examples, and of what the program says of itself:
#
#     perl tests/examples.t [PROGRAM]
#
# Each folder of examples/ has commands, and what they write: NAME-command and NAME-output. Each one's list of objects is
# also tried with reasons and, where it isn't by these alone, by OpenBSD's rules. Help and the version are as data/help and this file have them.
use strict;
use warnings;
use FindBin qw($Bin);
use lib "$Bin/lib";
use Openings qw(by_openbsd);
use Tables qw(content);
use Test::More;
use Worlds qw(answer_in program_in);

my $PROGRAM = program_in(@ARGV);
my $EXAMPLES = "$Bin/../examples";

# The files by which OpenBSD's rules give other objects. Where there is none, the state alone tells of these rules.
my %BY_OPENBSD = map { $_ => 'openbsd-output' } qw(aliases dhcp-client drop-box first-run key-directory links patch
    socket-server);

# The words by which a text is asked for.
my %HELP = (
    pua     => ['--help', '-h', 'help'],
    run     => ['help run', 'run --help'],
    audit   => ['audit -h', 'audit --help'],
    objects => ['objects --help'],
    why     => ['why --help'],
    tree    => ['tree --help', 'help tree'],
    tight   => ['tight --help', 'help tight'],
    how     => ['how --help', 'help how'],
);
my $VERSION = "pua 0.1.0\nrattle-kit-13f logic dac8208d650f15bf\n";

# Tests what a command writes, and its status.
sub is_told {
    my ($words, $out, $err, $status, $name) = @_;
    my @told = answer_in($EXAMPLES, $PROGRAM, @$words);
    is_deeply(\@told, [$status, $out, $err], $name);
    return;
}

# The words of an example's command.
sub words_in {
    my ($file) = @_;
    my ($program, @words) = split ' ', content($file);
    return @words;
}

sub test_example {
    my ($folder) = @_;
    my ($example) = $folder =~ m{([^/]*)\z};
    for my $command (glob "$folder/*command") {
        my $output = $command =~ s/command\z/output/r;
        is_told([words_in($command)], content($output), '', 0, $command =~ s/.*examples.//r);
    }
    my @objects = words_in("$folder/objects-command");
    is_told([@objects, '--why'], content("$folder/objects-why-output"), '', 0, "$example, with reasons");
    return if grep { $_ eq '--rules' } @objects;
    my $other = $BY_OPENBSD{$example};
    my $output = defined $other ? content("$folder/$other") : by_openbsd(content("$folder/objects-output"));
    is_told([@objects, '--rules', 'openbsd'], $output, '', 0, "$example, by OpenBSD's rules");
    return;
}

# Help, which fits into a terminal of 80 columns.
sub test_help {
    my ($name) = @_;
    my $help = content("$Bin/data/help/$name");
    is_told([split / /], $help, '', 0, "pua $_") for @{ $HELP{$name} };
    is((grep { length > 80 } split /\n/, $help), 0, "the help of $name in 80 columns");
    return;
}

my @folders = grep { -d } glob "$EXAMPLES/*";
cmp_ok(scalar @folders, '>=', 17, 'examples');
test_example($_) for @folders;
test_help($_) for sort keys %HELP;
is_told([$_], $VERSION, '', 0, "pua $_") for '--version', '-V';
is_told(['run', 'first-run/no-listing', 'first-run/script'], '', "pua: cannot read first-run/no-listing\n", 3,
    'a listing that is not there');
done_testing;
