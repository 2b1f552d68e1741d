#!/usr/bin/perl -T
# What refuses wrong bodies: perl tools/refused.pl [TOP]
#
# Looks whether the table tests/data/refused of the repository at TOP (the folder that it is run in, if none is given)
# is right, by the sources alone. A line of it has the name of a wrong body, or a public function as
# CRATE::FUNCTION or CRATE::TYPE::FUNCTION, and behind it what refuses that body, or a turned meaning of that function:
#
#   edit CRATE NAME         the must-fail edit NAME of the crate
#   claim CRATE NAME        the claim NAME there; it has to call the function
#   row CRATE RECORD.NAME   a worked row of a definition; the function's contract is an equation with that definition
#   test FILE WORD          a test that has this word: for what no contract can refuse
#   but REASON              nothing, and why: for a function that has no wrong body
#
# Each public function of a library that is no law has a line; a library of what the examples run has none, since it is a
# test itself. What isn't so is said on standard error, and the status is 1 then; else the last line says how many there are
# of each.
use strict;
use warnings;

BEGIN {
    my ($here) = __FILE__ =~ m{\A(.*/)}s;
    unshift @INC, ($here || './') . 'lib';
}
use Sources qw($CLAIM_MODULE %IS_CLAIMS crate_names files_below functions_of libraries text_of);

my $top = @ARGV ? $ARGV[0] =~ /^(.*)$/s && $1 : '.';
@ARGV > 1 and die "usage: perl tools/refused.pl [TOP]\n";
chdir $top or die "refused.pl: $top: $!\n";

# The table.
my $TABLE = 'tests/data/refused';

my @crates = crate_names();
my %function = map { $_->{path} => $_ } map { functions_of($_) } libraries();
my %claim = map { claims_of($_) } @crates;
my %row = map { rows_of($_) } @crates;
my %edit = map { edits_of($_) } @crates;

my $wrong = 0;
my (%told, %used, %kinds);
for my $line (grep { !/^(?:#|$)/ } split /\n/, text_of($TABLE)) {
    my ($name, $kind, $where, $by) = $line =~ /^(\S+)\s+(edit|claim|row|test|but) (\S+) (.+)$/
        or die "refused.pl: $TABLE: not read: $line\n";
    complain("$name: $kind $where $by does not stand") if !stands($kind, $where, $by);
    complain("$name: is no public function") if $name =~ /::/ && !$function{$name};
    complain("$name: the claim $by does not call it") if $name =~ /::/ && $kind eq 'claim' && !calls("$where $by", $name);
    $used{"$kind $where $by"} = 1;
    $kinds{$kind}++ if !$told{$name}++;
}
complain("$_ has no line in $TABLE ($function{$_}{file})") for grep { !$told{$_} && !$function{$_}{law} } sort keys %function;
complain("edit $_ stands in no line of $TABLE") for grep { !$used{"edit $_"} } sort keys %edit;
exit 1 if $wrong;
print join(', ', map { "$kinds{$_} by $_" } sort keys %kinds), ": ", scalar(keys %told), " wrong bodies and functions\n";

sub complain {
    my ($what) = @_;
    warn "refused.pl: $what\n";
    $wrong++;
}

# Whether what a line names is there.
sub stands {
    my ($kind, $where, $by) = @_;
    return $kind eq 'edit' ? $edit{"$where $by"}
        : $kind eq 'claim' ? $claim{"$where $by"}
        : $kind eq 'row' ? $row{"$where $by"}
        : $kind eq 'test' ? -e $where && text_of($where) =~ /\Q$by\E/
        : 1;
}

# Whether the text of a claim has a call of a function.
sub calls {
    my ($claim, $path) = @_;
    my ($name) = $path =~ /(\w+)$/;
    return ($claim{$claim} // '') =~ /\b$name\b/;
}

# The claims of a crate, each with its text.
sub claims_of {
    my ($crate) = @_;
    my @files = grep { $IS_CLAIMS{$crate} || $_ =~ $CLAIM_MODULE } files_below("crates/$crate/src", '.rt');
    return map { /^\s*(?:pub(?:\(crate\))? )?fn (\w+)/ ? ("$crate $1" => $_) : () }
        map { split /^(?=(?:pub(?:\(crate\))? )?fn )/m, text_of($_) } @files;
}

# The worked rows of a crate.
sub rows_of {
    my ($crate) = @_;
    my %found;
    for my $file (files_below("crates/$crate/specs", '.antt')) {
        my $text = text_of($file);
        while ($text =~ /^pub record (\w+)\b[^\n]*\n((?:(?: [^\n]*)?\n)+)/mg) {
            my ($record, $fields) = ($1, $2);
            $found{"$crate $record.$1"} = 1 while $fields =~ /^  pub (\w+) :/mg;
        }
    }
    return %found;
}

# The edits of a crate.
sub edits_of {
    my ($crate) = @_;
    return map { m{/must-fail/(.*)\.edit$} ? ("$crate $1" => 1) : () } files_below("crates/$crate/must-fail", '.edit');
}
