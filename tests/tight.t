#!/usr/bin/perl
# Scripts with the fewest rights: the program as a black box over random worlds by a fixed seed, and over the examples.
#
#     perl tests/tight.t [PROGRAM [WORLDS [SEED]]]
#
# - What is printed is the script that one trial after another leaves, as the model (Tight.pm) has it, to the byte.
# - It is answered as the given script, line by line; without any one word more some line is answered otherwise.
# - Where each request rests on one set of promises, whatever else is left out has all that is printed.
# - Printed once more it stays as it is.
# - Each process may do no more than after the given script: the state, the objects, and the list for ever.
# - What is said of each word (--why) is so.
use strict;
use warnings;
use FindBin qw($Bin);
use lib "$Bin/lib";
use Listed qw(lists_of state_of);
use Openings qw(opening_for);
use Tables qw(content);
use Test::More;
use Tight;
use Tree qw(unspelled);
use Worlds qw(program_in rules_of);

my $PROGRAM = program_in(@ARGV);

# How many random worlds are tried, and by which seed.
my ($WORLDS, $SEED) = (60, 11);
$WORLDS = $ARGV[1] if @ARGV > 1;
$SEED   = $ARGV[2] if @ARGV > 2;

# Of so few words all that can be left out is tried.
my $FEW = 6;

my $worlds = Worlds->new($SEED, { openings => 1, files => 1, roots => 1 });
my %count = map { $_ => 0 } qw(words left least lines fewer ever bounded runs);

# What is wrong with what the program prints of some lines, in words; the empty text where nothing is.
sub fault_of {
    my ($world, $has_one_set, @given) = @_;
    my ($status, $text, $err) = $world->written(\@given, 'tight');
    return "status $status, $err" if $status || $err ne '';
    my $model = join "\n", $world->tightened(@given);
    return "printed:\n$text\nthe model has:\n$model\n" if $text ne $model;
    my @left = split /\n/, $text, -1;
    return fault_of_answers($world, $has_one_set, \@given, \@left)
        || fault_of_reach($world, \@given, \@left)
        || fault_of_reasons($world, \@given, \@left);
}

# Whether the answers are the same, and would not be without a word more.
sub fault_of_answers {
    my ($world, $has_one_set, $given, $left) = @_;
    my $wanted = $world->answers(@$given);
    return 'other answers' if $world->answers(@$left) ne $wanted;
    my @pieces = $world->pieces(@$given);
    my @still  = $world->pieces(@$left);
    $count{words} += @pieces;
    $count{left}  += @still;
    for my $piece (@still) {
        return "@$piece can go too" if $world->answers(Tight::without($piece, @$left)) eq $wanted;
    }
    return 'another text of what is printed' if ($world->written($left, 'tight'))[1] ne join "\n", @$left;
    return $has_one_set && @pieces <= $FEW ? fault_of_others($world, $wanted, $given, \@pieces, \@still) : '';
}

# Whether all that can be left out so that the answers stay leaves at least these words.
sub fault_of_others {
    my ($world, $wanted, $given, $pieces, $still) = @_;
    my %number = map { ("@{ $pieces->[$_] }" => $_) } 0 .. $#$pieces;
    for my $set (0 .. (1 << @$pieces) - 1) {
        my @others = @$given;
        @others = Tight::without($_, @others) for map { $pieces->[$_] } grep { $set & 1 << $_ } 0 .. $#$pieces;
        next if $world->answers(@others) ne $wanted;
        $count{least}++;
        my ($lacking) = grep { $set & 1 << $number{"@$_"} } @$still;
        return "one without @$lacking is answered alike" if $lacking;
    }
    return '';
}

# Whether each process may do no more.
sub fault_of_reach {
    my ($world, $given, $left) = @_;
    my ($before, $after) = map { lists_of(($world->written($_, qw(objects --process all)))[1])->{lists} } $given, $left;
    return 'other processes' if join(' ', sort keys %$before) ne join ' ', sort keys %$after;
    for my $process (sort keys %$after) {
        my ($given_list, $left_list) = ($before->{$process}, $after->{$process});
        $count{lines} += @{ $given_list->{lines} };
        $count{fewer} += @{ $given_list->{lines} } - @{ $left_list->{lines} };
        my $beyond = fault_of_state($given_list, $left_list) || Listed::beyond($left_list, $given_list)
            || fault_of_future($world, $process, $given, $left);
        return "process $process: $beyond" if $beyond;
    }
    return '';
}

# Whether a state is another one but for promises, letters and what promises open, of which it has none more.
sub fault_of_state {
    my ($given, $left) = @_;
    my %given = map { $_ => 1 } @{ $given->{state} };
    my ($opening) = grep { /\Aopening / && !$given{$_} } @{ $left->{state} };
    return $opening if defined $opening;
    my ($before, $after) = map { [map { [split / /] } grep { !/\Aopening / } @{ $_->{state} }] } $given, $left;
    return 'another state' if @$before != @$after;
    for my $index (0 .. $#$after) {
        my ($old, $new) = ($before->[$index], $after->[$index]);
        return "@$new for @$old" if !is_within($old, $new);
    }
    return '';
}

# Whether a line of a state has no more than another one.
sub is_within {
    my ($old, $new) = @_;
    my ($old_list, $new_list) = ($old->[-1], $new->[-1]);
    return 0 if "@$old[0 .. $#$old - 1]" ne "@$new[0 .. $#$new - 1]";
    return $new_list eq $old_list || "$old_list $new_list" eq 'open given-up' if $old->[0] =~ /\A(?:process|unveil)\z/;
    return $new_list eq $old_list if $new_list eq '-' || $old_list eq '-';
    my $between = $old->[0] eq 'veil' ? '' : ',';
    my %old = map { $_ => 1 } split /$between/, $old_list;
    return !grep { $_ ne '=' && !$old{$_} } split /$between/, $new_list;
}

# Whether a list for ever has no more, where there are two. One that holds through execs, since the execpromises were thinned,
# has what is started too, of which one that doesn't says nothing.
sub fault_of_future {
    my ($world, $process, $given, $left) = @_;
    my @lists;
    for my $lines ($given, $left) {
        my ($status, $text) = $world->written($lines, qw(objects --ever --process), $process);
        return '' if $status;
        push @lists, lists_of($text)->{lists}{$process};
    }
    my @execs = map { state_of($_)->{exec} || '' } @lists;
    $count{bounded}++, return '' if "@execs" eq 'open bounded';
    $count{ever}++;
    my $beyond = Listed::beyond(@lists[1, 0]);
    return defined $beyond ? "for ever: $beyond" : '';
}

# Whether what is said of each word is so.
sub fault_of_reasons {
    my ($world, $given, $left) = @_;
    my ($status, $text, $err) = $world->written($given, 'tight', '--why');
    return "--why: status $status, $err" if $status || $err ne '';
    my $reasons = $world->reasons($given, $left);
    return $text eq $reasons ? '' : "--why printed:\n$text\nthe model has:\n$reasons";
}

# The lines of a text, in which some lists have their words in another order, and one of them twice, and of which some
# end in a carriage return.
sub lines_in {
    my ($text) = @_;
    my @lines = split /\n/, $text, -1;
    for my $line (@lines) {
        $line =~ s/( pledge )([\w,]+)/$1 . shuffled($2)/e if $worlds->number(3) == 0;
        $line .= "\r" if $line ne '' && $worlds->number(12) == 0;
    }
    return @lines if $worlds->number(8) || $lines[-1] ne '';
    pop @lines;
    $lines[-1] =~ s/\r\z//;
    return @lines;
}

# A list whose words stand in another order, and one of them twice.
sub shuffled {
    my ($list) = @_;
    my @words = split /,/, $list;
    my $first = $worlds->number(scalar @words);
    return join ',', @words[ $first .. $#words ], @words[ 0 .. $first ];
}

sub is_right {
    my ($name, $world, $has_one_set, @given) = @_;
    my $fault = fault_of($world, $has_one_set, @given);
    ok($fault eq '', $name) or diag "$fault\n", Worlds::worlds_told({ %{ $world->{files} }, SCRIPT => join "\n", @given });
    $count{runs} += $world->runs;
    return;
}

# A script with calls without a path between its lines.
sub with_uses {
    my @lines = split /^/, $_[0] or return '';
    for (0 .. $worlds->number(3)) {
        my $place = $worlds->number(scalar @lines);
        my ($asker) = $worlds->pick(@lines) =~ /\A([0-9]+)/;
        splice @lines, $place, 0, "$asker uses " . $worlds->used . "\n";
    }
    return join '', @lines;
}

# Whether each request of a script rests on one set of promises, without a table: none that may be left out opens a path.
sub has_one_set {
    my ($text) = @_;
    return 0 if $text =~ /^\S+\s+f?chown\s|^\S+ uses \S*\|/m;
    my @used = $text =~ /^[0-9]+ uses (\S+)/mg;
    my @lines = map { s/(?:\A| +)#.*//sr } split /\n/, $text;
    return !grep { / (\S+) (\S+)\r?\z/ && opening_for($1, unspelled($2), @used) } @lines;
}

for my $example (sort grep { -d } glob "$Bin/../examples/*") {
    my $text = content("$example/script");
    my ($name) = $example =~ m{([^/]*)\z};
    my ($rules) = rules_of($text);
    my $world = Tight->new($PROGRAM, content("$example/listing"), rules => $rules);
    is_right("the example $name", $world, has_one_set($text), split /\n/, $text, -1);
}
for my $number (1 .. $WORLDS) {
    my $listing = $worlds->listing;
    $worlds->by($number % 3 == 2 ? 'openbsd' : 'profile');
    my %how = $number % 3 == 1 ? () : $number % 3 == 2 ? (rules => 'openbsd') : (table => $worlds->table);
    my $text = $number % 5 ? $worlds->script({ lines => 2 + $worlds->number(8) }) : $worlds->moving_script;
    $text = with_uses($text) if $how{rules};
    my $has_one_set = !$how{table} && has_one_set($text);
    is_right("world $number", Tight->new($PROGRAM, $listing, %how), $has_one_set, lines_in($text));
}
note "$count{words} words, of which $count{left} are left; $count{lines} lines of objects, $count{fewer} fewer after";
note "$count{least} scripts of few words are answered alike; $count{runs} runs";
note "$count{ever} lists for ever; $count{bounded} that hold through execs where the given one does not";
done_testing;
