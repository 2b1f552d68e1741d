#!/usr/bin/perl
# Listings of the trees that scripts leave: the program as a black box over random worlds by a fixed seed.
#
#     perl tests/tree.t [PROGRAM [WORLDS [SEED]]]
#
# - What is printed is the listing of the model's tree, by the order and the numbers of docs/DEFINITIONS.md, to the byte.
# - It is read again: it is printed of itself as it is, and a process to which nothing was refused is answered further
#   requests, and may do behind them, what it is and may over the first listing with both scripts. So is what these leave.
# - Names of one node, links and their targets stay; what was removed is gone. The form is the first that can say it.
# - On the page that tools/page.pl makes of it, each file, program and link that a list tells of is listed.
use strict;
use warnings;
use FindBin qw($Bin);
use lib "$Bin/lib";
use Listed qw(lists_of);
use Model;
use Test::More;
use Tree qw(spelled);
use Worlds qw(answer_of program_in worlds_told);

my $PROGRAM = program_in(@ARGV);
my $PAGE    = "$Bin/../tools/page.pl";

# How many random worlds are tried, and by which seed.
my ($WORLDS, $SEED) = (60, 11);
$WORLDS = $ARGV[1] if @ARGV > 1;
$SEED   = $ARGV[2] if @ARGV > 2;

# A process that the first line of each script forks, and that asks for nothing in it: to it nothing is refused.
my $WITNESS = 9;

# The most lines of a listing of the first two forms, and of the third, below its first.
my ($MOST_LISTED, $MOST_WIDE) = (4096, 1_000_000);

my $worlds = Worlds->new($SEED);
my %count = map { $_ => 0 } qw(lines seconds links fewer more);

for my $number (1 .. $WORLDS) {
    my $how = $number % 3 ? {} : { rules => 'openbsd' };
    my $fault = fault_of($how);
    ok($fault eq '', "world $number") or diag $fault;
}
note("$count{lines} names, $count{seconds} of them further ones, $count{links} links; $count{fewer} trees with ",
    "fewer names than before the script, $count{more} with more");
test_forms();
test_many();
done_testing;

# --- Random worlds ---

# What is wrong with what is printed of a random world, in words; the empty text where nothing is.
sub fault_of {
    my ($how) = @_;
    $worlds->by($how->{rules} || 'profile');
    my $listing = $worlds->listing;
    my $script  = "1 fork $WITNESS\n" . ($worlds->number(3) ? $worlds->script({}) : $worlds->moving_script);
    my $model   = Model->new($listing, $how);
    $model->answer(split / /) for split /\n/, $script;
    my $text = text_of($how, { listing => $listing, script => $script }, 'tree');
    my $wanted = listed($model, $listing);
    return told("not the model's listing, which is\n$wanted", $how, $listing, $script) if $text ne $wanted;
    counted($listing, $text);
    my $again = text_of($how, { listing => $text, script => '' }, 'tree');
    return told("printed of itself it is\n$again", $how, $listing, $script) if $again ne $text;
    my $page = page_of($text, text_of($how, { listing => $listing, script => $script }, 'objects', '--process', $WITNESS));
    my $things = () = $text =~ /^[0-9]+ (?:file|any|sock|fifo|dev|prog|link|hard) /gm;
    my $shown  = () = $page =~ m{<small>(?:file|sock|fifo|dev|prog|link)</small>[^<]*</span>}g;
    return told("the page has $shown of $things\n$page", $how, $listing, $script) if $shown != $things;
    return fault_of_more($how, $listing, $script, $text);
}

# The page of a listing and of what is listed over it.
sub page_of {
    my ($text, $lists) = @_;
    my ($status, $page, $err) = answer_of($^X, { listing => $text, objects => $lists }, $PAGE, 'listing', 'objects');
    BAIL_OUT("page.pl: $err") if $status != 0 || $err ne '';
    return $page;
}

# What is wrong with further requests over what was printed.
sub fault_of_more {
    my ($how, $listing, $script, $text) = @_;
    my $more = join '', $worlds->requests(12, $WITNESS);
    $more =~ s/ fork [0-9]+$/ fork 700/gm;
    my $mine  = $more =~ s/^$WITNESS /1 /gmr;
    my $whole = { listing => $listing, script => $script . $more };
    my $later = { listing => $text,    script => $mine };
    my $first = lists_of(text_of($how, $whole, 'objects', '--process', $WITNESS));
    my $then  = lists_of(text_of($how, $later, 'objects'));
    my @more  = splice @{ $first->{answers} }, $script =~ tr/\n//;
    my $fault =
          "@more" ne "@{ $then->{answers} }" ? "other answers: @more"
        : $first->{lists}{$WITNESS}{text} ne $then->{lists}{1}{text} ? 'another list'
        : text_of($how, $whole, 'tree') ne text_of($how, $later, 'tree') ? 'another tree'
        :                                                                  '';
    return $fault eq '' ? '' : told("$fault, over\n$text", $how, $listing, $script . $more);
}

# The listing of a model's tree: its form, and a line for each name, which is followed by those beneath it.
sub listed {
    my ($tree, $listing) = @_;
    my @waiting = under($tree, 0);
    my ($has_seconds, $has_types, @untyped, @lines, %numbers);
    while (my $row = shift @waiting) {
        my ($dir, $name) = @$row;
        my $node = $tree->{rows}{$dir}{$name};
        my $line = @lines + 1;
        my @front = ($numbers{$dir} || 0, spelled($name));
        if ($numbers{$node}) {
            $has_seconds = 1;
            push @lines, join ' ', $line, 'hard', @front, $numbers{$node};
            next;
        }
        my $kind = $tree->{mount}{$node} ? 'mount' : $tree->{kind}{$node};
        $has_types ||= $tree->{plain}{$node} || $kind =~ /\A(?:sock|fifo|dev|mount)\z/;
        push @untyped, $#lines + 1 if $kind eq 'file' && !$tree->{plain}{$node};
        $numbers{$node} = $line;
        push @lines, join ' ', $line, $kind, @front, $kind eq 'link' ? spelled($tree->{target}{$node}) : ();
        unshift @waiting, under($tree, $node) if $tree->{kind}{$node} eq 'dir';
    }
    my $is_wide = $listing =~ /\Atree 3/ || $has_types || @lines >= $MOST_LISTED;
    s/ file / any / for $is_wide ? @lines[@untyped] : ();
    return join '', map { "$_\n" } 'tree ' . ($is_wide ? 3 : $has_seconds ? 2 : 1), '0 dir', @lines;
}

# The rows in a directory, by the bytes of their names.
sub under {
    my ($tree, $dir) = @_;
    return map { [$dir, $_] } sort keys %{ $tree->{rows}{$dir} };
}

sub counted {
    my ($listing, $text) = @_;
    my ($before, $after) = map { tr/\n// } $listing, $text;
    $count{lines} += $after - 2;
    $count{seconds} += () = $text =~ /^[0-9]+ hard /gm;
    $count{links}   += () = $text =~ /^[0-9]+ link /gm;
    $count{ $before > $after ? 'fewer' : 'more' }++ if $before != $after;
    return;
}

# What a command prints, by the rules of a world, without a fault.
sub text_of {
    my ($how, $files, @words) = @_;
    push @words, '--rules', $how->{rules} if $how->{rules};
    push @words, 'listing', 'script';
    my ($status, $out, $err) = answer_of($PROGRAM, $files, @words);
    return $out if $status == 0 && $err eq '';
    diag(worlds_told($files, @words));
    BAIL_OUT("status $status: $err");
}

sub told {
    my ($fault, $how, $listing, $script) = @_;
    my @rules = $how->{rules} ? ('--rules', $how->{rules}) : ();
    return "$fault\n" . worlds_told({ listing => $listing, script => $script }, 'tree', @rules, 'listing', 'script');
}

# --- Forms and limits ---

# The text of lines.
sub lines { return join '', map { "$_\n" } @_ }

# Trees that scripts leave, and their listings.
sub test_forms {
    my @trees = (
        [ 'a root alone', ['tree 1', '0 dir'], [], ['tree 1', '0 dir'] ],
        [ 'all is removed', [ 'tree 2', '0 dir', '1 dir 0 d', '2 file 1 a', '3 hard 0 b 2' ],
            [ '1 unlink /b', '1 unlink /d/a', '1 rmdir /d' ], [ 'tree 1', '0 dir' ] ],
        [ 'a further name', [ 'tree 1', '0 dir', '5 file 0 b', '8 dir 0 d' ], [ '1 link /b /d/a', '1 mkdir /a' ],
            [ 'tree 2', '0 dir', '1 dir 0 a', '2 file 0 b', '3 dir 0 d', '4 hard 3 a 2' ] ],
        [ 'a further name without the first', [ 'tree 2', '0 dir', '1 prog 0 a', '2 hard 0 b 1' ], ['1 unlink /a'],
            [ 'tree 1', '0 dir', '1 prog 0 b' ] ],
        [ 'a link of two names', [ 'tree 1', '0 dir' ], [ '1 symlink ../a\040b/ /y', '1 link /y /x' ],
            [ 'tree 2', '0 dir', '1 link 0 x ../a\040b/', '2 hard 0 y 1' ] ],
        [ 'names and targets with each kind of byte', [ 'tree 1', '0 dir' ],
            [ '1 mkdir /=', '1 create /\134\001', '1 symlink =\177/\012 /\377', '1 create /a:b' ],
            [ 'tree 1', '0 dir', '1 dir 0 =', '2 file 0 \134\001', '3 file 0 a:b', '4 link 0 \377 =\177/\012' ] ],
        [ 'a directory in a later one', [ 'tree 1', '0 dir', '1 dir 0 a', '2 file 1 f', '3 dir 0 b' ],
            ['1 rename /a /b/a'], [ 'tree 1', '0 dir', '1 dir 0 b', '2 dir 1 a', '3 file 2 f' ] ],
        [ 'types of files', [ 'tree 3', '0 dir', '1 sock 0 s', '2 any 0 a', '3 fifo 0 f', '4 hard 0 b 1', '5 dev 0 v', '6 file 0 p' ],
            [ '1 rename /s /z', '1 unlink /v', '1 create /n' ],
            [ 'tree 3', '0 dir', '1 any 0 a', '2 sock 0 b', '3 fifo 0 f', '4 any 0 n', '5 file 0 p', '6 hard 0 z 2' ] ],
        [ 'mount points, which move with what is above them', [ 'tree 3', '0 dir', '1 dir 0 d', '2 mount 1 m', '3 file 2 f', '4 mount 0 n' ],
            [ '1 rename /d /z', '1 rmdir /n', '1 rename /z/m /m', '1 rename /z/m/f /f', '1 mkdir /z/m/e' ],
            [ 'tree 3', '0 dir', '1 mount 0 n', '2 dir 0 z', '3 mount 2 m', '4 dir 3 e', '5 file 3 f' ] ],
        [ 'what was refused', [ 'tree 1', '0 dir', '1 dir 0 a', '2 file 1 f' ],
            [ '1 rmdir /a', '1 unveil / r', '1 mkdir /b', '1 pledge stdio -', '1 unlink /a/f', '1 stat /' ],
            [ 'tree 1', '0 dir', '1 dir 0 a', '2 file 1 f' ] ],
        [ 'room for more names', [ 'tree 3', '0 dir' ], ['1 mkdir /a'], [ 'tree 3', '0 dir', '1 dir 0 a' ] ],
    );
    for my $tree (@trees) {
        my ($name, $listing, $script, $wanted) = @$tree;
        my $files = { listing => lines(@$listing), script => lines(@$script) };
        is(text_of({}, $files, 'tree'), lines(@$wanted), $name);
    }
    return;
}

# As many names as a form lists, and one more.
sub test_many {
    my @names = map { sprintf '%d file 0 f%04d', $_, $_ } 1 .. $MOST_LISTED - 1;
    my $full  = lines('tree 1', '0 dir', @names);
    my @files = map { s/ file / any /r } @names;
    is(text_of({}, { listing => $full, script => '' }, 'tree'), $full, 'the most names of the first form');
    is(text_of({}, { listing => $full, script => "1 create /g\n" }, 'tree'),
        lines('tree 3', '0 dir', @files, "$MOST_LISTED any 0 g"), 'one name more');
    is(text_of({}, { listing => $full, script => "1 link /f0001 /f0002\n1 unlink /f0002\n1 link /f0001 /f0002\n" }, 'tree'),
        lines('tree 2', '0 dir', $names[0], '2 hard 0 f0002 1', @names[2 .. $#names]), 'of the second form');
    my $wide = lines('tree 3', '0 dir', map { sprintf '%d dir 0 %06d', $_, $_ } 1 .. $MOST_WIDE - 1);
    ok(text_of({}, { listing => $wide, script => '' }, 'tree') eq $wide, 'the most names of the third form');
    is_deeply([ answer_of($PROGRAM, { listing => $wide, script => "1 mkdir /a\n" }, 'tree', 'listing', 'script') ],
        [ 1, '', "pua: tree: too many names\n" ], 'more names than a listing has lines');
    return;
}
