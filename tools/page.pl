#!/usr/bin/perl
# Writes a page of what a process can touch, from what `pua tree` and `pua objects` print:
#
#     page.pl [-d DEPTH] [-m MANIFEST] TREE [OBJECTS [EVER]]
#
# TREE is the listing that `pua tree` prints, of the tree behind the script, and OBJECTS the output
# of `pua objects`, of now or with `--ever`; standard input if it is left out. What is written is
# one HTML file, without scripts, that loads nothing. For each list of OBJECTS, of which `--process
# all` prints several, it has the state of the process, if there are lines about it, its root and what
# it has open before all else, and the tree: beside each name what can be read, written, executed, made
# and removed there, the veil whose place stands there now, what a promise opens there by itself, what
# is open there, and whether it is the process's root. A directory is folded where nothing below it can
# be touched and none of this stands, and so are more than four such names beside others. An open-rw
# stands in two columns, a create of what is there among what is written, and a connect too.
#
# With -d each directory that has DEPTH names or more in its path is folded too, and has how many
# names in it can be touched. With --help this text is printed.
#
# EVER is a list for ever of a process whose list of now is in OBJECTS: it follows that one, and
# what it has more is marked. What MANIFEST has, as list.pl -m writes it, is marked as not listed,
# or as a directory of which not all is listed.
#
# The tree is that of TREE with what the list adds, which is marked `not listed`. Where TREE is the
# listing before the script, so is what the script made, and what it removed stands there still,
# as something that can't be touched.
#
# Status 0: the page was written. Status 1: a file can't be read, TREE is no listing, or OBJECTS
# or EVER is no list of objects; then nothing was written. Status 2: the words do not fit.
use strict;
use warnings;
no warnings 'recursion';    # a tree may be 4,000 directories deep

BEGIN {
    my ($here) = __FILE__ =~ m{\A(.*/)}s;
    unshift @INC, map { ($here || './') . $_ } '../share/pua/perl', 'lib';
}
use Getopt::Long qw(:config posix_default no_ignore_case bundling);
use Pua::Help qw(help_of);
use Pua::Lists qw(@COLUMNS columns holds lines_of lists_of manifest_of state_of);

my ($NAME) = $0 =~ m{([^/]*)\z};

my $depth;              # DEPTH, where it was given
my $MOST_BESIDE = 4;    # names that can't be touched and still stand unfolded beside others

my %FIELDS = (dir => 4, file => 4, prog => 4, link => 5, hard => 5);    # of a line of a listing
my %TYPED  = (mount => 4, sock => 4, fifo => 4, dev => 4, any => 4);    # after `tree 3`
my %KINDS  = (any => 'file', mount => 'dir');    # of words that are none
my %MISSING = ('left-out' => 'left out of the listing',
    'passed-over' => 'passed over by the listing');
my %STATES = (
    'process ended'   => 'it can touch nothing',
    'promises -'      => 'none were ever pledged: it holds all but error',
    'unveil locked'   => 'no further veil can be put',
    'unveil given-up' => 'no further veil can be put, since the promise unveil was given up',
    'unveil open'     => 'further veils can be put: the list holds for now alone',
    'no veils'        => 'it can touch what is not listed too',
    'rules openbsd'   => 'as OpenBSD\'s kernel is known to answer',
    'exec bounded'    =>
        'programs that are started keep the veils, and hold the execpromises at most',
    'exec open'       => 'the list holds until a program is started',
    'receive open'    => 'the list holds until a descriptor is received',
);
my $HEAD = <<'END';
<!DOCTYPE html>
<html lang="en"><head><meta charset="utf-8"><title>What can be touched</title>
<meta http-equiv="Content-Security-Policy" content="default-src 'none'; style-src 'unsafe-inline'">
<meta name="viewport" content="width=device-width">
END
my $STYLE = <<'END';
:root { color-scheme: light dark }
body { font: 14px/1.5 sans-serif; margin: 1em auto; max-width: 100em; padding: 0 1em }
code, .row { font-family: monospace; overflow-wrap: anywhere }
.row { border-top: 1px solid #8884; display: grid; gap: 0 1em; list-style: none;
  grid-template-columns: minmax(12em, 1fr) 25ch 27ch 8ch 20ch 7ch }
.row > :nth-child(7) { grid-column: 2 / -1 } .row > :nth-child(7)::before { content: 'else: ' }
.head { background: Canvas; font-weight: bold; position: sticky; top: 0 }
details > :not(summary) { margin-left: 1.2em }
summary::-webkit-details-marker { display: none } div > span:first-child::before { content: '\a0\a0' }
summary > :first-child::before { content: '\25b8\a0' }
details[open] > summary > :first-child::before { content: '\25be\a0' }
.untouched { color: GrayText; color: light-dark(#666, #aaa) }
.veil, .alarm, .more { background: #369; border-radius: 3px; color: #fff; padding: 0 .4em }
.alarm { background: #b30 } .more { background: #063 }
@media (max-width: 76em) {
  .row { display: block; padding: .2em 0 }
  .head { display: none } details > :not(summary) { margin-left: .6em }
  .row > span + span:not(:empty) { display: block; padding-left: 2em }
  .row > span + span:not(:empty)::before { content: attr(title) ': ' }
}
END

sub fail { print STDERR "$NAME: @_\n"; exit 1 }

# A text as HTML has it.
sub text { my ($text) = @_; $text =~ s/([&<>"'])/'&#' . ord($1) . ';'/ge; return $text }

# The tree of a listing: a node has a kind, and by their names the nodes that are `in` it.
sub tree {
    my ($name, @lines) = @_;
    die "$name: it is no listing\n" if @lines < 2 || "@lines[0, 1]" !~ /\Atree [123] 0 dir\z/;
    my %nodes  = (0 => { kind => 'dir', listed => 1 });
    my %fields = (%FIELDS, $lines[0] eq 'tree 3' ? %TYPED : ());
    for my $number (3 .. @lines) {
        my ($where, @fields) = ("$name: line $number", split / /, $lines[ $number - 1 ]);
        my ($id, $kind, $parent, $row, $last) = @fields;
        die "$where: bad line\n" if @fields != ($fields{ $kind || '' } || 0) || $row =~ m{/};
        die "$where: bad number\n" if $nodes{$id};
        die "$where: bad parent\n" if ($nodes{$parent} || { kind => '' })->{kind} ne 'dir';
        my $note = $kind eq 'link' ? "-> $last" : $kind eq 'mount' ? '(a mount point)' : undef;
        my $node = { kind => $KINDS{$kind} || $kind, listed => 1, note => $note };
        if ($kind eq 'hard') {
            die "$where: bad node\n" if ($nodes{$last} || { kind => 'dir' })->{kind} eq 'dir';
            $node = { %{ $nodes{$last} }, note => "(a further name of node $last)" };
        }
        $nodes{$parent}{in}{$row} = $nodes{$id} = $node;
    }
    return $nodes{0};
}

# The node at a path, which is made where it isn't there yet.
sub node {
    my ($node, $path) = @_;
    $node = $node->{in}{$_} ||= { kind => '' } for grep { $_ ne '' } split m{/}, $path;
    return $node;
}

# A row: what stands in the first column, and the calls on a thing of this kind in theirs; those
# of a list for ever that aren't among $now, the calls of the list of now, or have their $steps, are
# marked.
sub row {
    my ($tag, $first, $kind, $calls, $now, $steps, @why) = @_;
    my $cells = columns($kind, $calls);
    my %was = map { $_ => 1 } split /,/, defined $now ? $now : '';
    $first .= ' <small>by ' . text("@why") . '</small>' if @why;
    my @cells;
    for my $column (@COLUMNS, $cells->{else} ? 'else' : ()) {
        my @texts;
        for my $call (@{ $cells->{$column} || [] }) {
            my $count   = ($steps || {})->{$call};
            my $is_more = defined $count || defined $now && !$was{$call};
            my $title   = !defined $count ? '' : ' title="' . steps_title($count) . '"';
            push @texts, $is_more ? "<b class=\"more\"$title>" . text($call) . '</b>' : text($call);
        }
        push @cells, "<span title=\"$column\">@texts</span>";
    }
    return "<$tag class=\"row" . (%$cells ? '' : ' untouched')
        . "\"><span>$first</span>@cells</$tag>\n";
}

# The row of what a list of objects says of a node.
sub row_of {
    my ($tag, $first, $kind, $said) = @_;
    my ($says) = @$said or return row($tag, $first, $kind);
    return row($tag, $first, $kind, @$says{qw(calls now steps)}, @{ $says->{why} });
}

# What is said of the number of steps to a call.
sub steps_title {
    my ($count) = @_;
    return $count eq '?' ? 'no way found' : $count eq '1' ? 'in 1 step' : "in $count steps";
}

# The pieces of a page, of which some are lists of pieces, one after the other.
sub flat {
    my @pieces = reverse @_;
    my @flat;
    while (@pieces) {
        my $piece = pop @pieces;
        if (ref $piece) { push @pieces, reverse @$piece }
        else            { push @flat, $piece }
    }
    return @flat;
}

# Adds to the page the rows of a node and of what is in it, as lists in it; $deep is how many names
# its path has. Answers how many names are here, and how many of them can be touched, have a veil
# or were left out. Many names that are nothing of these are folded.
sub add_rows {
    my ($page, $name, $node, $deep) = @_;
    my ($kind, $in, $badges) = ($node->{kind}, $node->{in} || {}, $node->{badges} || []);
    my $first = text($name) . ($kind eq 'dir' || %$in ? '/' : " <small>$kind</small>");
    $first .= ' ' . text($node->{note}) if defined $node->{note};
    $first .= ' <small>not listed</small>' if !$node->{listed} && $kind ne 'missing';
    $first .= ' <small>not all listed</small>' if $node->{is_part};
    $first .= " <b class=\"$_->[0]\">" . text($_->[1]) . '</b>' for @$badges;
    my ($names, $beside, $touched) = (0, 0, 0);
    my @parts;    # of each name in it whether it or what is below it can be touched, and the rows
    my %bytes = map { my $row = $_; ($row => $row =~ s/\\([0-7]{3})/chr oct $1/ger) } keys %$in;
    for my $row (sort { $bytes{$a} cmp $bytes{$b} } keys %bytes) {
        my @below;
        my ($more, $touched_there) = add_rows(\@below, $row, $in->{$row}, $deep + 1);
        push @parts, [$touched_there, \@below];
        $names += $more;
        $beside += $more unless $touched_there;
        $touched += $touched_there;
    }
    my $is_deep = defined $depth && $deep >= $depth;
    my $folds   = $names || $node->{other};
    my $is_open = ($touched || $node->{other}) && !$is_deep;
    $first .= " <small>names in it, none to be touched: $names</small>"
        if $names && !$touched && !$node->{other};
    $first .= " <small>names in it: $names, to be touched: $touched</small>"
        if $is_deep && $touched;
    my $row = row_of($folds ? 'summary' : 'div', $first, $kind, [$node->{said} || ()]);
    push @$page, $folds ? '<details' . ($is_open ? ' open' : '') . ">$row" : $row;
    push @$page, row_of('div', '<i>any other name</i>', 'other', [$node->{other}])
        if $node->{other};
    my $is_folded = ($touched || $node->{other}) && $beside > $MOST_BESIDE;
    push @$page, map { $_->[1] } grep { $_->[0] || !$is_folded } @parts;
    if ($is_folded) {
        push @$page, '<details>' . row('summary',
            "<i>names beside these, none to be touched: $beside</i>", '');
        push @$page, map { $_->[1] } grep { !$_->[0] } @parts;
        push @$page, "</details>\n";
    }
    push @$page, "</details>\n" if $folds;
    push @$page,
        row_of('div', text($name) . ' <small>once it is free</small>', 'missing', [$node->{freed}])
        if $node->{freed};
    my $is_touched = $node->{said} || $node->{other} || @$badges;
    return (1 + $names, $touched + ($is_touched ? 1 : 0));
}

# What is to be said of a line of the state.
sub says {
    my ($line, $state, $can_start) = @_;
    return $STATES{$line} if $STATES{$line};
    return 'its directory was removed' if $line =~ /\Aveil - /;
    return ($1 eq '-' ? 'it was removed; ' : '')
        . ($2 eq 'open' ? 'the process gets out of its root' : 'no path of now leads out of it')
        if $line =~ /\Aroot (\S+) (\S+)\z/;
    return 'open, and no veil hides it' . ($1 eq '-' ? '; it has no name left' : '')
        if $line =~ /\Aheld \S+ \S+ (\S+) \S+\z/;
    return $can_start ? 'unset: a program that it starts has no veils, and all promises but error'
        : 'unset; it can start no program'
        if $line eq 'execpromises -';
    return 'no veil hides it' if $line =~ /\Aopening \S+ \S+\z/;
    return 'unix: no line shows that it can connect to each socket where a veil has w, '
        . 'and bind one where a veil has c'
        if $line =~ /\Apromises / && !$state->{sockets} && $state->{promises}
            && $state->{promises}{unix};
    return '';
}

# Adds to the page the lines of a list's state, and to the tree the marks of what they say of a
# place.
sub add_state {
    my ($page, $tree, $list) = @_;
    my $state = state_of($list);
    my $can_start = holds($state, 'exec')
        && grep { $_->[2] =~ /(?:\A|,)exec(?:,|\z)/ } @{ $list->{objects} };
    my @told = @{ $list->{state} };
    my $is_open = qr/\A(?:held|receive) /;
    my @lines = ((grep { /\Aroot / } @told), (grep { /$is_open/ } @told),
        grep { !/\Aroot |$is_open/ } @told);
    push @$page, "<ul>\n";
    push @$page, "<li><code>no lines on the state of the process</code> </li>\n" unless @lines;
    for my $line (@lines) {
        my $class = $line =~ /\A(?:(?:unveil|exec|receive|root \S+) open|process ended|no veils|held .*)\z/
            ? ' class="alarm"' : '';
        push @$page, "<li><code$class>" . text($line) . '</code> '
            . text(says($line, $state, $can_start)) . "</li>\n";
    }
    my $is_unveiled = !$state->{ended} && !@{ $state->{veils} }
        && !grep { $_ eq 'no veils' } @lines;
    push @$page, "<li><code class=\"alarm\">no veils</code> $STATES{'no veils'}</li>\n"
        if @lines && $is_unveiled;
    push @$page, "</ul>\n";
    push @{ node($tree, $_->[0])->{badges} }, ['veil', "veil $_->[1]"]
        for grep { $_->[0] ne '-' } @{ $state->{veils} };
    push @{ node($tree, $_->[0])->{badges} }, ['veil', "opening $_->[1]"]
        for @{ $state->{openings} };
    push @{ node($tree, $_->[2])->{badges} }, ['alarm', "held $_->[0] $_->[3]"]
        for grep { $_->[2] ne '-' } @{ $state->{held} };
    push @{ node($tree, $_->[0])->{badges} }, [$_->[1] eq 'open' ? 'alarm' : 'veil', "root $_->[1]"]
        for grep { $_ && $_->[0] ne '-' } $state->{root};
    return;
}

# Adds to the page a list of objects, over a tree of its own. $now is the list of now of the same
# process, where the list is for ever and that is known.
sub add_list {
    my ($page, $tree, $list, $now) = @_;
    my %was = map { join(' ', @$_[0, 1]) => $_->[2] } $now ? @{ $now->{objects} } : ();
    push @$page, "<h2>What process $list->{process} "
        . (defined $list->{before} ? "could touch before line $list->{before}"
            : $list->{ever} ? 'can ever touch' : 'can touch')
        . (defined $list->{beside} ? " beside $list->{beside}" : '') . "</h2>\n";
    push @$page, "<p>What the list of now does not have is <b class=\"more\">marked</b>.</p>\n"
        if $now || $list->{steps};
    add_state($page, $tree, $list);
    push @$page, "<div class=\"row head\">", (map { "<span>$_</span>" } 'name', @COLUMNS),
        "</div>\n";
    for my $object (@{ $list->{objects} }) {
        my ($kind, $path, $calls, @why) = @$object;
        my $node = $path eq 'new' ? { kind => '' } : node($tree, $path);
        my $said = {
            calls => $calls, why => \@why, now => $now && ($was{"$kind $path"} || ''),
            steps => ($list->{steps} || {})->{"$kind $path"},
        };
        if ($path eq 'new') {
            push @$page, row_of('div', "<i>new</i> <small>$kind</small>", $kind, [$said]);
        } elsif ($kind eq 'other') {
            $node->{other} = $said;
        } elsif ($kind eq 'missing' && $node->{said}) {
            $node->{freed} = $said;
        } else {
            delete $node->{note} if $node->{kind} ne $kind;
            @$node{qw(kind said)} = ($kind, $said);
        }
    }
    add_rows($page, '', $tree, 0);
    return;
}

# The page: of the listing, the lists, the lists for ever, and what the listing lacks.
sub page_of {
    my ($tree, $objects, $ever, $manifest) = @_;
    my @listing = lines_of($tree);
    my ($answers, @lists) = lists_of($objects, lines_of($objects));
    my (undef, @later) = defined $ever ? lists_of($ever, lines_of($ever)) : ();
    my $missing = defined $manifest ? manifest_of($manifest) : {};
    my @unlike = map { ', <code>' . text($_) . '</code>' } grep { !/\A[0-9]+ ok(?: by \S+)?\z/ } @$answers;
    my @page = ($HEAD, "<style>\n$STYLE</style></head><body>\n",
        '<p>Answers to the script: ', @$answers - @unlike, ' ok', @unlike, ".</p>\n");
    my %listed = map { $_->{process} => 1 } @lists;
    for my $list (@lists, grep { !$listed{ $_->{process} } } @later) {
        my @evers = defined $list->{before} ? () : grep { $_->{process} == $list->{process} } @later;
        for my $told ($list, grep { $_ != $list } @evers) {
            my $root = tree($tree, @listing);
            for my $path (sort keys %$missing) {
                my ($node, $why) = (node($root, $path), $missing->{$path});
                if ($MISSING{$why}) { push @{ $node->{badges} }, ['alarm', $MISSING{$why}] }
                else                { $node->{is_part} = 1 }
            }
            my $is_later = $told != $list && $told->{ever} && !$list->{ever};
            add_list(\@page, $root, $told, $is_later ? $list : undef);
        }
    }
    return (flat(@page), "</body></html>\n");
}

my $manifest;
my $understood = GetOptions('d=s' => \$depth, 'm=s' => \$manifest, 'help' => \my $help);
if ($understood && $help) {
    print help_of(__FILE__, $NAME);
    exit 0;
}
$understood &&= !defined $depth || $depth =~ /\A[0-9]{1,9}\z/;
my @words = (@ARGV, grep { defined } $manifest);
if (!$understood || @ARGV < 1 || @ARGV > 3 || grep { $_ eq '' } @words) {
    print STDERR "usage: $NAME [-d DEPTH] [-m MANIFEST] TREE [OBJECTS [EVER]]\n";
    exit 2;
}
my @page = eval { page_of($ARGV[0], @ARGV > 1 ? $ARGV[1] : '/dev/stdin', $ARGV[2], $manifest) };
if (!@page) {
    chomp(my $fault = $@);
    fail($fault);
}
binmode STDOUT;
print @page or fail("standard output: $!");
close STDOUT or fail("standard output: $!");
