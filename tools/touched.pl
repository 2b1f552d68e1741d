#!/usr/bin/perl
# Which files a change goes through: perl tools/touched.pl [-l] [-C TOP] [-t TEXT]... [WORD...]
#
# Prints each file in which one of these stands, with how many lines have it, in groups:
#
#   WORD   a constructor, a name or a number of the code, as a whole word: not in a comment, an
#          import or a text. With its type before it (Action.Rename) a case of an enum counts only
#          where it is this one, by what the file imports
#   TEXT   what stands between quotes there, or byte by byte, and as a whole word in tests, tools,
#          pages and examples; if none is given, each WORD that has letters, in small ones; -t '' is
#          for no text at all
#
# To see what a further one of a kind has to go through, ask for one that is there. Of the likeliest
# changes docs/ARCHITECTURE.md, "Where to change what", says what to open first. Further ones are:
#
#   perl tools/touched.pl Mknod                        # a call
#   perl tools/touched.pl -t open-w OpenWrite          # a call whose text is not its name
#   perl tools/touched.pl RPATH rpath                  # a promise
#   perl tools/touched.pl ENOTEMPTY                    # an errno
#   perl tools/touched.pl Action.Rename                # a request of scripts
#   perl tools/touched.pl -t prog Kind.Prog IsProg     # a kind of node
#   perl tools/touched.pl -t '' TieRow AddNode         # a change that requests make
#   perl tools/touched.pl -t '' ToRoot root_dir        # the root of a process
#   perl tools/touched.pl -t 'bad number' BadNumber    # a fault of a listing or script
#   perl tools/touched.pl -t '' Fault.LacksLetters     # a reason: a check that fails
#   perl tools/touched.pl -t '' Misfit.Exists          # what is wrong with an object
#   perl tools/touched.pl -t '' Stop.NoEntry           # where a path stops
#   perl tools/touched.pl -t '' TextFault.LongText     # what is wrong with a path's text
#   perl tools/touched.pl -t '' has_changed touched_by # when a question on a script is asked again
#   perl tools/touched.pl -t '' standard_rule          # what a call needs by the standard rules
#   perl tools/touched.pl -t '' most_alternatives      # the text of a table of calls
#   perl tools/touched.pl -t '' Form form              # a format of listings
#   perl tools/touched.pl -t '' listing_line LineEntry # a line of a listing
#   perl tools/touched.pl -t '' SlabTree               # a way to keep a tree
#   perl tools/touched.pl -t '' items_below list_items # the order of objects
#   perl tools/touched.pl -t '' begin_cost cost        # a bound on work
#
# -l prints the lines. -C TOP is the top folder of the repository, if it is not that of this file. A
# file that takes the thing whole, and asks nothing of it, is not found, and need not change; one
# that tells it by another name is not found either (below). A word that says something else
# elsewhere (Link, 14) brings some files too many. The status is 1 where nothing is found.
#
# No word finds this:
#
# - A call. `calls` with `call_count`, and Call::ALL with Call::COUNT, list it. Where computing
#   tells the same of all calls, a proof has an arm for one and an arm for the others (`call_at_bit
#   _ = refl`), so a call that changes nothing, or makes a file by its path alone, wants none. By
#   which promises calls change a tree says `changing_promises`. A name that is longer than all
#   others widens MOST_CALL_LINE. A call has its words in scripts by the rules by which it has a set
#   of promises. In tools/, list.pl has which fields of a script are paths, lib/Pua/Lists.pm under
#   which head a page has the call, lib/Pua/Calls.pm the system's call.
# - A kind. A command line has the words of kinds; a type of file is one of Known. What a directory
#   is beside, as a mount point, is no kind but a field of Node, which edits and copies keep.
# - A request. What forks is also in fork.rt and world.rt of pua_script and in watches.rt of
#   pua_since. A request with two paths has a file of its own, as rename.rt.
# - A change. Begin with Decide, Guards and Replay of pua_script/specs. If it wants room: Laws
#   there, RequestRoom of its proofs, and Reasons, Checked and Truths of pua_why/specs.
# - The root of a process comes in from below: wherever a tree is known, `/` is node 0 by number or
#   by name. First pua_path, whose parent of the root is said too (Resolution, Traces, Goes); then
#   each climb (cover.rt of pua_policy, is_within of pua_tree, openings.rt and prospects.rt of
#   pua_ever, tree_paths.rt of pua_why, places.rt of pua_texts), the state of a process, what an
#   exec keeps, the base of an audit and the first directory of lists.
# - A fault. The first one is reported, so its place among the others counts: in Listing and Grammar
#   of pua_tree/specs, or in Scripts and ScriptGrammar of pua_script/specs, and by these in the
#   proofs Gathering, ListingGrammar and SoFar, or Grammar. bench/plain/pua.rs has the same order. A
#   status other than 1 is in fault.rt of pua_tool and in Statuses. Faults share constants in
#   fault.rt.
# - A reason. Where a request is served, the code forgets which check refused it: the reason is
#   defined beside the answer, and joined to it by `verdict_law` and `answer_law`. Begin with
#   Reasons, Keys, Texts, Truths and Laws of pua_why/specs. A check of its own is a field of Telling
#   or Asker, and has its place in `decide_by`. A stop is also a case of TraceLaws and Walks of
#   pua_path, made in resolver/tracing.rt. Whether its line has a since: `date_of` in Texts,
#   reason_line.rt of pua_since. An errno comes with its check.
# - When a question is asked again. What is left out in Changes the check refuses (`LeavesAsIs`);
#   that a line touches no more than Concerns says is proved in Touching, that other questions are
#   answered the same in Sparing.
# - A format of listings. list.rt, list_edits.rt, slots.rt and slab_tree.rt of pua_tree keep a tree;
#   list.pl writes a listing, page.pl and conform.pl (lib/Pua/Perform.pm) read it, Worlds.pm and
#   Tree.pm of tests/lib do both, bench/plain/pua.rs reads it too. All above is checked again, and
#   contracts stay. Larger listings: each call is judged, and each veil of a list for ever looked
#   at, by a climb to the root; `begin_cost` grows with the square of the nodes, times the
#   components; no command says since which line a tree is full (`date_of` of pua_why).
# - A way to keep a tree is three traits of pua_tree: FileTree, Judged (by which edits are judged)
#   and Gathered (by which a reader of listings fills it). They ask some things twice, by other
#   names (`look` and `node_at`, `kind` and `kind_of`). ProgramTree of pua_tool is the program's.
# - An order. That of an audit stays: the reach, resuming and their laws are this order. Objects
#   stand by `items_below` (`ObjectsRise` states it), and lists for ever with them; calls by
#   `call_number`, as in audits; a state's lines by States of pua_texts. kept_path.rt is right by
#   any order, and fast by this one.
# - A line of a state stands in States, ObjectLines, EverLines, TogetherLines and WhyLines of
#   pua_texts/specs, in state.rt, member_states.rt and process_head.rt. That of what promises open
#   is in Openings, and that of an answer in Openings of pua_why/specs; their table, by which
#   requests are answered, is in Openings and opening.rt of pua_script, tools/lib/Pua/Calls.pm,
#   bench/plain/pua.rs and docs/DEFINITIONS.md. No list is judged by it, but lists for ever go by
#   TmpTable of pua_calls/specs, since tmppath opens what changes names. A further promise that
#   opens such calls has to stand there too (the proof is Widened of pua_script).
# - How ways are looked for (pua_how/src/plan) is in no contract: tests/how.t counts what is lost.
# - A bound on work. Bounds of pua_path and of pua_audit, the clauses `cost` of pua_path, pua_policy
#   and pua_audit; which entries a walk reads, Lists and Live of pua_steps.
# - A field of a process. A fork copies it.
# - The version is in version.rt of pua_words, README, docs/PROVED.md and tests/examples.t. A new
#   toolchain: release/ir2c stops at a line that it doesn't know (`make dist`).
use strict;
use warnings;
use Cwd qw(abs_path);
use File::Basename qw(dirname);
use File::Find qw(find);
use Getopt::Long qw(:config bundling);

my ($lines, $top, @texts);
my $USAGE = "usage: touched.pl [-l] [-C TOP] [-t TEXT]... [WORD...]\n";
my $is_read = GetOptions('l' => \$lines, 'C=s' => \$top, 't=s' => \@texts);
if (!$is_read || !(@ARGV || @texts) || grep { !/^\w+(?:\.\w+)?\z/ } @ARGV) {
    print STDERR $USAGE;
    exit 2;
}
$top = dirname(dirname(abs_path(__FILE__))) if !defined $top;
chdir $top or die "touched.pl: $top: $!\n";

# Each word by its last part, and those that have a type, with it.
my @words = map { /(\w+)\z/ } @ARGV;
my @typed = map { /(\w+)\.(\w+)/ ? [$1, $2] : () } @ARGV;
if (@texts) { @texts = grep { $_ ne '' } @texts }
else        { @texts = map { lc, /^[A-Z0-9]+\z/ ? $_ : () } grep { /[A-Za-z]/ } @words }

# A word stands alone between what is no part of a name, and a text also between what is no part of
# a call's name.
my $text = any('(?<![\w-])', '(?![\w-])', @texts);
my $wanted = any('', '', @words, @texts, map { join ', ', map { "b'$_'" } split // } @texts);

# The groups in their order; a file is in the first that has it. In code what is code is told from
# texts; in data a number says nothing.
my @GROUPS = (
    ['code', qr{^crates/(?!pua_refused|pua_examples)\w+/src/(.*\.rt)\z}],
    ['worked rows', qr{^crates/(?!pua_refused|pua_examples)\w+/specs/(\w*Examples\.antt)\z}],
    ['definitions', qr{^crates/(?!pua_refused|pua_examples)\w+/specs/(.*\.antt)\z}],
    ['proofs', qr{^crates/(?!pua_refused|pua_examples)\w+/proofs/(.*\.antt)\z}],
    ['edits', qr{^crates/\w+/must-fail/(.*)\z}],
    ['claims and programs', qr{^crates/(?:pua_refused|pua_examples)\w*/(.*\.(?:rt|antt))\z}],
    ['tests', qr{^tests/(.*)\z}],
    ['tools', qr{^tools/(.*)\z}],
    ['bench', qr{^bench/(.*)\z}],
    ['examples', qr{^examples/[^/]+/(.*)\z}],
    ['manual pages', qr{^man/(.*)\z}],
    ['documents', qr{^(?:docs/)?([^/]*\.md)\z}],
);

my @files;
my @tops = grep { -e } qw(README.md crates tests tools bench examples man docs);
find({ wanted => \&note, no_chdir => 1 }, @tops);
my %found;
for my $file (sort @files) {
    my ($group) = grep { $file =~ $_->[1] } @GROUPS or next;
    my $whole = content($file);
    next if $whole !~ $wanted;
    my @hits = hits_in($file, $whole) or next;
    push @{ $found{ $group->[0] } }, [$file, $file =~ $group->[1], @hits];
}
print_group($_->[0], @{ $found{ $_->[0] } }) for grep { $found{ $_->[0] } } @GROUPS;
exit !%found;

sub note {
    if (-d) { $File::Find::prune = 1 if m{/(?:out|\.git|\.rt)\z} }
    elsif (-f && !m{/(?:\.[^/]*|touched\.p?[lt])\z}) { push @files, s{^\./}{}r }
    return;
}

sub content {
    my ($name) = @_;
    open my $in, '<:raw', $name or die "touched.pl: $name: $!\n";
    local $/;
    my $all = <$in>;
    return defined $all ? $all : '';
}

# A pattern for one of some words between two others; one that is nowhere, if there is none.
sub any {
    my ($before, $after, @any) = @_;
    return qr/(?!)/ if !@any;
    my $choice = join '|', map { quotemeta } @any;
    return qr/$before(?:$choice)$after/;
}

# A pattern for the words in a file. The case of an enum counts without its type where the enum is
# declared, and where it is imported from it, at once or by the file of a crate's proofs that passes
# names on.
sub words_in {
    my ($file, $whole) = @_;
    return any('(?<!\w)', '(?!\w)', @words) if !@typed || $file !~ /\.(?:rt|antt|edit)\z/;
    my @alone = map { $_->[1] } grep { imports(@$_, $whole) } @typed;
    my @whole = map { my ($type, $name) = @$_; map { "$type$_$name" } '::', '.' } @typed;
    return any('(?<!\w)', '(?!\w)', grep({ !/\./ } @ARGV), @alone, @whole);
}

sub imports {
    my ($type, $name, $whole) = @_;
    my $among = qr/\.\{[^\}]*(?<!\w)$name(?!\w)/;
    return 1 if $whole =~ /\b$type\.TheVariants$among|\benum $type\b/;
    my ($crate) = $whole =~ /\b(\w+)\.proofs\.Common$among/ or return;
    my $common = "crates/$crate/proofs/Common.antt";
    return -e $common && content($common) =~ /\b$type\.TheVariants$among/;
}

# The numbers of the lines of a file in which a word or a text stands.
sub hits_in {
    my ($file, $whole) = @_;
    my $word = words_in($file, $whole);
    my ($code, $quoted) = parts_of($file, $whole);
    my @code = split /\n/, $code;
    my @quoted = split /\n/, $quoted;
    my $last = @code > @quoted ? $#code : $#quoted;
    return grep {
        my $number = $_ - 1;
        grep { defined $_->[0] && $_->[0] =~ $_->[1] }
            [$code[$number], $word], [$quoted[$number], $text];
    } 1 .. $last + 1;
}

# The code of a file and its texts, in the same lines, without comments and imports.
sub parts_of {
    my ($file, $whole) = @_;
    if ($file =~ /\.(?:rt|rs|rattle|edit)\z/) {
        my $kept = qr{"(?:[^"\\]|\\.)*"|'(?:[^'\\\n]|\\[^\n]+?)'}s;
        my $bytes = qr{(?:b'[^'\\\n]',?\s*){2,}};
        $whole =~ s{($kept)|//[^\n]*}{defined $1 ? $1 : ''}ge;
        $whole =~ s{\[($bytes)\]}{'"' . join('', $1 =~ /b'(.)'/g) . '"' . blank($1)}ge;
        $whole =~ s{^([ \t]*(?:pub(?:\([^)]*\))? )?(?:ghost )?use [^;]*;)}{blank($1)}gme;
    }
    elsif ($file =~ /\.antt\z/) {
        $whole =~ s{("(?:[^"\\]|\\.)*")|(?<!\S)--[^\n]*}{defined $1 ? $1 : ''}gse;
        $whole =~ s{^((?:pub )?use [^\n\{]*(?:\{[^\}]*\})?[^\n]*)}{blank($1)}gme;
    }
    elsif ($file =~ /\.(?:pl|pm|t|py|sh)\z/) { $whole =~ s/(?:^|(?<=\s))#[^\n]*//gm }
    elsif ($file =~ /\.toml\z/)              { $whole =~ s/^#[^\n]*//gm }
    elsif ($file =~ /\.[1-9]\z/)             { $whole =~ s/^\.\\"[^\n]*//gm }
    return ('', $whole) if $file !~ /\.(?:rt|rs|rattle|edit|antt|pl|pm|t|py|sh)\z/;
    return ($whole, $whole) if $file !~ /\.(?:rt|rs|rattle|edit|antt)\z/;
    my $code = $whole =~ s{("(?:[^"\\]|\\.)*")}{blank($1)}gser;
    my $quoted = join '', map { /^"/ ? $_ : blank($_) } split /("(?:[^"\\]|\\.)*")/s, $whole;
    return ($code, $quoted);
}

sub blank {
    my ($some) = @_;
    return "\n" x ($some =~ tr/\n//);
}

# Prints a group: how much it has, and then its files, those of one folder together.
sub print_group {
    my ($name, @found) = @_;
    my $count = 0;
    $count += @$_ - 2 for @found;
    printf "%s: %s, %s\n", $name, counted(scalar @found, 'file'), counted($count, 'line');
    my (@folders, %in);
    for (@found) {
        my ($file, $short, @hits) = @$_;
        my ($folder) = $file =~ m{^(?:crates/|examples/)?([^/]+)/} ? $1 : '.';
        push @folders, $folder if !$in{$folder};
        push @{ $in{$folder} }, $short . ' ' . @hits;
        next if !$lines;
        my @all = split /\n/, content($file);
        print map { "  $file:$_: " . $all[$_ - 1] =~ s/^\s+//r . "\n" } @hits;
    }
    return if $lines;
    print map { "  $_: " . join(', ', @{ $in{$_} }) . "\n" } @folders;
    return;
}

sub counted {
    my ($count, $what) = @_;
    return $count == 1 ? "1 $what" : "$count ${what}s";
}
