#!/usr/bin/perl
# Tests of the documents: perl tests/docs.t [PROGRAM]
#
# What a page shows is what happens, and what it names is there:
#
# - Each block of README.md and docs/ that begins with `$ ` is run, in the folder that its page
#   says, with the program first on the path, and has to print what the page shows. A line `..` on a
#   page stands for lines that it leaves out. In docs/EXAMPLES.md each other line that begins with
#   `pua ` is run too, and has to complain of nothing; what is quoted there stands in a file of its
#   story.
# - The EXAMPLES of each manual page are run over the files that man/pua.1 shows. Where such a page
#   shows no output, the commands only have to complain of nothing.
# - The code in docs/CALLING.md is that of the proved callers, function by function.
# - Each path on a page is there, each link, and each heading of another page that it cites; each
#   file in docs/ARCHITECTURE.md, and each name there and on the other pages about the code. README
#   has at most 180 lines, ARCHITECTURE at most 6,000 words, and README with docs/ at most 38,000.
# - docs/PROVED.md has at most 2,800 words and names each law; tools/reference.pl prints each public
#   function that tests/data/refused names.
# - The table of calls without a path in man/pua.1 is that of tools/trace.pl, and the table of openings
#   in docs/DEFINITIONS.md that of the tools and tests.
# - Help, usage lines, the manual pages and README have the same options, of the program and of each
#   tool.
#
# Where the sources of the program are not there, as in a release, what needs them is left out, and
# said.
use strict;
use warnings;
use Cwd qw(abs_path);
use File::Basename qw(basename dirname);
use File::Find qw(find);
use File::Temp qw(tempdir);
use Test::More;

my $TOP = dirname(dirname(abs_path(__FILE__)));
my $PROGRAM = abs_path(@ARGV ? $ARGV[0] : "$TOP/crates/pua/out/pua");
defined $PROGRAM && -x $PROGRAM or die "docs.t: no such program; name one\n";
chdir $TOP or die "$TOP: $!\n";

# Where the commands of a page are run, and by which words it says so.
my %FOLDERS = (
    'README.md' => ['.', 'Each block of commands on this page begins in the top folder'],
    'docs/GUIDE.md' => ['.', 'Each block of commands begins in the top folder'],
    'docs/EXAMPLES.md' => ['examples', 'commands below are run in `examples`'],
);

# A block in which some command begins with one of these words is not run.
my %SKIPPED = (
    rt      => 'the toolchain is not asked here',
    make    => 'nothing is built or installed here',
    cc      => 'there need not be a compiler',
    ktrace  => 'a command of OpenBSD',
    kdump   => 'a command of OpenBSD',
    'perl tools/list.pl' => 'the files of this machine are not asked',
);

# What may be named though it is not there: what is built, and edits, which are a last resort.
my $MAY_LACK = qr{(?:^|/)(?:out|must-fail)(?:/|\z)};

# Options that a usage line leaves out: that of runs and audits is fixed, and these came later
# (docs/DECISIONS.md).
my %LEFT_OUT = (run => [qw(at rules why)], audit => [qw(at rules)]);

# A room for what commands write, and a folder in which the program and the tools have the names
# that pages use.
my $room = tempdir(CLEANUP => 1);
mkdir "$room/$_" or die "$room/$_: $!\n" for qw(bin tmp man);
symlink $PROGRAM, "$room/bin/pua" or die "$room/bin/pua: $!\n";
for my $tool (glob 'tools/*.pl') {
    my $path = "$room/bin/pua-" . basename($tool, '.pl');
    put($path, "#!/bin/sh\nexec perl '$TOP/$tool' \"\$@\"\n");
    chmod 0755, $path or die "$path: $!\n";
}
$ENV{PATH} = "$room/bin:$ENV{PATH}";

my $has_sources = -d 'crates';
test_pages();
test_manuals();
test_paths();
test_links();
SKIP: {
    skip 'the sources are not here', 1 if !$has_sources;
    test_calling();
    test_architecture();
    test_claim();
    test_proved();
}
test_asked();
test_pathless();
test_openings();
test_options();
test_tools();
done_testing();

sub content {
    my ($name) = @_;
    open my $in, '<:raw', $name or die "$name: $!\n";
    local $/;
    my $text = <$in>;
    return defined $text ? $text : '';
}

sub put {
    my ($name, $text) = @_;
    open my $out, '>:raw', $name or die "$name: $!\n";
    print $out $text or die "$name: $!\n";
    close $out or die "$name: $!\n";
    return;
}

# ---- Commands

sub test_pages {
    for my $page ('README.md', glob 'docs/*.md') {
        my @blocks = blocks_in($page) or next;
        my ($folder, $words) = @{ $FOLDERS{$page} || [] };
        if (!defined $folder) {
            fail("$page has commands, and this test does not know where they are run");
            next;
        }
        my $page_says = join ' ', split ' ', content($page);
        like($page_says, qr/\Q$words\E/, "$page says where its commands are run");
        test_block($folder, $_) for @blocks;
        test_stories($folder, $page) if $page eq 'docs/EXAMPLES.md';
    }
    return;
}

# The blocks of a page that begin with a command: each with its name, and its commands with what
# they print.
sub blocks_in {
    my ($page) = @_;
    my ($number, $indent, @blocks) = (0);
    for (split /\n/, content($page)) {
        $number++;
        if (defined $indent && /^$indent(.*)/) {
            push @{ $blocks[-1]{lines} }, $1;
        }
        elsif (/^( {4,})(\$ .*)/) {
            $indent = $1;
            push @blocks, { name => "$page:$number", lines => [$2] };
        }
        else { undef $indent }
    }
    $_->{commands} = [commands_in(@{ $_->{lines} })] for @blocks;
    return @blocks;
}

# The commands in the lines of a block. A command goes on after a line that ends with a bar or a
# backslash, and up to the end of the text that it takes.
sub commands_in {
    my (@commands, $end, $goes_on);
    for (@_) {
        if (!$goes_on && !defined $end) {
            if (!s/^\$ //) {
                push @{ $commands[-1]{prints} }, $_;
                next;
            }
            push @commands, { command => '', prints => [] };
        }
        $commands[-1]{command} .= "$_\n";
        if (defined $end) { undef $end if $_ eq $end }
        elsif (/<<'(\w+)'/) { $end = $1 }
        $goes_on = !defined $end && /[|\\]$/;
    }
    return @commands;
}

sub test_block {
    my ($folder, $block) = @_;
    my @commands = @{ $block->{commands} };
    my ($skipped) = grep { defined } map { skipped_for($_->{command}) } @commands;
    SKIP: {
        skip "$block->{name}: $skipped", scalar @commands if defined $skipped;
        my @printed = printed_by($folder, map { $_->{command} } @commands);
        for my $command (@commands) {
            my $printed = shift @printed;
            my @shown = @{ $command->{prints} };
            my $pattern = join '', map { $_ eq '..' ? '(?:.*\n)*?' : quotemeta($_) . '\n' } @shown;
            my ($name) = $command->{command} =~ /(.*)/;
            ok($printed =~ /\A$pattern\z/, "$block->{name}: $name")
                or diag("printed:\n$printed", "the page has:\n", map { "$_\n" } @shown);
        }
    }
    return;
}

# Why a command is not run, if it isn't.
sub skipped_for {
    my ($command) = @_;
    for my $part (split /&&|\|\|?|;/, $command) {
        for my $words (sort keys %SKIPPED) {
            return "$words: $SKIPPED{$words}" if $part =~ /^\s*\Q$words\E\b/;
        }
    }
    return;
}

# What commands print, one after another in one shell that begins in a folder. What they write to
# /tmp goes elsewhere.
sub printed_by {
    my ($folder, @commands) = @_;
    my $mark = '-- that was one command';
    s{(?<![\w./])/tmp/}{$room/tmp/}g for @commands;
    my @marked = map { "$_\necho '$mark'\n" } @commands;
    put("$room/commands", join '', "cd '$folder' || exit\n", @marked);
    system "sh '$room/commands' > '$room/printed' 2>&1 < /dev/null";
    my $printed = content("$room/printed");
    $printed =~ s{\Q$room\E/tmp/}{/tmp/}g;
    my @printed = split /^\Q$mark\E\n/m, $printed, -1;
    return map { defined ? $_ : '' } @printed[0 .. $#commands];
}

# Tests what a page of stories shows without a `$ `: a command of the program is answered, and any
# other line stands in a file of the folders that the heading names.
sub test_stories {
    my ($folder, $page) = @_;
    my ($number, $is_run, @quoted, %stands) = (0, 0);
    for (split /\n/, content($page)) {
        $number++;
        if (/^## /) {
            my @files = map { glob "$folder/$_/*" } /`([\w-]+)`/g;
            %stands = map { $_ => 1 } map { split /\n/, content($_) } @files;
        }
        $is_run = /^    \$ / || $is_run && /^    /;
        next if $is_run || !/^    (.+)/;
        my $shown = $1;
        if ($shown =~ /^pua /) {
            my ($complaint) = printed_by($folder, "$shown 2>&1 > /dev/null");
            is($complaint, '', "$page:$number: $shown");
        }
        elsif (%stands && !$stands{$shown}) { push @quoted, "$number: $shown" }
    }
    is("@quoted", '', "$page: what is quoted stands in the files of its story");
    return;
}

# ---- Manual pages

# Tests that a manual page has the calls without a path, each in the row of its promises, as
# tools/trace.pl goes by them.
sub test_asked {
    my ($table) = content('man/pua.1') =~ /^\.Bl -column "inet\|unix\S* "calls".*\n((?:.*\n)*?)\.El\n/m;
    my (%shown, $asks);
    for (split /\n/, defined $table ? $table : '') {
        $asks = $1 if s/^\.It Cm (\S+) Ta //;
        $shown{$_} = $asks for map { /^(\w+)/ } split /, */;
    }
    require "$TOP/tools/lib/Pua/Calls.pm";
    no warnings 'once';
    is_deeply(\%shown, { %Pua::Calls::ASKS }, 'man/pua.1 has the calls without a path');
    return;
}

# Tests that the program has the same calls, by each promise that one of them asks for.
sub test_pathless {
    my %shown = content('crates/pua_tool/src/pathless.rt') =~ /keyword == "(\w+)" \{\s+"([^"]+)"/g;
    my %calls;
    for my $call (sort keys %Pua::Calls::ASKS) {
        push @{ $calls{$_} }, $call for split /\|/, $Pua::Calls::ASKS{$call};
    }
    my %told = map { $_ => join ',', @{ $calls{$_} } } keys %calls;
    is_deeply(\%shown, \%told, 'so has the program, by promises');
    return;
}

# Tests that docs/DEFINITIONS.md has the openings of each promise, in their order, as the tools and the
# models of the tests go by them.
sub test_openings {
    my ($table) = content('docs/DEFINITIONS.md') =~ /^\| Promise \| Path \| Calls \| Veils \|.*\n\|.*\n((?:\|.*\n)*)/m;
    my %shown;
    for (split /\n/, defined $table ? $table : '') {
        my (undef, $promise, $paths, $calls, $veils) = split / *\| */;
        $calls =~ s/, /,/g;
        $calls .= ' veils' if $veils eq 'asked';
        push @{ $shown{$promise} }, map { "$_ $calls" } $paths =~ /`([^`]+)`/g;
    }
    require "$TOP/tools/lib/Pua/Calls.pm";
    no warnings 'once';
    is_deeply(\%shown, { %Pua::Calls::OPENINGS }, 'docs/DEFINITIONS.md has the openings');
    return;
}

# Runs the examples of manual pages, in a folder with the listing and the script that man/pua.1
# shows.
sub test_manuals {
    my %texts = texts_shown('man/pua.1');
    is(join(' ', sort keys %texts), 'listing script', 'man/pua.1 shows a listing and a script');
    put("$room/man/$_", $texts{$_}) for keys %texts;
    put("$room/man/table", content('examples/free-stat/table'));
    symlink "$TOP/tools", "$room/man/tools" or die "$room/man/tools: $!\n";
    my ($answers) = printed_by("$room/man", 'pua run --rules openbsd listing script');
    put("$room/man/answers", $answers);
    for my $page (sort { length $a <=> length $b or $a cmp $b } glob 'man/*.1') {
        test_example($page, $_) for map { commands_in(@$_) } examples_of($page);
    }
    return;
}

# Runs one command of a manual page. Where the page shows no output, only a complaint is wrong.
sub test_example {
    my ($page, $example) = @_;
    my $command = $example->{command};
    my $name = "$page: " . $command =~ s/\n.*//sr;
    my $skipped = skipped_for($command);
    SKIP: {
        skip "$name: $skipped", 1 if defined $skipped;
        my $shown = join '', map { "$_\n" } @{ $example->{prints} };
        $command = "{ $command} 2>&1 > /dev/null" if $shown eq '';
        my ($printed) = printed_by("$room/man", $command);
        is($printed, $shown, $name);
    }
    return;
}

# The texts that the EXAMPLES of a page show, each after the name of its file.
sub texts_shown {
    my ($page) = @_;
    my ($name, %texts);
    for my $part (split /^\.Ed\n/m, section($page, 'EXAMPLES')) {
        my ($before, $text) = split /^\.Bd -literal.*\n/m, $part;
        next if !defined $text || $text =~ /^\$ /m;
        ($name) = $before =~ /.*^\.Pa (\w+)/ms;
        $texts{$name} = $text;
    }
    return %texts;
}

# The blocks of commands in the EXAMPLES of a page.
sub examples_of {
    my ($page) = @_;
    my ($within, @blocks);
    for (split /\n/, section($page, 'EXAMPLES')) {
        s/\\e/\\/g;
        if    (s/^\.Dl (?=\$ )//)  { push @blocks, [$_] }
        elsif (/^\.Bd/)            { push @blocks, []; $within = 1 }
        elsif (/^\.Ed/)            { $within = 0 }
        elsif ($within)            { push @{ $blocks[-1] }, $_ }
    }
    s/^# .*// for map { @$_ } @blocks;
    @$_ = grep { $_ ne '' } @$_ for @blocks;
    return grep { @$_ && $_->[0] =~ /^\$ / } @blocks;
}

sub section {
    my ($page, $name) = @_;
    return content($page) =~ /^\.Sh $name\n(.*?)(?=^\.Sh |\z)/ms ? $1 : '';
}

# ---- The code in docs/CALLING.md

sub test_calling {
    my %proved = functions_in(content('crates/pua_examples/src/calling.rt'), '');
    my %shown = functions_in(content('docs/CALLING.md'), '    ');
    my ($here, $there) = map { join ' ', sort keys %$_ } \%shown, \%proved;
    is($here, $there, 'CALLING goes through the functions of calling.rt');
    for my $name (sort keys %shown) {
        my ($here, $there) = ($shown{$name}, $proved{$name});
        next if !$there;
        is($here->{head}, $there->{head}, "CALLING: what $name takes and gives");
        is($here->{body}, $there->{body}, "CALLING: the body of $name");
        my %has = map { $_ => 1 } @{ $there->{clauses} };
        ok($has{$_}, "CALLING: a clause of $name") or diag($_) for @{ $here->{clauses} };
    }
    return;
}

# The functions in a text whose lines of code are indented by so much: of each its head, its clauses
# and its body.
sub functions_in {
    my ($text, $indent) = @_;
    my %functions;
    my $fn = qr/^$indent(?:pub(?:\(crate\))? )?(fn (\w+).*?\n)$indent\{\n(.*?\n)$indent\}\n/ms;
    while ($text =~ /$fn/g) {
        my ($head, $name, $body) = ($1, $2, $3);
        s/^$indent//mg for $head, $body;
        my ($taken, @clauses) = split /^    (?=ensures|requires)/m, $head;
        $taken = join ' ', split ' ', $taken;
        $taken =~ s/\( /(/g;
        $taken =~ s/, \)/)/g;
        @clauses = map { join ' ', split } @clauses;
        $functions{$name} = { head => $taken, body => $body, clauses => \@clauses };
    }
    return %functions;
}

# ---- The names in docs/ARCHITECTURE.md, and paths on any page

# A path below one of these folders is there, on whichever page it stands.
sub test_paths {
    my @folders = (qw(docs examples man tests tools), $has_sources ? qw(bench crates release) : ());
    my $below = join '|', @folders;
    my ($paths, @missing) = (0);
    for my $page ('README.md', glob 'docs/*.md') {
        for my $path (content($page) =~ m{`((?:$below)/[^`\s]*)}g) {
            $paths++;
            next if $path =~ $MAY_LACK || grep { -e } map { glob } $path, "$path.rt", "$path.antt";
            push @missing, "$page: $path";
        }
    }
    is("@missing", '', "the paths on all pages are there: $paths");
    return;
}

# A link leads to a file that is there, and what a page cites of another one is a heading there, or
# begins a paragraph or a row in bold.
sub test_links {
    my @pages = ('README.md', glob 'docs/*.md');
    my ($cited, @missing) = (0);
    for my $page (@pages) {
        my $text = join ' ', split ' ', content($page);
        for my $link ($text =~ /\]\(([^)#:\s]+)\)/g) {
            next if !$has_sources && $link =~ m{^(?:bench|crates|release)/};
            push @missing, "$page: $link" if !-e dirname($page) . "/$link";
        }
        my @cites = $text =~ /`(docs\/\w+\.md)`(?:,| says, under| \() ?"([^"]+)"/g;
        my @words = $text =~ /"([^"]+)" in `(docs\/\w+\.md)`/g;
        push @cites, reverse splice @words, 0, 2 while @words;
        while (my ($there, $heading) = splice @cites, 0, 2) {
            $cited++;
            next if -e $there && content($there) =~ /^(?:#+ |(?:\| )?\*\*)(?:\d+\. )?\Q$heading\E/m;
            push @missing, "$page: $there, $heading";
        }
    }
    is("@missing", '', "links lead somewhere, and headings that are cited are there: $cited");
    my $lines = () = content('README.md') =~ /\n/g;
    cmp_ok($lines, '<=', 180, "README is one page: $lines lines");
    my $words = () = join("\n", map { content($_) } 'README.md', glob 'docs/*.md') =~ /\S+/g;
    cmp_ok($words, '<=', 38_000, "README and docs are short: $words words");
    return;
}

# Each item of the page (a paragraph, an entry of a list, a row) names files of the crates that it
# names, or else of any crate. A name that is no file stands somewhere in the sources.
sub test_architecture {
    my (%file_of, %word);
    my $note = sub {
        my $file = $File::Find::name =~ s{^\./}{}r;
        $File::Find::prune = 1 if $file =~ m{(?:^|/)(?:\.git|out|must-fail)\z};
        my $name = basename($file);
        push @{ $file_of{$_} }, $file for $name, $name =~ /(\w+)\.(?:rt|antt)\z/;
        return if !-f || $file !~ m{^(?:crates|tests|tools|bench|release)/};
        $word{$_} = 1 for content($_) =~ /\w+/g;
    };
    find({ wanted => $note, no_chdir => 1 }, '.');
    my @crates = map { basename($_) } glob 'crates/*';
    my ($names, @missing) = (0);
    for my $item (items_of(content('docs/ARCHITECTURE.md'))) {
        my %named = map { $_ => 1 } $item =~ /\b(pua\w*)/g;
        my @near = grep { $named{$_} } @crates;
        my $folder = $item =~ /^- \*Proofs/ ? 'proofs'
            : $item =~ /^\| `pua\w*`: / ? 'specs' : undef;
        for my $name ($item =~ /`([^`]+)`/g) {
            $names++;
            next if $name =~ $MAY_LACK || stands($name, \%file_of, \%word, $folder, @near);
            push @missing, $name;
        }
        my @files = files_in($item);
        $names += @files;
        push @missing, grep { my $file = $_; !grep { -e "crates/$file$_" } '', '.antt' } @files;
    }
    is("@missing", '', 'what ARCHITECTURE names is there');
    cmp_ok($names, '>', 100, "ARCHITECTURE: $names names");
    my $words = () = content('docs/ARCHITECTURE.md') =~ /\S+/g;
    cmp_ok($words, '<=', 6000, "ARCHITECTURE is short: $words words");
    for my $page (map { "docs/$_.md" } qw(CALLING DECISIONS DEFINITIONS PROVED)) {
        my @unknown = grep { !stands($_, \%file_of, \%word) }
            grep { /^[\w:.]+\z/ } content($page) =~ /`([^`]+)`/g;
        is("@unknown", '', "what $page names is there");
    }
    return;
}

# The claim is as long as the page says: so many files, and about so many lines, without imports
# and blank lines.
sub test_claim {
    my ($files, $lines, $why) = (0, 0, 0);
    my $page = content('docs/ARCHITECTURE.md');
    while ($page =~ /^\| `(pua_\w+)`: [^|]*\| ([^|]*) \|/mg) {
        my ($crate, $named) = ($1, $2);
        $named =~ s/\([^)]*\)//g;
        while ($named =~ /`([A-Z]\w+)`(?: of `(pua_\w+)`)?/g) {
            my $text = content('crates/' . ($2 || $crate) . "/specs/$1.antt");
            $text =~ s/^(?:pub )?use [^\n\{]*(?:\{[^\}]*\})?[^\n]*\n//mg;
            my $count = () = $text =~ /^.*\S/mg;
            $files++;
            $lines += $count;
            $why += $count if $crate eq 'pua_why';
        }
    }
    my @said = (join ' ', split ' ', $page) =~ /: (\d+) files, some ([\d,]+) lines.*?The row of `pua_why`, (\d+) lines/;
    s/,// for @said;
    is($files, $said[0], 'ARCHITECTURE: the files of the claim');
    cmp_ok(abs($lines - $said[1]), '<=', 50, "ARCHITECTURE: the lines of the claim, $lines");
    cmp_ok(abs($why - $said[2]), '<=', 50, "ARCHITECTURE: those for reasons, $why");
    return;
}

# What a contract says is printed, and the page on what is proved has only what stands in none. It
# names each law, but examples and those on the limits of a crate.
sub test_proved {
    my $page = content('docs/PROVED.md');
    my $words = () = $page =~ /\S+/g;
    cmp_ok($words, '<=', 2800, "PROVED is short: $words words");
    my $printed = `$^X -T tools/reference.pl 2>&1`;
    is($?, 0, 'tools/reference.pl finds each statement of a law') or diag($printed =~ /^(reference\.pl: .*)/mg);
    my %part = map { /^## `(\w+)`/ ? ($1 => $_) : () } split /^(?=## )/m, $printed;
    my @functions = content('tests/data/refused') =~ /^(\w+::\S+)/mg;
    my $is_printed = sub {
        my ($crate, $name) = shift =~ /^(\w+)::(.*)/;
        return ($part{$crate} || '') =~ /^#### `$name`$/m;
    };
    my @unprinted = grep { !$is_printed->($_) } @functions;
    is("@unprinted", '', 'it prints each public function that tests/data/refused names: ' . @functions);
    my @laws = map { /^#### `(\w+)`$/mg } $printed =~ /^### Laws of [^\n]*\n(.*?)(?=^## |\z)/msg;
    my @unnamed = grep { !/_examples\z|\Alimits_law\z/ && $page !~ /`$_`/ } @laws;
    is("@unnamed", '', 'PROVED names each law: ' . @laws . ' with examples');
    return;
}

# The files that an item names with their folder: `pua_a/specs`: `Names` (a remark), `Tree`; or
# `Names` and `Tree` of `pua_a/specs`.
sub files_in {
    my ($item) = @_;
    my $folder = qr{`(pua_\w+/(?:src|specs|proofs))`};
    my $name = qr{`[A-Z]\w+`|`[\w/]+\.rt`};
    my $between = qr{(?:\s\([^)]*\))?(?:,|\sand)?\s};
    my @files;
    while ($item =~ /$folder:\s((?:(?:$name)$between?)*)/g) { push @files, [$1, $2] }
    while ($item =~ /((?:(?:$name)$between)+)of\s$folder/g) { push @files, [$2, $1] }
    my @names;
    for (@files) {
        my ($where, $named) = @$_;
        $named =~ s/\([^)]*\)//g;
        push @names, map { "$where/$_" }
            grep { /\.rt\z/ || $where !~ /src/ } $named =~ /`([^`]+)`/g;
    }
    return @names;
}

sub items_of {
    my ($text) = @_;
    my @items = ('');
    for (split /\n/, $text) {
        push @items, '' if /^(?:\s*- |\||#|$)/;
        $items[-1] .= "$_\n";
    }
    return @items;
}

# Whether what a page names is there, in these crates if it is theirs.
sub stands {
    my ($name, $file_of, $word, $files, @near) = @_;
    my ($first) = $name =~ /(\S+)/;
    my $anywhere = $file_of->{$first} || [];
    my $in_near = @near ? join '|', @near : '\w+';
    if ($first =~ m{^[\w*./-]+\z} && $first =~ m{/|\.(?:rt|antt|t|p[lm]|sh|toml|py|rs|md|txt)\z}) {
        my @folders = map { glob "crates/$_ crates/$_/* crates/$_/*/*" } @near ? @near : '*';
        for my $folder (qw(. crates tests tests/data tests/lib tools/faults), @folders) {
            return 1 if grep { -e } map { glob "$folder/$first$_" } '', '.rt', '.antt';
        }
        return grep { !m{^crates/} } @$anywhere;
    }
    if (defined $files && $name =~ /^[A-Z]\w+\z/) {
        return grep { m{^crates/(?:$in_near)/$files/} } @$anywhere;
    }
    return 1 if $name !~ /^[\w:.\$]+\z/;
    return !grep { !$word->{$_} && !$file_of->{$_} } $name =~ /\w+/g;
}

# ---- Options

# The options of the program's commands, as each place has them.
sub test_options {
    my %manual = synopsis_of('man/pua.1');
    my %usage = usages_of(content('tests/data/rows.toml') =~ /^\w+ = "pua: usage: (.*)"$/mg);
    my @shown = content('README.md') =~ /^    (pua \w+ .*(?:\n {6,}.*)*)/mg;
    my %readme = usages_of(grep { /\[--/ } @shown);
    my %all;
    for my $command (qw(run tree objects why tight how audit)) {
        my @help = content("tests/data/help/$command") =~ /^ +(?:-\w, )?--([a-z]+)/mg;
        my $help = join ' ', sort grep { $_ ne 'help' } @help;
        $all{$_} = 1 for split ' ', $help;
        is($manual{$command}, $help, "$command: man/pua.1 has the options of help");
        is($readme{$command}, $help, "$command: README has the options of help") if %readme;
        my @later = grep { $help =~ /\b$_\b/ } @{ $LEFT_OUT{$command} || [] };
        my $usage = join ' ', sort split(' ', $usage{$command}), @later;
        is($usage, $help, "$command: its usage line has the options of help");
    }
    my $all = join ' ', sort keys %all;
    my @told = section('man/pua.1', 'DESCRIPTION') =~ /^\.It Fl -(\w+)/mg;
    is(join(' ', sort @told), $all, 'man/pua.1 tells of each option');
    my %told = map { $_ => 1 } map { /`--(\w+)/g } content('README.md') =~ /^(\| `--.*?) \|/mg;
    is(join(' ', sort keys %told), $all, 'README tells of each option') if %told;
    return if !$has_sources;
    my ($rows, $specs) = map { join "\n", sort { $a cmp $b } content($_) =~ /pua: usage: [^"]*/g }
        'tests/data/rows.toml', 'crates/pua_words/specs/Usages.antt';
    is($rows, $specs, 'the usage lines are those of the definition');
    return;
}

# The options of each command of a page's synopsis.
sub synopsis_of {
    my ($page) = @_;
    my %options;
    for my $use (split /^\.Nm pua\n/m, section($page, 'SYNOPSIS')) {
        my ($command) = $use =~ /^\.Cm (\w+)/ or next;
        $options{$command} = join ' ', sort $use =~ /Fl -(\w+)/g;
    }
    return %options;
}

# The same of lines as `pua COMMAND [--OPTION] ..`.
sub usages_of {
    my %options;
    for my $use (map { split /(?:^|[ ;])(?=pua )/ } @_) {
        my ($command) = $use =~ /^pua (\w+)/ or next;
        $options{$command} = join ' ', sort $use =~ /--([a-z]+)/g;
    }
    return %options;
}

# The options of the tools, in their usage line and in their pages.
sub test_tools {
    for my $page (glob 'man/pua-*.1') {
        my ($tool) = $page =~ /pua-(\w+)/;
        my ($usage) = content("tools/$tool.pl") =~ /usage: \$NAME (.*?)\\n"/s;
        my @own = map { letters($_) } $usage =~ /\[-(-?\w+(?: \w+)?)\]/g;
        my @shown = map { letters($_) } section($page, 'SYNOPSIS') =~ /^\.Op Fl (.*)/mg;
        my $told = section($page, 'DESCRIPTION');
        my @untold = grep { $told !~ /^\.(?:It )?Fl $_\b/m } map { /(-?\w+)/ } @own;
        is("@{[sort @shown]}", "@{[sort @own]}", "$page: the synopsis has the options of the tool");
        is("@untold", '', "$page: each option is told of");
    }
    return;
}

# Options as `kv`, `m FILE` or `m Ar file`: a letter each, with a colon if it takes a value; and long ones, as `-room DIR`
# or `-room Ar directory`, whole.
sub letters {
    my ($letters, $value) = split ' ', shift;
    return defined $value ? "$letters:" : $letters =~ /^-/ ? $letters : split //, $letters;
}
