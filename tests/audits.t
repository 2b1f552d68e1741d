#!/usr/bin/perl
# Tests of `pua run`, `pua audit` and `pua objects` beside a plain model, over random worlds that are the same on each
# machine, over the examples, and over the listings and scripts of the rows of data/rows.toml:
#
#     perl tests/audits.t [PROGRAM]
#
# In each world the program has to write, to the letter, what the model (Model.pm) finds by trying all words. Beside
# that an audit and a list of objects are compared with one another: what the path of each pair names has a line with
# the pair's call, and each line that the audit is deep enough for is found with each of its calls.
use strict;
use warnings;
use FindBin qw($Bin);
use lib "$Bin/lib";
use Model;
use Tables qw(content table_in);
use Test::More;
use Worlds qw(answer_of program_in worlds_told);

my $TOP     = "$Bin/..";
my $PROGRAM = program_in(@ARGV);

my $SEED   = 20240229;
my $WORLDS = 100;

# How many words an audit may have: of a random world, and of one of the others, of which there are many.
my $WORDS       = 400;
my $WORDS_GIVEN = 100;

# After how many of its lines an audit is resumed, beside a pair that need not be one.
my $RESUMED = 1;

# A name that stands in no tree here.
my $NOWHERE = 'nowhere';

# How many lines around the first that differs a diagnostic shows.
my $SHOWN = 3;

my %count = map { $_ => 0 } qw(starts worlds answers states objects audits pairs tried resumed lines whole);

# What the program writes to these words. A fault is a text that no model writes.
sub pua {
    my ($files, @words) = @_;
    my ($status, $text, $fault) = answer_of($PROGRAM, $files, @words);
    $count{starts}++;
    return $status == 0 && $fault eq '' ? $text : "$text(status $status) $fault";
}

# The first lines of a text from that on which it differs from another.
sub differing {
    my ($text, $other) = @_;
    my @lines = split /^/, $text;
    my @others = split /^/, $other;
    my $at = 0;
    $at++ while $at < @lines && $at < @others && $lines[$at] eq $others[$at];
    return join '', map { $_ < @lines ? '    ' . ($_ + 1) . ": $lines[$_]" : '' } $at .. $at + $SHOWN - 1;
}

# Passes where a text is as expected. Where it isn't, shows the world, the command and the first lines that differ.
sub is_text {
    my ($text, $expected, $name, $files, @words) = @_;
    return pass($name) if $text eq $expected;
    fail($name);
    diag(worlds_told($files, @words), "written:\n", differing($text, $expected), "expected:\n",
        differing($expected, $text));
    return;
}

# Passes where there is no fault.
sub is_faultless {
    my ($faults, $name, $files, @words) = @_;
    return pass($name) unless @$faults;
    fail($name);
    splice @$faults, $SHOWN if @$faults > $SHOWN;
    diag(worlds_told($files, @words), map { "$_\n" } @$faults);
    return;
}

# The longest limit, but at least 1, at which an audit with so many names beside `..` has no more words than these.
sub limit_for {
    my ($names, $most) = @_;
    my ($limit, $words) = (0, 1);
    $limit++ while ($words = $words * ($names + 1) + 1) <= $most && $limit < 5;
    return $limit || 1;
}

# A world: its files; the words that say by which rules they are read; the model, in which the script was run;
# and the text of the run.
sub world {
    my ($name, $files, @rules) = @_;
    my %how   = @rules && $rules[0] eq '--rules' ? (rules => $rules[1]) : ();
    my $table = grep { $_ eq '--table' } @rules;
    my $model = Model->new($files->{listing}, { %how, $table ? (table => $files->{table}) : () });
    my $answers = $model->run($files->{script});
    $count{answers} += $answers =~ tr/\n//;
    return { name => $name, files => $files, rules => \@rules, model => $model, answers => $answers };
}

# Tests the answers of a world.
sub test_run {
    my ($world) = @_;
    my @words = ('run', @{ $world->{rules} }, 'listing', 'script');
    is_text(pua($world->{files}, @words), $world->{answers}, "$world->{name}: the answers", $world->{files}, @words);
    return;
}

# Tests the states and the objects of all processes. Answers the lines of the objects, by process.
sub test_lists {
    my ($world) = @_;
    my @words = ('objects', '--process', 'all', @{ $world->{rules} }, 'listing', 'script');
    my $text = pua($world->{files}, @words);
    my $model = $world->{model};
    my @processes = $model->processes;
    my $expected = join '', $world->{answers}, map { $model->list($_) } @processes;
    is_text($text, $expected, "$world->{name}: the lists of objects", $world->{files}, @words);
    my ($process, %lines);
    for (split /\n/, $text) {
        $process = $1 if /\Aobjects (\d+)\z/;
        $world->{roots}{$process} = $1 if /\Aroot (\S+) (?:closed|open)\z/;
        push @{ $lines{$process} }, $_ if m{\A[a-z]+ /\S* [a-z,-]+\z} && !/\A(?:veil|opening|root) /;
    }
    $count{states}  += @processes;
    $count{objects} += @$_ for values %lines;
    return \%lines;
}

# Tests the audit of a process, from the root or its working directory, as deep as so many words allow. Answers its
# limit and its lines, and the command.
sub test_audit {
    my ($world, $process, $base, $most) = @_;
    my $model = $world->{model};
    my %names = map { $_ => 1 } $NOWHERE, $model->veiled_names($process);
    my %letters = (%names, map { $_ => 1 } $model->names);
    my $how = { base => $base, names => [ sort keys %names ], limit => limit_for(scalar keys %letters, $most) };
    my @front = ('audit', '--limit', $how->{limit}, '--process', $process, '--base', $base);
    my @end   = (@{ $world->{rules} }, 'listing', 'script', map { Model::spelled($_) } sort keys %names);
    my $text  = pua($world->{files}, @front, @end);
    my @paths = $model->words($how);
    my @tried = $model->tried($process, @paths);
    my $expected = join '', $world->{answers}, "reach $process\n", @tried;
    is_text($text, $expected, "$world->{name}: the audit of process $process", $world->{files}, @front, @end);
    $count{audits}++;
    $count{tried} += @tried;
    $text =~ s/\A.*?^reach \d+\n//ms;
    $count{pairs} += $text =~ tr/\n//;
    return {
        process => $process, limit => $how->{limit}, base => $base, front => \@front, end => \@end,
        paths => \@paths, tried => \@tried, lines => [ split /\n/, $text ],
    };
}

# Tests an audit that is resumed after some of its lines, and after some other pair of a call that the table has.
sub test_resumed {
    my ($world, $audit, $worlds) = @_;
    my @tried = @{ $audit->{tried} };
    my @allowed = grep { $tried[$_] ne '' } 0 .. $#tried;
    my %place = map { $Model::CALLS[$_] => $_ } 0 .. $#Model::CALLS;
    my $any   = @Model::CALLS * $worlds->number(scalar @{ $audit->{paths} }) + $place{ $worlds->pick($world->{model}->calls) };
    my @after = ($any, map { $worlds->pick(@allowed) } @allowed ? 1 .. $RESUMED : ());
    for my $at (@after) {
        my ($path, $call) = ($audit->{paths}[ $at / @Model::CALLS ], $Model::CALLS[ $at % @Model::CALLS ]);
        my @words = (@{ $audit->{front} }, '--after', "$call:" . Model::spelled($path), @{ $audit->{end} });
        is_text(
            pua($world->{files}, @words), join('', @tried[ $at + 1 .. $#tried ]),
            "$world->{name}: the audit after $path $call", $world->{files}, @words
        );
        $count{resumed}++;
    }
    return;
}

# Tests an audit beside the lines of objects of the same process, both as the program wrote them.
sub test_beside {
    my ($world, $audit, $lines) = @_;
    my $model = $world->{model};
    my %calls = map { my ($kind, $path, $calls) = split / /; ("$kind $path" => ",$calls,") } @$lines;
    my @faults;
    for (@{ $audit->{lines} }) {
        my ($path, $call) = split / /;
        my $subject = $model->subject($audit->{process}, $call, $path);
        push @faults, "not among the objects: $_ ($subject)" unless ($calls{$subject} || '') =~ /,\Q$call\E,/;
    }
    push @faults, unfound($audit, below_root($world->{roots}{ $audit->{process} }, $lines)) if $audit->{base} eq 'root';
    is_faultless(\@faults, "$world->{name}: the audit of process $audit->{process} beside its objects",
        $world->{files}, @{ $audit->{front} }, @{ $audit->{end} });
    return;
}

# The lines of what stands below the root of a process, with its paths from there; all lines where the root is that of the
# tree. The root itself is left out: no path from there names it by its name.
sub below_root {
    my ($root, $lines) = @_;
    return $lines unless defined $root;
    return [ map { s{ \Q$root\E(?=/)}{ }r =~ s{\Aother \Q$root\E }{other / }r } grep { m{ \Q$root\E/|\Aother \Q$root\E } } @$lines ];
}

# The calls of those objects that an audit from the root is deep enough for which are no pairs of it. The further
# names of a directory are tried by one that is nowhere.
sub unfound {
    my ($audit, $lines) = @_;
    my %is_pair = map { $_ => 1 } @{ $audit->{lines} };
    my @unfound;
    for my $line (@$lines) {
        my ($kind, $path, $calls) = split / /, $line;
        $path = ($path eq '/' ? '' : $path) . "/$NOWHERE" if $kind eq 'other';
        my $depth = $path eq '/' ? 0 : $path =~ tr{/}{};
        $count{lines}++;
        next if $depth > $audit->{limit};
        $count{whole}++;
        push @unfound, map { "no pair: $path $_" } grep { !$is_pair{"$path $_"} } split /,/, $calls;
    }
    return @unfound;
}

# Tests a random world: the lists of all processes, which begin with the answers; audits of process 1 and of one other,
# if they live; that of process 1 resumed; and now and then the answers by themselves.
sub test_world {
    my ($world, $worlds) = @_;
    $count{worlds}++;
    test_run($world) if $worlds->number(3) == 0;
    my $lines = test_lists($world);
    my ($first, @others) = $world->{model}->living;
    for my $process (grep { defined } $first, @others ? $worlds->pick(@others) : ()) {
        my $audit = test_audit($world, $process, $worlds->pick('root', 'root', 'cwd'), $WORDS);
        test_beside($world, $audit, $lines->{$process} || []);
        test_resumed($world, $audit, $worlds) if $process == $first;
    }
    return;
}

# Tests a world that was given: the lists, and the audits of all processes that live.
sub test_given {
    my ($world) = @_;
    $count{worlds}++;
    my $lines = test_lists($world);
    for my $process ($world->{model}->living) {
        test_beside($world, test_audit($world, $process, 'root', $WORDS_GIVEN), $lines->{$process} || []);
    }
    return;
}

# Random worlds: half of them by OpenBSD's rules, and some by a table of their own.
sub test_worlds {
    my $worlds = Worlds->new($SEED);
    for my $number (1 .. $WORLDS) {
        my @rules = $worlds->number(2) ? () : ('--rules', 'openbsd');
        $worlds->by(@rules ? 'openbsd' : 'profile');
        my %files = (listing => $worlds->listing);
        $files{script} = $worlds->number(4) ? $worlds->script({}) : $worlds->moving_script;
        if ($worlds->number(5) == 0) {
            $files{table} = $worlds->table;
            push @rules, '--table', 'table';
        }
        test_world(world("world $number", \%files, @rules), $worlds);
    }
    return;
}

# The worlds of the examples: each listing with each script and the rules by which some command reads them.
sub test_examples {
    my %seen;
    for my $command (glob "$TOP/examples/*/*command") {
        my $line = content($command);
        my ($example) = $command =~ m{([^/]*)/[^/]*\z};
        my ($listing, $script) = $line =~ m{ $example/(\S*listing\S*) $example/(\S*script\S*)} or next;
        my @rules = (($line =~ /(--rules) (openbsd)/), ($line =~ m{(--table) $example/(\S+)}));
        next if $seen{"$example $listing $script @rules"}++;
        my %files = (listing => $listing, script => $script);
        $files{ $rules[-1] } = $rules[-1] if @rules && $rules[-2] eq '--table';
        $_ = content("$TOP/examples/$example/$_") for values %files;
        test_given(world("the example $example ($script @rules)", \%files, @rules));
    }
    return;
}

# The worlds of the rows that have an audit or a list and no fault: tree, script, of which a command with --at reads its
# first lines alone, and the rules of the command. Tables are those that have one call, one array and one text a line.
sub test_rows {
    my $table = table_in("$Bin/data/rows.toml");
    my %seen;
    for my $row (@{ $table->{row} }) {
        my ($command, $tree) = ($row->{command} || '', $table->{tree}{ $row->{tree} });
        next if exists $row->{fault} || $command !~ /\A(?:audit|objects)\b/ || !$tree || !defined $row->{script};
        my @rules = $command =~ /(--rules) (\w+)/;
        push @rules, '--table', 'table' if $command =~ /--table/;
        next if "@rules" =~ /table/ && !is_plain_table($row->{table});
        my %files = (listing => $tree->{listing}, map { exists $row->{$_} ? ($_ => $row->{$_}) : () } qw(script table));
        my ($first) = $command =~ /--at ([0-9]+)/;
        $files{script} = join '', grep { defined } (split /^/, $files{script})[0 .. $first - 1] if defined $first;
        next if $seen{"$row->{tree} @rules $files{script}"}++;
        test_given(world("the row '$row->{name}'", \%files, @rules));
    }
    return;
}

# Whether a table has lines of the plain forms alone.
sub is_plain_table {
    my ($text) = @_;
    return 0 unless defined $text;
    return !grep { !/\A(?:\[[a-z-]+\]|promises = \["[^\]]*"\]|veil = "\w*")\z/ } split /\n/, $text;
}

# A listing with a file and a directory, and to each of them a chain of links: /f1 leads to it, /f2 to /f1.
sub chains {
    my ($number, @lines) = (2, 'tree 1', '0 dir', '1 file 0 f', '2 dir 0 d');
    for my $name ('f', 'd') {
        push @lines, map { ++$number . " link 0 $name$_ $name" . ($_ - 1 || '') } 1 .. 34;
    }
    return join "\n", @lines, '';
}

# Scripts that try numbers and lengths on both sides of each limit: how many links a path may follow, how long
# texts may be, and how many veils and processes there may be.
sub limits {
    my @links = map { ("1 stat /f$_", "1 lstat /f$_", "1 stat /d$_/", "1 stat /d$_/../f1", "1 create /d$_/x") }
        31 .. 34;
    my @lengths = map { ("1 create $_", "1 mkdir /$_", "1 symlink $_ /s" . length) } map { 'n' x $_ } 254 .. 257;
    push @lengths, map { ("1 stat $_", "1 symlink $_ /t" . length) } map { './' x 510 . 'f' x $_ } 2 .. 5;
    push @lengths, map { '1 open-r ' . '/' x $_ . 'f' } 1020 .. 1024;
    my @veils = map { "1 unveil /v$_ rw" } 1 .. 129;
    push @veils, '1 unveil /v1 r', '1 unveil /v128 rwx', '1 unveil /d r', '1 fork 2', '2 stat /f';
    my @forks = map { "1 fork $_" } 2 .. 258;
    push @forks, '256 fork 300', '256 exit', '1 fork 256', '1 exec /f', '257 exit';
    return (links => \@links, lengths => \@lengths, veils => \@veils, forks => \@forks);
}

sub test_limits {
    my %scripts = limits();
    for my $name (sort keys %scripts) {
        my %files = (listing => chains(), script => join "\n", @{ $scripts{$name} }, '');
        my $world = world("the limits of $name", \%files);
        test_run($world);
        test_lists($world);
    }
    return;
}

test_limits();
test_examples();
test_rows();
test_worlds();
note("$count{worlds} worlds with $count{answers} answers, $count{states} states of processes, $count{objects} objects");
note("$count{audits} audits with $count{pairs} pairs of $count{tried} that were tried, resumed $count{resumed} times");
note("audits beside objects: $count{whole} of $count{lines} lines found with all of their calls");
note("$count{starts} starts of $PROGRAM");
done_testing();
