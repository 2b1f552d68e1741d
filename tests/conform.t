#!/usr/bin/perl
# Tests of the model beside the kernel of this machine, if that is Linux:
#
#     perl tests/conform.t [PROGRAM]
#
# Random scripts without pledge and unveil, and those of the examples without these lines, are performed by real
# processes and real calls in a directory of their own, as tools/conform.pl does. It has to be root; where it isn't, or
# chroot(2) is refused, all is passed over.
#
# - The program's answers, the names that it lists afterwards, and what it says that a process has open and of its root, are
#   those of the plain model (tests/lib/Linux.pm without any of its rules).
# - The kernel's answers, what stands there afterwards, what is open then and where, and whether a process can come out of its
#   root, are those of that model with all rules.
# - Each answer that is another is so by one to three of the rules, and each rule is needed for some.
# - Each wrong model of the table is noticed.
use strict;
use warnings;
use FindBin qw($Bin);
use lib "$Bin/lib", "$Bin/../tools/lib";
use Cases;
use File::Temp qw(tempdir);
use Linux;
use List::Util qw(first);
use Pua::Perform qw(perform);
use Storable qw(dclone);
use Tables qw(content);
use Test::More;
use Tried qw(may_chroot);
use WrongRoots qw(with_wrong);
use Worlds qw(answer_of program_in worlds_told);

plan skip_all => 'the rules are those of Linux' if $^O ne 'linux';
plan skip_all => 'only root makes a directory the root of a process' if $> != 0;
my $room = tempdir(CLEANUP => 1);
plan skip_all => 'chroot(2) is refused here' if !may_chroot($room);

my $PROGRAM = program_in(@ARGV);
my $CASES = 600;
my $HELD  = 200;       # about descriptors
my $ROOTS = 300;       # about roots and descriptors
my $SEED  = 20;
my $MOST_RULES = 3;    # by which one difference may be explained

# Wrong models of Linux, each by a function that is put in the place of another one; it is handed that one first.
my @WRONG = (
    ['`..` is taken away as text', 'Linux::resolve', sub {
        my ($right, $linux, $from, $text, @rest) = @_;
        $text =~ s{(?<![^/])(?!\.\.?/)[^/]+/+\.\.(?=/|\z)}{.};
        return $right->($linux, $from, $text, @rest);
    }],
    ['a slash at the end is nothing', 'Linux::resolve', sub {
        my ($right, $linux, $from, $text, @rest) = @_;
        $text =~ s{(?<=[^/])/+\z}{};
        return $right->($linux, $from, $text, @rest);
    }],
    ['a name of 255 bytes is too long', 'Linux::resolve', sub {
        my ($right, $linux, $from, $text, @rest) = @_;
        return grep({ length == 255 } split m{/}, $text) ? 'ENAMETOOLONG' : $right->($linux, $from, $text, @rest);
    }],
    ['the root has a directory above', 'Tree::_parent_in', sub {
        my ($right, $linux, $root, $dir) = @_;
        return $dir == 0 ? -1 : $right->($linux, $root, $dir);
    }],
    ['lstat follows a link', 'Linux::resolve', followed('lstat', 1)],
    ['stat keeps a link', 'Linux::resolve', followed('stat', 0)],
    ['unlink follows a link', 'Linux::resolve', followed('unlink', 1)],
    ['mkdir follows a link', 'Linux::resolve', followed('mkdir', 1)],
    ['create keeps a link', 'Linux::resolve', followed('create', 0)],
    ['rmdir takes what is not empty', 'Tree::_is_empty', sub { 1 }],
    ['unlink takes all names of a file', 'Tree::_cut', sub {
        my ($right, $tree, $dir, $name) = @_;
        my $node = $tree->{rows}{$dir}{$name};
        for my $rows (values %{ $tree->{rows} }) {
            delete @$rows{ grep { $rows->{$_} == $node && $rows != $tree->{rows}{$dir} } keys %$rows };
        }
        return $right->($tree, $dir, $name);
    }],
    ['link makes a copy', 'Tree::_tie', sub {
        my ($right, $tree, $dir, $name, $node) = @_;
        my $has_name = grep { $_ == $node } map { values %$_ } values %{ $tree->{rows} };
        return $right->($tree, $dir, $name, $node) if !$has_name || $tree->{kind}{$node} eq 'dir';
        my $copy = $tree->{next}++;
        @$tree{qw(kind target)} = ({ %{ $tree->{kind} }, $copy => $tree->{kind}{$node} },
            { %{ $tree->{target} }, $copy => $tree->{target}{$node} });
        return $right->($tree, $dir, $name, $copy);
    }],
    ['rename beside a second name takes the first away', 'Linux::_rename', sub {
        my ($right, $linux, $process, @paths) = @_;
        my $from = Tree::unspelled($paths[0]);
        my $node = (($linux->resolve($process, $from, 0, 1))[1] || {})->{node};
        my $answer = $right->($linux, $process, @paths);
        my ($errno, $old) = $linux->resolve($process, $from, 0, 1);
        my $stands = $answer eq 'ok' && !$errno && defined $old->{node} && $old->{node} == $node;
        $linux->_untie(@$old{qw(in name)}) if $stands;
        return $answer;
    }],
    ['rename moves what is no directory onto one', 'Model::_unmovable', sub {
        my ($right, @rest) = @_;
        my $errno = $right->(@rest);
        return $errno eq 'EISDIR' ? '' : $errno;
    }],
    ['rename leaves an empty directory where it is', 'Model::_unmovable', sub {
        my ($right, $model, $old, $new) = @_;
        my $errno = $right->($model, $old, $new);
        return $errno eq '' && exists $new->{dir} ? 'ENOTEMPTY' : $errno;
    }],
    ['a child begins in the root', 'Model::_fork', sub {
        my ($right, $model, $process, $number) = @_;
        my $answer = $right->($model, $process, $number);
        $model->{processes}{$number}{dir} = 0 if $answer eq 'ok';
        return $answer;
    }],
    ['a child has nothing open', 'Model::_fork', sub {
        my ($right, $model, $process, $number) = @_;
        my $answer = $right->($model, $process, $number);
        $model->{processes}{$number}{files} = {} if $answer eq 'ok';
        return $answer;
    }],
    ['what is open has one name', 'Model::_paths_of', sub { my ($right, @rest) = @_; return ($right->(@rest))[0] || () }],
    ['a directory that is made again is the old one', 'Linux::resolve', sub {
        my ($right, $linux, $from, @rest) = @_;
        my $over = exists $linux->{dead}{ $from->{dir} } ? $linux->{dead}{ $from->{dir} } : undef;
        my ($again) = defined $over ? grep { $linux->{kind}{$_} eq 'dir' } values %{ $linux->{rows}{$over} || {} } : ();
        return $right->($linux, defined $again ? { %$from, dir => $again } : $from, @rest);
    }],
    ['a file can be executed', 'Linux::_misfit', sub {
        my ($right, $linux, $call, $found) = @_;
        return $call eq 'exec' && $linux->_kind($found) eq 'file' ? '' : $right->($linux, $call, $found);
    }],
    ['bind takes the place of a file', 'Linux::_misfit', sub {
        my ($right, $linux, $call, $found) = @_;
        return $call eq 'bind' && $linux->_kind($found) eq 'file' ? '' : $right->($linux, $call, $found);
    }],
);

# One by which a call follows a link at the end of its path, or keeps it.
sub followed {
    my ($about, $follows) = @_;
    return sub {
        my ($right, $linux, $from, $text, $as, $drops, $call) = @_;
        return $right->($linux, $from, $text, defined $call && $call eq $about ? $follows : $as, $drops, $call);
    };
}

my (@cases, @wrong, %found, %count);
my $cases = Cases->new($SEED);
try_case("case $_", $cases->next_case($Cases::KINDS[ $_ % @Cases::KINDS ])) for 0 .. $CASES - 1;
try_case("case $_ about descriptors", $cases->next_case('files')) for 1 .. $HELD;
my $may_move = (perform("tree 1\n0 dir\n", "1 chroot /\n", { room => $room }))[0][0] eq 'ok';
note 'no process can be kept in a directory whose root a script moves: such scripts are passed over' if !$may_move;
try_case("case $_ about roots", $cases->next_case('roots')) for 1 .. ($may_move ? $ROOTS : 0);
for my $folder (glob "$Bin/../examples/*") {
    my @files = grep { -f "$folder/$_" } qw(listing script) or next;
    my @lines = map { s/(?:\A| +)#.*//r } split /^/m, content("$folder/script");
    my $script = join '', grep { !/\A(?:[0-9]+ (?:pledge|unveil|uses) |$)/ } @lines;
    next if !$may_move && $script =~ / chroot /;
    try_case($folder =~ s{.*/}{}r, content("$folder/listing"), $script);
}
is(join('', splice @wrong, 0, 5), '', "$count{cases} cases with $count{calls} calls: the kernel's answers");
cmp_ok($count{calls}, '>', 15 * $CASES, "$count{same} of them are the program's too");
cmp_ok($count{trees}, '>', $CASES / 2, "the names afterwards: in $count{trees} cases they are the program's too");
cmp_ok($count{held}, '>', $HELD, "$count{held} open files, $count{nameless} of which have no name, $count{taken} taken");
cmp_ok($count{$_}, '>', $HELD / 20, "$count{$_} $_") for qw(nameless taken entered);
cmp_ok($count{$_} || 0, '>', $ROOTS / 20, ($count{$_} || 0) . " roots $_") for $may_move ? qw(moved closed open removed) : ();
for my $rule (@Linux::RULES) {
    my ($name, $mark, $text) = @$rule;
    next if $name eq 'dead-root' && !$may_move;
    my $found = $found{$name} || {};
    ok($found->{calls}, sprintf '%s (%s): %s; %d calls, ok here alone %d, there alone %d', $name, $mark, $text,
        map { $found->{$_} || 0 } qw(calls pua kernel));
}
test_wrong(@$_) for @WRONG, $may_move ? @WrongRoots::WRONG : ();
done_testing;

# Tries one case, and keeps it with what the kernel said.
sub try_case {
    my ($name, $listing, $script) = @_;
    my ($answers, $left) = perform($listing, $script, { room => $room, left => 1 });
    push @cases, [$listing, $script, "@$answers", $left];
    my @lines = split /\n/, $script;
    my $fault = differs(Linux->new($listing), $script, "@$answers", $left);
    $fault = is_program($listing, $script, $left) if $fault eq '';
    return push @wrong, "$name: $fault" . worlds_told({ TREE => $listing, SCRIPT => $script }) if $fault ne '';
    $count{cases}++;
    $count{held} += () = $left =~ /^held /mg;
    $count{nameless} += () = $left =~ /^held .* -$/mg;
    for my $word (qw(closed open)) { $count{$word} += () = $left =~ /^root .* $word$/mg }
    $count{removed} += () = $left =~ /^root [0-9]+ - /mg;
    explained($name, $listing, \@lines, $answers);
    return;
}

# In what a model differs from the kernel; nothing where it doesn't.
sub differs {
    my ($model, $script, $answers, $left) = @_;
    my @is = map { (split / /)[1] } split /\n/, $model->run($script);
    my @should = split / /, $answers;
    for my $at (0 .. $#should) {
        return 'line ' . ($at + 1) . ": the kernel says $should[$at], the model $is[$at]\n" if $is[$at] ne $should[$at];
    }
    return $model->left eq $left ? '' : "the names afterwards:\n$left--- by the model\n" . $model->left;
}

# In what the program differs from the plain model by no rule; nothing where it doesn't.
sub is_program {
    my ($listing, $script, $left) = @_;
    my $plain = Linux->new($listing)->by;
    my $answers = $plain->run($script);
    my ($living) = $plain->living;
    my @words = defined $living ? ('objects', '--process', $living) : 'run';
    my @all = (@words, '--rules', 'openbsd', 'TREE', 'SCRIPT');
    my ($status, $out, $err) = answer_of($PROGRAM, { TREE => $listing, SCRIPT => $script }, @all);
    return "the program: status $status, $err" if $status != 0;
    return "the program answers otherwise than the plain model\n$out" if index($out, $answers) != 0;
    return '' unless defined $living;
    my $names = join '', sort map { m{\A((?:dir|file|sock|fifo|prog|link) /\S*) }m ? "$1\n" : () } split /\n/, $out;
    my $process = $plain->{processes}{$living};
    my $left_by = join '', $plain->names_left($plain->is_enclosed($process) ? $process->{root} : 0);
    return "the program lists\n$names--- and not\n$left_by" if $names ne $left_by;
    my $held = join '', sort map { /\Aheld ([0-9]+) \S+ (\S+) / ? "held $living $1 $2\n" : () } split /\n/, $out;
    my $wanted = join '', sort $plain->held_by($living);
    return "the program says\n$held--- and not\n$wanted" if $held ne $wanted;
    my $root = $out =~ /^(root .*\n)/m ? $1 : '';
    my $wanted_root = join '', $plain->rooted($process);
    return "the program says $root, and not $wanted_root" if $root ne $wanted_root;
    $count{trees}++ if $names eq $left =~ s/^(?:held|root) .*\n//gmr;
    return '';
}

# Finds the fewest rules by which each answer that the kernel gives otherwise is what it is.
sub explained {
    my ($name, $listing, $lines, $answers) = @_;
    my $world = Linux->new($listing);
    for my $at (0 .. $#$lines) {
        my @request = split / /, $lines->[$at];
        my $said = $answers->[$at];
        my $plain = dclone($world)->by->answer(@request);
        $count{calls}++;
        $count{taken}++ if $request[1] eq 'take' && $said eq 'ok';
        $count{entered}++ if $request[1] eq 'fchdir' && $said eq 'ok';
        $count{moved}++ if $request[1] eq 'chroot' && $said eq 'ok';
        if ($plain eq $said) { $count{same}++ }
        else {
            my @rules = fewest($world, $said, @request);
            push @wrong, "$name: $lines->[$at]: the kernel says $said, the program $plain, by no rules\n" if !@rules;
            for my $found (map { $found{$_} ||= {} } @rules) {
                $found->{calls}++;
                $found->{pua}++ if $plain eq 'ok';
                $found->{kernel}++ if $said eq 'ok';
            }
        }
        $world->answer(@request);
    }
    return;
}

sub fewest {
    my ($world, $said, @request) = @_;
    my @sets = map { [$_] } 0 .. $#Linux::RULES;
    for (1 .. $MOST_RULES) {
        for my $set (@sets) {
            my @rules = map { $Linux::RULES[$_][0] } @$set;
            return @rules if dclone($world)->by(@rules)->answer(@request) eq $said;
        }
        @sets = map { my $set = $_; map { [@$set, $_] } $set->[-1] + 1 .. $#Linux::RULES } @sets;
    }
    return;
}

# Tests that a wrong model is noticed.
sub test_wrong {
    my ($name, $place, $wrong) = @_;
    my $noticed = with_wrong($place, $wrong, sub { return first { is_noticed(@{ $cases[$_] }) } 0 .. $#cases });
    ok(defined $noticed, "noticed: $name") and note "by case $noticed";
    return;
}

sub is_noticed {
    my ($listing, $script, $answers, $left) = @_;
    local $SIG{__WARN__} = sub { };
    return differs(Linux->new($listing), $script, $answers, $left) ne '';
}
