#!/usr/bin/perl
# Tests of `pua how` over the examples, and over random worlds by a fixed seed: perl tests/how.t [PROGRAM [WORLDS]]
# In each world a process can put no veil any more. For each call that its list for ever has and its list of now
# lacks, a way is asked for: behind the script, each of its lines is answered `ok`, and the last one is the call on
# what the line was about, which a model (Model.pm) follows through renames. In the examples all have one, unless
# what the process starts is bounded: then a program may bring what it does not. (A process that has a root of its
# own is not asked about: its list of now ends there, and ways have paths from the tree's.) In random worlds those
# that have none are counted, and so are the lines of all ways: a plan that is lost, or is longer, makes one of them
# more. Further worlds have ways that nothing else here needs. The list for ever with the steps of ways has these calls
# in its columns, and no others, each with the number of the way's lines. And for calls that the list of these lacks, as
# the model of its definition has it (EverModel.pm), there is none, ever; but of a link a call that follows it is refused.
use strict;
use warnings;
use FindBin qw($Bin);
use lib "$Bin/lib";
use File::Basename qw(dirname);
use List::Util qw(sum0);
use Storable qw(dclone);
use Test::More;
use EverModel;
use JointModel;
use Listed qw(lists_of);
use Model;
use Tables qw(content);
use Things;
use Worlds qw(answer_of program_in rules_of worlds_told);

my $SEED = 17;

# In so many random worlds by each rules, of the calls that a list for ever has more than that of now, at most so many have
# no way for no reason that is told below, and the ways of all others have at most so many lines together. Where a plan comes to
# be better, these numbers fall: put the new ones here. The two are the rmdir of a directory in which another one stands that can't
# be emptied, since something in that stays or a file system is mounted there, and can go nowhere else: all that has c is in it.
my $USUAL = 120;
my %MOST = (profile => { none => 0, lines => 1966 }, openbsd => { none => 2, lines => 3989 });

# In another number of worlds so many of a hundred such calls have a way.
my $LEAST = 99.5;

# Worlds with one question each, to which there is a way.
my @FURTHER = (
    {
        name => 'what was moved out of a directory is looked for where it went',
        rules => 'profile',
        listing => "tree 1\n0 dir\n1 dir 0 top\n2 dir 1 d\n3 file 2 f\n4 dir 0 o\n",
        script => "1 unveil /top r\n1 unveil /top/d c\n1 unveil /o c\n1 unveil - -\n1 pledge stdio,rpath,cpath -\n",
        question => { call => 'open-r', path => '/top/d/f', kind => 'file' },
    },
    {
        name => 'what is made inside the directory that stands at the name comes to it once that has left',
        rules => 'profile',
        listing => "tree 2\n0 dir\n1 dir 0 b\n2 file 1 a\n3 dir 0 c\n4 file 3 c\n5 file 3 b\n6 dir 0 z6\n",
        script => "1 unveil / rwxc\n1 unveil /a rxc\n1 rename /z6 /a\n1 unveil /b xc\n1 unveil /a wc\n1 unveil / rwx\n1 unveil - -\n1 pledge cpath,exec,fattr,rpath,wpath -\n",
        question => { call => 'lstat', path => 'new', kind => 'file' },
    },
    {
        name => 'so it does where that directory leaves to another name',
        rules => 'profile',
        listing => "tree 2\n0 dir\n1 dir 0 z1\n2 dir 1 a\n3 prog 0 a\n4 file 2 a\n5 file 2 b\n",
        script => "1 unveil / rwxc\n1 unveil /c rc\n1 rename /z1 /c\n1 unveil /c wc\n1 unveil /a c\n1 unveil / =\n1 unveil - -\n1 pledge cpath,exec,fattr,rpath,wpath -\n",
        question => { call => 'open-r', path => 'new', kind => 'file' },
    },
    {
        name => 'what is made at the name to which its carrier goes then is moved into that before',
        rules => 'profile',
        listing => "tree 2\n0 dir\n1 dir 0 z1\n2 dir 1 z2\n3 file 2 a\n4 dir 2 z4\n5 prog 4 a\n6 file 1 a\n",
        script => "1 unveil / rwxc\n1 unveil /c c\n1 rename /z1 /c\n1 unveil /c/b wc\n1 rename /c/z2 /c/b\n1 unveil /c/b/c wc\n1 rename /c/b/z4 /c/b/c\n1 unveil /c/b c\n1 unveil /c/b/c =\n1 unveil /c =\n1 unveil /c/b/a rc\n1 unveil /c/b/c/a c\n1 unveil /a wc\n1 unveil / rw\n1 unveil - -\n1 pledge cpath,fattr,rpath,wpath -\n",
        question => { call => 'open-rw', path => 'new', kind => 'file' },
    },
);

my $PUA    = program_in(@ARGV);
my $WORLDS = @ARGV > 1 ? $ARGV[1] : $USUAL;
my $worlds = Worlds->new($SEED, { paths_alone => 1 });
my %counts;

for my $rules (qw(profile openbsd)) {
    for my $number (1 .. $WORLDS) {
        my $world = world($rules);
        my @calls = further($world);
        is(first_fault($world, sub { fault_of($world, $_) }, @calls), undef, "$rules $number: ways");
        test_columns($world, "$rules $number", @calls);
        my @others = others($world);
        is(first_fault($world, sub { fault_of_never($world, $_) }, @others), undef, "$rules $number: calls without one");
    }
    told($rules);
}
test_further($_) for @FURTHER;
test_examples();
done_testing();

# A question has a way.
sub test_further {
    my ($further) = @_;
    my $model = Model->new($further->{listing}, { rules => $further->{rules} });
    $model->run($further->{script});
    my $files = { listing => $further->{listing}, script => $further->{script} };
    my $world = with_lists({ files => $files, rules => $further->{rules}, model => $model, process => 1 });
    @{$world}{qw(counted has_all)} = ('further', 1);
    is(first_fault($world, sub { fault_of($world, $_) }, $further->{question}), undef, "$further->{rules}: $further->{name}");
    return;
}

# By each rules that read it, of each process behind each script that can put no veil any more, and has no root of its own,
# each call has a way.
sub test_examples {
    for my $script (glob "$Bin/../examples/*/*script") {
        my $files = { listing => content(dirname($script) . '/listing'), script => content($script) };
        my ($name) = $script =~ m{examples/(.*)\z};
        for my $rules (rules_of($files->{script})) {
            my $model = Model->new($files->{listing}, { rules => $rules });
            $model->run($files->{script});
            test_example($name, with_lists({ files => $files, rules => $rules, model => $model, process => $_ }))
                for grep { is_confined($model, $_) && $model->state($_) !~ /^root /m } $model->living;
        }
    }
    return;
}

sub test_example {
    my ($name, $world) = @_;
    $world->{counted} = 'examples';
    $world->{has_all} = !grep { $_ eq 'exec bounded' } @{ $world->{ever}{state} };
    my @calls = further($world);
    is(first_fault($world, sub { fault_of($world, $_) }, @calls), undef, "$name, $world->{rules} $world->{process}: ways");
    test_columns($world, "$name, $world->{rules} $world->{process}", @calls);
    return;
}

# The columns of the list for ever have these calls, and no others.
sub test_columns {
    my ($world, $name, @calls) = @_;
    my @told = map { join ' ', @{$_}{qw(kind path call)} } @calls;
    is_deeply([sort keys %{ $world->{steps} }], [sort @told], "$name: the calls of the columns");
    return;
}

sub is_confined { return $_[0]->state($_[1]) =~ /^unveil (?:locked|given-up)$/m }

# A world in which process 1 lives and can put no veil any more.
sub world {
    my ($rules) = @_;
    $worlds->by($rules);
    while (1) {
        my $files = { listing => $worlds->listing };
        $files->{script} = $worlds->script({ askers => [1], veils => 1 + $worlds->number(4), locks => 1 });
        my $model = Model->new($files->{listing}, { rules => $rules });
        $model->run($files->{script});
        next if !is_confined($model, 1);
        return with_lists({ files => $files, rules => $rules, model => $model, process => 1, counted => $rules });
    }
}

# A world with the lists of its process.
sub with_lists {
    my ($world) = @_;
    $world->{now}  = list_of($world);
    $world->{ever} = list_of($world, '--ever');
    $world->{steps} = steps_of(list_of($world, '--ever', '--how'));
    return $world;
}

sub list_of {
    my ($world, @words) = @_;
    my ($status, $out, $err) = answer_of($PUA, $world->{files}, words_of($world, 'objects', process_of($world), @words));
    BAIL_OUT("status $status: $err") if $status != 0;
    return lists_of($out)->{lists}{ $world->{process} };
}

sub process_of { return ('--process', $_[0]{process}) }

# The numbers of steps in the columns of a list, by kind, path and call.
sub steps_of {
    my ($list) = @_;
    my %steps;
    for my $line (@{ $list->{lines} }) {
        $steps{"$line->{kind} $line->{path} $_"} = $line->{steps}{$_} for keys %{ $line->{steps} };
    }
    return \%steps;
}

sub words_of {
    my ($world, $command, @words) = @_;
    return ($command, '--rules', $world->{rules}, @words, 'listing', 'script');
}

# The first fault of some questions, which is told with the world.
sub first_fault {
    my ($world, $fault_of, @questions) = @_;
    for (@questions) {
        my $fault = $fault_of->($_);
        next if !defined $fault;
        diag(worlds_told($world->{files}, words_of($world, 'how', process_of($world)), @{$_}{qw(call path kind)}));
        return $fault;
    }
    return;
}

# The calls that the list for ever has and that of now lacks, each with its line's kind and path.
sub further {
    my ($world) = @_;
    my ($now, @calls) = (Listed::calls_at($world->{now}));
    for my $line (@{ $world->{ever}{lines} }) {
        my $had = $now->{"$line->{kind} $line->{path}"} || {};
        push @calls, map { { call => $_, kind => $line->{kind}, path => $line->{path} } } grep { !$had->{$_} } @{ $line->{calls} };
    }
    return @calls;
}

# What the program answers to a question: its lines.
sub answer {
    my ($world, $question) = @_;
    my @words = (words_of($world, 'how', process_of($world)), @{$question}{qw(call path kind)});
    my ($status, $out, $err) = answer_of($PUA, $world->{files}, @words);
    return "status $status: $err" if $status != 0 || $err ne '';
    return split /\n/, $out;
}

# What is wrong with the answer for a call that the list for ever has.
sub fault_of {
    my ($world, $question) = @_;
    my ($counts, @way) = ($counts{ $world->{counted} } ||= {}, answer($world, $question));
    my $steps = $world->{steps}{ join ' ', @{$question}{qw(kind path call)} };
    my $found = "@way" eq 'no way found' ? '?' : @way;
    return "$steps steps are told of, and not $found" if $steps ne $found;
    $counts->{calls}++;
    if ("@way" eq 'no way found') {
        $counts->{ why_none($world, $question) }++;
        return $world->{has_all} ? "no way to $question->{call} $question->{path}" : undef;
    }
    $counts->{ways}++;
    $counts->{lengths}{@way}++;
    return fault_of_way($world, $question, @way);
}

# A file that isn't a program is started by no line of a script, and is listed since a kernel starts what was written.
sub is_of_file { return $_[0]{call} eq 'exec' && $_[0]{kind} eq 'file' }

# Why a call may have no way.
sub why_none {
    my ($world, $question) = @_;
    return 'starts' if is_of_file($question);
    return 'brought' if is_brought($world, $question);
    return 'kept' if takes_none($world);
    return is_apart($world, $question) ? 'apart' : 'none';
}

# A call that the list of its own doing lacks is brought by a program that the process starts.
sub is_brought {
    my ($world, $question) = @_;
    for my $line (EverModel::lines($world->{model}, $world->{process})) {
        my ($kind, $path, $calls) = split / /, $line;
        return 0 if "$kind $path" eq "$question->{kind} $question->{path}" && grep { $_ eq $question->{call} } split /,/, $calls;
    }
    return 1;
}

# The list beside nobody, which goes by where each directory can come to stand, lacks a call: so it does where what is mounted in
# a directory with a veil of its own keeps that veil, wherever this one is moved.
sub is_apart {
    my ($world, $question) = @_;
    my ($kind, $path) = @{$question}{qw(kind path)};
    my $found = JointModel::found($world->{model}, $world->{process});
    my ($calls) = map { /\A\Q$kind $path\E (\S+)/ ? $1 : () } @{ $found->{lines}{ $world->{process} } };
    return !grep { $_ eq $question->{call} } split /,/, $calls // '';
}

# A process without the promises to take names away frees none, though the list has what comes where one with `c` is freed.
sub takes_none {
    my ($world) = @_;
    my ($model, $process) = ($world->{model}, $world->{model}{processes}{ $world->{process} });
    return !grep { EverModel::lets($model, $process, $_) } qw(rmdir unlink);
}

# What is wrong with a way: some line isn't answered `ok`, or the last one isn't the call on the thing.
sub fault_of_way {
    my ($world, $question, @way) = @_;
    my %files = %{ $world->{files} };
    $files{script} .= join '', map { "$_\n" } @way;
    my ($status, $out, $err) = answer_of($PUA, \%files, words_of($world, 'run'));
    return "status $status: $err" if $status != 0;
    my @answers = map { (split / /)[1] } split /\n/, $out;
    return "not all ok: @way" if grep { $_ ne 'ok' } @answers[ -@way .. -1 ];
    my $model = dclone($world->{model});
    my ($process, $call, @words) = split / /, pop @way;
    $model->answer(split / /) for @way;
    return "another call: $call" if $process != $world->{process} || $call ne $question->{call};
    my ($kind, $path) = split / /, $model->subject($process, $call, $words[-1]);
    my $thing = about($world, $model, $kind, $path);
    my $asked = about($world, $world->{model}, @{$question}{qw(kind path)});
    return $thing eq $asked ? undef : "the way leads to $thing, and not to $asked";
}

# What a kind and a path name in a model: a thing that was there behind the script, or what was made since.
sub about {
    my ($world, $model, $kind, $path) = @_;
    return "new $kind" if $path eq 'new';
    my ($thing, $number) = Things::thing($model, $kind, $path);
    return Things::has($world->{model}, $number) ? $thing : "new $kind";
}

# Some calls that no line of the model's list for ever has on a thing, each with the kind and path of one of its names.
sub others {
    my ($world) = @_;
    my (%has, %at);
    for my $line (EverModel::lasting($world->{model}, 1)) {
        my ($kind, $path, $calls) = split / /, $line;
        my $thing = about($world, $world->{model}, $kind, $path);
        $has{$thing}{$_} = 1 for split /,/, $calls;
        $at{$thing} = { kind => $kind, path => $path };
    }
    my @all = map { my $thing = $_; map { { %{ $at{$thing} }, call => $_ } } grep { !$has{$thing}{$_} } $world->{model}->calls } sort keys %at;
    return map { $worlds->pick(@all) } @all ? (1 .. 4) : ();
}

# What is wrong with the answer for a call that no line has.
sub fault_of_never {
    my ($world, $question) = @_;
    my @lines  = EverModel::lasting($world->{model}, 1);
    my $is_open = grep({ EverModel::has_exec($_) } @lines) && !EverModel::bound($world->{model}, 1);
    my $wanted = $is_open ? 'never before an exec' : 'never';
    if ($question->{kind} eq 'link' && Model::follows($question->{call})) {
        $wanted = "status 1: pua: how: a link, which $question->{call} follows: ask about what it leads to\n";
    }
    my $told = join ' ', answer($world, $question);
    $counts{ $world->{rules} }{never}++;
    return $told eq $wanted ? undef : "$told, and not $wanted";
}

# How many calls have a way, by some rules.
sub told {
    my ($rules) = @_;
    my %told = map { $_ => 0 } qw(ways none starts brought kept apart never calls);
    %told = (%told, %{ $counts{$rules} });
    my $lengths = join ', ', map { "$told{lengths}{$_} of $_" } sort { $a <=> $b } keys %{ $told{lengths} || {} };
    note("$rules: $told{ways} ways of $told{calls} calls ($lengths), none for $told{none}, for the exec of $told{starts} files, for ",
        "$told{brought} that a started program brings, for $told{kept} where no name can be freed, and for $told{apart} that ",
        "the list beside nobody lacks; ",
        "$told{never} calls that never come");
    if ($WORLDS == $USUAL) {
        my $most = $MOST{$rules};
        my $lines = sum0(map { $_ * $told{lengths}{$_} } keys %{ $told{lengths} });
        cmp_ok($told{none}, '<=', $most->{none}, "$rules: at most $most->{none} calls have no way");
        cmp_ok($lines, '<=', $most->{lines}, "$rules: the ways have at most $most->{lines} lines");
        return;
    }
    my $share = 100 * $told{ways} / (($told{ways} + $told{none}) || 1);
    cmp_ok($share, '>=', $LEAST, "$rules: of a hundred calls, at least $LEAST have a way");
    return;
}
