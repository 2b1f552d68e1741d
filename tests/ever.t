#!/usr/bin/perl
# Tests of `pua objects --ever` over random worlds by a fixed seed: perl tests/ever.t [PROGRAM [SEED]]
# In each world process 1 can put no veil any more. What it can touch now lies within what it can ever touch; and so
# does what it and what it forks can touch behind random requests of theirs: short of an exec that succeeds where what
# is started isn't bounded, and else whatever is started, so that a future goes on. Things are followed through renames
# by a model (Model.pm) of which the same is requested. The list for ever is that of a plain model, too (EverModel.pm),
# so it isn't too long; and what can have no such list is refused. So it is of two processes together, with other
# promises and the same veils; and of two that have files open, each its own. And so it is in a world for each wrong model of
# mount points (WrongMounts.pm) that has another list there.
use strict;
use warnings;
use FindBin qw($Bin);
use lib "$Bin/lib";
use Storable qw(dclone);
use Test::More;
use EverModel;
use Foreseen;
use Futures;
use Listed qw(lists_of state_of);
use Model;
use Openings qw(has_opening);
use Plays qw(asked behind differs told);
use Things;
use Tree qw(unspelled);
use Worlds qw(answer_of program_in worlds_told);
use WrongMounts;
use WrongRoots qw(with_wrong);

my $WORLDS = 40;
my $PAIRS  = 15;
my $OPEN   = 12;
my $PLAYS  = 12;

# Among how many worlds one is looked for in which a wrong model has another list.
my $LOOKED = 5000;

# A process that the first line of each script forks, and that asks for nothing: it has no veils and all
# promises, so its list has each name of the tree.
my $WITNESS = 9;

# A process that process 1 forks when it can put no veil any more.
my $CHILD = 2;

my $PUA  = program_in(@ARGV);
my $SEED = @ARGV > 1 ? $ARGV[1] : 7;

# What the process pledges at last.
my @PLEDGES = (
    ('1 pledge stdio,rpath,wpath,cpath,fattr,exec,proc -') x 3, '1 pledge rpath,wpath,cpath,exec,proc -',
    '1 pledge rpath,cpath,proc,error -', '1 pledge wpath,cpath,proc -', '1 pledge rpath,wpath,fattr,proc -',
    '1 pledge rpath,wpath,cpath -', '1 pledge exec,rpath -', '1 pledge = -',
    ('1 pledge stdio,rpath,proc,exec stdio,rpath,wpath,cpath') x 3, '1 pledge rpath,proc,exec wpath,cpath,exec,proc',
    '1 pledge rpath,wpath,cpath,exec,proc rpath,exec', '1 pledge exec,proc rpath,wpath,cpath,fattr',
    '1 pledge rpath,cpath,exec wpath,cpath', '1 pledge rpath,exec,proc rpath,cpath,unveil',
    '1 pledge rpath,fattr,exec,proc rpath',
);

# What it pledges where promises open what changes the tree, so that it can make something by tmppath or what it starts can.
my @TEMPORARY = (
    '1 pledge rpath,tmppath,proc -', '1 pledge rpath,wpath,tmppath,error -', '1 pledge rpath,exec,tmppath,proc -',
    '1 pledge rpath,exec,tmppath rpath', '1 pledge rpath,exec,proc rpath,tmppath', '1 pledge rpath,cpath,tmppath,proc -',
);

# What two pledge that have files open: a program is made of one by who holds fattr, and started by who holds exec.
my @STARTING = (
    'stdio,exec,proc -', 'rpath,exec -', 'stdio,fattr,proc -', 'stdio,exec,fattr -', 'exec,rpath rpath', 'exec,proc fattr', 'stdio -',
    'stdio,rpath,proc -', 'exec -',
);

# What its veils give.
my @PERMISSIONS = qw(rwxc rwxc rwc wc rc xc c c r r rw rx x w =);

# By what rules worlds are asked.
my @RULES = qw(profile profile openbsd table);

# The calls that have to need c, in the order in which the program says that one doesn't.
my @NEED_C = qw(rmdir unlink create mkdir symlink bind mknod create-rw);

my $worlds = Worlds->new($SEED, { openings => 1 });
my %counts = map { $_ => 0 } qw(lists answers opened by_tmppath calls met execs bounded started tries plays);

for my $number (1 .. $WORLDS) {
    my $world = world($number);
    ok(!is_told($world, beyond_now($world)), "world $number: what can be touched now is in the list for ever");
    is(exec_word($world), exec_wanted($world), "world $number: whether what is started is bounded");
    ok(!is_told($world, not_modelled($world)), "world $number: the list for ever is that of the model");
    ok(!is_told($world, not_reasoned($world)), "world $number: what lets its calls through is that of the model");
    ok(!is_told($world, beyond_ever($world)), "world $number: it has what can be touched in $PLAYS futures");
    ok(!$world->{stray}, "world $number: no exec succeeds where it has none");
}
for my $number (1 .. $PAIRS + $OPEN) {
    my $world = $number > $PAIRS ? open_pair($number) : pair($number);
    ok(!is_told($world, beyond_alone($world)), "pair $number: what each can ever touch is in the list of both");
    is(states_told($world), states_wanted($world), "pair $number: the states");
    is(exec_word($world), exec_wanted($world), "pair $number: whether what they start is bounded");
    ok(!is_told($world, not_modelled($world)), "pair $number: the list of both is that of the model");
    ok(!is_told($world, beyond_ever($world)), "pair $number: it has what they can touch in $PLAYS futures");
    ok(!$world->{stray}, "pair $number: no exec succeeds where it has none");
}
for (@WrongMounts::WRONG) {
    my ($name, @wrong) = @$_;
    my $world = noticing(@wrong) or fail("not noticed: $name"), next;
    ok(!is_told($world, not_modelled($world) // not_reasoned($world)), "noticed: $name");
    ok(!is_told($world, beyond_ever($world)), "$name: there the list has what can be touched in $PLAYS futures");
}
note("$counts{lists} lists and $counts{answers} answers, of which $counts{opened} are by an opening alone, and ",
    "$counts{by_tmppath} by tmppath with a line, in $counts{plays} futures within lists for ever, of which ",
    "$counts{met} calls of $counts{calls} were met; $counts{execs} futures ended by an exec, $counts{started} went on ",
    "through $counts{bounded} that were bounded, and $counts{tries} failed where the list has none");
refusals();
done_testing();

# A world with its lists: one in which, by the model, process 1 lives and can put no veil any more. In three of four
# it can edit the tree, and in every fifth it can start something, and what is started is bounded.
sub world {
    my ($number) = @_;
    while (1) {
        my $world = drawn($RULES[ $number % @RULES ]);
        next if $world->{model}->state(1) !~ /^unveil (?:locked|given-up)$/m;
        next if $number % 4 && !grep { / new / } EverModel::lasting($world->{model}, 1);
        next if $number % 5 == 0 && !is_started($world->{model});
        return with_lists($world, 1);
    }
}

# A world in which process 1 and the child that it forked under the same veils have pledged each for itself, and can put
# no veil any more. In two of three one of both can edit the tree.
sub pair {
    my ($number) = @_;
    while (1) {
        my $world  = drawn($RULES[ $number % @RULES ]);
        my $pledge = $worlds->pick(@PLEDGES, $worlds->opens ? @TEMPORARY : ()) =~ s/\A1 /$CHILD /r . "\n";
        my $model  = $world->{model};
        $world->{files}{script} .= $pledge;
        $model->run($pledge);
        next if grep { $model->state($_) !~ /^unveil (?:locked|given-up)$/m } 1, $CHILD;
        next if $number % 3 && !grep { / new / } EverModel::lasting(EverModel::joined($model, 1, $CHILD), 0);
        return with_lists($world, 1, $CHILD);
    }
}

# The same by OpenBSD's rules, where both have some of three files open. In two of three it tells what of these the child has.
sub open_pair {
    my ($number) = @_;
    $worlds->by('openbsd');
    while (1) {
        my $files = { listing => $worlds->listing, table => '' };
        my $model = Model->new($files->{listing}, { rules => 'openbsd' });
        $files->{script} = open_script($model);
        $model->run($files->{script});
        next if grep { $model->state($_) !~ /^unveil (?:locked|given-up)$/m } 1, $CHILD;
        next if $number % 3 && !is_by_child($model);
        return with_lists({ program => $PUA, files => $files, rules => [ '--rules', 'openbsd' ], model => $model }, 1, $CHILD);
    }
}

sub open_script {
    my ($model) = @_;
    my @rows  = Things::rows($model);
    my @files = grep { $_->{kind} eq 'file' } @rows;
    my @holds = map { "1 hold $_ " . $worlds->pick(qw(open-r open-w open-rw)) . ' ' . $worlds->pick(@files)->{path} }
        @files ? 3 .. 5 : ();
    my @veils = map { veil(@rows) } 0 .. $worlds->number(2);
    push @veils, '1 unveil ' . $worlds->pick('/', map { $_->{path} } @files) . ' x';
    my @close = map { $worlds->pick(1, 1, $CHILD) . " close $_" } @holds ? 3 .. 5 : ();
    my @pledges = map { "$_ pledge " . join ' ', map { $worlds->promises($_) } split / /, $worlds->pick(@STARTING) } 1, $CHILD;
    return join '', map { "$_\n" } "1 fork $WITNESS", @holds, @veils, '1 unveil - -', "1 fork $CHILD", @close, @pledges;
}

# Whether a list of both would be another one, if it were of what the first has open alone.
sub is_by_child {
    my ($model) = @_;
    my @lines = EverModel::lasting(EverModel::joined($model, 1, $CHILD), 0);
    local $model->{processes}{$CHILD}{files} = {};
    return "@lines" ne join ' ', EverModel::lasting(EverModel::joined($model, 1, $CHILD), 0);
}

# A world in which a wrong model has another list for ever of process 1; undef where none is found.
sub noticing {
    my ($place, $wrong) = @_;
    for my $number (1 .. $LOOKED) {
        my $world = drawn($RULES[ $number % @RULES ]);
        my $model = $world->{model};
        next if !%{ $model->{mount} } || $model->state(1) !~ /^unveil (?:locked|given-up)$/m;
        my ($told, $told_wrongly) = (told_by_model($model), with_wrong($place, $wrong, sub { return told_by_model($model) }));
        return with_lists($world, 1) if $told ne $told_wrongly;
    }
    return;
}

# The lines of the model's list for ever of process 1, each with its promises and the numbers of its veils.
sub told_by_model {
    my ($model) = @_;
    return join "\n", map { join ' ', (split / /)[ 0 .. 2 ], EverModel::reasons($model, 1, $_) } EverModel::lasting($model, 1, 1);
}

# A world with the lists of now, and the one for ever of these processes.
sub with_lists {
    my ($world, @members) = @_;
    $world->{members}  = \@members;
    $world->{lists}    = lists_of(asked($world, 'objects', '--process', 'all'))->{lists};
    $world->{nows}     = [ map { $world->{lists}{$_} } @members ];
    $world->{ever}     = ever_of($world, join ',', @members);
    $world->{foreseen} = Foreseen->new($world->{model}, $world->{ever});
    return $world;
}

# Whether process 1 can start something now, and all that it starts is bounded.
sub is_started {
    my ($model) = @_;
    return EverModel::bound($model, 1) && grep { /^prog .*exec/ } EverModel::lines($model, 1);
}

# The list for ever of a process, or of several, which is asked for once.
sub ever_of {
    my ($world, $which) = @_;
    my $evers = $world->{evers} ||= {};
    $evers->{$which} ||= lists_of(asked($world, 'objects', '--ever', '--process', $which))->{lists}{$which};
    return $evers->{$which};
}

# A listing and a script, with a table by which no call lacks c.
sub drawn {
    my ($rules) = @_;
    $worlds->by($rules);
    my $files = { listing => $worlds->listing, table => '' };
    my $words = $rules eq 'table' ? [ '--table', 'table' ] : [ '--rules', $rules ];
    while (1) {
        $files->{table} = $worlds->table if $rules eq 'table';
        my $model = Model->new($files->{listing}, { rules => $rules, table => $files->{table} });
        next if defined lacks_c($model);
        $files->{script} = first_script($model);
        $model->run($files->{script});
        return { program => $PUA, files => $files, rules => $words, model => $model };
    }
}

# The first call that lacks c, by the table of a model.
sub lacks_c {
    my ($model) = @_;
    return (grep { $model->{needs}{$_}[1] !~ /c/ } @NEED_C)[0];
}

# A script that makes the witness, lets process 1 edit the tree of a model, puts its veils, and lets it put no more.
sub first_script {
    my ($model) = @_;
    my @edits = grep { !/ (?:fork|exit|exec|unveil|pledge) / } $worlds->requests($worlds->number(4), 1);
    my @rows  = Things::rows($model);
    my @veils = map { veil(@rows) } 0 .. 1 + $worlds->number(3);
    unshift @veils, nested_veils(@rows) if $worlds->number(3) == 0;
    my @locks = ('1 unveil - -', '1 unveil - -', '1 pledge stdio,rpath,wpath,cpath,fattr,exec,proc -');
    my @last  = $worlds->number(3) ? last_pledge() : ();
    if ($worlds->opens && grep({ "$_->{kind} $_->{path}" eq 'dir /tmp' } @rows) && $worlds->number(2)) {
        push @veils, '1 unveil /tmp ' . $worlds->pick(@PERMISSIONS);
        @locks = '1 unveil - -';
        @last  = $worlds->pick(@TEMPORARY);
    }
    return join '', "1 fork $WITNESS\n", @edits, map { "$_\n" } @veils, $worlds->pick(@locks), "1 fork $CHILD", @last;
}

# What the process pledges at last, by OpenBSD's rules mostly with the promise of sockets.
sub last_pledge {
    my ($process, $call, @lists) = split / /, $worlds->pick(@PLEDGES);
    return join ' ', $process, $call, map { $worlds->promises($_) } @lists;
}

# A line that puts a veil on what stands in a tree, or on a name in it that may be missing; mostly one with c.
sub veil {
    my (@rows) = @_;
    my $row  = $worlds->pick(@rows);
    my $path = $row->{path};
    $path .= ($path eq '/' ? '' : '/') . $worlds->pick($worlds->names, 'n')
        if $row->{kind} eq 'dir' && $worlds->number(3) == 0;
    return "1 unveil $path " . $worlds->pick(@PERMISSIONS);
}

# Lines that put a veil with c on a directory, and on that above it one without.
sub nested_veils {
    my (@rows) = @_;
    my @dirs = grep { $_->{kind} eq 'dir' && $_->{path} =~ m{./} } @rows;
    return if !@dirs;
    my $inner = $worlds->pick(@dirs)->{path};
    my ($outer) = $inner =~ m{\A(.*)/};
    return ("1 unveil $outer " . $worlds->pick(qw(r rw rx w)), "1 unveil $inner " . $worlds->pick(qw(c wc rwc xc)));
}

# Whether there is a fault, which is told with the world's listing, script and list for ever.
sub is_told {
    my ($world, $fault) = @_;
    return 0 if !defined $fault;
    diag("$fault\n", told($world, 'objects'), "--- the list for ever\n");
    diag("$_->{text}\n") for @{ $world->{ever}{lines} };
    return 1;
}

# The first line of now that is not in the list for ever, with all its calls; of process 1, or of the child that it
# made before its last pledge.
sub beyond_now {
    my ($world) = @_;
    for my $process (1, $CHILD) {
        my $fault = Listed::beyond($world->{lists}{$process}, ever_of($world, $process));
        return "process $process: $fault" if defined $fault;
    }
    return;
}

# The first line for ever of one of two that the list of both doesn't have, with all its calls. Where that of both
# holds until a program is started and that of one goes on through it, the latter may have more.
sub beyond_alone {
    my ($world) = @_;
    for my $process (@{ $world->{members} }) {
        my $alone = ever_of($world, $process);
        next if is_exec($alone, 'bounded') && is_exec($world->{ever}, 'open');
        my $fault = Listed::beyond($alone, $world->{ever});
        return "process $process: $fault" if defined $fault;
    }
    return;
}

# What the list of both says of their states, without what is said of execs, of openings and of what can be received, and what
# the model does.
sub states_told {
    my ($world) = @_;
    return join '', map { "$_\n" } grep { !/\A(?:exec|opening|receive) / } @{ $world->{ever}{state} };
}

sub states_wanted {
    my ($world) = @_;
    my ($states, $veils) = ('');
    for my $process (@{ $world->{members} }) {
        my ($own, $rest) = $world->{model}->state($process) =~ /\A(.*?^unveil \S+\n)(.*)\z/ms;
        $states .= join '', $own =~ s/\Aprocess /process $process /r, $rest =~ /^((?:root|held) .*\n)/gm;
        $veils = $rest =~ s/^(?:opening|root|held) .*\n//gmr;
    }
    return $states . $veils;
}

# A model, and the number of the process in it whose list for ever it is.
sub whose {
    my ($world) = @_;
    my ($model, @members) = ($world->{model}, @{ $world->{members} });
    return @members == 1 ? ($model, @members) : (EverModel::joined($model, @members), 0);
}

# What the list for ever says of execs, and what the model does: nothing where no line has one.
sub exec_word { return state_of($_[0]{ever})->{exec} }

sub exec_wanted {
    my ($world) = @_;
    my @whose = whose($world);
    my $has_exec = grep { EverModel::has_exec($_) } EverModel::lines(@whose);
    return !$has_exec ? undef : EverModel::bound(@whose) ? 'bounded' : 'open';
}

# Whether a list for ever says this word of execs.
sub is_exec { my ($list, $word) = @_; return (state_of($list)->{exec} // '') eq $word }

sub is_bounded { return is_exec($_[0]{ever}, 'bounded') ? 1 : 0 }

# The lists for ever of process 1, of the child, and of the world, and those of the model, if they differ.
sub not_modelled {
    my ($world) = @_;
    my $fault = differs($world->{ever}, EverModel::lasting(whose($world)));
    for my $process (1, $CHILD) {
        $fault = differs(ever_of($world, $process), EverModel::lasting($world->{model}, $process)) if !defined $fault;
    }
    return $fault;
}

# The list for ever of process 1, or of the child, with what lets its calls through, and that of the model, if they
# differ; without the lines of the script, which are in no model.
sub not_reasoned {
    my ($world) = @_;
    for my $process (1, $CHILD) {
        my $list = lists_of(asked($world, 'objects', '--ever', '--why', '--process', $process))->{lists}{$process};
        my @veils = map { /\Aveil (.*)\z/s ? $1 : () } @{ ever_of($world, $process)->{state} };
        my @lines = map { $_->{text} } @{ $list->{lines} };
        s/ ([rwxc]+|=) [0-9]+(?= |\z)/ $1/g for @lines;
        my @wanted = map { with_reasons($world->{model}, $process, $_, @veils) } EverModel::lasting($world->{model}, $process, 1);
        return join "\n", "process $process:", @lines, 'and by the model:', @wanted if "@lines" ne "@wanted";
    }
    return;
}

# A line of the model with what lets its calls through, by the veils of a state.
sub with_reasons {
    my ($model, $process, $line, @veils) = @_;
    my ($promises, @told) = EverModel::reasons($model, $process, $line);
    my ($kind, $path, $calls) = split / /, $line;
    return join ' ', $kind, $path, $calls, $promises eq '' ? '=' : $promises, @told ? @veils[@told] : '- - -';
}

# What some random future leaves beyond the list for ever, if one does. The script of the world is then that up to
# there.
sub beyond_ever {
    my ($world) = @_;
    my $first = $world->{files}{script};
    my %holds = map { $_ => scalar holders($world, $_) } qw(proc exec);
    $holds{bounded} = is_bounded($world);
    $holds{several} = @{ $world->{members} } > 1;
    $holds{opener}  = grep { Listed::holds($_, 'tmppath') } @{ $world->{nows} };
    for (1 .. $PLAYS) {
        $world->{files}{script} = $first;
        my $futures = Futures->new($worlds, $world->{foreseen}->every, \%holds, 10);
        my $fault = eval { played($world, $futures) };
        $fault = $@ if $@;
        return $fault if defined $fault;
        $counts{plays}++;
    }
    my ($calls, $met) = $world->{foreseen}->counted;
    $counts{calls} += $calls;
    $counts{met}   += $met;
    return;
}

# The lists of now of those that hold a promise, or hand it down.
sub holders {
    my ($world, $promise) = @_;
    return grep { Listed::holds($_, $promise) || Listed::hands_down($_, $promise) } @{ $world->{nows} };
}

# The first fault behind some parts of a random script, each of one line or of many.
sub played {
    my ($world, $futures) = @_;
    my @members = @{ $world->{members} };
    my $play = {
        model => dclone($world->{model}), list => $world->{nows}[0],
        alive => [@members], family => { map { $_ => 1 } @members },
    };
    for (1 .. 1 + $worlds->number(5)) {
        my $count = $worlds->pick(1, 2, 4, 8, 16);
        my @lines = $futures->lines($play->{model}, $play->{list}, $count, @{ $play->{alive} });
        my $fault = behind($world, $play, \@lines, { answer => \&beyond_answer, lists => \&beyond_lists });
        return $fault if defined $fault;
        last if $play->{has_exec} || !@{ $play->{alive} };
    }
    return;
}

# The fault of a request and its answer. An exec by which a future ends isn't served by the model.
sub beyond_answer {
    my ($world, $play, $line, $answer) = @_;
    my ($asker, $call, @words) = split / /, $line;
    my $fault = $answer eq 'ok' ? beyond_okay($world, $play, $asker, $call, @words) : undef;
    $counts{tries}++ if $call eq 'exec' && !$world->{foreseen}->every->{exec};
    return $fault if defined $fault || $play->{has_exec};
    my ($wanted, undef, $opener) = split / /, $play->{model}->told($asker, $call, @words);
    $counts{by_tmppath}++ if defined $opener && $opener eq 'tmppath';
    return $answer eq $wanted ? undef : "$line: $answer, and $wanted by the model";
}

# The fault of a request that was answered ok: the list has no line of it, nor of an opening.
sub beyond_okay {
    my ($world, $play, $asker, $call, @words) = @_;
    return "$asker put a veil" if $call eq 'unveil' && $words[0] ne '-';
    $play->{family}{ $words[0] } = 1 if $call eq 'fork';
    return if $call =~ /\A(?:rename|link|unveil|pledge|fork|exit|uses)\z/;
    my ($kind, $path) = split / /, $play->{model}->subject($asker, $call, $words[-1]);
    $counts{answers}++;
    note_exec($world, $play) if $call eq 'exec';
    my $foreseen = $world->{foreseen};
    my $fault = $foreseen->meet($foreseen->about($play->{model}, $kind, $path), $call);
    return $fault if !defined $fault || !has_opening($call, unspelled($words[-1]), @{ $world->{ever}{state} });
    $counts{opened}++;
    return;
}

sub note_exec {
    my ($world, $play) = @_;
    $world->{stray} = 1 if !$world->{foreseen}->every->{exec};
    $counts{execs}++ if !is_bounded($world);
    $play->{has_exec} = 1 if !is_bounded($world);
    return if !is_bounded($world);
    $counts{bounded}++;
    $counts{started}++ if !$play->{goes_on}++;
    return;
}

# The first fault of the lists of all processes.
sub beyond_lists {
    my ($world, $play, $lists) = @_;
    my $fault = Things::unlike($play->{model}, $lists->{$WITNESS});
    my @members = sort { $a <=> $b } keys %{ $play->{family} };
    for my $member (@members) {
        $counts{lists}++;
        $fault = beyond_state($world, $lists->{$member}) if !defined $fault;
        $fault = $world->{foreseen}->meet_list($play->{model}, $lists->{$member}) if !defined $fault;
        return "process $member: $fault" if defined $fault;
    }
    $play->{alive} = [ grep { Listed::is_alive($lists->{$_}) } @members ];
    $play->{list} = $lists->{ $play->{alive}[0] } if @{ $play->{alive} };
    return;
}

# A member of the family keeps the veils of process 1, as far as letters go, and gets no promise but error, those of the
# first ones, and those that were handed down.
sub beyond_state {
    my ($world, $list) = @_;
    my $first = $world->{nows}[0];
    return if !Listed::is_alive($list);
    return "can put veils again" if !Listed::is_confined($list);
    return "has other veils" if "@{ [ letters($first) ] }" ne "@{ [ letters($list) ] }";
    my $promises = state_of($list)->{promises};
    return 'has all promises' if !$promises && !grep { Listed::has_all($_) } @{ $world->{nows} };
    my @more = grep { $_ ne 'error' && !holders($world, $_) } sort keys %{ $promises || {} };
    return @more ? "has further promises: @more" : undef;
}

sub letters {
    my ($list) = @_;
    return map { $_->[1] } @{ state_of($list)->{veils} };
}

# What has no list for ever, and what has one without a line.
sub refusals {
    is_refused('a process that can still unveil', { script => "1 unveil / r\n" }, 'pua: process 1 can still unveil');
    is_refused('a child that can, of a locked process', { script => "1 fork 2\n1 unveil - -\n" },
        'pua: process 2 can still unveil', '--process', '2');
    is_refused('a process that was never made', { script => "1 unveil - -\n" }, 'pua: no such process',
        '--process', '2');
    is_refused('two processes, one of which was never made,', { script => "1 unveil - -\n" }, 'pua: no such process',
        '--process', '1,2');
    is_refused('two processes, one of which can still unveil,', { script => "1 fork 2\n1 unveil - -\n" },
        'pua: process 2 can still unveil', '--process', '1,2');
    is_refused('two processes with other veils', { script => "1 fork 2\n2 unveil / r\n1 unveil - -\n2 unveil - -\n" },
        'pua: processes 1 and 2 have other veils: ask with --beside', '--process', 'all');
    for my $call (@NEED_C) {
        my $files = { script => "1 unveil - -\n", table => table_without_c($call) };
        my @rules = $call =~ /\A(?:bind|mknod|create-rw)\z/ ? ('--rules', 'openbsd') : ();
        is_refused("a table by which $call needs no c", $files, "pua: table: $call: no c", @rules, '--table', 'table');
    }
    $worlds->by('profile');
    my $files = { script => "1 unveil - -\n", table => table_without_c(qw(symlink create mkdir)) };
    is_refused('a table by which three calls need no c', $files, 'pua: table: create: no c', '--table', 'table');
    $files->{script} = '';
    is_refused('a process that can still unveil, by such a table,', $files, 'pua: process 1 can still unveil',
        '--table', 'table');
    tabled_worlds();
    open_worlds();
    ended_worlds();
    return;
}

sub table_without_c {
    return join "\n", map { ("[$_]", 'promises = ["cpath"]', 'veil = "rwx"', '') } @_;
}

# The listing of the worlds of which nothing else is asked.
my $SMALL;

sub is_refused {
    my ($what, $files, $fault, @words) = @_;
    $SMALL = $worlds->listing if !defined $SMALL;
    my @told = answer_of($PUA, { listing => $SMALL, %$files }, 'objects', '--ever', @words, 'listing', 'script');
    is_deeply(\@told, [ 1, '', "$fault\n" ], "$what has no list for ever");
    return;
}

# Random tables: there is a list for ever where each of the calls needs c that edit a tree, and else none.
sub tabled_worlds {
    my ($lacks, @wrong) = (0);
    for (1 .. 40) {
        my $files = { listing => $SMALL, script => "1 unveil - -\n", table => $worlds->table };
        my $call  = lacks_c(Model->new($SMALL, { table => $files->{table} }));
        my @words = ('objects', '--ever', '--table', 'table', 'listing', 'script');
        my ($status, undef, $err) = answer_of($PUA, $files, @words);
        $lacks += defined $call;
        push @wrong, worlds_told($files) if "$status $err" ne (defined $call ? "1 pua: table: $call: no c\n" : '0 ');
    }
    is_deeply(\@wrong, [], "40 tables, $lacks of which have no list for ever");
    return;
}

# Random scripts: there is a list for ever of process 1 where it can put no veil any more, and else none.
sub open_worlds {
    my ($opens, @wrong) = (0);
    for (1 .. 60) {
        my $files = { listing => $worlds->listing, script => $worlds->script({}) };
        my (undef, $text) = answer_of($PUA, $files, 'objects', 'listing', 'script');
        my $list = lists_of($text)->{lists}{1};
        my ($status, $out, $err) = answer_of($PUA, $files, 'objects', '--ever', 'listing', 'script');
        my $is_open = !Listed::is_confined($list);
        $opens += $is_open;
        my $told = $is_open ? "1 pua: process 1 can still unveil\n" : "0 ";
        push @wrong, worlds_told($files, 'objects', '--ever') if "$status $err" ne $told || $is_open && $out ne '';
    }
    is_deeply(\@wrong, [], "60 scripts, $opens of which leave a process without a list for ever");
    return;
}

# Scripts by which process 1 ends: the list for ever has this state, and no line.
sub ended_worlds {
    my @wrong;
    for (1 .. 20) {
        my $files = { listing => $worlds->listing, script => $worlds->script({ ends => 0 }) . "1 exit\n" };
        my ($status, $out, $err) = answer_of($PUA, $files, 'objects', '--ever', 'listing', 'script');
        push @wrong, worlds_told($files, 'objects', '--ever')
            if $status != 0 || $err ne '' || $out !~ /^ever 1\nprocess ended\n\z/m;
    }
    is_deeply(\@wrong, [], '20 ended processes, which have a list for ever without a line');
    return;
}
