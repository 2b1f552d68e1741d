#!/usr/bin/perl
# Tests of `pua objects --ever --beside` over random worlds by a fixed seed: perl tests/beside.t [PROGRAM [SEED]]
# In each world one to three processes can put no veil any more, each with promises and veils of its own. What each can
# touch now lies within its list beside the others, and so does what it and what it forks can touch behind random
# requests of them all: short of an exec that succeeds where what one of them starts isn't bounded, and else whatever is
# started, so that a future goes on. Things are followed through renames by a model (Model.pm). The lists are those of a
# plain model, too (JointModel.pm), so they aren't too long, and the help of others takes no line away. And so they are in a
# world for each wrong model of mount points (WrongMounts.pm) that has another list there.
use strict;
use warnings;
use FindBin qw($Bin);
use lib "$Bin/lib";
use Storable qw(dclone);
use Test::More;
use EverModel;
use Foreseen;
use Futures;
use JointModel;
use Listed qw(lists_of);
use Model;
use Openings qw(has_opening);
use Plays qw(asked behind differs told);
use Things;
use Tree qw(unspelled);
use Worlds qw(program_in);
use WrongMounts;
use WrongRoots qw(with_wrong);

my $WORLDS = 36;
my $PLAYS  = 10;

# Among how many worlds one is looked for in which a wrong model has other lists.
my $LOOKED = 5000;

# A process that the first line of each script forks, and that asks for nothing: it has no veils and all
# promises, so its list has each name of the tree.
my $WITNESS = 9;

my $PUA  = program_in(@ARGV);
my $SEED = @ARGV > 1 ? $ARGV[1] : 11;

# What a process pledges at last.
my @PLEDGES = (
    ('stdio,rpath,wpath,cpath,fattr,exec,proc -') x 3, 'rpath,wpath,cpath,exec,proc -', 'rpath,cpath,proc,error -',
    'wpath,cpath,proc -', 'rpath,wpath,fattr,proc -', 'rpath,cpath -', 'cpath -', 'rpath -', 'exec,rpath -',
    ('rpath,sendfd -', 'rpath,cpath,sendfd,proc -', 'fattr,recvfd,exec,proc -', 'rpath,exec,sendfd,recvfd,fattr -') x 2,
    ('stdio,rpath,proc,exec stdio,rpath,wpath,cpath') x 3, 'rpath,proc,exec wpath,cpath,exec,proc',
    'rpath,wpath,cpath,exec,proc rpath,exec', 'exec,proc rpath,wpath,cpath,fattr', 'exec rpath,cpath',
    'rpath,cpath,exec,tmppath -', 'rpath,exec,tmppath rpath', 'rpath,fattr,exec,proc rpath',
);

# The veil and the pledge of each of three in every second world by OpenBSD's rules: what one opens or has open, it sends to
# another one that sets its mode, and the third one starts it.
my $sendings = 0;
my @SENDING = ([ '/ r', 'rpath,sendfd -' ], [ '/ =', 'fattr,recvfd -' ], [ '/ x', 'exec -' ]);

# What files each has open by OpenBSD's rules, as far as it doesn't close them.
my @FDS = (3, 4);

# What its veils give.
my @PERMISSIONS = qw(rwxc rwc wc rc rc xc c c c r r rw rx x w =);

# By what rules worlds are asked.
my @RULES = qw(profile openbsd profile table);

# The calls that have to need c.
my @NEED_C = qw(rmdir unlink create mkdir symlink bind mknod create-rw);

my $worlds = Worlds->new($SEED, { openings => 1 });
my %counts = map { $_ => 0 } qw(lists answers opened more sent calls met execs bounded plays);

for my $number (1 .. $WORLDS) {
    my $world = world($number);
    my $who   = "world $number, @{ $world->{members} }:";
    ok(!is_told($world, not_headed($world)), "$who the headings and states");
    ok(!is_told($world, not_modelled($world)), "$who the lists are those of the model");
    ok(!is_told($world, beyond_now($world)), "$who what can be touched now is in them");
    ok(!is_told($world, beyond_alone($world)), "$who and so is what each can ever touch without help");
    ok(!is_told($world, beyond_ever($world)), "$who they have what can be touched in $PLAYS futures");
    ok(!$world->{stray}, "$who no exec succeeds where none has one");
}
for (@WrongMounts::WRONG_JOINTLY) {
    my ($name, @wrong) = @$_;
    my $world = noticing(@wrong) or fail("not noticed: $name"), next;
    ok(!is_told($world, not_modelled($world)), "noticed: $name");
    ok(!is_told($world, beyond_ever($world)), "$name: there the lists have what can be touched in $PLAYS futures");
}
cmp_ok($counts{sent}, '>=', 1, 'a file becomes a program that one sends to another');
note("$counts{lists} lists and $counts{answers} answers, of which $counts{opened} are by an opening alone, in ",
    "$counts{plays} futures within lists, of which $counts{met} calls of $counts{calls} were met; $counts{more} lines ",
    "are by help alone; $counts{sent} worlds have lines by what is sent; $counts{execs} futures ended by an exec, and ",
    "$counts{bounded} execs were bounded");
done_testing();

# A world with its lists: one in which, by the model, one to three processes live and can put no veil any more. In three
# of four there is help.
sub world {
    my ($number) = @_;
    while (1) {
        my $world = drawn($RULES[ $number % @RULES ], 1 + $number % 3);
        next if grep { $world->{model}->state($_) !~ /^unveil (?:locked|given-up)$/m } @{ $world->{members} };
        $world->{found} = JointModel::found($world->{model}, @{ $world->{members} });
        next if $number % 3 && $number % 4 && !has_help($world);
        return with_lists($world);
    }
}

# A world in which a wrong model has other lists for ever; undef where none is found.
sub noticing {
    my ($place, $wrong) = @_;
    for my $number (1 .. $LOOKED) {
        my $world = drawn($RULES[ $number % @RULES ], 1 + $number % 3);
        my ($model, @members) = ($world->{model}, @{ $world->{members} });
        next if !%{ $model->{mount} } || grep { $model->state($_) !~ /^unveil (?:locked|given-up)$/m } @members;
        $world->{found} = JointModel::found($model, @members);
        my $found = with_wrong($place, $wrong, sub { return JointModel::found($model, @members) });
        return with_lists($world) if grep { "@{ $found->{lines}{$_} }" ne "@{ $world->{found}{lines}{$_} }" } @members;
    }
    return;
}

# Whether some list has more by the help of others.
sub has_help {
    my ($world) = @_;
    for my $member (@{ $world->{members} }) {
        my $alone = JointModel::found($world->{model}, $member);
        return 1 if "@{ $alone->{lines}{$member} }" ne "@{ $world->{found}{lines}{$member} }";
    }
    return 0;
}

# A listing and a script, with a table by which no call lacks c.
sub drawn {
    my ($rules, $count) = @_;
    $worlds->by($rules);
    my $files = { listing => $worlds->listing, table => '' };
    my $words = $rules eq 'table' ? [ '--table', 'table' ] : [ '--rules', $rules ];
    while (1) {
        $files->{table} = $worlds->table if $rules eq 'table';
        my $model = Model->new($files->{listing}, { rules => $rules, table => $files->{table} });
        next if grep { $model->{needs}{$_}[1] !~ /c/ } @NEED_C;
        $files->{script} = first_script($model, 1 .. $count);
        $model->run($files->{script});
        return { program => $PUA, files => $files, rules => $words, model => $model, members => [ 1 .. $count ] };
    }
}

# A script that makes the witness, lets process 1 edit the tree of a model and fork the others; by OpenBSD's rules they have
# some files open; and lets each put its veils, and then no more.
sub first_script {
    my ($model, @members) = @_;
    my @edits = grep { !/ (?:fork|exit|exec|unveil|pledge) / } $worlds->requests($worlds->number(3), 1);
    my @rows  = Things::rows($model);
    my @files = $model->{openbsd} ? grep { $_->{kind} eq 'file' } @rows : ();
    my @holds = map { "1 hold $_ " . $worlds->pick(qw(open-r open-w open-rw)) . ' ' . $worlds->pick(@files)->{path} }
        @files ? @FDS : ();
    my @lines = ("1 fork $WITNESS", @holds);
    push @lines, map { "1 fork $_" } grep { $_ != 1 } @members;
    my $is_sending = $model->{openbsd} && @members == @SENDING && $sendings++ % 2 == 0;
    for my $member (@members) {
        push @lines, map { "$member $_" } "unveil $SENDING[$member - 1][0]", 'unveil - -', "pledge $SENDING[$member - 1][1]" if $is_sending;
        next if $is_sending;
        push @lines, map { $worlds->number(2) ? "$member close $_" : () } @files ? @FDS : ();
        push @lines, map { veil($member, @rows) } 0 .. 1 + $worlds->number(3);
        push @lines, "$member unveil - -" if $worlds->number(3);
        push @lines, "$member pledge " . pledged() if $worlds->number(4);
    }
    return join '', @edits, map { "$_\n" } @lines;
}

sub pledged {
    return join ' ', map { $worlds->promises($_) } split / /, $worlds->pick(@PLEDGES);
}

# A line that puts a veil on what stands in a tree, or on a name in it that may be missing.
sub veil {
    my ($member, @rows) = @_;
    my $row  = $worlds->pick(@rows);
    my $path = $row->{path};
    $path .= ($path eq '/' ? '' : '/') . $worlds->pick($worlds->names, 'n')
        if $row->{kind} eq 'dir' && $worlds->number(3) == 0;
    return "$member unveil $path " . $worlds->pick(@PERMISSIONS);
}

# A world with the lists of now, and those for ever of each process beside all, and beside itself, which is nobody.
sub with_lists {
    my ($world) = @_;
    my @members = @{ $world->{members} };
    my $all = join ',', @members;
    $world->{nows}  = lists_of(asked($world, 'objects', '--process', 'all'))->{lists};
    $world->{evers} = lists_of(asked($world, 'objects', '--ever', '--process', $all, '--beside', $all))->{lists};
    for my $member (@members) {
        my $alone = asked($world, 'objects', '--ever', '--process', $member, '--beside', $member);
        $world->{alone}{$member} = lists_of($alone)->{lists}{$member};
        $world->{foreseen}{$member} = Foreseen->new($world->{model}, $world->{evers}{$member});
    }
    return $world;
}

# Whether there is a fault, which is told with the world's listing, script and lists.
sub is_told {
    my ($world, $fault) = @_;
    return 0 if !defined $fault;
    diag("$fault\n", told($world, 'objects', '--ever', '--process', 'all', '--beside', 'all'));
    for my $member (@{ $world->{members} }) {
        diag("--- process $member\n", map { "$_->{text}\n" } @{ $world->{evers}{$member}{lines} });
    }
    return 1;
}

# What a list says of its process and of the others, but for openings and what is received, and what it should say.
sub not_headed {
    my ($world) = @_;
    my @members = @{ $world->{members} };
    for my $member (@members) {
        my $list   = $world->{evers}{$member};
        my $others = join ',', grep { $_ != $member } @members;
        return "process $member is beside " . ($list->{beside} // 'nobody') if ($list->{beside} // '') ne $others;
        my $state  = join '', map { "$_\n" } grep { !/\A(?:opening|receive) / } @{ $list->{state} };
        my $wanted = $world->{model}->state($member) =~ s/^opening .*\n//gmr;
        $wanted =~ s/^(unveil \S+\n)/$1exec $world->{found}{exec}\n/m if $world->{found}{exec};
        return "process $member has the state\n$state, and not\n$wanted" if $state ne $wanted;
    }
    return;
}

# The first list that is not the model's.
sub not_modelled {
    my ($world) = @_;
    $counts{sent}++ if has_sent($world);
    for my $member (@{ $world->{members} }) {
        my $found = JointModel::found($world->{model}, $member);
        my $fault = differs($world->{evers}{$member}, @{ $world->{found}{lines}{$member} })
            // differs($world->{alone}{$member}, @{ $found->{lines}{$member} });
        return "process $member: $fault" if defined $fault;
    }
    return;
}

# Whether some list has more by what one sends to another.
sub has_sent {
    my ($world) = @_;
    local $JointModel::SENDS = 0;
    my @members = @{ $world->{members} };
    my $kept = JointModel::found($world->{model}, @members);
    return scalar grep { "@{ $kept->{lines}{$_} }" ne "@{ $world->{found}{lines}{$_} }" } @members;
}

# The first line of now that is not in the list of its process, with all its calls.
sub beyond_now { my ($world) = @_; return beyond($world, $world->{nows}) }

# The first line of a list of a process beside nobody that the list beside all doesn't have, with all its calls.
sub beyond_alone {
    my ($world) = @_;
    for my $member (@{ $world->{members} }) {
        my ($all, $alone) = map { $world->{$_}{$member} } qw(evers alone);
        $counts{more} += grep { my $text = $_->{text}; !grep { $_->{text} eq $text } @{ $alone->{lines} } } @{ $all->{lines} };
    }
    return beyond($world, $world->{alone});
}

sub beyond {
    my ($world, $lists) = @_;
    for my $member (@{ $world->{members} }) {
        my $fault = Listed::beyond($lists->{$member}, $world->{evers}{$member});
        return "process $member: $fault" if defined $fault;
    }
    return;
}

# What some random future leaves beyond the lists, if one does. The script of the world is then that up to there.
sub beyond_ever {
    my ($world) = @_;
    my $first = $world->{files}{script};
    my %holds = (several => 1, bounded => is_bounded($world));
    for my $promise (qw(proc exec)) {
        $holds{$promise} = grep { Listed::holds($_, $promise) || Listed::hands_down($_, $promise) } own_lists($world);
    }
    $holds{opener} = grep { Listed::holds($_, 'tmppath') } own_lists($world);
    my %calls = map { %{ $_->every } } values %{ $world->{foreseen} };
    for (1 .. $PLAYS) {
        $world->{files}{script} = $first;
        my $futures = Futures->new($worlds, \%calls, \%holds, 10);
        my $fault = eval { played($world, $futures) };
        $fault = $@ if $@;
        return $fault if defined $fault;
        $counts{plays}++;
    }
    for my $foreseen (values %{ $world->{foreseen} }) {
        my ($calls, $met) = $foreseen->counted;
        $counts{calls} += $calls;
        $counts{met}   += $met;
    }
    return;
}

sub own_lists { my ($world) = @_; return map { $world->{nows}{$_} } @{ $world->{members} } }

sub is_bounded { return ($_[0]{found}{exec} || '') eq 'bounded' ? 1 : 0 }

# The first fault behind some parts of a random script, each of one line or of many. Each process that is forked is of
# the family of one of those of the beginning.
sub played {
    my ($world, $futures) = @_;
    my @members = @{ $world->{members} };
    my $play = {
        model => dclone($world->{model}), alive => [@members], family => { map { $_ => $_ } @members },
        lists => $world->{nows},
    };
    for (1 .. 1 + $worlds->number(5)) {
        my $count = $worlds->pick(1, 2, 4, 8, 16);
        my $list  = $play->{lists}{ $worlds->pick(@{ $play->{alive} }) };
        my @lines = $futures->lines($play->{model}, $list, $count, @{ $play->{alive} });
        my $fault = behind($world, $play, \@lines, { answer => \&beyond_answer, lists => \&beyond_lists });
        return $fault if defined $fault;
        last if $play->{has_exec} || !@{ $play->{alive} };
    }
    return;
}

# The fault of a request and its answer. An exec by which a future ends isn't served by the model.
sub beyond_answer {
    my ($world, $play, $line, $answer) = @_;
    my ($asker, $call, @words) = split / /, $line;
    my $fault = $answer eq 'ok' ? beyond_okay($world, $play, $asker, $call, @words) : undef;
    return $fault if defined $fault || $play->{has_exec};
    my $wanted = $play->{model}->answer($asker, $call, @words);
    return $answer eq $wanted ? undef : "$line: $answer, and $wanted by the model";
}

# The fault of a request that was answered ok: the list has no line of it, nor of an opening.
sub beyond_okay {
    my ($world, $play, $asker, $call, @words) = @_;
    return "$asker put a veil" if $call eq 'unveil' && $words[0] ne '-';
    my $first = $play->{family}{$asker};
    $play->{family}{ $words[0] } = $first if $call eq 'fork';
    return if $call =~ /\A(?:rename|link|unveil|pledge|fork|exit|uses)\z/;
    my ($kind, $path) = split / /, $play->{model}->subject($asker, $call, $words[-1]);
    $counts{answers}++;
    note_exec($world, $play) if $call eq 'exec';
    my $foreseen = $world->{foreseen}{$first};
    my $fault = $foreseen->meet($foreseen->about($play->{model}, $kind, $path), $call);
    return if !defined $fault;
    return "process $asker: $fault" if !has_opening($call, unspelled($words[-1]), @{ $world->{evers}{$first}{state} });
    $counts{opened}++;
    return;
}

sub note_exec {
    my ($world, $play) = @_;
    $world->{stray} = 1 if !$world->{found}{exec};
    return $counts{bounded}++ if is_bounded($world);
    $counts{execs}++;
    return $play->{has_exec} = 1;
}

# The first fault of the lists of all processes.
sub beyond_lists {
    my ($world, $play, $lists) = @_;
    my $fault = Things::unlike($play->{model}, $lists->{$WITNESS});
    return $fault if defined $fault;
    my @members = sort { $a <=> $b } keys %{ $play->{family} };
    for my $member (@members) {
        $counts{lists}++;
        $fault = $world->{foreseen}{ $play->{family}{$member} }->meet_list($play->{model}, $lists->{$member});
        return "process $member: $fault" if defined $fault;
    }
    $play->{alive} = [ grep { Listed::is_alive($lists->{$_}) } @members ];
    $play->{lists} = $lists;
    return;
}
