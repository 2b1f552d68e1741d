#!/usr/bin/perl
# Tests of what requests leave, over random worlds by a fixed seed: perl tests/futures.t [PROGRAM]
# A process that can put no veil any more is allowed nothing further by its own requests, and just the same after
# those of others, over the tree that there is then; a child is allowed what its parent is; and each name on which
# the veils of those who ask give no c stays. What a process was before some requests is asked of its mirrors
# (Mirrors.pm). One that moves its root, or comes out of it, may name more than before: who pledged without id, and has no
# directory outside of its root, can't, as long as nobody else asks.
use strict;
use warnings;
use FindBin qw($Bin);
use lib "$Bin/lib";
use List::Util qw(first);
use Storable qw(dclone);
use Test::More;
use Futures;
use Listed qw(lists_of);
use Mirrors qw(twin bare mirrored);
use Model;
use Things;
use Worlds qw(answer_of program_in worlds_told);

my $SEED   = 11;
my $WORLDS = 24;
my $HELD   = 8;     # with descriptors, by OpenBSD's rules
my $ROOTS  = 12;    # with roots too
my $CUTS   = 8;

# How many lines a script has behind those that make its processes, and how many of them are drawn at once.
my $LINES   = 24;
my $AT_ONCE = 4;

# A process that the first line of each script forks, and that asks for nothing: it has no veils and all
# promises, so its list has each name of the tree.
my $WITNESS = 9;

my $PUA = program_in(@ARGV);

# What is asked of each cut of a script: its fault, and what is said where there is none.
my @CLAIMS = (
    [ \&answer_fault, 'answers, trees and mirrors are as the model has them' ],
    [ \&list_fault,   'who can put no veil gets no further, and only by itself less' ],
    [ \&audit_fault,  'nor does it by paths' ],
    [ \&child_fault,  'a child has what its parent has' ],
    [ \&name_fault,   'names without c stay' ],
);

my %EDITS = map { $_ => 1 } qw(create mkdir rmdir unlink symlink bind mknod create-rw rename link);

my $worlds = Worlds->new($SEED, { openings => 1 });
my %counts = map { $_ => 0 } qw(edits opened files lists alike audits children names roots kept left);

for my $number (1 .. $WORLDS + $HELD + $ROOTS) {
    $worlds = Worlds->new($SEED, { files => 1 }) if $number == $WORLDS + 1;
    $worlds = Worlds->new($SEED, { files => 1, roots => 1 }) if $number == $WORLDS + $HELD + 1;
    my $world = world($number % 3 && $number <= $WORLDS ? {} : { rules => 'openbsd' });
    my @cuts  = map { cut($world, $_ % 4) } 1 .. $CUTS;
    for my $claim (@CLAIMS) {
        my ($fault_of, $what) = @$claim;
        my $faulty = first { is_told($_, $fault_of->($_)) } @cuts;
        ok(!defined $faulty, "world $number: $what");
    }
}
note("$counts{edits} edits; $counts{files} requests on descriptors; $counts{opened} answers by a promise; ",
    "$counts{lists} lists within those of before, of which $counts{alike} are the same after ",
    "requests of others; $counts{audits} audits; $counts{children} lists of children; ",
    "$counts{names} names without c; $counts{roots} roots were moved, $counts{kept} lists are of one that can't be left, ",
    "and $counts{left} of one that was");
done_testing();

# --- Worlds ---

# A listing, and the lines of a script. Process 2 can put veils; 1 and 3 can't, and mostly have one with c.
sub world {
    my ($how) = @_;
    my ($world, $model) = begun($how);
    ($world, $model) = begun($how)
        while $worlds->number(5) && !grep { /c/ } values %{ $model->{processes}{1}{letters} };
    my $futures = Futures->new($worlds, calls(), { proc => 1, exec => 1 }, 10);
    for (1 .. $LINES / $AT_ONCE) {
        my @askers = (1, 1, 2, 3, $worlds->roots ? (4, 4, 5) : (), grep { $_ != $WITNESS } $model->living);
        my $is_drawn = $worlds->files ? $worlds->number(4) == 0 : $worlds->number(4);
        my @lines = $is_drawn ? drawn($futures, $model, @askers) : $worlds->requests($AT_ONCE, @askers);
        chomp @lines;
        push @{ $world->{lines} }, @lines;
        answers_of($model, @lines);
    }
    return $world;
}

# Some lines of some processes, drawn by what one of them can touch in a model.
sub drawn {
    my ($futures, $model, @askers) = @_;
    my $one  = $worlds->pick(grep { $model->{processes}{$_} } @askers);
    my $list = lists_of($model->list($one))->{lists}{$one};
    return $futures->lines($model, $list, $AT_ONCE, @askers);
}

# All calls that there are by the rules of the worlds.
sub calls { return { map { $_ => 1 } $worlds->calls, 'symlink' } }

# Its first lines, and their model.
sub begun {
    my ($how)  = @_;
    $worlds->by($how->{rules} || 'profile');
    my $world  = { how => $how, listing => $worlds->listing };
    my $script = $worlds->script({ veils => 3, locks => 1, lines => 0, ends => 0 });
    my @veils  = grep { $_ ne '1 fork 2' } split /\n/, $script;
    unshift @veils, $worlds->opening_pledge(1) if $worlds->opens && $worlds->number(3);
    $world->{lines} = [ "1 fork $WITNESS", '1 fork 2', @veils, '1 fork 3', $worlds->roots ? jailed() : () ];
    my $model = Model->new($world->{listing}, $how);
    answers_of($model, @{ $world->{lines} });
    return ($world, $model);
}

# Lines of process 4, which has a root of its own that it mostly can't leave, and of a child of it.
sub jailed {
    my $jail = $worlds->jail;
    my @holds = $worlds->number(4) ? () : '4 hold 5 open-r ' . $worlds->pick('/', $jail);
    my $pledge = '4 pledge stdio,rpath,wpath,cpath,fattr,proc' . ($worlds->number(4) ? '' : ',id') . ' -';
    my $exit = $worlds->number(5) ? '4 chdir /' : '4 stat /';
    return ('2 fork 4', @holds, "4 chroot $jail", $exit, $worlds->number(5) ? $pledge : (), '4 fork 5');
}

# --- Cuts ---

# A cut of a world's script: the lines before it, with their mirrors, and requests behind it.
sub cut {
    my ($world, $way) = @_;
    my @lines = @{ $world->{lines} };
    my $at    = $way == 0 ? fork_in($world) : @lines - $LINES + $worlds->number($LINES - 1);
    my $cut   = { how => $world->{how}, listing => $world->{listing}, before => [ @lines[ 0 .. $at - 1 ] ] };
    $cut->{model}   = Model->new($cut->{listing}, $cut->{how});
    $cut->{answers} = [ answers_of($cut->{model}, @{ $cut->{before} }) ];
    $cut->{rest}    = [ rest_of($cut, $way, @lines[ $at .. $#lines ]) ];
    serve_rest($cut);
    my @mirrored = mirrored($cut->{before}, $cut->{answers});
    $cut->{now}  = asked($cut, @mirrored);
    $cut->{then} = asked($cut, @mirrored, @{ $cut->{rest} });
    return $cut;
}

# The place of a line that forks, in the script of a world; the first lines have some.
sub fork_in {
    my ($world) = @_;
    return $worlds->pick(grep { $world->{lines}[$_] =~ / fork / } 2 .. $#{ $world->{lines} });
}

# What is asked behind a cut: all further lines; or lines of one process that can put no veil any more and of what
# it forks; or one line.
sub rest_of {
    my ($cut, $way, @lines) = @_;
    return $way == 1 ? @lines : $way == 2 ? further($cut) : $lines[0];
}

sub answers_of {
    my ($model, @lines) = @_;
    return map { $model->answer(split / /) } @lines;
}

# Lines of one living process that can put no veil any more, if there is one, and of what it forks.
sub further {
    my ($cut) = @_;
    my @confined = grep { $cut->{model}->state($_) =~ /^unveil (?:locked|given-up)$/m } $cut->{model}->living;
    return if !@confined;
    my ($asker, @forked) = $worlds->pick(@confined);
    my $model   = dclone($cut->{model});
    my $futures = Futures->new($worlds, calls(), { proc => 1, exec => 0 }, 50);
    my @lines;
    for (1 .. $LINES / $AT_ONCE) {
        my @more = drawn($futures, $model, $asker, @forked);
        chomp @more;
        my @answers = answers_of($model, @more);
        push @lines, @more;
        push @forked, map { $more[$_] =~ / fork ([0-9]+)\z/ && $answers[$_] eq 'ok' ? $1 : () } 0 .. $#more;
    }
    return @lines;
}

# Serves the lines behind a cut, up to an exec that succeeds, and notes who asked, who forked whom, who changed the directory,
# and who moved its root.
sub serve_rest {
    my ($cut) = @_;
    $cut->{end} = dclone($cut->{model});
    $cut->{$_} = {} for qw(askers origins moved rooted);
    for my $place (0 .. $#{ $cut->{rest} }) {
        my ($asker, $call, @words) = split / /, $cut->{rest}[$place];
        my $is_exec = $call eq 'exec' && is_ok(dclone($cut->{end}), $asker, $call, @words);
        return splice @{ $cut->{rest} }, $place if $is_exec;
        $cut->{askers}{$asker} = 1;
        next if !is_ok($cut->{end}, $asker, $call, @words);
        $cut->{origins}{ $words[0] } = origin($cut, $asker) if $call eq 'fork';
        $cut->{moved}{$asker} = 1 if $call eq 'chdir' || $call eq 'fchdir';
        $cut->{rooted}{ origin($cut, $asker) } = 1, $counts{roots}++ if $call eq 'chroot';
        $counts{edits} += $EDITS{$call} || 0;
        $counts{files}++ if $call =~ /\A(?:hold|close|fchdir|take)\z/;
    }
    return;
}

sub is_ok {
    my ($model, @words) = @_;
    return $model->answer(@words) eq 'ok';
}

# The process at the cut from which a process comes.
sub origin {
    my ($cut, $process) = @_;
    return exists $cut->{origins}{$process} ? $cut->{origins}{$process} : $process;
}

# --- What the program prints ---

sub files_of {
    my ($cut, @lines) = @_;
    return { listing => $cut->{listing}, script => join '', map { "$_\n" } @lines };
}

sub rules_of { return $_[0]{how}{rules} ? ('--rules', $_[0]{how}{rules}) : () }

sub text_of {
    my ($cut, $files, @words) = @_;
    my ($status, $out, $err) = answer_of($PUA, $files, @words);
    return $out if $status == 0 && $err eq '';
    diag(worlds_told($files, @words));
    BAIL_OUT("status $status: $err");
}

# The lists of all processes behind some lines, with these lines and the program's answers.
sub asked {
    my ($cut, @lines) = @_;
    my $files = files_of($cut, @lines);
    my $text  = text_of($cut, $files, 'objects', '--process', 'all', rules_of($cut), 'listing', 'script');
    my $told  = lists_of($text);
    my @told  = map { s/\A[0-9]+ //r } (split /\n/, $text)[ 0 .. $#lines ];
    return { %{ $told->{lists} }, lines => \@lines, answers => $told->{answers}, told => \@told };
}

# Whether there is a fault, which is told with what was asked.
sub is_told {
    my ($cut, $fault) = @_;
    return 0 if !defined $fault;
    my $files = files_of($cut, @{ $cut->{then}{lines} });
    diag("$fault\n", "behind line ", scalar @{ $cut->{now}{lines} }, ":\n",
        worlds_told($files, 'objects', '--process', 'all', rules_of($cut), 'listing', 'script'));
    return 1;
}

# --- Claims ---

# The program answers as the model does, the witness sees the model's tree, and each twin is as what it mirrors.
sub answer_fault {
    my ($cut) = @_;
    my $model  = Model->new($cut->{listing}, $cut->{how});
    my @wanted = map { $model->told(split / /) } @{ $cut->{then}{lines} };
    return 'other answers than by the model' if "@wanted" ne "@{ $cut->{then}{told} }";
    $counts{opened} += grep { / by / } @wanted;
    for my $process ($cut->{model}->processes) {
        next if $process == $WITNESS;
        return "a twin that is not as process $process"
            if $cut->{now}{$process}{text} ne $cut->{now}{ twin($process) }{text};
    }
    return Things::unlike($cut->{end}, $cut->{then}{$WITNESS});
}

# The living processes at a cut that can put no veil any more.
sub confined {
    my ($cut) = @_;
    my $now = $cut->{now};
    return grep { Listed::is_alive($now->{$_}) && Listed::is_confined($now->{$_}) } $cut->{model}->processes;
}

# What is allowed to a process that comes from such a one lies within what that one, as it was, would be allowed; and
# is just that where it asked for nothing.
sub list_fault {
    my ($cut) = @_;
    my %confined = map { $_ => 1 } confined($cut);
    my $then = $cut->{then};
    for my $process (grep { $confined{ origin($cut, $_) } } $cut->{end}->processes) {
        my ($list, $before) = ($then->{$process}, $then->{ twin(origin($cut, $process)) });
        my $is_kept = is_kept($cut, origin($cut, $process));
        return "process $process leaves its root" if $is_kept && Listed::is_alive($list) && !is_in($list, $before);
        $counts{kept} += $is_kept;
        $counts{left}++, next if root_line($before) =~ / closed\z/ && !is_in($list, $before);
        my $fault = Listed::beyond($list, $before);
        return "process $process gets further: $fault" if defined $fault;
        return "process $process can put veils again" if !Listed::is_confined($list);
        $counts{lists}++;
        next if $cut->{askers}{ origin($cut, $process) };
        return "process $process is not as before" if $list->{text} ne $before->{text};
        $counts{alike}++;
    }
    return;
}

# Whether a process can't come out of a root of its own behind a cut: it is enclosed there, has pledged without id, and nobody
# else asks, who could move away what it works in.
sub is_kept {
    my ($cut, $process) = @_;
    my ($model, $is) = ($cut->{model}, $cut->{model}{processes}{$process});
    return 0 if $is->{root} == 0 || !$model->is_enclosed($is) || !$is->{promises} || $is->{promises}{id};
    return !grep({ origin($cut, $_) != $process } keys %{ $cut->{askers} }) || 0;
}

# What a list says of the root of its process, and whether that of another one is the same, out of which nothing leads.
sub root_line { return (grep({ /\Aroot / } @{ $_[0]{state} }), '')[0] }

sub is_in {
    my ($list, $other) = @_;
    return root_line($list) eq root_line($other) && root_line($list) =~ / closed\z/;
}

# The same of the audits of one such process, from the root and from its working directory, if it didn't change that, nor the
# root.
sub audit_fault {
    my ($cut) = @_;
    my @confined = grep { !$cut->{rooted}{$_} } confined($cut);
    return if !@confined;
    my $process = $worlds->pick(@confined);
    my $base    = $cut->{moved}{$process} || $worlds->number(2) ? 'root' : 'cwd';
    my ($before, $after) = map { audit_of($cut, $base, $_) } twin($process), $process;
    my %before = map { $_ => 1 } @$before;
    my ($further) = grep { !$before{$_} } @$after;
    $counts{audits}++;
    return "process $process gets further from $base: $further" if defined $further;
    return "process $process is not as before from $base" if !$cut->{askers}{$process} && @$before != @$after;
    return;
}

# The pairs of an audit behind a cut's lines.
sub audit_of {
    my ($cut, $base, $process) = @_;
    my @words = ('audit', '--limit', 2, '--base', $base, '--process', $process, rules_of($cut), 'listing', 'script');
    my $text = text_of($cut, files_of($cut, @{ $cut->{then}{lines} }), @words, $worlds->names);
    $text =~ s/\A.*^reach $process\n//ms;
    return [ split /\n/, $text ];
}

# A child that the one line behind a cut made is as its parent, by its list and from its working directory.
sub child_fault {
    my ($cut) = @_;
    my ($child) = keys %{ $cut->{origins} };
    return if @{ $cut->{rest} } != 1 || !defined $child;
    my $parent = $cut->{origins}{$child};
    $counts{children}++;
    return "process $child is not as $parent" if $cut->{then}{$child}{text} ne $cut->{then}{$parent}{text};
    my ($of_child, $of_parent) = map { audit_of($cut, 'cwd', $_) } $child, $parent;
    return "@$of_child" eq "@$of_parent" ? undef : "process $child is not as $parent from its directory";
}

# The one process from which all requests behind a cut come, if its bare mirror has its veils: there is none after
# an exec, and of several lines it has to be one that can put no veil any more.
sub one_asker {
    my ($cut) = @_;
    my %origins = map { origin($cut, $_) => 1 } keys %{ $cut->{askers} };
    my ($asker, @others) = keys %origins;
    return if !defined $asker || @others || !$cut->{now}{$asker} || !Listed::is_alive($cut->{now}{$asker});
    return if @{ $cut->{rest} } > 1 && !grep { $_ == $asker } confined($cut);
    my $has_exec = grep { $cut->{before}[$_] =~ / exec / && $cut->{answers}[$_] eq 'ok' } 0 .. $#{ $cut->{before} };
    return $has_exec ? undef : $asker;
}

# The first name on which the veils of who asked give no c, and at which something else stands behind the cut's
# lines, or the same under another cover.
sub name_fault {
    my ($cut) = @_;
    my $asker = one_asker($cut);
    return if !defined $asker;
    my ($now, $then) = map { Listed::calls_at($cut->{$_}{ bare($asker) }) } qw(now then);
    my %rows = map { $_->{dir} . "/$_->{name}" => $_ } grep { defined $_->{dir} } Things::rows($cut->{end});
    for my $row (grep { !Listed::gives_c($now, $_) } Things::rows($cut->{model})) {
        next if !defined $row->{dir};
        $counts{names}++;
        my $after = $rows{"$row->{dir}/$row->{name}"};
        return "$row->{path} is gone" if !defined $after || $after->{node} != $row->{node};
        return "$row->{path} is covered otherwise" if cover_told($now, $row) ne cover_told($then, $after);
        return "$row->{path} leads elsewhere"
            if $row->{kind} eq 'link' && $cut->{model}{target}{ $row->{node} } ne $cut->{end}{target}{ $row->{node} };
    }
    return;
}

# What a bare mirror may do with what stands at a name, which tells its cover. Whether a directory is empty doesn't
# matter.
sub cover_told {
    my ($calls, $row) = @_;
    my $here = $calls->{"$row->{kind} $row->{path}"} || {};
    return join ',', grep { $_ ne 'rmdir' } sort keys %$here;
}
