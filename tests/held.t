#!/usr/bin/perl
# Tests of what processes have open and of their roots, over random worlds by a fixed seed:
#
#     perl tests/held.t [PROGRAM [SEED]]
#
# By OpenBSD's rules random scripts open files and keep them, close them, go where they lead, take them of other processes, and
# move their roots, while others make, move and remove what they stand for, fork, start programs, pledge and unveil. Each
# answer, and each line of the list of each process, its lines `held` and `root` too, is that of a plain model (Model.pm); and
# so are lists for ever, which say whether files may still be received. Of some wrong models of roots each is noticed.
use strict;
use warnings;
use FindBin qw($Bin);
use lib "$Bin/lib";
use List::Util qw(first);
use Test::More;
use EverModel;
use Model;
use Openings qw(openings_of);
use Pua::Calls qw(%OPENINGS);
use Worlds qw(answer_of program_in worlds_told);
use WrongRoots qw(with_wrong);

my $PUA  = program_in(@ARGV);
my $SEED = @ARGV > 1 ? $ARGV[1] : 89;

# How many worlds are tried, of which each second has paths that promises open, and half are about roots too; and how many
# make a test.
my $WORLDS = 800;
my $IN_ONE = 20;

# How often each answer to a line on descriptors or a root has to be met, each kind of a line `held` or `root`, and a list for
# ever with a program that is made of what is open: of the process alone, and through execs. With other seeds each was met more
# than twice as often, too.
my %LEAST = (
    'hold ok' => 300, 'hold ENOENT' => 150, 'hold EACCES' => 20, 'hold EISDIR' => 40, 'hold killed' => 6, 'hold ENOSYS' => 20,
    'close ok' => 40, 'close EBADF' => 100, 'fchdir ok' => 20, 'fchdir EBADF' => 120, 'fchdir ENOTDIR' => 25,
    'take ok' => 30, 'take EBADF' => 120, 'take EPERM' => 3, 'take EINVAL' => 4, 'take killed' => 15, 'take ENOSYS' => 20,
    'chroot ok' => 120, 'chroot ENOENT' => 120, 'chroot ENOTDIR' => 40, 'chroot EACCES' => 15, 'chroot killed' => 15,
    'chroot ENOSYS' => 30, 'by a promise' => 3, 'of a directory' => 80, 'of a program' => 25, 'of no name' => 10,
    'of several names' => 80, 'of no use' => 200, 'for ever' => 300, 'received' => 60, 'made a program' => 20,
    'made a program later' => 30, 'closed' => 30, 'open' => 40, 'removed' => 2, 'cut' => 30, 'rooted for ever' => 25,
    'cut for ever' => 5, 'closed for now' => 1,
);
my %count = map { $_ => 0 } keys %LEAST;

# Each world that is about roots: its listing and its script, and what the model tells of them.
my @rooted;

my @kinds  = map { my $openings = $_; map { { files => 1, openings => $openings, roots => $_ } } 0, 1 } 0, 1;
my @worlds = map { Worlds->new($SEED + $_, $kinds[$_])->by('openbsd') } 0 .. $#kinds;
for my $number (1 .. $WORLDS / $IN_ONE) {
    my ($fault) = grep { defined } map { fault_of($worlds[ $_ % @worlds ]) } 1 .. $IN_ONE;
    ok(!defined $fault, "worlds $number: answers, states and lists are those of the model") or diag($fault);
}
cmp_ok($count{$_}, '>=', $LEAST{$_}, $_) for sort keys %LEAST;
for (@WrongRoots::WRONG, @WrongRoots::WRONG_FOR_EVER) {
    my ($name, $place, $wrong) = @$_;
    my $is_told = sub { my ($listing, $script, $told) = @{ $_[0] }; return told_by_model($listing, $script) eq $told };
    my $noticed = with_wrong($place, $wrong, sub { return first { !$is_told->($rooted[$_]) } 0 .. $#rooted });
    ok(defined $noticed, "noticed: $name") and note "by world $noticed";
}
done_testing();

# A script by which process 1 has plain files open, and at last can start what is under some veil.
sub starting {
    my ($worlds, $model) = @_;
    my @files = grep { $model->{kind}{ $_->[0] } eq 'file' } named_in($model);
    my @holds = map { "1 hold $_ " . $worlds->pick(qw(open-r open-w open-rw)) . ' ' . $worlds->pick(@files)->[1] . "\n" }
        @files ? (3, 4) : ();
    my $script = $worlds->script({ veils => 0, locks => 0, lines => 6, ends => 0, askers => [ 1, 2, 2 ] });
    my $first = join ',', 'exec', $worlds->pick('stdio', 'fattr', 'rpath', 'cpath', 'rpath,cpath');
    my $then = $worlds->pick(('-') x 3, 'fattr', 'exec,fattr', 'rpath', 'wpath,cpath');
    my $veiled = $worlds->pick('/', map { $_->[1] } @files);
    return join '', @holds, $script, "1 unveil $veiled x\n1 unveil - -\n1 pledge $first $then\n";
}

# What has a name, each with its path.
sub named_in {
    my ($model) = @_;
    my @named;
    for my $dir (sort { $a <=> $b } keys %{ $model->{rows} }) {
        push @named, map { [ $model->{rows}{$dir}{$_}, $model->_path_in($dir, $_) ] } sort keys %{ $model->{rows}{$dir} };
    }
    return @named;
}

# What is wrong with what is told of a world; undef where nothing is.
sub fault_of {
    my ($worlds) = @_;
    my $files = { listing => $worlds->listing };
    my $model = Model->new($files->{listing}, { rules => 'openbsd' });
    $files->{script} = $worlds->number(2) ? $worlds->script({}) : starting($worlds, $model);
    my $answers = $model->run($files->{script});
    counted($files->{script}, $answers);
    my $lists = join '', map { $model->list($_) } $model->processes;
    counted_held($lists);
    my %ever = map { $_ => ever($model, $_) } confined($model);
    push @rooted, [ @$files{qw(listing script)}, join '', $answers, $lists, @ever{ confined($model) } ] if $worlds->roots;
    my $fault = otherwise($files, $answers . $lists, 'objects', '--process', 'all');
    for my $process (confined($model)) {
        last if defined $fault;
        counted_ever($model, $process, $ever{$process});
        $fault = otherwise($files, $answers . $ever{$process}, 'objects', '--ever', '--process', $process);
    }
    return $fault;
}

# The processes that can put no veil any more.
sub confined {
    my ($model) = @_;
    return grep { $model->state($_) =~ /^unveil (?:locked|given-up)$/m } $model->processes;
}

# What a model tells of a listing and a script: the answers, the list of each process, and that for ever of each that has one.
sub told_by_model {
    my ($listing, $script) = @_;
    my $model = Model->new($listing, { rules => 'openbsd' });
    my $answers = $model->run($script);
    return join '', $answers, (map { $model->list($_) } $model->processes), map { ever($model, $_) } confined($model);
}

# What is told otherwise than by the model; undef where nothing is.
sub otherwise {
    my ($files, $wanted, @words) = @_;
    push @words, '--rules', 'openbsd', 'listing', 'script';
    my ($status, $out, $err) = answer_of($PUA, $files, @words);
    return if $status == 0 && $err eq '' && $out eq $wanted;
    my @wanted = split /^/, $wanted;
    my @told   = split /^/, $out;
    shift @wanted, shift @told while @wanted && @told && $wanted[0] eq $told[0];
    return worlds_told($files, @words) . "--- status $status: $err--- from here\n@told[0 .. ($#told < 4 ? $#told : 4)]"
        . "--- and by the model\n@wanted[0 .. ($#wanted < 4 ? $#wanted : 4)]";
}

# The list for ever of a process. Behind the lock its state says what it says of execs, that files can be received, and what
# is opened by the promises that the process holds, and what it starts, as far as the list is theirs.
sub ever {
    my ($model, $process) = @_;
    my $given = EverModel::given($model, $process);
    my @holders = ($model->{processes}{$process}, $given ? { promises => $given } : ());
    my $execs = $given ? "exec bounded\n" : grep({ EverModel::has_exec($_) } EverModel::lines($model, $process)) ? "exec open\n" : '';
    my $receives = is_held('recvfd', @holders) ? "receive open\n" : '';
    my @openings = openings_of(grep { is_held($_, @holders) } keys %OPENINGS);
    my $state = $model->state($process, { bounds => [ $execs, $receives ], openings => \@openings });
    return join '', "ever $process\n", $state, map { "$_\n" } EverModel::lasting($model, $process);
}

# Counts the kinds of a list for ever.
sub counted_ever {
    my ($model, $process, $list) = @_;
    my $of = $model->{processes}{$process};
    $count{'for ever'}++;
    $count{'rooted for ever'}++ if $list =~ /^root /m;
    $count{received}++ if $list =~ /^receive open$/m;
    my $is_closed = $of->{root} && $model->is_enclosed($of);
    $count{ $of->{promises} && !$of->{promises}{id} ? 'cut for ever' : 'closed for now' }++ if $is_closed;
    my $is_later = EverModel::given($model, $process);
    my @lines = EverModel::lasting($model, $process);
    $count{ $is_later ? 'made a program later' : 'made a program' }++ if "@lines" ne join ' ', without_files($model, $process);
    return;
}

# The lines of the list for ever of a process were nothing open.
sub without_files {
    my ($model, $process) = @_;
    local $model->{processes}{$process}{files} = {};
    return EverModel::lasting($model, $process);
}

sub is_held {
    my ($promise, @holders) = @_;
    return scalar grep { Model::_holds($_, $promise) } @holders;
}

# Counts the answers to lines on descriptors and roots.
sub counted {
    my ($script, $answers) = @_;
    my @answers = map { (split / /, $_, 2)[1] } split /\n/, $answers;
    for my $line (split /\n/, $script) {
        my ($answer, $call) = (shift @answers, (split / /, $line)[1]);
        next if $call !~ /\A(?:hold|close|fchdir|take|chroot)\z/;
        $count{'by a promise'}++ if $answer =~ s/ by .*//;
        $count{"$call $answer"}++;
    }
    return;
}

# Counts the kinds of lines `held` and `root`, and lists of a root alone.
sub counted_held {
    my ($lists) = @_;
    for my $list (split /^(?=objects )/m, $lists) {
        my %of;
        my ($root, $word) = $list =~ /^root (\S+) (\S+)$/m;
        $count{$word}++ if defined $word;
        $count{removed}++ if ($root // '') eq '-';
        $count{cut}++ if ($word // '') eq 'closed' && $list =~ m{^[a-z]+ \Q$root\E(?:/\S*)? }m;
        for (grep { /\Aheld / } split /\n/, $list) {
            my (undef, $number, $kind, $path, $uses) = split / /;
            $count{'of a directory'}++ if $kind eq 'dir';
            $count{'of a program'}++   if $kind eq 'prog';
            $count{'of no name'}++     if $path eq '-';
            $count{'of no use'}++      if $uses eq '=';
            $count{'of several names'}++ if $of{$number}++ == 1;
        }
    }
    return;
}
