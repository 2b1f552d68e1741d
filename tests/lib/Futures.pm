# Random requests of a family of processes, most of which edit the tree that there is when they are drawn,
# where they may: so that what can come to pass mostly does.
package Futures;
use strict;
use warnings;
use EverModel;
use Listed;
use Things;

my @EDITS = (
    ('rename') x 7, ('link') x 2, ('mkdir') x 3, ('create') x 2, ('symlink') x 1, ('unlink') x 2, ('rmdir') x 2,
    ('bind') x 2, ('mknod') x 2, ('create-rw') x 1,
);
my @LOOKS = qw(stat lstat readlink open-r open-w open-rw chmod chdir chdir chdir connect chown fchmod fchown);

# Draws from a generator of worlds. %$calls has each call that can ever be allowed on something: others are drawn
# seldom, since a process mostly ends by them. %$holds says whether the processes hold proc and exec, whether what is
# started is bounded, whether they are several from the beginning, and whether one holds a promise that opens an edit
# by itself; whoever can't execute anything, or goes on then, tries it more often. The first child that is forked has
# the number $child.
sub new {
    my ($class, $worlds, $calls, $holds, $child) = @_;
    my %may = map { $_ => 1 } keys %$calls;
    $may{rename} = $may{link} = 1 if grep { $may{$_} } qw(create mkdir rmdir unlink symlink);
    return bless {
        worlds => $worlds, holds => $holds, child => $child, exec_in => $may{exec} && !$holds->{bounded} ? 4 : 1,
        edits  => [ grep { $may{$_} } @EDITS ],
        looks  => [ grep { $may{$_} } @LOOKS ],
    }, $class;
}

# A number of lines, each of one of some processes, about what stands in a model's tree, and about what doesn't. More
# often they are about what one of them can edit, by a list of what it can touch.
sub lines {
    my ($futures, $model, $list, $count, @askers) = @_;
    my $calls = Listed::calls_at($list);
    my @rows  = map { { %$_, is_open => Listed::gives_c($calls, $_) } } Things::rows($model);
    local $futures->{rows} = \@rows;
    local $futures->{model} = $model;
    local $futures->{free} = [ map { $_->{path} } grep { $_->{kind} eq 'missing' } @{ $list->{lines} } ];
    my @runs = grep { grep { $_ eq 'exec' } @{ $_->{calls} } } @{ $list->{lines} };
    local $futures->{programs} = [ map { $_->{path} } @runs ];
    return map { $futures->_from_root($futures->_line($futures->{worlds}->pick(@askers))) } 1 .. $count;
}

# A line whose paths are mostly as they are from the root of who asks.
sub _from_root {
    my ($futures, $line) = @_;
    my $model = $futures->{model};
    my $asker = $model->{processes}{ (split / /, $line)[0] };
    my $root  = $asker ? $asker->{root} : 0;
    return $line if $root == 0 || !$model->{kind}{$root} || $futures->{worlds}->number(4) == 0;
    my $path = $model->_path($root);
    return $line =~ s{ \Q$path\E(?=/)}{ }gr =~ s{ \Q$path\E(?=[ \n])}{ /}gr;
}

sub _line {
    my ($futures, $asker) = @_;
    my ($worlds, $holds) = @$futures{qw(worlds holds)};
    return "$asker " . $futures->_temporary . "\n" if $futures->_opens_edits($asker) && $worlds->number(3) == 0;
    my $way = $worlds->number(24);
    return $worlds->requests(1, $asker) if $way == 0;
    return "$asker " . $worlds->opened_call . "\n" if $way > 20 && $worlds->opens;
    return "$asker fork " . $futures->{child}++ . "\n" if $way == 1 && $holds->{proc};
    return "$asker exec " . $futures->_program . "\n"
        if $way == 2 && $holds->{exec} && $worlds->number($futures->{exec_in}) == 0;
    return "$asker exec " . $futures->_program . "\n" if $way == 3 && $holds->{bounded};
    return "$asker uses " . $worlds->used . "\n" if $way == 4 && $worlds->uses;
    my $list = $way < 5 || !@{ $futures->{edits} } ? $futures->{looks} : $futures->{edits};
    my @calls = grep { $futures->_may($asker, $_) } @$list;
    return "$asker " . $futures->_request(@calls ? $worlds->pick(@calls) : 'stat') . "\n";
}

# Whether who asks was given a promise that opens edits below /tmp by itself; and such an edit, or one beside it.
sub _opens_edits {
    my ($futures, $asker) = @_;
    my ($model, $process) = ($futures->{model}, $futures->{model}{processes}{$asker});
    return $model->{openbsd} && ($process->{promises} || {})->{tmppath};
}

sub _temporary {
    my ($futures) = @_;
    my $worlds = $futures->{worlds};
    my @rows = grep { $_->{path} =~ m{\A/tmp/} } $futures->_rows;
    my $path = @rows && $worlds->number(3) ? $worlds->pick(@rows)->{path} : '/tmp/' . $worlds->pick($worlds->names, 'n');
    $path .= '/' . $worlds->pick($worlds->names, 'n') if $worlds->number(5) == 0;
    return $worlds->pick(qw(create create create-rw unlink unlink)) . " $path";
}

# Whether who asks is let through by its promises. Of several, and where what is started is bounded, one holds what
# another lacks, and ends by a call that only the other may do; and what a promise opens by itself ends a process
# elsewhere. Else all of a family hold the same, as long as none gives up more.
sub _may {
    my ($futures, $asker, $call) = @_;
    return 1 if !grep { $futures->{holds}{$_} } qw(bounded several opener);
    my $model = $futures->{model};
    my @parts = $call =~ /\A(?:rename|link)\z/ ? ("old name of $call", "new name of $call") : $call;
    return !grep { !EverModel::lets($model, $model->{processes}{$asker}, $_) } @parts;
}

sub _request {
    my ($futures, $call) = @_;
    return 'rename ' . $futures->_old . ' ' . $futures->_place  if $call eq 'rename';
    return 'link ' . $futures->_any('file', 'prog', 'link') . ' ' . $futures->_new if $call eq 'link';
    return 'symlink ' . $futures->{worlds}->path . ' ' . $futures->_new if $call eq 'symlink';
    return "$call " . $futures->_new                             if $call =~ /\A(?:mkdir|bind|mknod)\z/;
    return "$call " . $futures->_place                           if $call =~ /\Acreate/;
    return "$call " . $futures->_old('file', 'prog', 'link')     if $call eq 'unlink';
    return "$call " . $futures->_old('dir')                      if $call eq 'rmdir' || $call eq 'chdir';
    return "$call " . $futures->_old;
}

# The path of something that stands, of one of some kinds; seldom any path.
sub _old {
    my ($futures, @kinds) = @_;
    my $worlds = $futures->{worlds};
    my @open = grep { $_->{is_open} } $futures->_rows(@kinds);
    return $worlds->path if $worlds->number(12) == 0;
    return @open && $worlds->number(4) ? $worlds->pick(@open)->{path} : $futures->_any(@kinds);
}

# The path of a program; where what is started is bounded, mostly of one that can be started.
sub _program {
    my ($futures) = @_;
    my ($worlds, @programs) = ($futures->{worlds}, @{ $futures->{programs} });
    return $futures->_old('prog') if !$futures->{holds}{bounded} || !@programs || $worlds->number(4) == 0;
    return $worlds->pick(@programs);
}

# The same, where it need not be one that can be edited.
sub _any {
    my ($futures, @kinds) = @_;
    my @rows = $futures->_rows(@kinds);
    return @rows ? $futures->{worlds}->pick(@rows)->{path} : $futures->{worlds}->path;
}

# What stands, of some kinds or of all.
sub _rows {
    my ($futures, @kinds) = @_;
    return grep { my $kind = $_->{kind}; !@kinds || grep { $_ eq $kind } @kinds } @{ $futures->{rows} };
}

# The path of a name in a directory, at which nothing or something may stand; or that of a missing name with a veil.
sub _new {
    my ($futures) = @_;
    my ($worlds, @free) = ($futures->{worlds}, @{ $futures->{free} });
    return $worlds->pick(@free) if @free && $worlds->number(3) == 0;
    my $dir = $futures->_old('dir');
    return ($dir eq '/' ? '' : $dir) . '/' . $worlds->pick($worlds->names, 'n');
}

# A path at which nothing or something may stand.
sub _place {
    my ($futures) = @_;
    return $futures->{worlds}->number(2) ? $futures->_new : $futures->_any;
}

1;
