# A plain model of what Linux answers to the scripts that have neither pledge nor unveil, as root: that of Model.pm by
# OpenBSD's rules, but for what the rules of @RULES say. Each of them can be left as pua has it, so that what a
# difference comes from can be found. That a program which runs isn't opened for writing (ETXTBSY) isn't among them: in
# these scripts none runs.
package Linux;
use strict;
use warnings;
use parent qw(Model);
use Tree qw(text_fault unspelled);

# What Linux is known to do otherwise. The marks: `linux`, Linux alone does so, POSIX or OpenBSD as pua has it;
# `profile`, a choice that is marked *profile* in docs/DEFINITIONS.md; `fault`, pua has no such limit, though OpenBSD has
# it too.
our @RULES = (
    ['rename-dot',   'linux',   'rename of or onto `.` or `..` is EBUSY'],
    ['link-late',    'linux',   'link: the old name first, then the new one, and EPERM of a directory at last'],
    ['pathmax',      'linux',   'a path has up to 4,095 bytes'],
    ['unlink-dir',   'linux',   'unlink of a directory is EISDIR'],
    ['link-keep',    'linux',   'link keeps a symbolic link at the end of its old name'],
    ['links40',      'linux',   '40 links are followed'],
    ['rename-above', 'linux',   'rename onto a directory above the old name is ENOTEMPTY, whatever is moved'],
    ['open-socket',  'linux',   'open of a socket is ENXIO'],
    ['connect',      'profile', 'connect to what is no socket that listens is ECONNREFUSED'],
    ['dead-cwd',     'profile', 'from a working directory that is removed `.` and `..` go on; of it rmdir of `..` is ENOTEMPTY'],
    ['dead-root',    'profile', 'a root that is removed is what `/` names, and has nothing in it'],
    ['rename-early', 'profile', 'rename refuses `.`, `..` and `/`, and looks up both directories, before the last names'],
    ['made-slash',   'profile', 'a slash behind a name that is made or unlinked: the link there is not followed'],
    ['target',       'profile', 'of the target of a link that is made only the whole length is judged'],
    ['target-slash', 'profile', 'create through a link whose target ends in a slash is EISDIR'],
    ['sun-path',     'fault',   'bind and connect take up to 103 bytes of path'],
);
my @NAMES = map { $_->[0] } @RULES;

my %MAKES = map { $_ => 1 } qw(symlink mknod bind);
my %FOLLOWS = map { $_ => 1 } qw(stat open-r open-w open-rw create create-rw chmod chdir exec connect chown
    fchmod fchown);
my %DROPS = map { $_ => 1 } qw(mkdir rmdir);

# A world of a listing, in which these rules are Linux's; all, if none is named.
sub new {
    my ($class, $listing, @rules) = @_;
    my $linux = $class->SUPER::new($listing, { rules => 'openbsd' });
    $linux->{dead} = {};
    return $linux->by(@rules ? @rules : @NAMES);
}

# The same world by these rules, from here on.
sub by {
    my ($linux, @rules) = @_;
    $linux->{by} = { map { $_ => 1 } @rules };
    return $linux;
}

# A directory that is removed keeps its parent.
sub _cut {
    my ($linux, $dir, $name) = @_;
    my $node = $linux->{rows}{$dir}{$name};
    $linux->{dead}{$node} = $dir if $linux->{kind}{$node} eq 'dir';
    return $linux->SUPER::_cut($dir, $name);
}

sub _parent {
    my ($linux, $dir) = @_;
    return exists $linux->{dead}{$dir} ? $linux->{dead}{$dir} : $linux->SUPER::_parent($dir);
}

# --- Paths ---

sub _fault_of {
    my ($linux, $text) = @_;
    return 'ENOENT' if $text eq '';
    return length $text > ($linux->{by}{pathmax} ? 4095 : 1023) ? 'ENAMETOOLONG' : '';
}

# The parts of a text. A slash behind the last one adds `.`, if it isn't dropped; or, where something is to be created
# there, `/`, which refuses it.
sub _parts_of {
    my ($text, $drops, $creates) = @_;
    my @parts = grep { $_ ne '' } split m{/}, $text;
    return @parts if !@parts || $drops || $text !~ m{/\z};
    return (@parts, '.') if !$creates || $parts[-1] =~ /\A\.\.?\z/;
    return (@parts[0 .. $#parts - 1], '/');
}

# What a path names from a root and a directory, as in Tree.pm. Of a name $found has further whether a `slash` stood behind
# it, and the `fault` of its look-up. $call is the call whose only or new path it is.
sub resolve {
    my ($linux, $from, $text, $follows, $drops, $call) = @_;
    my $by = $linux->{by};
    $call = '' unless defined $call;
    my $fault = $linux->_fault_of($text);
    return $fault if $fault;
    my ($dir, $root) = ($from->{ $text =~ m{\A/} ? 'root' : 'dir' }, $from->{root});
    return 'ENOENT' unless $linux->{kind}{$dir} || $by->{ $text =~ m{\A/} ? 'dead-root' : 'dead-cwd' };
    $root = 0 unless $linux->{kind}{$root} || $by->{'dead-root'};
    my $is_made = $by->{'made-slash'} && ($MAKES{$call} || $call eq 'new name of link' || $call eq 'unlink');
    my $creates = $call =~ /\Acreate(?:-rw)?\z/;
    my ($way, $links) = ('', 0);
    my @parts = _parts_of($text, $drops || $is_made, $creates && $by->{'made-slash'});
    while (defined(my $part = shift @parts)) {
        return 'EISDIR' if $part eq '/';
        if ($part eq '.' || $part eq '..') {
            $dir = $linux->_parent_in($root, $dir) if $part eq '..';
            $way = $part;
            next;
        }
        $fault = exists $linux->{dead}{$dir} ? 'ENOENT' : length $part > 255 ? 'ENAMETOOLONG' : '';
        return $fault if $fault && @parts;
        my $node = $linux->{rows}{$dir}{$part};
        my $kind = defined $node ? $linux->{kind}{$node} : 'missing';
        if ($kind eq 'dir') {
            ($dir, $way) = ($node, 'name');
        } elsif ($kind eq 'link' && (@parts || $follows)) {
            return 'ELOOP' if ++$links > ($by->{links40} ? 40 : 32);
            my $target = $linux->{target}{$node};
            $dir = $linux->_led_by($root, $dir, $target);
            unshift @parts, _parts_of($target, 0, $creates && !@parts && $by->{'target-slash'});
            $way = '';
        } else {
            return $kind eq 'missing' ? 'ENOENT' : 'ENOTDIR' if @parts;
            my $slash = $text =~ m{/\z} ? 1 : 0;
            return ('', { in => $dir, name => $part, node => $node, slash => $slash, fault => $fault });
        }
    }
    return ('', { dir => $dir, way => $way, slash => $text =~ m{/\z} ? 1 : 0 });
}

# What a path names to a process, for a call on one path.
sub _named {
    my ($linux, $process, $call, $path) = @_;
    return 'too-long' if $linux->{by}{'sun-path'} && $call =~ /\A(?:bind|connect)\z/ && length $path > 103;
    my ($errno, $found) = $linux->resolve($process, $path, $FOLLOWS{$call}, $DROPS{$call}, $call);
    return $errno || $found->{fault} || ('', $found);
}

# --- Calls ---

sub _misfit {
    my ($linux, $call, $found) = @_;
    my $by = $linux->{by};
    my $kind = $linux->_kind($found);
    return 'ECONNREFUSED' if $call eq 'connect' && $by->{connect} && $kind ne 'missing';
    return 'EISDIR' if $call eq 'unlink' && $by->{'unlink-dir'} && $kind eq 'dir';
    return 'ENOTEMPTY' if $call eq 'rmdir' && $by->{'dead-cwd'} && $kind eq 'dir' && $found->{way} eq '..';
    if ($by->{'made-slash'} && $found->{slash} && !exists $found->{dir}) {
        return $kind eq 'missing' ? 'ENOENT' : 'ENOTDIR' if $call eq 'unlink';
        return 'ENOENT' if $MAKES{$call} && $kind eq 'missing';
    }
    my $errno = $linux->SUPER::_misfit($call, $found);
    return $by->{'open-socket'} && $errno eq 'EOPNOTSUPP' ? 'ENXIO' : $errno;
}

sub _symlink {
    my ($linux, $process, $target, $path) = @_;
    my $text = unspelled($target);
    my $whole = $text eq '' ? 'ENOENT' : length $text > 4095 ? 'ENAMETOOLONG' : '';
    my $fault = $linux->{by}{target} ? $whole : text_fault($text);
    return $fault if $fault;
    my ($answer, $found) = $linux->verdict($process, 'symlink', unspelled($path));
    return $answer if $answer;
    $linux->_make('link', $found, $text);
    return 'ok';
}

sub _rename {
    my ($linux, $process, @paths) = @_;
    my $by = $linux->{by};
    my @found;
    for my $path (map { unspelled($_) } @paths) {
        my ($errno, $found) = $linux->resolve($process, $path, 0, 1);
        $errno ||= $found->{fault} if !$by->{'rename-early'};
        return $errno if $errno;
        push @found, $found;
    }
    my ($old, $new) = @found;
    my @ways = map { $_->{way} } grep { exists $_->{dir} } @found;
    my $refused
        = grep({ $_ eq '.' || $_ eq '..' } @ways) ? $by->{'rename-dot'} ? 'EBUSY' : 'EINVAL'
        : grep({ $_ eq '' } @ways) ? 'EBUSY' : '';
    return $refused if $refused && $by->{'rename-early'};
    return $old->{fault} if $old->{fault};
    return 'ENOENT' if $linux->_kind($old) eq 'missing';
    return $new->{fault} if $new->{fault};
    return $refused if $refused;
    my $is_dir = $linux->_kind($old) eq 'dir';
    return 'ENOTDIR' if !$is_dir && ($old->{slash} || $new->{slash});
    my ($from, $to) = map { $linux->_row($_) } $old, $new;
    my ($node, $replaced) = map { $linux->{rows}{ $_->[0] }{ $_->[1] } } $from, $to;
    return 'ok' if defined $replaced && $node == $replaced;
    my $errno = $by->{'rename-above'} && defined $replaced && $linux->_is_below($replaced, $from->[0])
        ? 'ENOTEMPTY' : $linux->_unmovable($old, $new);
    return $errno if $errno;
    $linux->_cut(@$to) if defined $replaced;
    $linux->_untie(@$from);
    $linux->_tie(@$to, $node);
    return 'ok';
}

sub _link {
    my ($linux, $process, @paths) = @_;
    my $by = $linux->{by};
    my ($from, $to) = map { unspelled($_) } @paths;
    my ($old_fault, $old) = $linux->resolve($process, $from, !$by->{'link-keep'}, 0);
    $old_fault ||= $old->{fault};
    my ($new_fault, $new) = $linux->resolve($process, $to, 0, 0, 'new name of link');
    $new_fault ||= $new->{fault};
    return $old_fault if $old_fault;
    my $is_missing = $linux->_kind($old) eq 'missing';
    return 'ENOENT' if $is_missing && $by->{'link-late'};
    return $new_fault if $new_fault;
    return 'ENOENT' if $is_missing;
    my $is_dir = $linux->_kind($old) eq 'dir';
    return 'EPERM' if $is_dir && !$by->{'link-late'};
    return 'EEXIST' if $linux->_kind($new) ne 'missing';
    return 'ENOENT' if $by->{'made-slash'} && $new->{slash};
    return 'EPERM' if $is_dir;
    $linux->_tie(@$new{qw(in name)}, $old->{node});
    return 'ok';
}

# --- What stands in the tree, and what processes can come to ---

# A line `KIND PATH` for each thing, `held PROCESS NUMBER PATH` for each name of what the living have open, and for each of them
# that has a root of its own `root PROCESS PATH` and whether it is closed.
sub left {
    my ($model) = @_;
    return join '', sort $model->names_left(0), map { ($model->held_by($_), $model->root_of($_)) } $model->living;
}

# The things that are a directory or below it.
sub names_left {
    my ($model, $dir) = @_;
    my $path = $model->_path($dir);
    return map { "$_\n" } sort "dir $path", _left_in($model, $dir, $path eq '/' ? '' : $path);
}

sub root_of {
    my ($model, $number) = @_;
    return map { s/\Aroot /root $number /r } $model->rooted($model->{processes}{$number});
}

# From what was removed `..` goes on, and a root that was removed is one.
sub _leads {
    my ($linux, $dir) = @_;
    return $linux->{by}{'dead-root'} || $linux->SUPER::_leads($dir);
}

sub held_by {
    my ($model, $number) = @_;
    my @lines;
    my $files = $model->{processes}{$number}{files};
    for my $file (sort keys %$files) {
        my @paths = $model->_paths_of($files->{$file});
        push @lines, map { "held $number $file $_\n" } @paths ? sort @paths : '-';
    }
    return @lines;
}

sub _left_in {
    my ($model, $dir, $path) = @_;
    my @lines;
    for my $name (keys %{ $model->{rows}{$dir} }) {
        my $node = $model->{rows}{$dir}{$name};
        my $kind = $model->{kind}{$node};
        my $at = "$path/" . Tree::spelled($name);
        push @lines, "$kind $at", $kind eq 'dir' ? _left_in($model, $node, $at) : ();
    }
    return @lines;
}

1;
