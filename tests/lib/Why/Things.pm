# What reasons say of the tree: of what is missing, and of what is in the way.
package Why::Things;
use strict;
use warnings;
use Exporter qw(import);
use Why::Changed qw($NEW place_of same_kind_fault same_words_fault state_of things_of told_behind told_instead);
use Why::World qw(OBSERVER is_over fields_of above);

our @EXPORT_OK = qw(%FAULT_OF);

# The check of each kind.
our %FAULT_OF = (
    'missing'      => \&_missing,
    'no directory' => \&_no_directory,
    'links'        => \&_links,
    'exists'       => \&_exists,
    'directory'    => \&_directory,
    'no link'      => \&_no_link,
    'no program'   => \&_no_program,
    'socket'       => \&_socket,
    'no socket'    => \&_no_socket,
    'not empty'    => \&_not_empty,
    'mount point'  => \&_mount_point,
    'elsewhere'    => \&_elsewhere,
    'inside'       => \&_inside,
    'removed'      => \&_removed,
    'no root'      => \&_no_root,
);

sub _missing {
    my ($case, $path) = @_;
    my $things = things_of($case);
    return "$path stands there" if exists $things->{$path};
    return "$path is in no directory" if ($things->{ above($path) } // '') ne 'dir';
    return same_words_fault($case, told_behind($case, OBSERVER . " mkdir $path"), "though $path was made");
}

sub _no_directory {
    my ($case, $path) = @_;
    my $kind = things_of($case)->{$path};
    return "$path isn't there" if !defined $kind;
    return "$path is a directory" if $kind eq 'dir';
    my @lines = map { OBSERVER . " $_ $path" } qw(unlink mkdir);
    return same_words_fault($case, told_behind($case, @lines), "though $path is a directory");
}

sub _links {
    my ($case, $path) = @_;
    return "$path is no link" if (things_of($case)->{$path} // '') ne 'link';
    my @lines = map { OBSERVER . " $_ $path" } qw(unlink create);
    return same_words_fault($case, told_behind($case, @lines), "though $path is a file");
}

sub _exists {
    my ($case, $path) = @_;
    return "$path isn't there" if !exists things_of($case)->{$path};
    return _fixed_fault($case, $path) if _is_fixed($case, $path);
    return same_words_fault($case, told_behind($case, _moves($path)), "though $path was moved");
}

sub _directory { return _of_kind(@_, 'dir') }
sub _socket    { return _of_kind(@_, 'sock') }

sub _of_kind {
    my ($case, $path, $kind) = @_;
    return "$path is no $kind" if (things_of($case)->{$path} // '') ne $kind;
    return _fixed_fault($case, $path) if _is_fixed($case, $path);
    my @lines = (_moves($path), OBSERVER . " create $path");
    return same_words_fault($case, told_behind($case, @lines), "though $path is a file");
}

sub _no_link {
    my ($case, $path) = @_;
    my $kind = things_of($case)->{$path};
    return "$path isn't there" if !defined $kind;
    return "$path is a link" if $kind eq 'link';
    return _fixed_fault($case, $path) if _is_fixed($case, $path);
    my @lines = (_moves($path), OBSERVER . " symlink a $path");
    return same_words_fault($case, told_behind($case, @lines), "though $path is a link");
}

# A program that stands elsewhere is given this name.
sub _no_program {
    my ($case, $path) = @_;
    my $things = things_of($case);
    return "$path isn't there" if !exists $things->{$path};
    return "$path is one" if $things->{$path} eq 'prog';
    return "$path is a link" if $things->{$path} eq 'link';
    my @programs = grep { $things->{$_} eq 'prog' && !is_over($path, $_) } sort keys %$things;
    @programs = grep { _are_together($case, map { above($_) } $path, $_) } @programs;
    return _fixed_fault($case, $path) if _is_fixed($case, $path);
    return '' if !@programs;
    my @lines = (_moves($path), OBSERVER . " link $programs[0] $path");
    return same_words_fault($case, told_behind($case, @lines), "though $path is a program");
}

# Each file may be a socket of which no more is known, and no plain one; their words are the same.
sub _no_socket {
    my ($case, $path) = @_;
    my $kind = things_of($case)->{$path};
    return "$path isn't there" if !defined $kind;
    return "$path is one" if $kind eq 'sock';
    return _fixed_fault($case, $path) if _is_fixed($case, $path);
    my $make = $case->{world}->is_openbsd ? 'bind' : 'create';
    my @lines = (_moves($path), OBSERVER . " $make $path");
    return same_words_fault($case, told_behind($case, @lines), "though $path may be a socket");
}

sub _not_empty {
    my ($case, $path) = @_;
    my @inside = grep { $_ ne $path && above($_) eq $path } sort keys %{ things_of($case) };
    return "$path is empty" if !@inside;
    return _fixed_fault($case, $path) if _is_fixed($case, $path);
    return '' if grep { _is_fixed($case, $_) } @inside;
    my @lines = map { OBSERVER . " rename $inside[$_] " . _beside($path) . $_ } 0 .. $#inside;
    return same_words_fault($case, told_behind($case, @lines), "though $path is empty");
}

# A directory beneath it is made and removed by the same request, but that it is on that.
sub _mount_point {
    my ($case, $path) = @_;
    return "$path is none" if !grep { $_ eq $path } $case->{world}->mounts($case->{script});
    my ($call) = fields_of($case->{request});
    my @lines = (OBSERVER . " mkdir $path$NEW", OBSERVER . " $call $path$NEW");
    my $told = $case->{world}->told([ @{ $case->{script} }, $lines[0] ], $lines[1]);
    return same_kind_fault($case, $told, "of $path$NEW");
}

# What the old name is of is on another device than the directory of the new one, or what stands there is: a kernel stays on
# one. With a new name beside the old one that is no other device, if what has that is no mount point.
sub _elsewhere {
    my ($case, $path) = @_;
    my ($call) = fields_of($case->{request});
    my @facts = $case->{world}->facts($case->{script}, $case->{request});
    my ($old, $new) = map { my $side = $_; map { /\A$side: names (\S+ \S+)\z/ ? [ split / /, $1 ] : () } @facts } qw(old new);
    return 'it names something else' if $new->[1] ne $path;
    my @dirs = map { $_->[0] eq 'dir' ? $_->[1] : above($_->[1]) } $old, $new;
    return 'all is on one file system' if _are_together($case, above($path), @dirs);
    return '' if _is_fixed($case, $old->[1]);
    my $beside = _beside($old->[1]);
    my $told = $case->{world}->told($case->{script}, OBSERVER . " $call $old->[1] $beside");
    return same_kind_fault($case, $told, "with $beside for the new name");
}

# Whether directories are on one file system: each has the same mount point at or above it, or none.
sub _are_together {
    my ($case, @dirs) = @_;
    my @mounts = sort { length $b <=> length $a } $case->{world}->mounts($case->{script});
    my %on = map { my $dir = $_; (grep({ is_over($_, $dir) } @mounts), '/')[0] => 1 } @dirs;
    return keys %on == 1;
}

sub _inside {
    my ($case, $new, $old) = @_;
    return "$old is no directory" if (things_of($case)->{$old} // '') ne 'dir';
    return "$new isn't" if $new eq $old || !is_over($old, $new);
    my @fields = fields_of($case->{request});
    return same_kind_fault($case, told_instead($case, @fields[ 0, 1 ], $NEW), "with $NEW for the new name");
}

# A path from the root doesn't begin in the working directory, and a removal, or a rename, took that away.
sub _removed {
    my ($case) = @_;
    my @fields = fields_of($case->{request});
    my $place  = place_of($case, 'path');
    return 'its path begins at the root' if $fields[$place] =~ m{\A/};
    my @before = @{ $case->{script} }[ 0 .. $case->{told}{since} - 1 ];
    return 'nothing was removed' if !grep { / (?:rmdir|rename) / } @before;
    $fields[$place] = "/$fields[$place]";
    return same_kind_fault($case, told_instead($case, @fields), 'with a path from the root');
}

# A path that begins at the root does so, which is removed; and one that begins in the working directory does not.
sub _no_root {
    my ($case) = @_;
    my @fields = fields_of($case->{request});
    my $place  = place_of($case, 'path');
    return "its path doesn't begin at the root" if $fields[$place] !~ m{\A/};
    my $root = state_of($case)->{root} // 'that of the listing';
    return "its root is $root" if $root ne '-';
    $fields[$place] = ".$fields[$place]";
    return same_kind_fault($case, told_instead($case, @fields), 'with a path from the directory');
}

# Whether what stands at a path can't be moved: it is the root, or a mount point.
sub _is_fixed {
    my ($case, $path) = @_;
    return scalar grep { $_ eq $path } '/', $case->{world}->mounts($case->{script});
}

# So it is asked what the path names.
sub _fixed_fault {
    my ($case, $path) = @_;
    my $side = $case->{told}{side} eq '' ? '' : "$case->{told}{side}: ";
    my @names = grep { $_ eq "${side}names dir $path" } $case->{world}->facts($case->{script}, $case->{request});
    return @names ? '' : 'it names something else';
}

# A name that no listing has, beside what stands at a path.
sub _beside { my ($path) = @_; return above($path) =~ s{\A/\z}{}r . $NEW }

# The line by which OBSERVER moves away what stands at a path.
sub _moves { my ($path) = @_; return OBSERVER . " rename $path " . _beside($path) }

1;
