# The tree of a plain model of what pua answers: how it is read from a listing, how it is changed, and what a path
# names in it. Written from docs/DEFINITIONS.md and man/pua.1 alone. A listing is one without faults.
#
# It has kinds, targets and rows: {kind}{NODE}, {target}{NODE}, {rows}{DIRECTORY}{NAME} = NODE; and of each directory
# but the root its place, {above}{NODE} = [DIRECTORY, NAME]. A file that is known to be a plain one is {plain}{NODE}, and a
# directory at which another file system is mounted is {mount}{NODE}.
#
# What a path names (a *found*) is a directory, {dir => NODE, way => how it was named at last}, or a name in a
# directory, {in => DIRECTORY, name => NAME, node => NODE or undef}.
package Tree;
use strict;
use warnings;
use Exporter qw(import);

our @EXPORT_OK = qw(spelled unspelled text_fault);

my $MOST_LINKS     = 32;
my $MOST_PATH      = 1023;
my $MOST_COMPONENT = 255;

# The tree of a listing.
sub new {
    my ($class, $listing) = @_;
    my %none = map { $_ => {} } qw(plain mount target above);
    my $tree = bless { %none, kind => { 0 => 'dir' }, rows => { 0 => {} }, next => 1 }, $class;
    my ($header, undef, @lines) = split /\r?\n/, $listing;
    $tree->_list($header eq 'tree 3', split / /) for @lines;
    return $tree;
}

# The bytes that a field spells, and how they are spelled.
sub unspelled {
    my ($field) = @_;
    return '' if $field eq '=';
    $field =~ s/\\([0-7]{3})/chr oct $1/ge;
    return $field;
}

sub spelled {
    my ($bytes) = @_;
    $bytes =~ s/([^\x21-\x5b\x5d-\x7e])/sprintf '\\%03o', ord $1/ge;
    return $bytes;
}

# --- Edits ---

# Makes the node, or the further name, of a line of a listing.
sub _list {
    my ($tree, $has_types, $number, $word, $parent, $name, $end) = @_;
    my $kind = { any => 'file', mount => 'dir' }->{$word} || $word;
    $tree->{plain}{$number} = 1 if $has_types && $word eq 'file';
    $tree->{mount}{$number} = 1 if $word eq 'mount';
    $name = unspelled($name);
    $tree->{next} = $number + 1;
    return $tree->_tie($parent, $name, $end) if $kind eq 'hard';
    $tree->_add($number, $kind, $parent, $name, $kind eq 'link' ? unspelled($end) : undef);
    return;
}

sub _add {
    my ($tree, $node, $kind, $dir, $name, $target) = @_;
    $tree->{kind}{$node} = $kind;
    $tree->{target}{$node} = $target if $kind eq 'link';
    $tree->{rows}{$node} = {} if $kind eq 'dir';
    $tree->_tie($dir, $name, $node);
    return;
}

# Makes a new node, whose number nothing had before.
sub _make {
    my ($tree, $kind, $found, $target) = @_;
    $tree->{plain}{ $tree->{next} } = 1 if $kind eq 'plain';
    $kind = 'file' if $kind eq 'plain';
    $tree->_add($tree->{next}++, $kind, $found->{in}, $found->{name}, $target);
    return;
}

# Gives a node a name.
sub _tie {
    my ($tree, $dir, $name, $node) = @_;
    $tree->{rows}{$dir}{$name} = $node;
    $tree->{above}{$node} = [$dir, $name] if $tree->{kind}{$node} eq 'dir';
    return;
}

# Takes a name away, without the node.
sub _untie {
    my ($tree, $dir, $name) = @_;
    my $node = delete $tree->{rows}{$dir}{$name};
    delete $tree->{above}{$node};
    return $node;
}

# Takes a name away, and the node with its last name.
sub _cut {
    my ($tree, $dir, $name) = @_;
    my $node = $tree->_untie($dir, $name);
    return if grep { $_ == $node } map { values %$_ } values %{ $tree->{rows} };
    delete $tree->{$_}{$node} for qw(kind plain mount target rows);
    return;
}

# The directory over another; over the root, the root.
sub _parent {
    my ($tree, $dir) = @_;
    return $tree->{above}{$dir} ? $tree->{above}{$dir}[0] : 0;
}

# The same where another directory is the root: over it is itself. What isn't below it is as it was.
sub _parent_in {
    my ($tree, $root, $dir) = @_;
    return $dir == $root ? $root : $tree->_parent($dir);
}

# From where a link in a directory leads on.
sub _led_by {
    my ($tree, $root, $dir, $target) = @_;
    return $target =~ m{\A/} ? $root : $dir;
}

# Whether a directory is another one, or below it.
sub _is_below {
    my ($tree, $over, $dir) = @_;
    $dir = $tree->_parent($dir) while $dir != $over && $dir != 0;
    return $dir == $over;
}

sub _is_empty { return !%{ $_[0]{rows}{ $_[1] } } }

# The device of a directory: the nearest one at or above it where a file system is mounted, else the root.
sub device {
    my ($tree, $dir) = @_;
    $dir = $tree->_parent($dir) while $dir != 0 && !$tree->{mount}{$dir};
    return $dir;
}

# The spelled path of a directory from the root.
sub _path {
    my ($tree, $dir) = @_;
    my $path = '';
    while ($tree->{above}{$dir}) {
        my ($over, $name) = @{ $tree->{above}{$dir} };
        ($dir, $path) = ($over, '/' . spelled($name) . $path);
    }
    return $path eq '' ? '/' : $path;
}

# The spelled path of a name in a directory.
sub _path_in {
    my ($tree, $dir, $name) = @_;
    my $path = $tree->_path($dir);
    return ($path eq '/' ? '' : $path) . '/' . spelled($name);
}

# --- Paths ---

# The parts of a text; a slash after one of them adds `.`.
sub _parts {
    my ($text, $drops) = @_;
    my @parts = grep { $_ ne '' } split m{/}, $text;
    push @parts, '.' if @parts && !$drops && $text =~ m{/\z};
    return @parts;
}

# What is wrong with the text of a path or target; an empty text for nothing.
sub text_fault {
    my ($text) = @_;
    return 'ENOENT' if $text eq '';
    return 'ENAMETOOLONG' if length $text > $MOST_PATH || grep { length > $MOST_COMPONENT } split m{/}, $text;
    return 'EINVAL' if $text =~ /\0/;
    return '';
}

# By OpenBSD's rules, the fault of what stands before a component that is too long, as a directory.
sub _front_fault {
    my ($tree, $from, $text) = @_;
    return '' if !$tree->{openbsd} || length $text > $MOST_PATH || $text !~ m{(?:\A|(?<=/))[^/]{256}};
    my ($errno) = $tree->resolve($from, $-[0] ? substr($text, 0, $-[0]) : '.', 1, 0);
    return $errno;
}

# What a path names from a root and a directory, {root} and {dir} of what is handed over: an errno, or nothing, and what was
# found. Where the root was removed, a text that begins with a slash names nothing, and a link's target that does leads on
# from node 0.
sub resolve {
    my ($tree, $from, $text, $follows, $drops) = @_;
    my $fault = text_fault($text);
    return $tree->_front_fault($from, $text) || $fault if $fault;
    my $dir = $from->{ $text =~ m{\A/} ? 'root' : 'dir' };
    return 'ENOENT' unless $tree->{kind}{$dir};
    my $root = $tree->{kind}{ $from->{root} } ? $from->{root} : 0;
    my ($way, $links, @parts) = ('', 0, _parts($text, $drops));
    while (defined(my $part = shift @parts)) {
        if ($part eq '.' || $part eq '..') {
            $dir = $tree->_parent_in($root, $dir) if $part eq '..';
            $way = $part;
            next;
        }
        my $node = $tree->{rows}{$dir}{$part};
        my $kind = defined $node ? $tree->{kind}{$node} : 'missing';
        if ($kind eq 'dir') {
            ($dir, $way) = ($node, 'name');
        } elsif ($kind eq 'link' && (@parts || $follows)) {
            return 'ELOOP' if ++$links > $MOST_LINKS;
            my $target = $tree->{target}{$node};
            $dir = $tree->_led_by($root, $dir, $target);
            unshift @parts, _parts($target);
            $way = '';
        } else {
            return $kind eq 'missing' ? 'ENOENT' : 'ENOTDIR' if @parts;
            return ('', { in => $dir, name => $part, node => $node });
        }
    }
    return ('', { dir => $dir, way => $way });
}

# The kind of what was found.
sub _kind {
    my ($tree, $found) = @_;
    return 'dir' if exists $found->{dir};
    return defined $found->{node} ? $tree->{kind}{ $found->{node} } : 'missing';
}

1;
