# Wrong models of mount points in lists for ever, as tests have to notice them: each a name, and a function that is put in the
# place of another one, which it is handed first (WrongRoots.pm).
package WrongMounts;
use strict;
use warnings;
use EverModel;
use JointModel;
use WrongRoots qw(with_wrong);

# Of one process (EverModel.pm). That a mount point's own name came to be free would be seen in the directory above it alone: no
# name has a veil of its own where a directory stood from the beginning.
our @WRONG = (
    ['a directory above a mount point comes to be empty', 'EverModel::_can_be_emptied', sub {
        my ($right, $ever, $dir) = @_;
        local $ever->{model}{mount} = {};
        return $right->($ever, $dir);
    }],
    ['a mount point is removed', 'EverModel::_is_gone', sub {
        my ($right, $ever, $dir) = @_;
        return $right->($ever, $dir) || $ever->{edits} && $dir != 0 && $ever->_can_be_emptied($dir);
    }],
    ['a mount point gives way', 'EverModel::_gives_way', sub {
        my ($right, $ever, $node) = @_;
        local $ever->{model}{mount}{$node} = 0;
        return $right->($ever, $node);
    }],
    ['all is on one file system', 'EverModel::_device', sub { return 0 }],
    ['what is mounted does not go along', 'EverModel::_on', sub {
        my ($right, $ever, $dir) = @_;
        return $ever->_device($dir);
    }],
    ['all that is mounted goes along', 'EverModel::_on', sub { return 'all' }],
    ['veils are told of over all file systems', 'EverModel::lines', sub {
        my ($right, @words) = @_;
        my %covers = map { /\A(\S+ \S+) \S+(.*)\z/ ? ($1 => $2) : () } with_wrong('EverModel::_on', sub { return 'all' }, sub { return $right->(@words) });
        return map { /\A((\S+ \S+) \S+)/ ? "$1$covers{$2}" : () } $right->(@words);
    }],
);

# Of several (JointModel.pm).
our @WRONG_JOINTLY = (
    ["a mount point's name comes to be free", 'JointModel::_free', sub {
        my ($right, $joint, $by) = @_;
        local $joint->{model}{mount} = {};
        return $right->($joint, $by);
    }],
    ['a directory above a mount point comes to be empty', 'JointModel::_can_be_emptied', sub {
        my ($right, $joint, $dir) = @_;
        my ($mount, $rows) = ($joint->{model}{mount}, $joint->{model}{rows}{$dir});
        return !grep { !$mount->{ $rows->{$_} } && !$joint->_is_free($dir, $_) } keys %$rows;
    }],
    ['a mount point is removed', 'JointModel::_lines_in', sub {
        my ($right, $joint, $dir, @agents) = @_;
        local $joint->{model}{mount}{$dir} = 0;
        return $right->($joint, $dir, @agents);
    }],
    ['all is on one file system', 'JointModel::_device', sub { return 0 }],
);

1;
