# Wrong models of the root of a process, as tests have to notice them: each a name, and a function that is put in the place of
# another one, which it is handed first.
package WrongRoots;
use strict;
use warnings;
use Exporter qw(import);

our @EXPORT_OK = qw(with_wrong);

our @WRONG = (
    ['`..` climbs out of a root', 'Tree::_parent_in', sub {
        my ($right, $tree, $root, $dir) = @_;
        return $right->($tree, 0, $dir);
    }],
    ['a link whose target begins with a slash leads on from node 0', 'Tree::_led_by', sub {
        my ($right, $tree, $root, @rest) = @_;
        return $right->($tree, 0, @rest);
    }],
    ['chroot moves the directory', 'Model::_chroot', sub {
        my ($right, $model, $process, @rest) = @_;
        my $answer = $right->($model, $process, @rest);
        $process->{dir} = $process->{root} if $answer eq 'ok';
        return $answer;
    }],
    ['what is open leads nowhere', 'Model::is_enclosed', sub {
        my ($right, $model, $process) = @_;
        return $right->($model, { %$process, files => {} });
    }],
    ['a working directory outside of the root leads nowhere', 'Model::is_enclosed', sub {
        my ($right, $model, $process) = @_;
        return $right->($model, { %$process, dir => $process->{root} });
    }],
    ['a child has the root of the listing', 'Model::_fork', sub {
        my ($right, $model, $process, $number) = @_;
        my $answer = $right->($model, $process, $number);
        $model->{processes}{$number}{root} = 0 if $answer eq 'ok';
        return $answer;
    }],
    ['fchdir leads to nothing outside of the root', 'Model::_fchdir', sub {
        my ($right, $model, $process, $number) = @_;
        my $file = $process->{files}{$number};
        my $is_out = $file && $file->{kind} eq 'dir' && $model->{kind}{ $file->{node} }
            && !$model->_is_below($process->{root}, $file->{node});
        return $is_out ? 'EPERM' : $right->($model, $process, $number);
    }],
    ['a chroot closes what is open', 'Model::_chroot', sub {
        my ($right, $model, $process, @rest) = @_;
        my $answer = $right->($model, $process, @rest);
        $process->{files} = {} if $answer eq 'ok';
        return $answer;
    }],
    ['a directory outside of the root leads to none above', 'Tree::_parent_in', sub {
        my ($right, $tree, $root, $dir) = @_;
        return $tree->_is_below($root, $dir) ? $right->($tree, $root, $dir) : $dir;
    }],
);

# The same of lists for ever, which no kernel answers.
our @WRONG_FOR_EVER = (
    ['no list for ever is cut', 'EverModel::_is_enclosed_for_ever', sub { return 0 }],
    ['a list for ever is cut of who holds id', 'EverModel::_is_enclosed_for_ever', sub {
        my ($right, $ever) = @_;
        return $ever->{model}->is_enclosed($ever->{process});
    }],
);

# What a function tells while a wrong model stands for the right one.
sub with_wrong {
    my ($place, $wrong, $told) = @_;
    no strict 'refs';
    no warnings 'redefine';
    my $right = \&$place;
    local *$place = sub { $wrong->($right, @_) };
    return $told->();
}

1;
