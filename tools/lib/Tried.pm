package Tried;

# What the tests of the tools share: a room for files, and tools that are run in it.
use strict;
use warnings;
use Exporter qw(import);
use File::Basename qw(dirname);
use File::Path qw(make_path);
use File::Temp qw(tempdir);
use POSIX ();
use Test::More;
our @EXPORT = qw(content enter_room file helps is_clean put ran);
our @EXPORT_OK = qw(may_chroot);

my $room;

# Makes a new directory, which goes when the test ends, and goes there.
sub enter_room {
    $room = tempdir(CLEANUP => 1);
    chdir $room or die "$room: $!";
    return $room;
}

# Writes a file of the room with these bytes, in folders that are made where they are missing, and
# answers its path.
sub put {
    my ($name, $bytes) = @_;
    my $path = $name =~ m{\A/} ? $name : "$room/$name";
    make_path(dirname($path));
    open my $out, '>:raw', $path or die "$path: $!";
    print {$out} $bytes or die "$path: $!";
    close $out or die "$path: $!";
    return $path;
}

# Writes a file of these lines, and answers its name.
sub file {
    my ($name, @lines) = @_;
    put($name, join '', map { "$_\n" } @lines);
    return $name;
}

# The whole content of a file.
sub content {
    my ($name) = @_;
    open my $in, '<:raw', $name or die "$name: $!";
    local $/ = undef;
    my $bytes = <$in>;
    close $in;
    return defined $bytes ? $bytes : '';
}

# Runs a tool with these words: its status, and what it wrote on both outputs, which are the files
# `out` and `err` of the room. $how has the file that the tool reads, as `in`, the options of perl, as
# `perl`, and the number of another user, as `user`; -T is for a tool that reads foreign text, and no
# warning of perl's may be among what it writes.
sub ran {
    my ($tool, $how, @words) = @_;
    my @perl = @{ $how->{perl} || ['-T'] };
    my $child = fork;
    die "fork: $!" unless defined $child;
    if (!$child) {
        open STDIN, '<', $how->{in} || '/dev/null' or POSIX::_exit(99);
        open STDOUT, '>', "$room/out" or POSIX::_exit(99);
        open STDERR, '>', "$room/err" or POSIX::_exit(99);
        POSIX::setuid($how->{user}) if defined $how->{user};
        exec $^X, @perl, '-w', $tool, @words or POSIX::_exit(99);
    }
    waitpid $child, 0;
    return ($? >> 8, content("$room/out"), content("$room/err"));
}

# That perl has nothing to say of a tool, with these options.
sub is_clean {
    my ($tool, @options) = @_;
    like(`$^X $_ $tool 2>&1`, qr/\A\S+ syntax OK\n\z/, "perl $_ has nothing to say") for @options;
    return;
}

# Whether a directory can become the root here.
sub may_chroot {
    my ($folder) = @_;
    my $child = fork;
    return 0 unless defined $child;
    if (!$child) { POSIX::_exit(chroot $folder ? 0 : 1) }
    waitpid $child, 0;
    return $? == 0;
}

# That a tool prints its text for --help, which begins so.
sub helps {
    my ($tool, $beginning) = @_;
    my ($status, $out, $err) = ran($tool, {}, '--help');
    is("$status $err", '0 ', '--help: the status');
    like($out, qr/\A\Q$beginning\E.*^Status 0: .*\n\z/ms, '--help prints the head of the tool');
    unlike($out, qr/^#|^use /m, '--help prints no line of the program');
    return;
}

1;
