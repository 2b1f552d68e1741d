# One world that is asked for reasons: a listing and a table of calls, over which scripts are run by the
# program. What it printed is kept, so that no question costs two starts.
#
# A script is a list of lines here, without their ends. The first line of each is OBSERVER's fork: a process
# that never pledges and puts no veil, so that all that stands in the tree is seen, and can be changed, by it.
package Why::World;
use strict;
use warnings;
use Exporter qw(import);
use Worlds qw(answer_of worlds_told);

our @EXPORT_OK = qw(OBSERVER told_of forebear is_over above fields_of process_of);

use constant OBSERVER => 900;

my $SET    = qr/[a-z_]+(?:,[a-z_]+)*/;
my $PATH   = qr{/\S*};
my $LETTER = qr/r?w?x?c?|=/;

# The manual's list of reasons: a short name, the answers that it may stand behind, and its words.
my @KINDS = (
    [ 'promises',        qr/killed|ENOSYS/, qr/no $SET(?:, no $SET)*/ ],
    [ 'never made',      qr/gone/,          qr/never made/ ],
    [ 'ended',           qr/gone/,          qr/ended/ ],
    [ 'empty',           qr/ENOENT/,        qr/(path|target) is empty/ ],
    [ 'long',            qr/ENAMETOOLONG/,  qr/(path|target) has more than 1023 bytes/ ],
    [ 'long component',  qr/ENAMETOOLONG/,  qr/(path|target) has a component of more than 255 bytes/ ],
    [ 'removed',         qr/ENOENT/,        qr/working directory is removed/ ],
    [ 'no root',         qr/ENOENT/,        qr/root is removed/ ],
    [ 'missing',         qr/ENOENT/,        qr/($PATH) is missing/ ],
    [ 'no directory',    qr/ENOTDIR/,       qr/($PATH) is no directory/ ],
    [ 'links',           qr/ELOOP/,         qr/($PATH) is link 33/ ],
    [ 'no veil',         qr/ENOENT/,        qr/no veil on ($PATH) or above/ ],
    [ 'letters',         qr/EACCES/,        qr/no ($LETTER) in veil ($LETTER) on ($PATH)/ ],
    [ 'exists',          qr/EEXIST|EADDRINUSE/, qr/($PATH) exists/ ],
    [ 'directory',       qr/EISDIR|EPERM/,  qr/($PATH) is a directory/ ],
    [ 'no link',         qr/EINVAL/,        qr/($PATH) is no link/ ],
    [ 'no program',      qr/EACCES/,        qr/($PATH) is no program/ ],
    [ 'socket',          qr/EOPNOTSUPP/,    qr/($PATH) is a socket/ ],
    [ 'no socket',       qr/ENOTSOCK/,      qr/($PATH) is no socket/ ],
    [ 'mount point',     qr/EBUSY/,         qr/($PATH) is a mount point/ ],
    [ 'elsewhere',       qr/EXDEV/,         qr/($PATH) is on another file system/ ],
    [ 'not empty',       qr/ENOTEMPTY/,     qr/($PATH) is not empty/ ],
    [ 'dots',            qr/EINVAL/,        qr/path ends in (\.\.?)/ ],
    [ 'no component',    qr/EBUSY/,         qr/path has no component/ ],
    [ 'inside',          qr/EINVAL/,        qr/($PATH) is inside ($PATH)/ ],
    [ 'unknown promise', qr/EINVAL/,        qr/unknown promise( in execpromises)?/ ],
    [ 'pledge asks',     qr/EPERM/,         qr/no ($SET)( in execpromises)?/ ],
    [ 'locked',          qr/EPERM/,         qr/locked/ ],
    [ 'unknown letter',  qr/EINVAL/,        qr/unknown letter/ ],
    [ 'unveil asks',     qr/EPERM/,         qr/no ($LETTER) in veil ($LETTER) on ($PATH)/ ],
    [ 'places',          qr/E2BIG/,         qr/128 places have veils/ ],
    [ 'process exists',  qr/EAGAIN/,        qr/process (\d+) exists/ ],
    [ 'processes',       qr/EAGAIN/,        qr/256 processes were made/ ],
    [ 'full',            qr/ENOSPC/,        qr/tree is full/ ],
    [ 'closed',            qr/EBADF/,       qr/descriptor (\d+) is closed/ ],
    [ 'no directory open', qr/ENOTDIR/,     qr/descriptor (\d+) is no directory/ ],
    [ 'not there',         qr/EBADF/,       qr/process (\d+) has no descriptor (\d+)/ ],
    [ 'may not send',      qr/EPERM/,       qr/process (\d+) has no sendfd/ ],
    [ 'sends a directory', qr/EINVAL/,      qr/descriptor (\d+) of process (\d+) is a directory/ ],
);

# Makes a world of a listing; in %$how, both optional: rules, for --rules, and table, the text of a table of
# calls.
sub new {
    my ($class, $program, $listing, $how) = @_;
    my @options = defined $how->{rules} ? ('--rules', $how->{rules}) : ();
    push @options, '--table', 'TABLE' if defined $how->{table};
    my %files = (TREE => $listing, defined $how->{table} ? (TABLE => $how->{table}) : ());
    return bless {
        program => $program, files => \%files, options => \@options, kept => {},
        starts => 0, altered => 0, alike => 0,
    }, $class;
}

# Whether it is by OpenBSD's rules.
sub is_openbsd { my ($world) = @_; return "@{ $world->{options} }" =~ /--rules openbsd/ ? 1 : 0 }

# How often the program was started for this world, how many altered scripts were compared, and how many of
# them were answered alike.
sub counts { my ($world) = @_; return map { $_ => $world->{$_} } qw(starts altered alike) }

# What the program prints of a command with some options over a script, with further words: its lines.
sub lines_of {
    my ($world, $script, $command, @more) = @_;
    my ($options, $words) = ref $more[0] ? @more : ([@more], []);
    my $text  = join '', map { "$_\n" } @$script;
    my @words = ($command, @$options, @{ $world->{options} }, 'TREE', 'SCRIPT', @$words);
    my $key   = join "\0", @words, $text;
    $world->{kept}{$key} = $world->_asked($text, @words) if !defined $world->{kept}{$key};
    return split /\n/, $world->{kept}{$key};
}

# Starts the program: what it prints. A fault ends the test.
sub _asked {
    my ($world, $text, @words) = @_;
    my $files = { %{ $world->{files} }, SCRIPT => $text };
    my ($status, $out, $err) = answer_of($world->{program}, $files, @words);
    ++$world->{starts};
    die "status $status: $err" . worlds_told($files, @words) if $status != 0 || $err ne '';
    return $out;
}

# The answers to the lines of a script, each one word.
sub answers {
    my ($world, $script) = @_;
    return map { (split / /)[1] } $world->lines_of($script, 'run');
}

# Whether an altered script has these answers, too.
sub is_alike {
    my ($world, $script, $answers) = @_;
    my $is_alike = join(' ', $world->answers($script)) eq join ' ', @$answers;
    ++$world->{altered};
    ++$world->{alike} if $is_alike;
    return $is_alike;
}

# The same with reasons, each as told_of has it.
sub reasons {
    my ($world, $script) = @_;
    return map { told_of($_) } $world->lines_of($script, 'run', '--why');
}

# What a request is told behind a script, by its line.
sub told {
    my ($world, $script, $request) = @_;
    my @told = $world->reasons([ @$script, $request ]);
    return $told[-1];
}

# What decides a request behind a script: the lines of `pua why`.
sub facts {
    my ($world, $script, $request) = @_;
    my ($process, @fields) = split / /, $request;
    return $world->lines_of($script, 'why', [ '--process', $process ], \@fields);
}

# The state of a process behind a script: a hash of the first words of its lines, veils, a list of pairs
# of a path and letters, held, kinds by descriptor, and root, the path of one of its own.
sub state_of {
    my ($world, $script, $process) = @_;
    return $world->_lists($script)->{$process} || { veils => [], held => {} };
}

# The kinds of all that stands in the tree behind a script, by paths, as OBSERVER sees it.
sub things {
    my ($world, $script) = @_;
    return $world->_lists($script)->{ +OBSERVER }{things};
}

# The paths of the mount points behind a script, by the listing of the tree that it leaves.
sub mounts {
    my ($world, $script) = @_;
    my ($path, @mounts) = ({ 0 => '' });
    for my $line ($world->lines_of($script, 'tree')) {
        my ($number, $kind, $dir, $name) = split / /, $line;
        $path->{$number} = "$path->{$dir}/$name" if defined $name;
        push @mounts, $path->{$number} if $kind eq 'mount';
    }
    return @mounts;
}

# The lists of all processes behind a script, by their numbers: the state of each, and things, its objects.
sub _lists {
    my ($world, $script) = @_;
    my $key = join "\n", @$script;
    return $world->{lists}{$key} if $world->{lists}{$key};
    my (%lists, $list);
    for my $line ($world->lines_of($script, 'objects', '--process', 'all')) {
        $list = $lists{$1} = { veils => [], held => {}, things => {} } if $line =~ /\Aobjects (\d+)\z/;
        next if !$list;
        push @{ $list->{veils} }, [ $1, $2 ] if $line =~ /\Aveil (\S+) (\S+)\z/;
        $list->{root} = $1 if $line =~ /\Aroot (\S+) (?:closed|open)\z/;
        $list->{held}{$1} = $2 if $line =~ /\Aheld (\d+) (\S+) /;
        $list->{$1} = $2 if $line =~ /\A(process|promises|execpromises|unveil) (\S+)\z/;
        $list->{things}{$2} = $1 if $line =~ /\A(dir|file|prog|link|sock|fifo|dev) (\S+) /;
    }
    return $world->{lists}{$key} = \%lists;
}

# The world's texts and a script, for a diagnostic.
sub shown {
    my ($world, $script) = @_;
    return worlds_told({ %{ $world->{files} }, SCRIPT => join '', map { "$_\n" } @$script },
        @{ $world->{options} });
}

# What a line with reasons says: answer, reason and since, and of the reason its kind, the side of two paths
# that it is about, and what it is about. No kind where the reason is none of the list's, or behind another
# answer. Of what is ok, by which promise it was opened.
sub told_of {
    my ($line) = @_;
    return { answer => 'ok', by => $1 } if $line =~ /\A(?:\d+ )?ok by ([a-z]+)\z/;
    my %told;
    @told{qw(answer reason since)} = $line =~ /\A(?:\d+ )?(\S+)(?: (.+?))?(?: since line ([1-9]\d*))?\z/
        or die "no line with a reason: $line\n";
    return \%told if !defined $told{reason};
    my ($side, $words) = $told{reason} =~ /\A(?:(old|new): )?(.*)\z/;
    for my $kind (@KINDS) {
        my ($name, $answers, $pattern) = @$kind;
        next if $told{answer} !~ /\A(?:$answers)\z/ || $words !~ /\A$pattern\z/;
        my @about = map { defined $-[$_] ? substr $words, $-[$_], $+[$_] - $-[$_] : '' } 1 .. $#+;
        @told{qw(kind side about)} = ($name, defined $side ? $side : '', \@about);
        last;
    }
    return \%told;
}

# The process of a line, and its fields behind that.
sub process_of { my ($line) = @_; return (split / /, $line)[0] }
sub fields_of  { my ($line) = @_; my ($process, @fields) = split / /, $line; return @fields }

# Which process one of the end of a script was behind so many of its lines: its parent, before the line that
# made it.
sub forebear {
    my ($script, $answers, $count, $process) = @_;
    for my $place (reverse $count .. $#$script) {
        $process = $1 if $answers->[$place] eq 'ok' && $script->[$place] =~ /\A(\d+) fork $process\z/;
    }
    return $process;
}

# The path of the directory in which a path's last name stands.
sub above { my ($path) = @_; return $path =~ m{\A(/.*)/[^/]+\z} ? $1 : '/' }

# Whether a path is another one, or that of a directory above it.
sub is_over {
    my ($above, $path) = @_;
    return $above eq '/' || $path eq $above || index($path, "$above/") == 0;
}

1;
