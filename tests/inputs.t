#!/usr/bin/perl
# Tests of what pua takes for a listing, for a script and for a table of calls, by the tables in data/:
#
#     perl tests/inputs.t [PROGRAM]
#
# Each of five texts is cut after each of its bytes, and each of its bytes is replaced by each of sixteen others. What
# comes of it has to be refused with its fault, or to be read as what it says: a listing as the tree whose objects and
# links are told, a script and a table as that by which the script's lines are answered so.
use strict;
use warnings;
use FindBin qw($Bin);
use lib "$Bin/lib";
use Test::More;
use Worlds qw(answer_of program_in);

my $PROGRAM = program_in(@ARGV);

# The texts. The listing has directories, a file, a program, and links: to a directory, up and down again, to itself.
# Another one has a line of each type of file, and a further name of a socket; and another one mount points, which are empty
# or in one another, and a further name on another file system. The script puts veils over the first tree.
# By the table one of two promises is enough to make a directory.
my %TEXT = (
    listing => <<'END',
tree 1
0 dir
1 dir 0 etc
2 file 1 passwd
3 dir 0 tmp
4 link 0 t tmp
5 link 3 up ../etc
6 link 3 self self
7 prog 3 sh
END
    typed => <<'END',
tree 3
0 dir
1 dir 0 d
2 sock 1 s
3 fifo 0 z
4 dev 1 c
5 any 1 a
6 file 0 r
7 hard 1 h 2
END
    mounted => <<'END',
tree 3
0 dir
1 mount 0 m
2 dir 1 d
3 mount 2 c
4 any 3 z
5 dir 0 e
6 mount 1 r
7 hard 0 h 4
END
    script => <<'END',
1 unveil /etc r
1 unveil /etc rw
1 unveil /etc/passwd rw
1 unveil /etc q
1 unveil /no/x r
1 unveil - -
1 unveil /tmp r
1 unveil - -
END
    table => <<'END',
[mkdir]
promises = ["cpath", "dpath"]
veil = "c"
END
);

# What a text is read as, where this is not its name.
my %READ_AS = (typed => 'listing', mounted => 'listing');

# The command over a text that was cut or varied, which is the file `given`. Only OpenBSD's rules have a call that tells
# a plain file from one of which no more is known.
my %COMMAND = (
    listing => [qw(objects given nothing)],
    typed   => [qw(objects --rules openbsd given nothing)],
    mounted => [qw(objects --rules openbsd given nothing)],
    script  => [qw(run whole given)],
    table   => [qw(run --table given whole making)],
);

# What lies beside it: the whole listing, a script without a line, and one of a process that holds one of the two
# promises and makes a directory below a veil.
my %BESIDE = (
    whole   => $TEXT{listing},
    nothing => '',
    making  => "1 unveil /tmp c\n1 pledge stdio,dpath,error -\n1 mkdir /tmp/new\n",
);

# The other bytes, which the tables name by letters from `a` on.
my @OTHERS = ("\0", "\n", "\r", ' ', '\\', '/', '0', '9', '=', '-', "\177", "\200", "\377", 'c', 'r', 'z');

# What a new process may do on each kind of thing, by the word of its line, and with the names that a directory doesn't
# have. A mount point is a directory that is not removed, and in both listings of the third form the rest is the same.
my %CALLS = (
    listing => {
        dir   => 'stat,lstat,open-r,chmod,chdir',
        empty => 'stat,lstat,open-r,rmdir,chmod,chdir',
        file  => 'stat,lstat,open-r,open-w,open-rw,create,unlink,chmod',
        prog  => 'stat,lstat,open-r,open-w,open-rw,create,unlink,chmod,exec',
        link  => 'lstat,readlink,unlink',
        other => 'create,mkdir,symlink',
    },
    typed => {
        dir   => 'stat,lstat,open-r,chmod,chdir,chown,fchmod,fchown',
        empty => 'stat,lstat,open-r,rmdir,chmod,chdir,chown,fchmod,fchown',
        any   => 'stat,lstat,open-r,open-w,open-rw,create,unlink,chmod,connect,chown,create-rw,fchmod,fchown',
        sock  => 'stat,lstat,unlink,chmod,connect,chown',
        (map { $_ => 'stat,lstat,open-r,open-w,open-rw,create,unlink,chmod,chown,create-rw,fchmod,fchown' } qw(file fifo dev)),
        other => 'create,mkdir,symlink,bind,mknod,create-rw',
    },
);
$CALLS{mounted} = $CALLS{typed};

# Its state.
my %STATE = (
    listing => "objects 1\nprocess alive\npromises -\nexecpromises -\nunveil open\nno veils\n",
    typed   => "objects 1\nprocess alive\nrules openbsd\npromises -\nexecpromises -\nunveil open\nno veils\n",
);
$STATE{mounted} = $STATE{typed};

# The files that the program finds: these, and the text that is tried.
my %files  = %BESIDE;
my $starts = 0;

# Runs the program: its status, and what it wrote on both outputs.
sub told {
    my @words = @_;
    $starts++;
    return answer_of($PROGRAM, \%files, @words);
}

# What is told otherwise than expected, in words; the empty text where nothing is.
sub otherwise {
    my ($status, $out, $err, @words) = @_;
    my ($is_status, $is_out, $is_err) = told(@words);
    return '' if $is_status == $status && $is_out eq $out && $is_err eq $err;
    return "@words: status $is_status\n$is_out$is_err";
}

# What is wrong with what comes of a text of a kind, where this is the answer of its table: a fault; or, of a listing,
# that it is read as another one says, and of the others `is` and what the script's lines are answered.
sub wrong {
    my ($kind, $text, $answer, $listing) = @_;
    $files{given} = $text;
    my @command = @{ $COMMAND{$kind} };
    my $as = $READ_AS{$kind} || $kind;
    return otherwise(1, '', "pua: $as: $answer\n", @command) unless $answer =~ /\A(?:accepted\z|is\b)(.*)/;
    return wrong_tree($kind, $listing, @command) if $as eq 'listing';
    my $line = 0;
    return otherwise(0, join('', map { ++$line . " $_\n" } split ' ', $1), '', @command);
}

# What is wrong with a tree, which is to be that of a listing: its objects, and where its links lead.
sub wrong_tree {
    my ($kind, $listing, @command) = @_;
    my $in = rows_of($listing);
    my $wrong = otherwise(0, $STATE{$kind} . below($CALLS{$kind}, $in, { number => 0, kind => 'dir' }, ''), '', @command);
    return $wrong . join '', map { wrong_link(@$_) } links_of($in, 0, '');
}

# What is wrong with a link, which is to lead to a target.
sub wrong_link {
    my ($path, $target) = @_;
    my ($status, $out, $err) = told('why', 'given', 'nothing', 'stat', $path);
    my ($first) = $out =~ /^(link .*\n)/m;
    return '' if defined $first && $first eq "link $path to $target\n" && $err eq '';
    return "why stat $path: status $status\n$out$err";
}

# The rows of a listing that is well formed, by the numbers of their directories and by their names.
sub rows_of {
    my ($listing) = @_;
    my (%in, %kind);
    for my $line (split /\n/, $listing) {
        my ($number, $kind, $dir, $name, $end) = split / /, $line;
        $kind{$number} = $kind = $kind eq 'hard' ? $kind{$end} : $kind;
        $in{$dir}{$name} = { number => $number, kind => $kind, target => $end } if defined $name;
    }
    return \%in;
}

# The lines of a directory's further names, and of all that is below it; before them its own.
sub below {
    my ($calls, $in, $dir, $path) = @_;
    my $rows = $in->{ $dir->{number} };
    my $of_it = $calls->{ $rows || $path eq '' || $dir->{kind} eq 'mount' ? 'dir' : 'empty' };
    my $shown = $path eq '' ? '/' : $path;
    my $lines = "dir $shown $of_it\nother $shown $calls->{other}\n";
    for my $name (sort keys %$rows) {
        my ($kind, $at) = ($rows->{$name}{kind}, "$path/$name");
        my $word = $kind eq 'any' ? 'file' : $kind;
        $lines .= $kind =~ /\A(?:dir|mount)\z/ ? below($calls, $in, $rows->{$name}, $at) : "$word $at $calls->{$kind}\n";
    }
    return $lines;
}

# The paths of the links below a directory, each with its target.
sub links_of {
    my ($in, $dir, $path) = @_;
    my @links;
    for my $name (sort keys %{ $in->{$dir} || {} }) {
        my $row = $in->{$dir}{$name};
        push @links, ["$path/$name", $row->{target}] if $row->{kind} eq 'link';
        push @links, links_of($in, $row->{number}, "$path/$name") if $row->{kind} =~ /\A(?:dir|mount)\z/;
    }
    return @links;
}

# The rows of a table: a number, a word and an answer, one row a line. A `#` begins a remark.
sub table {
    my ($name) = @_;
    open my $in, '<', "$Bin/data/$name" or die "$name: $!";
    return map { chomp; [split / /, $_, 3] } grep { !/\A#/ } <$in>;
}

# Passes where nothing is wrong.
sub is_right {
    my ($name, @wrong) = @_;
    ok(!@wrong, $name) or diag(@wrong);
    return;
}

# Each front of a text, from the empty one to the whole; a listing is read as one whose last line is ended.
sub try_fronts {
    my ($kind) = @_;
    my $cases = 0;
    for my $row (table("$kind-fronts")) {
        my ($first, $last, $answer) = @$row;
        $first == $cases or die "$kind-fronts: $first is not the next front\n";
        my @wrong = map { wrong($kind, $_, $answer, /\n\z/ ? $_ : "$_\n") }
            map { substr $TEXT{$kind}, 0, $_ } $first .. $last;
        is_right("the $kind cut after $first to $last bytes: $answer", grep { $_ ne '' } @wrong);
        $cases = $last + 1;
    }
    is($cases, 1 + length $TEXT{$kind}, "the $kind: all fronts");
    return $cases;
}

# Each variant of a text.
sub try_variants {
    my ($kind) = @_;
    my %cases;
    for my $row (table("$kind-variants")) {
        my ($place, $letters, $answer) = @$row;
        my @wrong;
        for my $letter (split //, $letters) {
            $cases{"$place $letter"} = 1;
            my $wrong = wrong($kind, varied($kind, $place, $letter), $answer, relisted($kind, $place, $answer));
            push @wrong, "letter $letter: $wrong" if $wrong ne '';
        }
        is_right("the $kind, byte $place as $letters: $answer", @wrong);
    }
    is(scalar keys %cases, @OTHERS * length $TEXT{$kind}, "the $kind: all variants");
    return scalar keys %cases;
}

# A text with the byte of a letter in a place.
sub varied {
    my ($kind, $place, $letter) = @_;
    my $text = $TEXT{$kind};
    substr($text, $place, 1) = $OTHERS[ord($letter) - ord 'a'];
    return $text;
}

# The listing with the line of an answer instead of the one that has the place.
sub relisted {
    my ($kind, $place, $answer) = @_;
    my $end = 0;
    return join '', map {
        my $has_place = $end <= $place && $place < $end + length;
        $end += length;
        $has_place && $answer =~ /\Ais (.*)\z/ ? "$1\n" : $_;
    } split /^/, $TEXT{$kind};
}

my %count;
for my $kind (qw(listing typed mounted script table)) {
    $count{$kind} = [try_fronts($kind), try_variants($kind)];
}
note("$_: $count{$_}[0] fronts, $count{$_}[1] variants") for sort keys %count;
note("$starts starts of the program");
done_testing;
