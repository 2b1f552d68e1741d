#!/usr/bin/perl
# Tests of trace.pl, over texts that were written by hand after the documented form of kdump's output,
# and not on a system: perl tools/trace.t
# With PUA=PROGRAM each script is also handed to that pua, which has to accept it.
use strict;
use warnings;
use Cwd qw(abs_path);
use File::Basename qw(basename);
use FindBin qw($Bin);
use lib "$Bin/lib";
use Test::More;
use Tried;

my $TRACE = "$Bin/trace.pl";
my $PUA   = defined $ENV{PUA} ? abs_path($ENV{PUA}) : undef;
enter_room();
file('tree', 'tree 1', '0 dir');

# Runs trace.pl with these words and, as its input, the file `trace`.
sub trace { return ran($TRACE, { in => 'trace' }, @_) }

# The text of kdump for a short one: `7 CALL  fork()` is a record of process 7, `7 stat(A,B) = 0 "/a"` a call
# with its NAMI records and its return, and what follows a `|` stands as it is.
sub kdump {
    my ($short) = @_;
    my $kdump = '';
    for my $line (split /\n/, $short) {
        if ($line =~ s/\A\|//) {
            $kdump .= "$line\n";
            next;
        }
        my ($pid, $text) = $line =~ /\A([0-9]+) (.*)\z/ or die "a line of a test: $line";
        my @texts = $text;
        if (my ($call, $name, $return, $paths) = $text =~ /\A((\w+)\(.*?\)) = (.*?)((?: ".*")?)\z/) {
            @texts = ("CALL  $call", map({ "NAMI  $_" } $paths =~ /".*?"(?= "|\z)/g), "RET   $name $return");
        }
        $kdump .= sprintf "%6d %-8s %s\n", $pid, 'pagesd', $_ for @texts;
    }
    return $kdump;
}

# What is said of a trace, without that it begins in the middle, as most of the texts here do, and without
# the table of the processes.
sub said_of_lines {
    my ($err) = @_;
    return join '', grep { !/\Atrace\.pl: (?:the trace begins in the middle |(?:process|[0-9]+)  )/ } split /^/, $err;
}

# That a trace gives these lines, each with its answer after ` : `, and these reports.
sub gives_all {
    my ($what, $trace, $lines, $reports) = @_;
    my (@script, @answers);
    for my $line (split /\n/, $lines) {
        my ($request, $answer) = $line =~ /\A(.*) : (\S+)\z/ or die "$what: $line";
        push @script, "$request\n";
        push @answers, @script . " $answer\n";
    }
    put('trace', $trace);
    unlink 'answers';
    my ($status, $out, $err) = trace('-vx', '-e', 'answers');
    is($out, join('', @script), "$what: the script");
    is(content('answers'), join('', @answers), "$what: the answers");
    is(said_of_lines($err), join('', map { "trace.pl: $_\n" } split /\n/, $reports), "$what: the reports");
    is($status, 0, "$what: the status");
    is(system("$PUA run tree out > ran"), 0, "$what: pua reads it") if defined $PUA;
    return;
}

# The same of a short trace, with the lines and the reports in the same text, after lines of `--`.
sub gives {
    my ($what, $text) = @_;
    my ($trace, $lines, $reports) = split /^--\n/m, $text;
    gives_all($what, kdump($trace), $lines, defined $reports ? $reports : '');
    return;
}

# The tool itself, and its modules.
for my $option ('-wc', '-Twc') {
    for my $file ($TRACE, glob "$Bin/lib/Pua/*.pm") {
        my $said = `$^X $option -I$Bin/lib $file 2>&1`;
        like($said, qr/\A\S+ syntax OK\n\z/, "perl $option has nothing to say of " . basename($file));
    }
}

helps($TRACE, 'Prints the script of a trace');

# A daemon, from its start to its end.
my $DAEMON = <<'END';
 71204 ktrace   RET   ktrace 0
 71204 ktrace   CALL  execve(0x7f7ffffd0c50,0x7f7ffffd1188,0x7f7ffffd1198)
 71204 ktrace   NAMI  "/sbin/pagesd"
 71204 ktrace   RET   execve -1 errno 2 No such file or directory
 71204 ktrace   CALL  execve(0x7f7ffffd0c50,0x7f7ffffd1188,0x7f7ffffd1198)
 71204 ktrace   NAMI  "/usr/sbin/pagesd"
 71204 ktrace   ARGS  
	[0] = "pagesd"
	[1] = "-d"
 71204 pagesd   NAMI  "/usr/libexec/ld.so"
 71204 pagesd   RET   execve JUSTRETURN
 71204 pagesd   CALL  kbind(0x7f7ffffd0c10,24,0x4d1bd4fc7cf4c55d)
 71204 pagesd   RET   kbind 0
 71204 pagesd   CALL  open(0x7f7ffffcf1c0,0x10000<O_RDONLY|O_CLOEXEC>)
 71204 pagesd   NAMI  "/etc/pagesd.conf"
 71204 pagesd   RET   open 3
 71204 pagesd   CALL  fstat(3,0x7f7ffffcf0a0)
 71204 pagesd   STRU  struct stat { dev=4, ino=155, mode=-rw-r--r-- , nlink=1, uid=0<"root">, gid=0<"wheel"> }
 71204 pagesd   RET   fstat 0
 71204 pagesd   CALL  read(3,0x6c2b1f2c000,0x4000)
 71204 pagesd   GIO   fd 3 read 51 bytes
       "root /www
	 71204 pagesd   CALL  exit(0)
	chroot \"/\"
	
       "
 71204 pagesd   RET   read 51/0x33
 71204 pagesd   CALL  unveil(0x4f2a1c60,0x4f2a1c66)
 71204 pagesd   STRU  flags="r"
 71204 pagesd   NAMI  "/www"
 71204 pagesd   RET   unveil 0
 71204 pagesd   CALL  unveil(0,0)
 71204 pagesd   RET   unveil 0
 71204 pagesd   CALL  pledge(0x4f2a1c70,0)
 71204 pagesd   STRU  promise="stdio rpath proc"
 71204 pagesd   RET   pledge 0
 71204 pagesd   CALL  fork()
 71204 pagesd   RET   fork 60413/0xebfd
 60413 pagesd   RET   fork 0
 60413 pagesd   CALL  pledge(0x4f2a1c90,0x4f2a1ca0)
 60413 pagesd   STRU  promise="stdio rpath"
 60413 pagesd   STRU  execpromise=""
 60413 pagesd   RET   pledge 0
 60413 pagesd   CALL  stat(0x7f7ffffcf1c0,0x7f7ffffcf240)
 60413 pagesd   NAMI  "/www/index"
 60413 pagesd   STRU  struct stat { dev=4, ino=160, mode=-rw-r--r-- , nlink=1, uid=0<"root">, gid=0<"wheel"> }
 60413 pagesd   RET   stat 0
 60413 pagesd   CALL  open(0x7f7ffffcf1c0,0x601<O_WRONLY|O_CREAT|O_TRUNC>,0644<S_IRUSR|S_IWUSR|S_IRGRP|S_IROTH>)
 60413 pagesd   NAMI  "/www/new"
 60413 pagesd   PLDG  open, "cpath", errno 1 Operation not permitted
 60413 pagesd   PSIG  SIGABRT SIG_DFL
 60413 pagesd   NAMI  "pagesd.core"
 71204 pagesd   CALL  wait4(WAIT_ANY,0x7f7ffffcf2ac,0<>,0)
 71204 pagesd   RET   wait4 60413/0xebfd
 71204 pagesd   CALL  exit(0)
END
my $LINES = <<'END';
1 exec /usr/sbin/pagesd : ok
1 open-r /etc/pagesd.conf : ok
1 unveil /www r : ok
1 unveil - - : ok
1 pledge stdio,rpath,proc - : ok
1 fork 2 : ok
2 pledge stdio,rpath = : ok
2 stat /www/index : ok
2 create /www/new : killed
1 exit : ok
END
{
    my $report = "line 2: left out: an execve that failed (1 in all)\n";
    my ($threads, $times, $ends) = ($DAEMON, $DAEMON, $DAEMON);
    $threads =~ s{^( [0-9]{5}) }{$1/100042  }gm;
    $times   =~ s{^( [0-9]{5} \w+ +)([A-Z]{3,4})}{${1}1764000000.123456 $2}gm;
    $ends    =~ s/\n/\r\n/g;
    gives_all('a daemon',          $DAEMON,  $LINES, $report);
    gives_all('with threads (-H)', $threads, $LINES, $report);
    gives_all('with times (-T)',   $times,   $LINES, $report);
    gives_all('with CRLF',         $ends,    $LINES, $report);
}

gives('calls with one path', <<'END');
7 stat(0x1c60,0x1d60) = 0 "/a"
7 lstat(0x1c60,0x1d60) = 0 "/a"
7 readlink(0x1c60,0x1d60,0x400) = 3 "/a"
7 mkdir(0x1c60,0755<S_IRUSR|S_IWUSR|S_IXUSR>) = 0 "/a"
7 rmdir(0x1c60) = 0 "/a"
7 unlink(0x1c60) = 0 "/a"
7 chmod(0x1c60,0600<S_IRUSR|S_IWUSR>) = 0 "/a"
7 chdir(0x1c60) = 0 "/a"
7 access(0x1c60,0x4<R_OK>) = 0 "/a"
7 execve(0x1c60,0x1d60,0x1e60) = 0 "/a" "/bin/sh" "/usr/libexec/ld.so"
--
1 stat /a : ok
1 lstat /a : ok
1 readlink /a : ok
1 mkdir /a : ok
1 rmdir /a : ok
1 unlink /a : ok
1 chmod /a : ok
1 chdir /a : ok
1 stat /a : ok
1 exec /a : ok
END

gives('open by its flags', <<'END');
7 open(0x1c60,0<O_RDONLY>) = 3 "/a"
7 open(0x1c60,0x10000<O_RDONLY|O_CLOEXEC>) = 3 "/a"
7 open(0x1c60,0x1<O_WRONLY>) = 3 "/a"
7 open(0x1c60,0x9<O_WRONLY|O_APPEND>) = 3 "/a"
7 open(0x1c60,0x2<O_RDWR>) = 3 "/a"
7 open(0x1c60,0x201<O_WRONLY|O_CREAT>,0644<S_IRUSR|S_IWUSR>) = 3 "/a"
7 open(0x1c60,0x601<O_WRONLY|O_CREAT|O_TRUNC>,0644<S_IRUSR|S_IWUSR>) = 3 "/a"
7 open(0x1c60,0) = 3 "/a"
7 open(0x1c60,0x601,0x1b6) = 3 "/a"
7 open(0x1c60,513,420) = 3 "/a"
7 open(0x1c60,65538) = 3 "/a"
7 open(0x1c60,O_RDONLY|O_CLOEXEC) = 3 "/a"
7 open(0x1c60,O_WRONLY|O_CREAT|O_TRUNC,0644) = 3 "/a"
--
1 open-r /a : ok
1 open-r /a : ok
1 open-w /a : ok
1 open-w /a : ok
1 open-rw /a : ok
1 create /a : ok
1 create /a : ok
1 open-r /a : ok
1 create /a : ok
1 create /a : ok
1 open-rw /a : ok
1 open-r /a : ok
1 create /a : ok
END

gives('flags that a script does not have', <<'END');
7 open(0x1c60,0x202<O_RDWR|O_CREAT>,0644) = 3 "/a"
7 open(0x1c60,0xa01<O_WRONLY|O_CREAT|O_EXCL>,0600) = 3 "/b"
7 open(0x1c60,0x100<O_RDONLY|O_NOFOLLOW>) = 3 "/c"
7 open(0x1c60,0x20000<O_RDONLY|O_DIRECTORY>) = 3 "/d"
7 open(0x1c60,0x400<O_RDONLY|O_TRUNC>) = 3 "/e"
7 open(0x1c60,0x21<O_WRONLY|O_EXLOCK>) = 3 "/f"
7 open(0x1c60,0x10<O_RDONLY|O_SHLOCK>) = 3 "/g"
7 open(0x1c60,0x200<O_RDONLY|O_CREAT>,0644) = 3 "/h"
7 open(0x1c60,0x3<>) = 3 "/i"
7 open(0x1c60,what) = 3 "/j"
7 open(0x1c60,0x202<O_RDWR|O_CREAT>,0644) = 3 "/k"
--
1 create /a : ok
1 create /b : ok
1 open-r /c : ok
1 open-r /d : ok
1 open-r /e : ok
1 open-w /f : ok
1 open-r /g : ok
1 create /k : ok
--
line 22: left out: open with O_CREAT that doesn't write, which pua lacks (1 in all)
line 25: left out: open, of which the flags can't be read (2 in all)
line 1: open with O_CREAT and O_RDWR is written create, which asks for neither rpath nor r (2 in all)
line 4: open with O_EXCL is written without it (1 in all)
line 7: open with O_NOFOLLOW is written without it (1 in all)
line 10: open with O_DIRECTORY is written without it (1 in all)
line 13: open with O_TRUNC that doesn't write is written open-r (1 in all)
line 16: open with O_EXLOCK is written without it (1 in all)
line 19: open with O_SHLOCK is written without it (1 in all)
END

# With -k an open that reads what it may make is a line of its own.
file('trace', kdump(<<'END'));
7 open(0x1c60,0x202<O_RDWR|O_CREAT>,0644) = 3 "/a"
7 open(0x1c60,0xa02<O_RDWR|O_CREAT|O_EXCL>,0600) = 3 "/b"
7 open(0x1c60,0x201<O_WRONLY|O_CREAT>,0600) = 3 "/c"
END
{
    my ($status, $out, $err) = trace('-kv');
    is($out, "1 create-rw /a\n1 create-rw /b\n1 create /c\n", 'create-rw: the script');
    is(said_of_lines($err), "trace.pl: line 4: open with O_EXCL is written without it (1 in all)\n",
        'create-rw: the reports');
    is($status, 0, 'create-rw: the status');
}

# With -k what sets the mode or the owner of what was opened for reading is a line of its own, and so are the calls for which
# a script has a word.
file('trace', kdump(<<'END'));
7 open(0x1c60,0<O_RDONLY>) = 3 "/a"
7 open(0x1c60,0x2<O_RDWR>) = 4 "/b"
7 fchmod(3,0755) = 0
7 fchmod(4,0755) = 0
7 fchown(3,0,0) = 0
7 fchown(4,0,0) = 0
7 futimens(3,0x1c60) = 0
7 fchflags(4,0) = 0
7 access(0x1c60,0x4<R_OK>) = 0 "/c"
7 faccessat(AT_FDCWD,0x1c60,0x4<R_OK>,0<>) = 0 "/d"
7 statfs(0x1c60,0x1d60) = 0 "/e"
7 truncate(0x1c60,0) = 0 "/f"
7 chflags(0x1c60,0) = 0 "/g"
7 utimes(0x1c60,0) = 0 "/h"
7 utimensat(AT_FDCWD,0x1c60,0x1d60,0<>) = 0 "/i"
7 mkfifo(0x1c60,0600) = 0 "/j"
END
{
    my ($status, $out, $err) = trace('-kv');
    is($out, join('', map { "1 $_\n" } 'open-r /a', 'open-rw /b', 'fchmod /a', 'chmod /b', 'fchown /a', 'chown /b',
        'fchmod /a', 'chmod /b', 'access /c', 'access /d', 'statfs /e', 'truncate /f', 'chflags /g', 'utimes /h',
        'utimes /i', 'mkfifo /j'), 'by descriptors and neighbours: the script');
    is($status, 0, 'by descriptors and neighbours: the status');
    ($status, $out, $err) = trace('-v');
    is($out, join('', map { "1 $_\n" } 'open-r /a', 'open-rw /b', 'chmod /a', 'chmod /b', 'chmod /a', 'chmod /b',
        'stat /c', 'stat /d', 'stat /e', 'open-w /f', 'chmod /g', 'chmod /h', 'chmod /i'),
        'by descriptors and neighbours: the script without -k');
}

gives('calls with two paths', <<'END');
7 rename(0x1c60,0x1d60) = 0 "/a" "/b"
7 link(0x1c60,0x1d60) = 0 "/b" "/c"
7 symlink(0x1c60,0x1d60) = 0 "../t" "/l"
7 symlink(0x1c60,0x1d60) = 0 "/m"
7 rename(0x1c60,0x1d60) = -1 errno 2 No such file or directory "/x"
7 link(0x1c60,0x1d60) = -1 errno 2 No such file or directory
7 rename(0x1c60,0x1d60) = -1 errno 2 No such file or directory "/x" "/y"
--
1 rename /a /b : ok
1 link /b /c : ok
1 symlink ../t /l : ok
1 rename /x /y : ENOENT
--
line 13: left out: symlink, of which the trace doesn't have the target (1 in all)
line 16: left out: rename, of which the trace doesn't have the second path (1 in all)
line 19: left out: link, of which the trace doesn't have the path (1 in all)
END

gives('from the working directory, or from the root', <<'END');
7 openat(AT_FDCWD,0x1c60,0x1<O_WRONLY>) = 3 "/a"
7 openat(3,0x1c60,0x201<O_WRONLY|O_CREAT>,0600) = 4 "/b"
7 fstatat(AT_FDCWD,0x1c60,0x1d60,0<>) = 0 "/c"
7 fstatat(-100,0x1c60,0x1d60,0x2<AT_SYMLINK_NOFOLLOW>) = 0 "/d"
7 faccessat(0xffffff9c,0x1c60,0x4<R_OK>,0<>) = 0 "/e"
7 readlinkat(0xffffffffffffff9c,0x1c60,0x1d60,64) = 1 "/f"
7 mkdirat(4294967196,0x1c60,0755) = 0 "/g"
7 unlinkat(AT_FDCWD,0x1c60,0<>) = 0 "/h"
7 unlinkat(AT_FDCWD,0x1c60,0x8<AT_REMOVEDIR>) = 0 "/i"
7 symlinkat(0x1c60,AT_FDCWD,0x1d60) = 0 "t" "/j"
7 renameat(AT_FDCWD,0x1c60,AT_FDCWD,0x1d60) = 0 "/k" "/l"
7 linkat(5,0x1c60,6,0x1d60,0<>) = 0 "/m" "/n"
7 fchmodat(AT_FDCWD,0x1c60,0600,0<>) = 0 "/o"
--
1 open-w /a : ok
1 create /b : ok
1 stat /c : ok
1 lstat /d : ok
1 stat /e : ok
1 readlink /f : ok
1 mkdir /g : ok
1 unlink /h : ok
1 rmdir /i : ok
1 symlink t /j : ok
1 rename /k /l : ok
1 link /m /n : ok
1 chmod /o : ok
END

gives("from a directory's descriptor", <<'END');
7 openat(3,0x1c60,0<O_RDONLY>) = 4 "a"
7 openat(0,0x1c60,0<O_RDONLY>) = 4 "a"
7 renameat(AT_FDCWD,0x1c60,3,0x1d60) = 0 "/k" "l"
7 symlinkat(0x1c60,3,0x1d60) = 0 "/t" "j"
7 fchmodat(AT_FDCWD,0x1c60,0600,0x2<AT_SYMLINK_NOFOLLOW>) = 0 "/o"
7 unlinkat(AT_FDCWD,0x1c60,what) = 0 "/o"
7 openat(3,0x1c60,0<O_RDONLY>) = 4 "a"
--
--
line 1: left out: openat from a directory's descriptor, of which the path is not known (3 in all)
line 7: left out: renameat from a directory's descriptor, of which the path is not known (1 in all)
line 11: left out: symlinkat from a directory's descriptor, of which the path is not known (1 in all)
line 15: left out: fchmodat of a link itself, which pua lacks: /o (1 in all)
line 18: left out: unlinkat, of which the flags can't be read (1 in all)
END

gives('pledge', <<'END');
7 CALL  pledge(0x1c60,0)
7 STRU  promise="stdio rpath"
7 RET   pledge 0
7 CALL  pledge(0,0x1c60)
7 STRU  execpromise="stdio"
7 RET   pledge 0
7 CALL  pledge(0x1c60,0x1d60)
7 STRU  promise="stdio  rpath wpath "
7 STRU  execpromise="stdio"
7 RET   pledge 0
7 CALL  pledge(0x1c60,NULL)
7 STRU  promise=""
7 RET   pledge 0
7 pledge(0,0) = 0
7 CALL  pledge(0x1c60,0x1d60)
7 STRU  promise="stdoi"
7 RET   pledge -1 errno 22 Invalid argument
--
1 pledge stdio,rpath - : ok
1 pledge - stdio : ok
1 pledge stdio,rpath,wpath stdio : ok
1 pledge = - : ok
1 pledge - - : ok
1 pledge stdoi - : EINVAL
--
line 16: pledge was answered EINVAL before its execpromises were recorded: they are written - (1 in all)
END

gives('pledges that a script can not have', join('', map { <<"END" }
7 CALL  pledge(0x1c60,0)
7 STRU  promise="$_"
7 RET   pledge -1 errno 22 Invalid argument
END
    ' stdio', 'stdio,rpath', 'stdio\trpath', '-', '=', '  ') . <<'END');
7 CALL  pledge(0,0x1c60)
7 STRU  execpromise="="
7 RET   pledge -1 errno 22 Invalid argument
7 pledge(0x1c60,0) = 0
7 pledge(0,0x1c60) = 0
7 CALL  pledge(0x1c60,0)
7 STRU  promise="stdio
7 RET   pledge 0
--
--
line 22: left out, so that later lines may be wrong: pledge, of which the trace doesn't have the promises (1 in all)
line 24: left out, so that later lines may be wrong: pledge, of which the trace doesn't have the execpromises (1 in all)
line 26: left out, so that later lines may be wrong: pledge, of which a script can't have the promises (1 in all)
line 1: left out: pledge, of which a script can't have the promises (6 in all)
line 19: left out: pledge, of which a script can't have the execpromises (1 in all)
line 27: a STRU that can't be read (1 in all)
END

gives('unveil', <<'END');
7 CALL  unveil(0x1c60,0x1d60)
7 STRU  flags="rwxc"
7 NAMI  "/a"
7 RET   unveil 0
7 CALL  unveil(0x1c60,0x1d60)
7 STRU  flags=""
7 NAMI  "/b"
7 RET   unveil 0
7 CALL  unveil(0x1c60,0x1d60)
7 STRU  flags="q"
7 NAMI  "/c"
7 RET   unveil -1 errno 22 Invalid argument
7 unveil(NULL,NULL) = 0
7 unveil(0x1c60,0x1d60) = -1 errno 1 Operation not permitted
7 unveil(0,0) = 0
--
1 unveil /a rwxc : ok
1 unveil /b = : ok
1 unveil /c q : EINVAL
1 unveil - - : ok
1 unveil = = : EPERM
1 unveil - - : ok
--
line 15: unveil was answered EPERM before its path was recorded: it is written = (1 in all)
END

gives('unveils that a script can not have', join('', map { <<"END" }
7 CALL  unveil(0x1c60,0x1d60)
7 STRU  flags="$_"
7 NAMI  "/a"
7 RET   unveil -1 errno 22 Invalid argument
END
    '-', 'r w', '=') . <<'END');
7 unveil(0x1c60,0x1d60) = 0 "/a"
7 CALL  unveil(0x1c60,0x1d60)
7 STRU  flags="r"
7 RET   unveil 0
7 unveil(0x1c60,0) = -1 errno 14 Bad address
--
--
line 13: left out, so that later lines may be wrong: unveil, of which the trace doesn't have the permissions (1 in all)
line 16: left out, so that later lines may be wrong: unveil, of which the trace doesn't have the path (1 in all)
line 1: left out: unveil, of which a script can't have the permissions (3 in all)
line 19: left out: unveil, of which the trace doesn't have the path (1 in all)
END

# Paths of any bytes, as kdump writes them, and as a script has them.
gives('paths of any bytes', <<'END');
7 chdir(0x1c60) = 0 "/"
7 stat(0x1c60,0x1d60) = 0 "/a b"
7 stat(0x1c60,0x1d60) = 0 "/a\\b"
7 stat(0x1c60,0x1d60) = 0 "/\""
7 stat(0x1c60,0x1d60) = 0 "/\n\r\b\a\v\t\f"
7 stat(0x1c60,0x1d60) = 0 "/\^A\^?\^[\^\"
7 stat(0x1c60,0x1d60) = 0 "/\M-C\M-)\M-"\M-\"
7 stat(0x1c60,0x1d60) = 0 "/\M^A\M^?"
7 stat(0x1c60,0x1d60) = 0 "/\240\s\E"
7 stat(0x1c60,0x1d60) = 0 "="
7 stat(0x1c60,0x1d60) = 0 "-"
7 stat(0x1c60,0x1d60) = 0 "#x"
7 stat(0x1c60,0x1d60) = 0 "a#x"
7 stat(0x1c60,0x1d60) = 0 ""
7 stat(0x1c60,0x1d60) = 0 "/a//./b/.."
7 stat(0x1c60,0x1d60) = 0 "."
--
1 chdir / : ok
1 stat /a\040b : ok
1 stat /a\134b : ok
1 stat /" : ok
1 stat /\012\015\010\007\013\011\014 : ok
1 stat /\001\177\033\034 : ok
1 stat /\303\251\242\334 : ok
1 stat /\201\377 : ok
1 stat /\240\040\033 : ok
1 stat ./= : ok
1 stat ./- : ok
1 stat ./#x : ok
1 stat a#x : ok
1 stat = : ok
1 stat /a//./b/.. : ok
1 stat . : ok
END

# A byte, but NUL, as vis(3) has it with VIS_CSTYLE left out.
sub vis {
    my ($byte) = @_;
    return $byte =~ /["\\]/ ? "\\$byte" : $byte if $byte =~ /[ -~]/;
    my $low = chr(ord($byte) & 0x7f);
    return sprintf '\\%03o', ord $byte if $low eq ' ';
    my $meta = ord $byte & 0x80 ? 'M' : '';
    return "\\$meta-$low" if $low =~ /[!-~]/;
    return "\\$meta^" . ($low eq "\x7f" ? '?' : chr(64 + ord $low));
}
{
    my @bytes = map { chr } 1 .. 255;
    gives_all('each byte', join('', map { kdump('7 stat(0x1c60,0x1d60) = 0 "/' . vis($_) . '"') } @bytes),
        join('', map { '1 stat /' . (/[!-\[\]-~]/ ? $_ : sprintf '\\%03o', ord) . " : ok\n" } @bytes), '');
}

gives('texts over several lines', <<'END');
7 CALL  pledge(0x1c60,0)
7 STRU  promise="stdio rp\
|	ath wpath \
|	cpath"
7 RET   pledge 0
7 CALL  stat(0x1c60,0x1d60)
7 NAMI  "/a\\\
|	b\
|	"
7 RET   stat 0
7 stat(0x1c60,0x1d60) = 0 "/c"
--
1 pledge stdio,rpath,wpath,cpath - : ok
1 stat /a\134b : ok
1 stat /c : ok
END

gives('texts that are none', join('', map { <<"END" }
7 CALL  stat(0x1c60,0x1d60)
7 NAMI  $_
7 RET   stat 0
END
    '"/a"b"', '"/a\\"', '"/b\\', '"/\\q"', '"/\\0"', '"/\\777"', '"/\\M"', '"/\\^a"', '/x', '"', '') . <<'END');
7 stat(0x1c60,0x1d60) = 0 "/ok"
--
1 stat /ok : ok
--
line 1: left out: stat, of which a path can't be read (11 in all)
line 2: a NAMI that can't be read (10 in all)
END

# What a call is answered.
{
    my %errnos = (
        1 => 'EPERM', 2 => 'ENOENT', 7 => 'E2BIG', 13 => 'EACCES', 16 => 'EBUSY', 17 => 'EEXIST',
        20 => 'ENOTDIR', 21 => 'EISDIR', 22 => 'EINVAL', 28 => 'ENOSPC', 35 => 'EAGAIN', 62 => 'ELOOP',
        63 => 'ENAMETOOLONG', 66 => 'ENOTEMPTY', 78 => 'ENOSYS', 95 => 'EPROTO', 96 => 'E96',
        999999999 => 'E999999999', 0 => 'E0',
    );
    my @numbers = sort { $a <=> $b } keys %errnos;
    my $lines = join '', map { "1 mkdir /a : $errnos{$_}\n" } @numbers;
    for my $words (' Some words', '') {
        my $trace = join '', map { kdump(qq(7 mkdir(0x1c60,0755) = -1 errno $_$words "/a")) } @numbers;
        gives_all("errnos with '$words'", $trace, $lines, '');
    }
}

gives('other returns', <<'END');
7 open(0x1c60,0<O_RDONLY>) = 3 "/a"
7 open(0x1c60,0<O_RDONLY>) = 12/0xc "/b"
7 open(0x1c60,0<O_RDONLY>) = RESTART "/c"
7 open(0x1c60,0<O_RDONLY>) = 0xc "/d"
7 open(0x1c60,0<O_RDONLY>) = what "/e"
7 open(0x1c60,0<O_RDONLY>) = -1 "/f"
--
1 open-r /a : ok
1 open-r /b : ok
1 open-r /d : ok
--
line 13: left out: open, of which the return can't be read (2 in all)
END

# Calls that pledge refuses.
gives('killed before its path is recorded, and what comes later', <<'END');
7 CALL  rename(0x1c60,0x1d60)
7 PLDG  rename, "cpath", errno 1 Operation not permitted
7 PSIG  SIGABRT SIG_DFL
7 NAMI  "pagesd.core"
7 stat(0x1c60,0x1d60) = 0 "/a"
7 CALL  exit(0)
--
1 rename = = : killed
1 stat /a : gone
1 exit : gone
--
line 1: rename was answered killed before its path was recorded: it is written = (1 in all)
END

my $child = 7;
gives('each call killed at once', join('', map { $child++; <<"END" }
7 fork() = $child
$child CALL  $_
$child PLDG  call, "promise", errno 1 Operation not permitted
$child PSIG  SIGABRT SIG_DFL
END
    'open(0x1c60,0x1<O_WRONLY>)', 'execve(0x1c60,0x1d60,0x1e60)', 'fork()', 'unveil(0x1c60,0x1d60)',
    'symlink(0x1c60,0x1d60)', 'pledge(0x1c60,0)', 'openat(3,0x1c60,0<O_RDONLY>)',
    'socket(AF_INET,SOCK_STREAM,0)') . <<'END');
--
1 fork 2 : ok
2 open-w = : killed
1 fork 3 : ok
3 exec = : killed
1 fork 4 : ok
4 fork 5 : killed
1 fork 6 : ok
6 unveil = = : killed
1 fork 7 : ok
7 symlink = = : killed
1 fork 8 : ok
8 pledge - - : killed
1 fork 9 : ok
9 open-r = : killed
1 fork 10 : ok
--
line 38: left out: socket, which pua lacks, and which ended its process (1 in all)
line 3: open was answered killed before its path was recorded: it is written = (1 in all)
line 8: execve was answered killed before its path was recorded: it is written = (1 in all)
line 18: unveil was answered killed before its path was recorded: it is written = (1 in all)
line 23: symlink was answered killed before its path was recorded: it is written = (1 in all)
line 28: pledge was answered killed before its promises were recorded: they are written - (1 in all)
line 33: openat was answered killed before its path was recorded: it is written = (1 in all)
END

gives('killed, and the trace ends', <<'END');
7 CALL  open(0x1c60,0<O_RDONLY>)
7 NAMI  "/a"
7 PLDG  open, "rpath", errno 1 Operation not permitted
--
1 open-r /a : killed
END

gives('the promise error', <<'END');
7 CALL  mkdir(0x1c60,0755)
7 PLDG  mkdir, "cpath", errno 1 Operation not permitted
7 RET   mkdir -1 errno 78 Function not implemented
7 CALL  fork()
7 PLDG  fork, "proc", errno 1 Operation not permitted
7 RET   fork -1 errno 78 Function not implemented
7 fork() = 8
8 CALL  exit(0)
7 mkdir(0x1c60,0755) = -1 errno 78 Function not implemented
7 CALL  rmdir(0x1c60)
7 PLDG  rmdir, "cpath", errno 1 Operation not permitted
7 RET   rmdir -1 errno 1 Operation not permitted
--
1 mkdir = : ENOSYS
1 fork 2 : ENOSYS
1 fork 3 : ok
3 exit : ok
--
line 10: left out: mkdir, of which the trace doesn't have the path (1 in all)
line 12: left out: rmdir, of which the trace doesn't have the path (1 in all)
line 1: mkdir was answered ENOSYS before its path was recorded: it is written = (1 in all)
END

gives('other signals', <<'END');
7 CALL  open(0x1c60,0<O_RDONLY>)
7 NAMI  "/fifo"
7 PSIG  SIGALRM caught handler=0x1c60 mask=0x0
7 RET   open -1 errno 4 Interrupted system call
7 kill(7,SIGABRT) = 0
7 PSIG  SIGABRT SIG_DFL
7 NAMI  "pagesd.core"
--
1 open-r /fifo : EINTR
1 exit : ok
END

# Forks: the child's records come after the parent's return, or before it.
gives('a fork that returns first in the child', <<'END');
7 CALL  vfork()
8 RET   vfork 0
8 chdir(0x1c60) = 0 "/a"
8 execve(0x1c60,0x1d60,0x1e60) = JUSTRETURN "/bin/sh" "/usr/libexec/ld.so"
7 RET   vfork 8
7 stat(0x1c60,0x1d60) = 0 "/b"
8 CALL  exit(0)
--
1 fork 2 : ok
2 chdir /a : ok
2 exec /bin/sh : ok
1 stat /b : ok
2 exit : ok
END

gives('children of children, in the order of their forks', <<'END');
7 CALL  fork()
30 RET   fork 0
30 CALL  fork()
20 stat(0x1c60,0x1d60) = 0 "/grandchild"
30 RET   fork 20/0x14
30 stat(0x1c60,0x1d60) = 0 "/child"
7 RET   fork 30/0x1e
7 fork() = 40/0x28
40 stat(0x1c60,0x1d60) = 0 "/second"
20 CALL  exit(1)
--
1 fork 2 : ok
2 fork 3 : ok
3 stat /grandchild : ok
2 stat /child : ok
1 fork 4 : ok
4 stat /second : ok
3 exit : ok
END

gives('a pid that comes again', <<'END');
7 fork() = 8
8 RET   fork 0
8 CALL  exit(0)
7 fork() = 8
8 RET   fork 0
8 stat(0x1c60,0x1d60) = 0 "/a"
8 CALL  exit(0)
7 CALL  fork()
8 RET   fork 0
8 stat(0x1c60,0x1d60) = 0 "/b"
7 RET   fork 8
--
1 fork 2 : ok
2 exit : ok
1 fork 3 : ok
3 stat /a : ok
3 exit : ok
1 fork 4 : ok
4 stat /b : ok
END

gives('a pid that comes again after a signal', <<'END');
7 fork() = 8
8 RET   fork 0
8 stat(0x1c60,0x1d60) = 0 "/a"
8 PSIG  SIGTERM SIG_DFL
7 CALL  fork()
8 RET   fork 0
8 stat(0x1c60,0x1d60) = 0 "/b"
7 RET   fork 8
--
1 fork 2 : ok
2 stat /a : ok
2 exit : ok
1 fork 3 : ok
3 stat /b : ok
END

gives('forks that fail, and children that were not traced', <<'END');
7 fork() = -1 errno 35 Resource temporarily unavailable
7 fork() = 0x8
--
1 fork 2 : ok
--
line 1: left out: a fork that failed (1 in all)
END

gives('processes whose fork is not there', <<'END');
7 stat(0x1c60,0x1d60) = 0 "/a"
8 stat(0x1c60,0x1d60) = 0 "/b"
8 fork() = 9
9 stat(0x1c60,0x1d60) = 0 "/c"
10 GIO   fd 1 wrote 0 bytes
--
1 stat /a : ok
--
line 4: left out: process 8 (pagesd): its fork is not in the trace (2 in all)
line 9: left out: process 9 (pagesd): its fork is not in the trace (1 in all)
END

# Processes and threads whose records are interleaved.
gives('interleaved processes', <<'END');
7 fork() = 8
7 CALL  open(0x1c60,0<O_RDONLY>)
8 CALL  rename(0x1c60,0x1d60)
8 NAMI  "/x"
7 NAMI  "/a"
8 NAMI  "/y"
8 RET   rename 0
7 RET   open -1 errno 2 No such file or directory
--
1 fork 2 : ok
2 rename /x /y : ok
1 open-r /a : ENOENT
END

gives('interleaved threads', <<'END');
|     7/100001 pagesd   CALL  open(0x1c60,0<O_RDONLY>)
|     7/100002 pagesd   CALL  mkdir(0x1c60,0755)
|     7/100001 pagesd   NAMI  "/a"
|     7/100002 pagesd   NAMI  "/b"
|     7/100001 pagesd   RET   open 3
|     7/100002 pagesd   RET   mkdir 0
|     7/100002 pagesd   CALL  stat(0x1c60,0x1d60)
|     7/100002 pagesd   PLDG  stat, "rpath", errno 1 Operation not permitted
|     7/100001 pagesd   PSIG  SIGABRT SIG_DFL
--
1 open-r /a : ok
1 mkdir /b : ok
1 stat = : killed
--
line 7: stat was answered killed before its path was recorded: it is written = (1 in all)
END

gives('threads that are not told apart', <<'END');
7 CALL  kevent(4,0,0,0x1c60,64,0)
7 stat(0x1c60,0x1d60) = 0 "/a"
7 RET   kevent 1
7 CALL  open(0x1c60,0<O_RDONLY>)
7 stat(0x1c60,0x1d60) = 0 "/b"
7 RET   open 3
7 CALL  mkdir(0x1c60,0755)
7 NAMI  "/c"
--
1 stat /a : ok
1 stat /b : ok
--
line 6: left out: open, of which no return is there (kdump -H tells threads apart) (1 in all)
line 11: left out: mkdir, of which the trace ends before it returns (1 in all)
END

gives('calls that pua lacks', <<'END');
7 chown(0x1c60,0,0) = 0 "/a"
7 fchdir(3) = 0
7 chroot(0x1c60) = 0 "/var/w w"
7 chroot(0x1c60) = -1 errno 2 No such file or directory "/none"
7 fchdir(9) = -1 errno 9 Bad file descriptor
7 __realpath(0x1c60,0x1d60) = 0 "/a"
7 chown(0x1c60,0,0) = -1 errno 2 No such file or directory "/b"
7 revoke(0x1c60) = -1 errno 22 Invalid argument "/dev/tty"
7 CALL  [999](0x1)
7 RET   [999] -1 errno 78 Function not implemented
--
1 stat /var/w\040w/a : ok
--
line 14: may be wrong: paths below /var/w\040w, after chroot(2): links and .. may lead elsewhere (see -c, -h) (1 in all)
line 1: left out: chown, which pua has by its rules of OpenBSD alone (-k writes it): /a, /var/w\040w/b (2 in all)
line 4: left out: fchdir, of which the path is not known (1 in all)
line 20: left out: revoke, which pua lacks: /dev/tty (1 in all)
line 14: __realpath is written stat (1 in all)
END

gives('where a process is', <<'END');
7 chdir(0x1c60) = 0 "a"
7 __getcwd(0x1c60,0x400) = 4 "/b/a"
7 open(0x1c60,0<O_RDONLY>) = 3 ".."
7 openat(3,0x1c60,0<O_RDONLY>) = 4 "c"
7 chdir(0x1c60) = 0 "/d"
7 stat(0x1c60,0x1d60) = 0 "e"
7 __getcwd(0x1c60,0x400) = 4 "/l"
7 fchdir(3) = 0
7 fchdir(9) = 0
7 stat(0x1c60,0x1d60) = -1 errno 2 No such file or directory "f"
7 chdir(0x1c60) = -1 errno 2 No such file or directory "g"
7 symlink(0x1c60,0x1d60) = 0 "h" "/i"
7 __getcwd(0x1c60,0x400) = 4 "/j"
7 stat(0x1c60,0x1d60) = 0 "k"
7 chdir(0x1c60) = 0 "m"
7 stat(0x1c60,0x1d60) = 0 "n"
--
1 chdir /b : ok
1 chdir a : ok
1 open-r .. : ok
1 open-r /b/a/../c : ok
1 chdir /d : ok
1 stat e : ok
1 chdir /b/a/.. : ok
1 symlink h /i : ok
1 stat /j/k : ok
1 chdir /j/m : ok
1 stat n : ok
--
line 19: may be wrong: relative paths, which begin at /d in the script: by __getcwd the directory is /l (1 in all)
line 24: left out: fchdir, of which the path is not known (1 in all)
line 26: left out: a relative path, since the working directory is not known any more (2 in all)
END

gives('roots', <<'END');
7 open(0x1c60,0<O_RDONLY>) = 3 "/a"
7 fork() = 8
8 chroot(0x1c60) = 0 "/r//s/./"
8 stat(0x1c60,0x1d60) = 0 "/../x"
8 stat(0x1c60,0x1d60) = 0 "/.././../y/.."
8 openat(3,0x1c60,0<O_RDONLY>) = 4 "z"
8 stat(0x1c60,0x1d60) = 0 "/./.."
8 chroot(0x1c60) = 0 "/t"
8 stat(0x1c60,0x1d60) = 0 "/"
7 fchdir(9) = 0
7 fork() = 9
9 chroot(0x1c60) = 0 "u"
9 stat(0x1c60,0x1d60) = 0 "/v"
7 stat(0x1c60,0x1d60) = 0 "/w"
--
1 open-r /a : ok
1 fork 2 : ok
2 stat /r/s/x : ok
2 stat /r/s/y/.. : ok
2 open-r /a/z : ok
2 stat /r/s/. : ok
2 stat /r/s/t/ : ok
1 fork 3 : ok
1 stat /w : ok
--
line 9: may be wrong: paths below /r/s, after chroot(2): links and .. may lead elsewhere (see -c, -h) (4 in all)
line 24: may be wrong: paths below /r/s/t, after chroot(2): links and .. may lead elsewhere (see -c, -h) (1 in all)
line 27: left out: fchdir, of which the path is not known (1 in all)
line 34: left out: a path from the root of a process, since that root is not known (1 in all)
END

{
    my $deep = 'd' x 200;
    my $short = join "\n", qq(7 open(0x1c60,0<O_RDONLY>) = 3 "/$deep"),
        (map { my $next = $_ + 1; qq(7 openat($_,0x1c60,0<O_RDONLY>) = $next "$deep") } 3 .. 8), '';
    gives('a path that grows', "$short--\n" . join('', map { '1 open-r ' . "/$deep" x $_ . " : ok\n" } 1 .. 5)
        . "--\nline 16: left out: openat, of which the whole path is too long (2 in all)\n");
}

gives('relative paths', <<'END');
7 stat(0x1c60,0x1d60) = 0 "a"
7 chdir(0x1c60) = 0 "d"
7 fork() = 8
7 chdir(0x1c60) = -1 errno 2 No such file or directory "/none"
7 symlink(0x1c60,0x1d60) = 0 "t" "/l"
7 rename(0x1c60,0x1d60) = 0 "/a" "b"
7 chdir(0x1c60) = 0 "/d"
7 stat(0x1c60,0x1d60) = 0 "a"
7 fork() = 9
9 unlink(0x1c60) = 0 "a"
8 unlink(0x1c60) = 0 "a"
--
1 stat a : ok
1 chdir d : ok
1 fork 2 : ok
1 chdir /none : ENOENT
1 symlink t /l : ok
1 rename /a b : ok
1 chdir /d : ok
1 stat a : ok
1 fork 3 : ok
3 unlink a : ok
2 unlink a : ok
--
line 1: may be wrong: relative paths, which are taken from the root: where the first process began is not known (-d) (4 in all)
END

# What calls without a path ask for: once since the last pledge, and each time that it is refused.
my $ASKING = <<'END';
7 setuid(0x3e8) = 0
7 CALL  pledge(0x4f2a1c80,0)
7 STRU  promise="stdio inet id proc flock settime error"
7 RET   pledge 0
7 socket(AF_INET6,0x1<SOCK_STREAM>,0) = 3
7 socketpair(AF_UNIX,0x1<SOCK_STREAM>,0,0x1c60) = 0
7 listen(3,128) = 0
7 listen(9,128) = 0
7 accept(3,0x1c60,0x1d60) = 4
7 getpeername(4,0x1c60,0x1d60) = 0
7 accept(3,0x1c60,0x1d60) = 5
7 kill(7,SIGUSR1) = 0
7 kill(0,SIGUSR1) = 0
7 kill(9,SIGUSR1) = -1 errno 3 No such process
7 fcntl(3,F_GETFL) = 2
7 fcntl(3,F_SETLKW,0x1c60) = 0
7 setuid(0x3e8) = -1 errno 1 Operation not permitted
7 CALL  connect(3,0x1c60,16)
7 STRU  struct sockaddr { AF_INET, 127.0.0.1:515 }
7 RET   connect 0
7 fork() = 8
8 accept(3,0x1c60,0x1d60) = 6
8 CALL  pledge(0x4f2a1c80,0)
8 STRU  promise="stdio error"
8 RET   pledge 0
8 CALL  accept(3,0x1c60,0x1d60)
8 PLDG  accept, "inet", errno 78 Function not implemented
8 RET   accept -1 errno 78 Function not implemented
8 CALL  accept(3,0x1c60,0x1d60)
8 PLDG  accept, "inet", errno 78 Function not implemented
8 RET   accept -1 errno 78 Function not implemented
7 CALL  pledge(0x4f2a1c80,0)
7 STRU  promise="stdio inet"
7 RET   pledge 0
7 accept(3,0x1c60,0x1d60) = 7
7 CALL  ioctl(3,TIOCSTI,0x1c60)
7 PLDG  ioctl, "tty", errno 1 Operation not permitted
7 PSIG  SIGABRT SIG_DFL
END
my $ASKED = <<'END';
1 pledge stdio,inet,id,proc,flock,settime,error - : ok
1 uses inet|dns : ok
1 uses inet : ok
1 uses inet|unix : ok
1 uses proc : ok
1 uses flock : ok
1 uses id : ok
1 fork 2 : ok
2 uses inet : ok
2 pledge stdio,error - : ok
2 uses inet : ENOSYS
2 uses inet : ENOSYS
1 pledge stdio,inet - : ok
1 uses inet : ok
1 uses tty : killed
END
{
    put('trace', kdump($ASKING));
    unlink 'answers';
    my ($status, $out, $err) = trace('-kvx', '-e', 'answers');
    my $number = 0;
    is($out, $ASKED =~ s/ : \S+$//gmr, 'what is asked for: the script');
    is(content('answers'), $ASKED =~ s/^.* : (\S+)$/++$number . " $1"/gmer, 'what is asked for: the answers');
    is(said_of_lines($err), '', 'what is asked for: the reports');
    is($status, 0, 'what is asked for: the status');
    is(system("$PUA run --rules openbsd tree out | diff answers - > ran"), 0, 'what is asked for: pua answers so')
        if defined $PUA;
}

# What tmppath makes and takes away below /tmp is answered so by OpenBSD's rules, and has a line then.
my $TEMPORARY = <<'END';
7 CALL  pledge(0x4f2a1c80,0)
7 STRU  promise="stdio rpath tmppath"
7 RET   pledge 0
7 open(0x1c60,0x202<O_RDWR|O_CREAT>,0600<S_IRUSR|S_IWUSR>) = 3 "/tmp/sort.a1"
7 open(0x1c60,0x201<O_WRONLY|O_CREAT>,0600<S_IRUSR|S_IWUSR>) = 4 "/tmp//sort.b2"
7 unlink(0x1c60) = 0 "/tmp/sort.a1"
7 unlink(0x1c60) = -1 errno 2 No such file or directory "/tmp/sort.a1"
7 stat(0x1c60,0x1d60) = 0 "/tmp/sort.b2"
7 CALL  open(0x1c60,0x1<O_WRONLY>)
7 PLDG  open, "wpath", errno 1 Operation not permitted
7 PSIG  SIGABRT SIG_DFL
END
gives('what tmppath makes, without -k', "$TEMPORARY--\n" . <<'END');
1 pledge stdio,rpath,tmppath - : ok
1 stat /tmp/sort.b2 : ok
1 open-w = : killed
--
line 4: left out: open by the promise tmppath itself: /tmp/sort.a1, /tmp//sort.b2 (2 in all)
line 10: left out: unlink by the promise tmppath itself: /tmp/sort.a1 (2 in all)
line 4: open with O_CREAT and O_RDWR is written create, which asks for neither rpath nor r (1 in all)
line 19: open was answered killed before its path was recorded: it is written = (1 in all)
END
{
    put('trace', kdump($TEMPORARY));
    file('temporary', 'tree 1', '0 dir', '1 dir 0 tmp');
    unlink 'answers';
    my ($status, $out, $err) = trace('-kvx', '-e', 'answers');
    is($out, <<'END', 'what tmppath makes: the script');
1 pledge stdio,rpath,tmppath -
1 create-rw /tmp/sort.a1
1 create /tmp//sort.b2
1 unlink /tmp/sort.a1
1 unlink /tmp/sort.a1
1 stat /tmp/sort.b2
1 open-w =
END
    is(content('answers'), "1 ok\n2 ok\n3 ok\n4 ok\n5 ENOENT\n6 ok\n7 killed\n", 'what tmppath makes: the answers');
    is($status, 0, 'what tmppath makes: the status');
    is(system("$PUA run --rules openbsd temporary out | sed 's/ by .*//' | diff answers - > ran"), 0,
        'what tmppath makes: pua answers so') if defined $PUA;
}

# Traces of whole daemons. Each file NAME-RUN.expected has the words of a run over NAME.kdump, and, apart from
# each other by `--`, the script with its answers, and the reports.
for my $file (glob "$Bin/../tests/data/traces/*.expected") {
    my ($name, $run) = basename($file) =~ /\A(\w+)-(\w+)\.expected\z/;
    my ($words, $expected) = split /\n/, content($file), 2;
    my ($lines, $reports) = split /^--\n/m, $expected, 2;
    unlink 'answers';
    my ($status, $out, $err) =
        trace('-e', 'answers', split(/ /, $words), "$Bin/../tests/data/traces/$name.kdump");
    my $number = 0;
    is($out, $lines =~ s/ : \S+$//gmr, "$name, $run: the script");
    is(content('answers'), $lines =~ s/^.* : (\S+)$/++$number . " $1"/gmer, "$name, $run: the answers");
    is($err, $reports =~ s/^/trace.pl: /gmr, "$name, $run: the reports");
    is($status, 0, "$name, $run: the status");
    my $rules = $words =~ /[hk]/ ? 'openbsd' : 'profile';
    is(system("$PUA run --rules $rules tree out > ran"), 0, "$name, $run: pua reads it") if defined $PUA;
}

# What stays open is held, until its last descriptor is closed.
{
    put('trace', kdump(<<'END'));
7 open(0x1c60,0x601<O_WRONLY|O_CREAT|O_TRUNC>,0644) = 3 "/new"
7 close(3) = 0
7 open(0x1c60,0<O_RDONLY>) = 3 "/a"
7 close(3) = 0
7 open(0x1c60,0x202<O_RDWR|O_CREAT>,0600) = 3 "/both"
7 open(0x1c60,0x20000<O_RDONLY|O_DIRECTORY>) = 4 "/dir"
7 dup(4) = 5
7 close(4) = 0
7 fork() = 8
7 fchdir(5) = 0
8 close(3) = 0
7 close(5) = 0
7 open(0x1c60,1<O_WRONLY>) = 4 "b"
7 CALL  pledge(0x1c60,0)
7 STRU  promise="stdio"
7 RET   pledge 0
7 open(0x1c60,0<O_RDONLY>) = 6 "/etc/localtime"
8 fchdir(5) = 0
END
    my ($status, $out, $err) = trace('-hk');
    is($status . $out, <<'END', 'what is held');
01 create /new
1 open-r /a
1 create-rw /both
1 hold 5 open-rw /both
1 hold 6 open-r /dir
1 fork 2
1 fchdir 6
2 close 5
1 close 6
1 hold 7 open-w b
1 pledge stdio -
1 hold 8 open-r /etc/localtime
2 fchdir 6
END
    is(system("$PUA run --rules openbsd tree out > ran"), 0, 'what is held: pua reads it') if defined $PUA;
    my $opens = join '', map { qq(7 open(0x1c60,0<O_RDONLY>) = 3 "/a"\n7 stat(0x1c60,0x1d60) = 0 "/b"\n7 close(3) = 0\n) } 1 .. 1_022;
    put('trace', kdump($opens));
    (undef, $out) = trace('-h');
    is_deeply([ $out =~ /hold (\d+)/g ], [3 .. 1_023, 3], 'a number comes again once it is free');
    put('trace', kdump(join '', map { qq(7 open(0x1c60,0<O_RDONLY>) = $_ "/a"\n) } 3 .. 1_024));
    (undef, $out, $err) = trace('-h');
    is_deeply([ $out =~ /hold (\d+)/g ], [3 .. 1_023], 'as many as a process holds');
    is(said_of_lines($err), "trace.pl: line 3064: open is not held: the process has too much open (1 in all)\n", 'and one more');
}

# With -h the script has roots: paths are those of the process, from its root or its directory. What begins at the
# descriptor of a directory that no path from there names is asked in that directory.
{
    put('trace', kdump(<<'END'));
7 chdir(0x1c60) = 0 "/srv"
7 open(0x1c60,0x20000<O_RDONLY|O_DIRECTORY>) = 3 "/etc"
7 open(0x1c60,0x20000<O_RDONLY|O_DIRECTORY>) = 4 "www/in"
7 fork() = 8
8 chroot(0x1c60) = -1 errno 2 No such file or directory "/none"
8 chroot(0x1c60) = 0 "www"
8 stat(0x1c60,0x1d60) = 0 "/../in/x"
8 stat(0x1c60,0x1d60) = 0 "../etc"
8 openat(4,0x1c60,0<O_RDONLY>) = 5 "y"
8 openat(3,0x1c60,0<O_RDONLY>) = 6 "passwd"
8 renameat(3,0x1c60,4,0x1d60) = 0 "a" "b"
8 renameat(3,0x1c60,AT_FDCWD,0x1d60) = 0 "a" "b"
8 fchmod(6,0600) = 0
8 fchmod(5,0600) = 0
8 chdir(0x1c60) = 0 "/"
8 fork() = 9
9 chroot(0x1c60) = 0 "in"
9 stat(0x1c60,0x1d60) = 0 "/y"
9 openat(4,0x1c60,0<O_RDONLY>) = 7 "."
8 CALL  unveil(0x1c60,0x1d60)
8 STRU  flags="r"
8 NAMI  "/in"
8 RET   unveil 0
8 openat(3,0x1c60,0<O_RDONLY>) = 7 "group"
8 CALL  pledge(0x1c60,0)
8 STRU  promise="stdio rpath error"
8 RET   pledge 0
8 CALL  chroot(0x1c60)
8 PLDG  chroot, "id", errno 78 Function not implemented
8 RET   chroot -1 errno 78 Function not implemented
8 CALL  openat(3,0x1c60,1<O_WRONLY>)
8 NAMI  "x"
8 PLDG  openat, "wpath", errno 78 Function not implemented
8 RET   openat -1 errno 78 Function not implemented
7 fchdir(9) = 0
7 fork() = 10
10 chroot(0x1c60) = 0 "u"
10 stat(0x1c60,0x1d60) = 0 "/v"
10 fchdir(3) = 0
10 stat(0x1c60,0x1d60) = 0 "w"
10 chroot(0x1c60) = 0 "."
10 stat(0x1c60,0x1d60) = 0 "/hosts"
7 rmdir(0x1c60) = 0 "/srv/www/in"
9 stat(0x1c60,0x1d60) = -1 errno 2 No such file or directory "/y"
9 openat(3,0x1c60,0<O_RDONLY>) = 8 "hosts"
END
    my ($status, $out, $err) = trace('-hv', '-e', 'answers');
    is($status . $out, <<'END', 'roots with -h: the script');
01 chdir /srv
1 hold 3 open-r /etc
1 hold 4 open-r www/in
1 fork 2
2 chroot www
2 stat /../in/x
2 stat ../etc
2 hold 5 open-r /in/y
2 hold 6 open-r .
2 fchdir 3
2 hold 7 open-r passwd
2 fchdir 6
2 close 6
2 hold 8 open-r .
2 fchdir 3
2 rename a /in/b
2 fchdir 8
2 close 8
2 chmod /in/y
2 chdir /
2 fork 3
3 chroot in
3 stat /y
3 hold 9 open-r .
3 fchdir 4
3 hold 10 open-r .
3 fchdir 9
3 close 9
2 unveil /in r
2 pledge stdio,rpath,error -
2 chroot =
2 open-w x
1 fork 4
4 fchdir 3
4 stat w
4 chroot .
4 stat /hosts
1 rmdir /srv/www/in
3 stat /y
3 hold 11 open-r .
3 fchdir 3
3 hold 12 open-r hosts
3 fchdir 11
3 close 11
END
    is(said_of_lines($err) =~ s/^trace\.pl: //gmr, <<'END', 'roots with -h: the reports');
line 34: left out: renameat outside of its process's root: /srv/b (1 in all)
line 38: left out: fchmod outside of its process's root: /etc/passwd (1 in all)
line 60: left out: openat outside of its process's root: /etc/group (1 in all)
line 73: left out: fchdir, of which the path is not known (1 in all)
line 77: left out: a relative path, since the working directory is not known any more (1 in all)
line 80: left out: a path from the root of a process, since that root is not known (1 in all)
line 4: open with O_DIRECTORY is written without it (2 in all)
line 12: left out: a chroot that failed (1 in all)
line 40: fchmod is written chmod, which asks the veils too (1 in all)
line 66: chroot was answered ENOSYS before its path was recorded: it is written = (1 in all)
END
    is(content('answers') =~ s/^[0-9]+ //gmr =~ tr/\n/ /r, join(' ', ('ok') x 30, 'ENOSYS', 'ENOSYS', ('ok') x 6, 'ENOENT', ('ok') x 5, ''),
        'roots with -h: the answers');
    is(system("$PUA run --rules openbsd tree out > ran"), 0, 'roots with -h: pua reads it') if defined $PUA;
    my ($whole) = (trace('-hc', '/srv/www'))[1];
    unlike($whole, qr/ chroot /, 'roots with -h and -c: there is no chroot');
}

# Lines that are no records.
my $LONG = '0,' x 50_000;
my $WIDE = 'CALL  ' x 100_000;
gives('lines that are no records', <<"END");
|a text
|
7 stat(0x1c60,0x1d60) = 0 "/a"
|  0000:  41 42
| 7 pagesd NOPE  stat
|	7 pagesd   CALL  exit(0)
|99999999999999999999 pagesd   CALL  exit(0)
7 CALL  stat
7 RET   stat
7 CALL
7 CSW   stop
7 CALL  stat(${LONG}0)
7 $WIDE
7 stat(0x1c60,0x1d60) = 0 "/b"
7 CALL  exit(0)
--
1 stat /a : ok
1 stat /b : ok
1 exit : ok
--
line 1: no record of kdump (2 in all)
line 7: a record NOPE, which is not known (1 in all)
line 10: a CALL that is none (2 in all)
line 11: a RET that is none (1 in all)
line 13: a record CSW, which is not known (1 in all)
line 14: no record of kdump: the line is too long (2 in all)
END

my $X      = 'x' x 10_000;
my $SLASHES = "|\t" . '\\\\' x 5_000 . "\\\n";
gives('texts without an end', <<"END");
7 CALL  stat(0x1c60,0x1d60)
7 NAMI  "$X\\
$SLASHES$SLASHES${SLASHES}7 RET   stat 0
7 stat(0x1c60,0x1d60) = 0 "/a"
7 CALL  stat(0x1c60,0x1d60)
7 NAMI  "/b\\
--
1 stat /a : ok
--
line 1: left out: stat, of which a path can't be read (1 in all)
line 2: a NAMI that can't be read (2 in all)
line 10: left out: stat, of which the trace ends before it returns (1 in all)
END

{
    put('trace', 'x' x 3_000_000);
    my ($status, $out, $err) = trace();
    is($status, 1,  'a line without an end: the status');
    is($out,    '', 'a line without an end: nothing is printed');
    like($err, qr/\Atrace\.pl: no record of kdump in the trace; /, 'a line without an end: the report');
    put('trace', kdump(qq(7 stat(0x1c60,0x1d60) = 0 "/a"\n) x 60_001));
    ($status, $out, $err) = trace();
    is(said_of_lines($err), "trace.pl: the script has 60001 lines, and pua reads at most 60000\n", 'more lines than pua reads');
}

gives('names of commands', <<'END');
|     7 my own daemon  CALL  exit(0)
|1234567 averyveryverylongname CALL  exit(0)
|     8          CALL  exit(0)
--
1 exit : ok
--
line 2: left out: process 1234567 (averyveryverylongname): its fork is not in the trace (1 in all)
line 3: left out: process 8 (): its fork is not in the trace (1 in all)
END

# The words.
{
    my $usage = "usage: trace.pl [-hklvx] [-c ROOT] [-d DIRECTORY] [-e FILE] [TRACE]\n";
    put('trace', kdump('7 CALL  exit(0)'));
    for my $words (['a', 'b'], [''], ['-e', ''], ['-e'], ['-d', 'home'], ['-d', ''], ['-c', 'www'], ['-c', ''], ['-o', 'a'], ['-q']) {
        my ($status, $out, $err) = trace(@$words);
        is("$status$out", '2', "wrong words: @$words");
        like($err, qr/\Q$usage\E\z/, "wrong words: @$words: the report");
    }
    put('trace', kdump("7 fork() = 8\n" . '8 stat(0x1c60,0x1d60) = 0 "a"'));
    my ($status, $out, $err) = trace('-d', '/my home', '-e', 'answers');
    is($status . $out . said_of_lines($err), "01 chdir /my\\040home\n1 fork 2\n2 stat a\n", 'a working directory');
    is(content('answers'), "1 ok\n2 ok\n3 ok\n", 'a working directory: the answers');
    put('trace', kdump('7 CALL  exit(0)'));
    ($status, $out, $err) = trace('-x', 'trace');
    is($status . $out . said_of_lines($err), "01 exit\n", 'a file that is named');
    ($status, $out, $err) = trace("no\nne");
    like("$status$out$err", qr/\A1trace\.pl: no\\012ne: \S.*\n\z/, 'a file that is not there');
    put('trace', kdump(join "\n", '7 CALL  unveil(0x1c60,0x1d60)', '7 STRU  flags="r"', '7 NAMI  "/www"', '7 RET   unveil 0',
        '7 chroot(0x1c60) = 0 "/www"', '7 chdir(0x1c60) = 0 "/"', '7 stat(0x1c60,0x1d60) = 0 "a"'));
    ($status, $out, $err) = trace('-c', '/www');
    is($status . $out . said_of_lines($err), "01 chdir /\n1 stat a\ntrace.pl: line 5: may be wrong: "
        . "what was unveiled before the chroot is not in this script (1 in all)\n", 'a veil that is older than the root');
    ($status, $out, $err) = trace('-c', '/ww');
    is($status . $out . said_of_lines($err), "0trace.pl: no process had the root /ww, but: /, /www\n", 'a root that none had');
    put('trace', kdump(join '', map { "7 fork() = $_\n" } 1000 .. 1254));
    ($status, $out, $err) = trace('-v');
    is(said_of_lines($err), '', '256 processes');
    put('trace', kdump(join '', map { "7 fork() = $_\n" } 1000 .. 1255));
    ($status, $out, $err) = trace('-v');
    is(said_of_lines($err), "trace.pl: the script has 257 processes, and pua makes at most 256\n", 'more than pua makes');
    ($status, $out, $err) = trace('-e', 'none/answers');
    like("$status$out$err", qr{\A1trace\.pl: none/answers: \S.*\n\z}, 'answers that can not be written');
    ($status, $out, $err) = trace('.');
    like("$status$out$err", qr/\A1trace\.pl: .*\n\z/, 'a directory');
    put('trace', '');
    ($status, $out, $err) = trace('-e', 'answers');
    like("$status$out$err", qr/\A1trace\.pl: no record of kdump in the trace; /, 'an empty trace');
}

chdir '/';
done_testing();
