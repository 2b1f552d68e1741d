#!/usr/bin/perl
# Tests of page.pl: perl tools/page.t
use strict;
use warnings;
use File::Basename qw(dirname);
use FindBin qw($Bin);
use lib "$Bin/lib";
use Test::More;
use Tried;

my $PAGE = "$Bin/page.pl";
enter_room();

# Runs page.pl with these words.
sub page { return ran($PAGE, {}, @_) }

is_clean($PAGE, '-wc', '-Twc');
helps($PAGE, 'Writes a page');

# The page of a listing and of what `pua objects` printed, which has to be written without a report.
sub page_of {
    my ($what, $listing, $objects) = @_;
    my ($status, $out, $err) = page(file('tree', 'tree 2', '0 dir', @$listing), file('objects', @$objects));
    is("$status $err", '0 ', "$what: the status");
    return $out;
}

# The rows of a page below its headings, each as its depth, its first cell, and its other cells with
# their titles; tags and entities are taken back.
sub rows {
    my ($page) = @_;
    my ($depth, @rows) = (0);
    for my $piece (split /^/, $page) {
        if ($piece =~ m{<(summary|div) class="row(?: untouched)?"><span>(.*?)</span><span title}) {
            my ($tag, $first) = ($1, $2);
            my %cells = $piece =~ m{<span title="(\w+)">([^<]+)</span>}g;
            $first =~ s/<[^>]*>//g;
            $first =~ s/&#([0-9]+);/chr $1/ge;
            push @rows, join ' | ', $depth, $first, map { "$_: $cells{$_}" } sort keys %cells;
            $depth++ if $tag eq 'summary';
        }
        $depth-- if $piece =~ m{</details>};
    }
    return @rows;
}

my @site = ('1 dir 0 www', '2 dir 1 site', '3 file 2 index', '4 file 1 key', '5 dir 0 etc', '6 file 5 passwd');

# A list as it was before it had lines on the state.
{
    my $page = page_of('a site', \@site, ['1 ok', '2 ok by dns', '3 ENOENT', 'objects 1',
        'dir /www stat,lstat,open-r,chdir', 'other /www create,mkdir,symlink',
        'file /www/key open-w,open-rw,create,unlink,chmod', 'prog /www/made exec', 'missing /www/not create']);
    is_deeply([rows($page)], [
        '0 | /',
        '1 | etc/ names in it, none to be touched: 1',
        '2 | passwd file',
        '1 | www/ | read: stat lstat open-r chdir',
        '2 | any other name | made: create mkdir symlink',
        '2 | key file | read: open-rw | removed: unlink | written: open-w open-rw create chmod',
        '2 | made prog not listed | executed: exec',
        '2 | not missing | made: create',
        '2 | site/ names in it, none to be touched: 1',
        '3 | index file',
    ], 'each name has its calls in their columns, and the root stands above');
    my @folds = map { /<details( open)?><summary class="[a-z ]*"><span>([^ <]*)/ ? ($2 . ($1 || '')) : () } split /^/, $page;
    is_deeply(\@folds, ['/ open', 'etc/', 'www/ open', 'site/'], 'what has nothing to be touched is folded');
    like($page, qr{<p>Answers to the script: 2 ok, <code>3 ENOENT</code>\.</p>}, 'the answers are summed up');
    like($page, qr{<li><code>no lines on the state of the process</code> </li>}, 'it says that the state is not known');
}

# The lines of the state, and several lists.
{
    my $page = page_of('a state', \@site, ['1 ok', 'objects 1', 'process alive', 'promises rpath,stdio,unveil',
        'execpromises -', 'unveil open', 'veil /www/site r', 'veil /none =', 'veil - rwc',
        'dir /www/site stat', 'objects 2', 'process ended', 'objects 3', 'process alive', 'promises =',
        'execpromises =', 'unveil locked', 'objects 4', 'process alive', 'promises -', 'execpromises exec',
        'unveil given-up', 'veil /www r', 'veil /www rw']);
    my @state = map { m{<li><code( class="alarm")?>([^<]*)</code> ([^<]*)</li>} ? ($1 ? '! ' : '') . "$2: $3" : () }
        split /^/, $page;
    is_deeply(\@state, ['process alive: ', 'promises rpath,stdio,unveil: ',
        'execpromises -: unset; it can start no program',
        '! unveil open: further veils can be put: the list holds for now alone', 'veil /www/site r: ',
        'veil /none =: ', 'veil - rwc: its directory was removed', '! process ended: it can touch nothing',
        'process alive: ', 'promises =: ', 'execpromises =: ', 'unveil locked: no further veil can be put',
        '! no veils: it can touch what is not listed too',
        'process alive: ', 'promises -: none were ever pledged: it holds all but error', 'execpromises exec: ',
        'unveil given-up: no further veil can be put, since the promise unveil was given up', 'veil /www r: ',
        'veil /www rw: ',
    ], 'the state of each process stands above its tree');
    is_deeply([$page =~ m{<h2>(.*)</h2>}g], [map { "What process $_ can touch" } 1 .. 4], 'each list has a heading');
    my @rows = rows($page);
    is_deeply([@rows[0 .. 4]], ['0 | /', '1 | etc/ names in it, none to be touched: 1', '2 | passwd file',
        '1 | none  not listed veil =', '1 | www/'], 'a veil is shown where it stands, also where nothing is listed');
    is($rows[6], '2 | site/ veil r names in it, none to be touched: 1 | read: stat', 'and on a directory that is listed');
    is((grep { /www/ } @rows)[-1], '1 | www/ veil r veil rw names in it, none to be touched: 3',
        'a name and the directory that took it may both have one');
    is(scalar(grep { $_ eq '0 | / names in it, none to be touched: 6' } @rows), 2, 'each list has a tree of its own');
}

# A process as it was before an exec, and as it is.
{
    my $page = page_of('images', \@site, ['1 ok', '2 ok', 'objects 1 before 2', 'process alive', 'file /www/key open-r',
        'objects 1', 'process ended']);
    is_deeply([$page =~ m{<h2>(.*)</h2>}g], ['What process 1 could touch before line 2', 'What process 1 can touch'],
        'the heading of an image says before which line');
}

# What later outputs have: reasons, lists for ever, words that are not known here.
{
    my $page = page_of('for ever', \@site, ['1 ok', '2 EACCES veil /etc lacks w since line 1', 'ever 1', 'process alive',
        'limits none', 'file /www/key open-r,swap rpath /www r 1', 'dir new mkdir', 'other new create', 'file new open-w']);
    my @rows = rows($page);
    is_deeply([grep { /new|key/ } @rows], ['0 | new dir | made: mkdir', '0 | new other | made: create',
        '0 | new file | written: open-w', '2 | key file by rpath /www r 1 | else: swap | read: open-r'],
        'what can be made, reasons and further calls are shown');
    like($page, qr{<h2>What process 1 can ever touch</h2>}, 'the heading says for ever');
    like($page, qr{<li><code>limits none</code> </li>}, 'a line of the state that is not known stands as it is');
    $page = page_of('helped', \@site, ['1 ok', 'ever 1', 'process alive', 'ever 1 beside 2,3', 'process alive', 'file /www/key open-r']);
    is_deeply([$page =~ m{<h2>(.*)</h2>}g], ['What process 1 can ever touch', 'What process 1 can ever touch beside 2,3'],
        'the heading says beside whom');
}

# The steps of ways in a list for ever.
{
    my $page = page_of('steps', \@site, ['1 ok', 'ever 1', 'process alive', 'file /www/key stat,open-r open-r 2',
        'file new open-w open-w ?']);
    my %told = reverse $page =~ m{<b class="more" title="([^"]*)">([^<]*)</b>}g;
    is_deeply(\%told, { 'open-r' => 'in 2 steps', 'open-w' => 'no way found' }, 'calls with their steps are marked');
    unlike($page, qr{>by open-r}, 'and they are no reasons');
}

# Programs that it starts: said where one can be executed. Sockets: said where no line shows them.
{
    my $says = sub {
        my (@list) = @_;
        my $page = page_of('a state', \@site, ['ever 1', 'process alive', @list]);
        return join '; ', map { m{<li><code(?: class="alarm")?>(?:execpromises|promises|opening|rules|no|exec) ?[^<]*</code> ([^<]+)</li>} ? $1 : () } split /^/, $page;
    };
    my $no_sandbox = 'unset: a program that it starts has no veils, and all promises but error';
    my @veil = ('unveil locked', 'veil /www rwx');
    is($says->('promises exec,stdio', 'execpromises -', @veil, 'prog /www/p stat,exec'), $no_sandbox, 'it starts programs');
    is($says->('promises -', 'execpromises -', @veil, 'prog /www/p exec'),
        "none were ever pledged: it holds all but error; $no_sandbox", 'it never pledged');
    is($says->('promises exec,stdio', 'execpromises -', @veil, 'prog /www/p stat'), 'unset; it can start no program', 'there is none');
    is($says->('promises stdio', 'execpromises stdio', @veil), '', 'execpromises are set');
    my $sockets = 'unix: no line shows that it can connect to each socket where a veil has w, and bind one where a veil has c';
    is($says->('promises stdio,unix', 'execpromises stdio', @veil), $sockets, 'sockets without lines');
    is($says->('rules openbsd', 'promises stdio,unix', 'execpromises stdio', 'opening /etc/hosts open-r', 'opening /tmp/ create veils', @veil),
        'as OpenBSD&#39;s kernel is known to answer; no veil hides it', 'openings, and no sockets that can be connected to');
    is($says->('rules openbsd', 'promises stdio,unix', 'execpromises stdio', @veil, 'file /www/s connect'),
        'as OpenBSD&#39;s kernel is known to answer', 'sockets with lines');
    is($says->('promises stdio', 'execpromises stdio', 'no veils', 'unveil locked', 'exec bounded'),
        'it can touch what is not listed too; programs that are started keep the veils, and hold the execpromises at most',
        'what is told of veils and programs stands there once');
}
{
    my $page = page_of('sockets and openings', \@site, ['objects 1', 'process alive', 'promises stdio,unix', 'execpromises -', 'unveil locked',
        'rules openbsd', 'opening /etc/passwd open-r', 'veil /www wc', 'file /www/key connect,chown', 'other /www bind,mknod']);
    is_deeply([grep { /passwd|key|other/ } rows($page)], ['2 | passwd file opening open-r', '2 | any other name | made: bind mknod',
        '2 | key file | written: connect chown'], 'sockets have lines, and openings stand in the tree');
}

# What is open stands before the rest of the state, and in the tree.
{
    my $page = page_of('what is open', \@site, ['ever 1', 'process alive', 'promises recvfd,stdio', 'unveil locked', 'receive open',
        'veil /www r', 'held 3 file /etc/passwd read', 'held 4 dir - read,chdir', 'dir /www stat']);
    my @state = map { m{<li><code( class="alarm")?>([^<]*)</code> ([^<]*)</li>} ? ($1 ? '! ' : '') . "$2: $3" : () } split /^/, $page;
    is_deeply([@state[0 .. 3]], ['! receive open: the list holds until a descriptor is received',
        '! held 3 file /etc/passwd read: open, and no veil hides it',
        '! held 4 dir - read,chdir: open, and no veil hides it; it has no name left', 'process alive: '], 'what is open stands first');
    is_deeply([grep { /etc|passwd/ } rows($page)], ['1 | etc/', '2 | passwd file held 3 read'], 'and where it is in the tree');
}

# So does the root, before it; where the process gets out of it, that is marked.
{
    my $told = sub {
        my $page = page_of('a root', \@site, ['objects 1', 'process alive', 'promises stdio', 'unveil locked', @_, 'dir /www stat']);
        my @state = map { m{<li><code( class="alarm")?>([^<]*)</code> ([^<]*)</li>} ? ($1 ? '! ' : '') . "$2: $3" : () } split /^/, $page;
        my @marks = map { m{<b class="(\w+)">(root[^<]*)</b>} ? "$1 $2" : () } split /^/, $page;
        return [@state[0, 1], @marks];
    };
    is_deeply($told->('veil /www r', 'held 3 dir / read,chdir', 'root /www open'), ['! root /www open: the process gets out of its root',
        '! held 3 dir / read,chdir: open, and no veil hides it', 'alarm root open'], 'an open root stands first');
    is_deeply($told->('root /www closed', 'veil /www r'), ['root /www closed: no path of now leads out of it', 'process alive: ',
        'veil root closed'], 'a closed one');
    is_deeply($told->('root - open', 'veil /www r'), ['! root - open: it was removed; the process gets out of its root', 'process alive: '],
        'one that was removed');
}

# Names beside those that can be touched are folded where there are more than four; what a listing lacks stands
# there.
{
    my @many = ('1 dir 0 d', (map { "$_ file 1 n$_" } 2 .. 7), '8 dir 1 o', '9 file 8 p');
    my @rows = map { "$_ file" } map { "2 | n$_" } 2 .. 7;
    my $page = page_of('folded', \@many, ['objects 1', 'file /d/n4 stat', 'file /d/o/p stat']);
    is_deeply([rows($page)], ['0 | /', '1 | d/', '2 | n4 file | read: stat', '2 | o/', '3 | p file | read: stat',
        '2 | names beside these, none to be touched: 5', map { "3 | n$_ file" } 2, 3, 5 .. 7], 'five names are folded');
    $page = page_of('not folded', \@many, ['objects 1', 'file /d/n4 stat', 'file /d/n7 stat', 'file /d/o/p stat']);
    is_deeply([rows($page)], ['0 | /', '1 | d/', '2 | n2 file', '2 | n3 file', '2 | n4 file | read: stat', '2 | n5 file', '2 | n6 file',
        '2 | n7 file | read: stat', '2 | o/', '3 | p file | read: stat'], 'four are not');
    file('tree', 'tree 1', '0 dir', @many);
    file('objects', 'objects 1', 'file /d/n4 stat');
    file('manifest', 'left-out /d/o', 'passed-over /x/y');
    my ($status, $out, $err) = page('-m', 'manifest', 'tree', 'objects');
    is("$status $err", '0 ', 'a manifest: the status');
    is_deeply([rows($out)], ['0 | /', '1 | d/', '2 | n4 file | read: stat', '2 | o/ left out of the listing names in it, none to be touched: 1',
        '3 | p file', '2 | names beside these, none to be touched: 5', (map { "3 | n$_ file" } 2, 3, 5 .. 7),
        '1 | x/ not listed', '2 | y  not listed passed over by the listing'], 'what the listing lacks is never folded');
    file('manifest', 'not-all /d/o');
    ($status, $out, $err) = page('-m', 'manifest', 'tree', 'objects');
    is("$status $err", '0 ', 'not all listed: the status');
    is_deeply([rows($out)], ['0 | /', '1 | d/', '2 | n4 file | read: stat', '2 | names beside these, none to be touched: 7',
        (map { "3 | n$_ file" } 2, 3, 5 .. 7), '3 | o/ not all listed names in it, none to be touched: 1', '4 | p file'],
        'a directory of which not all is listed is folded as others are');
}

# With -d directories are folded from a depth on, with how many names in them can be touched.
{
    file('tree', 'tree 1', '0 dir', '1 dir 0 a', '2 dir 1 b', '3 file 2 x', '4 file 2 y', '5 file 1 z', '6 file 0 f', '7 dir 0 g', '8 file 7 h');
    file('objects', 'objects 1', 'veil /a/b r', 'dir /a stat', 'file /a/b/x stat', 'other /a/b create', 'file /f stat');
    my $folds = sub {
        my ($status, $out, $err) = page('-d', @_, 'tree', 'objects');
        is("$status $err", '0 ', "-d $_[0]: the status");
        my @folds = map { /<details( open)?><summary class="[a-z ]*"><span>([^ <]*)/ ? ($2 . ($1 || '')) : () } split /^/, $out;
        return join ', ', @folds, map { /names in it: (.*)<\/small>/ ? $1 : () } split /^/, $out;
    };
    is($folds->(0), '/, a/, b/, g/, 8, to be touched: 4, 4, to be touched: 2, 2, to be touched: 1', '-d 0: all are folded');
    is($folds->(1), '/ open, a/, b/, g/, 4, to be touched: 2, 2, to be touched: 1', '-d 1: those in the root are');
    is($folds->(2), '/ open, a/ open, b/, g/, 2, to be touched: 1', '-d 2: those in these are');
    is($folds->(3), '/ open, a/ open, b/ open, g/', '-d 3: none is, but what has nothing to be touched');
    my @without = page('tree', 'objects');
    is_deeply([page('-d', 3, 'tree', 'objects')], \@without, '-d of what is not as deep changes nothing');
}

# What a list for ever has more than the list of now.
{
    file('tree', 'tree 1', '0 dir', @site);
    file('now', '1 ok', 'objects 1', 'process alive', 'promises stdio', 'file /www/key stat,unlink', 'objects 2', 'process ended');
    file('ever', '1 ok', 'ever 1', 'process alive', 'promises stdio', 'file /www/key stat,open-r,unlink', 'missing /www/key create',
        'file new stat', 'ever 3', 'process alive', 'promises stdio', 'file /www/key stat');
    my ($status, $out, $err) = page('tree', 'now', 'ever');
    is("$status $err", '0 ', 'now and ever: the status');
    is_deeply([$out =~ m{<h2>What (.*) touch</h2>}g], ['process 1 can', 'process 1 can ever', 'process 2 can', 'process 3 can ever'],
        'each list for ever follows that of now');
    my @marked = map { m{<span>(?:<i>)?(\w+)} ? "$1: " . join(' ', m{<b class="more">([\w-]+)</b>}g) : () } grep { /class="more">[a-z-]+<\/b>/ && /class="row/ }
        split /^/, $out;
    is_deeply(\@marked, ['new: stat', 'key: open-r', 'key: create'], 'what it has more is marked, of the process whose list of now is there');
}

# A name with a veil of its own that can come to be free has two lines.
{
    my $page = page_of('free names', \@site, ['ever 1', 'file /www/key unlink', 'missing /www/key create', 'missing /www/pid mkdir']);
    is_deeply([grep { /key|pid/ } rows($page)], ['2 | key file | removed: unlink', '2 | key once it is free | made: create',
        '2 | pid missing | made: mkdir'], 'what stands there, and what can be made once it is free');
}

# Links, further names, what a script changed, and the order of names.
{
    my $page = page_of('kinds', ['1 link 0 b /etc', '2 file 0 a', '3 hard 0 c 2', '4 prog 0 \134', '5 prog 0 \040',
        '6 link 0 gone /etc', '7 link 0 B x', '8 hard 0 d 7'],
        ['objects 1', 'link /b lstat', 'file /gone stat', 'link /d lstat']);
    is_deeply([rows($page)], ['0 | /', '1 | b link -> /etc | read: lstat', '1 | d link (a further name of node 7) | read: lstat',
        '1 | gone file | read: stat', '1 | names beside these, none to be touched: 5', '2 | \040 prog', '2 | B link -> x',
        '2 | \134 prog', '2 | a file', '2 | c file (a further name of node 2)'],
        'links have their targets, further names their nodes, and names stand in the order of their bytes');
}

# Over the listing of the tree behind the script, as `pua tree` prints it, all that is there is listed.
{
    my @said = ('1 ok', '2 ok', 'objects 1', 'file /made stat');
    is_deeply([rows(page_of('the listing before a script', ['1 file 0 gone'], \@said))],
        ['0 | /', '1 | gone file', '1 | made file not listed | read: stat'], 'what it made is marked, and what it removed stays');
    is_deeply([rows(page_of('the tree behind it', ['1 file 0 made'], \@said))], ['0 | /', '1 | made file | read: stat'],
        'what it made is listed, and what it removed is gone');
}

# Hostile names stay text: whatever a listing or a list has, the page has the tags of page.pl alone.
{
    my @hostile = ('<script>alert(1)<\057script>', '"><img', "'onclick='alert(1)", '&amp;', '<!--', '-->', ']]>',
        '<\057details>', '&#60;b&#62;', '<style>', 'javascript:alert(1)');
    my $page = page_of('hostile names', [(map { ($_ + 1) . " file 0 $hostile[$_]" } 0 .. $#hostile), '90 link 0 l </b>"\'&'],
        ['1 <b>', 'objects 1', 'promises <b>', 'veil /<b> <i>', 'limits "<b>',
            (map { "file /$_ stat,<b>,\"' <b> </b> \"" } @hostile), 'other /<u> </b>', 'file new </b>']);
    my @shown = map { /\A1 \| (\S+) file by / ? $1 : () } rows($page);
    is_deeply([sort @shown], [sort @hostile], 'each is read as it is spelled');
    (my $rest = $page) =~ s{<style>.*?</style>}{}s;
    my $fixed = join '|', '!DOCTYPE html', 'html lang="en"', 'meta charset="utf-8"',
        q{meta http-equiv="Content-Security-Policy" content="default-src 'none'; style-src 'unsafe-inline'"},
        'meta name="viewport" content="width=device-width"', '(?:div|summary) class="row(?: head| untouched)?"',
        'span title="(?:read|written|executed|made|removed|else)"', 'details(?: open)?', 'b class="(?:veil|alarm|more)"',
        'code(?: class="alarm")?', '/?(?:head|title|body|html|p|h2|ul|li|div|span|small|i|b|code|details|summary)';
    $rest =~ s/<(?:$fixed)>//g;
    unlike($rest, qr/[<>"']/, 'the tags are those of page.pl, and no name has a part in one');
    unlike($rest =~ s/&#[0-9]+;//gr, qr/&/, 'and no name is an entity');
    is(() = $page =~ /<details/g, () = $page =~ m{</details>}g, 'each fold has an end');
}

# What a page shows of a tree, by a listing and a list.
sub shows {
    my ($what, $tree, $list, @rows) = @_;
    my ($status, $out, $err) = page(file('shown', @$tree), file('objects', 'objects 1', @$list));
    is("$status $err", '0 ', "$what: the status");
    is_deeply([rows($out)], \@rows, "$what: what stands there");
}

# Types of files, as the third form of a listing has them.
shows('types',
    ['tree 3', '0 dir', '1 sock 0 s', '2 fifo 0 f', '3 dev 0 v', '4 any 0 a', '5 file 0 p', '6 hard 0 t 1'],
    ['file /a connect', 'fifo /f open-r', 'sock /s connect', 'sock /n connect'],
    '0 | /',
    '1 | a file | written: connect',
    '1 | f fifo | read: open-r',
    '1 | n sock not listed | written: connect',
    '1 | p file',
    '1 | s sock | written: connect',
    '1 | t sock (a further name of node 1)',
    '1 | v dev');

# Mount points are directories, and are told.
shows('mount points',
    ['tree 3', '0 dir', '1 mount 0 m', '2 file 1 f', '3 mount 1 n', '4 dir 0 d'],
    ['dir /m stat', 'other /m mkdir', 'file /m/f stat', 'dir /d rmdir'],
    '0 | /',
    '1 | d/ | removed: rmdir',
    '1 | m/ (a mount point) | read: stat',
    '2 | any other name | made: mkdir',
    '2 | f file | read: stat',
    '2 | n/ (a mount point)');

# Faults: nothing is written, and one line says why.
{
    my ($tree, $list) = (file('good-tree', 'tree 1', '0 dir', '1 file 0 a'), file('good-list', '1 ok', 'objects 1'));
    my @faults = (
        ['a listing that is missing', 'none', $list, "none: No such file or directory"],
        ['a folder', $tree, '.', '.: it cannot be read'],
        ['exchanged operands', $list, $tree, "$tree: line 1: no line of a list of objects"],
        ['a script in place of a listing', file('script', '1 stat /'), $list, 'script: it is no listing'],
        ['no line', file('empty'), $list, 'empty: it is no listing'],
        ['a tab', file('tab', 'tree 1', '0 dir', "1 file\t0 a"), $list, 'tab: line 3: bad line'],
        ['two blanks', $tree, file('blanks', 'objects 1', 'file  /a stat'), 'blanks: line 2: bad line'],
        ['a slash in a name', file('slash', 'tree 1', '0 dir', '1 file 0 a/b'), $list, 'slash: line 3: bad line'],
        ['a target too many', file('more', 'tree 1', '0 dir', '1 file 0 a b'), $list, 'more: line 3: bad line'],
        ['a target that lacks', file('less', 'tree 1', '0 dir', '1 link 0 a'), $list, 'less: line 3: bad line'],
        ['a socket in the second form', file('untyped', 'tree 2', '0 dir', '1 sock 0 a'), $list, 'untyped: line 3: bad line'],
        ['a mount point in the first form', file('unmounted', 'tree 1', '0 dir', '1 mount 0 a'), $list, 'unmounted: line 3: bad line'],
        ['a second name of a mount point', file('mounts', 'tree 3', '0 dir', '1 mount 0 a', '2 hard 1 b 1'), $list,
            'mounts: line 4: bad node'],
        ['a socket with a target', file('socket', 'tree 3', '0 dir', '1 sock 0 a b'), $list, 'socket: line 3: bad line'],
        ['a name in a socket', file('in-socket', 'tree 3', '0 dir', '1 sock 0 a', '2 file 1 b'), $list,
            'in-socket: line 4: bad parent'],
        ['a number that was there', file('twice', 'tree 1', '0 dir', '0 dir 0 a'), $list, 'twice: line 3: bad number'],
        ['a name in a file', file('in', 'tree 1', '0 dir', '1 file 0 a', '2 file 1 b'), $list, 'in: line 4: bad parent'],
        ['a second name of a directory', file('loop', 'tree 2', '0 dir', '1 dir 0 a', '2 hard 1 b 1'), $list,
            'loop: line 4: bad node'],
        ['answers alone', $tree, file('run', '1 ok'), 'run: it has no list of objects'],
        ['an audit', $tree, file('audit', '1 ok', 'reach 1', '/a stat'), 'audit: line 2: no line of a list of objects'],
        ['a kind that is none', $tree, file('kind', 'objects 1', '<i> / x'), 'kind: line 2: no line of a list of objects'],
        ['a fault of pua', $tree, file('fault', 'pua: listing: bad header'), 'fault: line 1: no line of a list of objects'],
    );
    for my $fault (@faults) {
        my ($what, $listing, $objects, $says) = @$fault;
        is_deeply([page($listing, $objects)], [1, '', "page.pl: $says\n"], $what);
    }
    for my $words ([], [$tree, $list, $list, $list], [$tree, ''], ['-m', '', $tree], ['-d', '', $tree], ['-d', 'x', $tree], ['-d', '-1', $tree]) {
        my $usage = "usage: page.pl [-d DEPTH] [-m MANIFEST] TREE [OBJECTS [EVER]]\n";
        is_deeply([page(@$words)], [2, '', $usage], 'words that are wrong words: ' . @$words);
    }
    is(system("$^X -T $PAGE $tree < $list > piped && $^X -T $PAGE $tree $list | cmp -s - piped"), 0,
        'standard input is read');
    SKIP: {
        skip 'there is no /dev/full here', 1 unless -c '/dev/full';
        isnt(system("$^X -T $PAGE $tree $list > /dev/full 2> err"), 0, 'an output that is full');
    }
}

# A chain of directories as deep as a listing allows.
{
    my @chain = map { ($_ + 1) . " dir $_ d" } 0 .. 4094;
    my $page = page_of('a deep chain', \@chain, ['objects 1', 'dir ' . '/d' x 4095 . ' stat']);
    is((rows($page))[-1], '4095 | d/ | read: stat', 'its last name is shown');
}

# Each story that pua is tested with: each line about an object is a row with something in it, each other
# line stands above, and each opening and each veil whose place is there stands in the tree too.
for my $output (glob "$Bin/../examples/*/{objects,all,openbsd}-output") {
    my ($story, $text) = (dirname($output), content($output));
    my ($status, $page, $err) = page("$story/listing", $output);
    my @counts = map { my $pattern = $_; scalar(() = $page =~ /$pattern/g) } 'class="row">', '<li>', '<b class="veil">';
    my @lines = map { my $pattern = $_; scalar(() = $text =~ /$pattern/mg) } '^(?!veil |opening |root )[a-z]+ /',
        '^(?:process|rules|promises|execpromises|unveil|receive|root|opening|no|veil|held) ', '^(?:(?:veil|opening) /|root .* closed$)';
    is("$status $err@counts", "0 @lines", 'objects, states and veils: ' . ($output =~ m{([^/]*/[^/]*)\z})[0]);
}
done_testing;
