#!/usr/bin/perl
# Installs into an empty folder, with a stand-in for the program, and takes all away again.
use strict;
use warnings;
use Cwd qw(abs_path);
use File::Find qw(find);
use FindBin qw($Bin);
use lib "$Bin/lib";
use Test::More;
use Tried;

plan skip_all => 'there is no make(1) here' unless grep { -x "$_/make" } split /:/, $ENV{PATH};

my $top     = abs_path("$Bin/..");
my $to      = enter_room();
my $program = put('stand-in', "#!/bin/sh\necho stand-in\n");
chdir $top or die "cannot enter $top: $!\n";

# What `make WORD` ends with; what it prints is only shown where it fails.
sub make {
    my ($word) = @_;
    my $said = `make DESTDIR='$to/root' PREFIX=/usr PROGRAM='$program' $word 2>&1`;
    diag $said if $?;
    return $?;
}

# The files below the root, each with its mode.
sub installed {
    my %modes;
    my $take = sub {
        return unless -f;
        my $path = $File::Find::name =~ s{\A\Q$to\E/root}{}r;
        $modes{$path} = sprintf '%03o', (stat)[2] & 0777;
    };
    find($take, "$to/root");
    return \%modes;
}

# Tools that read the sources are for whoever changes them, and are not installed.
my @tools   = grep { !/\A(?:reference|refused|touched)\z/ }
    map { m{\Atools/(\w+)\.pl\z} ? $1 : () } glob 'tools/*.pl';
my @modules = map { m{\Atools/lib/Pua/(\w+\.pm)\z} ? $1 : () } glob 'tools/lib/Pua/*.pm';
my %wanted_tools = (
    (map { ("/usr/bin/pua-$_" => '755', "/usr/share/man/man1/pua-$_.1" => '644') } @tools),
    (map { ("/usr/share/pua/perl/Pua/$_" => '644') } @modules),
    '/usr/share/pua/conform.c' => '644',
);
my %wanted = (%wanted_tools, '/usr/bin/pua' => '755', '/usr/share/man/man1/pua.1' => '644',
    '/usr/share/man/man7/pua-model.7' => '644');

is make('install-tools'), 0, 'the tools are installed';
is_deeply installed(), \%wanted_tools, 'each tool, with its page and its modules, and no program';
is make('install'), 0, 'it is installed';
is_deeply installed(), \%wanted, 'the program, its page and each tool are there, with their modes';
is `$to/root/usr/bin/pua`, "stand-in\n", 'the program is the one that was given';

# The page on the model has each paragraph and each row of docs/MODEL.md, and nothing that isn't a
# request begins as one does.
{
    my $page  = content("$to/root/usr/share/man/man7/pua-model.7");
    my $model = content('docs/MODEL.md');
    my $request  = qr/\A\.(?:\\"|Dd|Dt|Os|Sh|Nm|Nd|Xr|Pp|Bl|El|It)(?: |\z)/;
    my @requests = grep { /\A[.']/ && !/$request/ } split /\n/, $page;
    is_deeply \@requests, [], 'the page on the model: its requests';
    $model =~ s/\[([^\]]*)\]\([^)]*\)/$1/g;
    my @lines = grep { !/\A(?:#|\|-|\| Left out)/ } split /\n/, $model;
    my @words = map { s/[`*]//gr } map { split ' ' } @lines;
    my %in_page = map { $_ => 1 } map { s/\\f.|\\&//gr =~ s/\\-/-/gr } split ' ', $page;
    my @lacks = grep { !$in_page{$_} && !/\A[|-]*\z/ } @words;
    is_deeply \@lacks, [], 'the page on the model: each word of it is there';
    is((() = $page =~ /^\.It ./mg), (() = $model =~ /^\| \*\*/mg),
        'the page on the model: its rows');
}

# The manual pages of the tools are of these options.
for my $tool (@tools) {
    my ($usage) = `$^X tools/$tool.pl -? 2>&1` =~ /^usage: \S+ (.*)$/m;
    my %options = map { $_ => 1 } map { split // } $usage =~ /\[-([a-z]+)/g;
    my @told = content("man/pua-$tool.1") =~ /^\.Op Fl ([a-z]+)/mg;
    my %told = map { $_ => 1 } map { split // } @told;
    is_deeply \%told, \%options, "pua-$tool: the synopsis has its options";
}

# The tools run where they are installed, from anywhere, and say by which name they were called.
chdir $to or die "cannot enter $to: $!\n";
for my $tool (@tools) {
    my $said = `$to/root/usr/bin/pua-$tool -? 2>&1`;
    like $said, qr/^usage: pua-$tool /m, "pua-$tool finds its modules and tells its name";
    my $help = `$to/root/usr/bin/pua-$tool --help 2>&1`;
    like $help, qr/\A[A-Z].*^ +pua-$tool .*^Status 0: .*\n\z/ms, "pua-$tool knows --help";
    is $?, 0, "pua-$tool --help: the status";
}
chdir $top or die "cannot enter $top: $!\n";

is make('install'), 0, 'it is installed again over itself';
is make('uninstall'), 0, 'it is taken away';
is_deeply installed(), {}, 'nothing is left';
done_testing;
