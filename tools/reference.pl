#!/usr/bin/perl -T
# Prints what the libraries promise: perl tools/reference.pl [-C TOP] [CRATE]...
#
# Writes one page of Markdown, crate by crate and file by file, with each public item: its doc, and
# its contract as it stands, each clause behind its name. The items are functions and methods, what
# traits ask for, types with what is public in them, and constants. The laws of a crate come last, each
# with its statement: the definition that its clause names, and above it those that this one needs of
# its file, where they were not printed before; each with the comment before it.
#
#   CRATE     prints this library alone; several may be named
#   -C TOP    the top folder of the repository; the folder that it is run in, if none is given
#
# Private functions have contracts too, which no caller sees: they stand in the sources alone. The
# status is 1 where a crate is no library, or a law's statement is not found.
use strict;
use warnings;

BEGIN {
    my ($here) = __FILE__ =~ m{\A(.*/)}s;
    unshift @INC, ($here || './') . 'lib';
}
use Getopt::Long qw(:config posix_default no_ignore_case);
use Sources qw(items_of libraries modules_of text_of);

my $top = '.';
my $USAGE = "usage: reference.pl [-C TOP] [CRATE]...\n";
if (!GetOptions('C=s' => \$top)) {
    print STDERR $USAGE;
    exit 2;
}
($top) = $top =~ /\A(.*)\z/s;
chdir $top or die "reference.pl: $top: $!\n";
binmode STDOUT, ':encoding(UTF-8)';

my @all = libraries();
my %wanted = map { $_ => 1 } @ARGV ? @ARGV : @all;
my @crates = grep { delete $wanted{$_} } @all;
if (%wanted) {
    print STDERR "reference.pl: no library: @{[sort keys %wanted]}\n";
    exit 1;
}

my ($is_wrong, %is_printed) = (0);
print <<'END';
# What the libraries promise

Each public item of these libraries, as the sources have it: its doc, and its contract. `tools/reference.pl` printed this page.
A clause of `ensures` is proved of each answer; a clause of `requires` is asked of the caller. `x.old` is what an argument holds
before the call, `x.new` what it holds after it, `x.now` what one holds that the call leaves, and `x.entry` an argument as it was
passed. Other names in clauses are definitions in `crates/*/specs`, which `docs/DEFINITIONS.md` explains. `docs/PROVED.md` says what
is not proved.

END
print map { "- [`$_`](#$_)\n" } @crates;
print_crate($_) for @crates;
exit $is_wrong;

sub print_crate {
    my ($crate) = @_;
    my @laws;
    print "\n## `$crate`\n\n", about("crates/$crate/src/lib.rt");
    for my $file (modules_of($crate)) {
        my @items = items_of($crate, $file);
        push @laws, grep { $_->{law} } @items;
        @items = grep { !$_->{law} } @items;
        next if !grep { $_->{kind} !~ /^(?:meeting|sight)$/ } @items;
        print "\n### `$file`\n\n", $file =~ m{/lib\.rt$} ? () : about($file);
        print_item($_) for @items;
    }
    print "\n### Laws of `$crate`\n" if @laws;
    print_law($_) for @laws;
    return;
}

# What a file says of itself.
sub about {
    my ($file) = @_;
    return map { s{^//! ?}{}r . "\n" } grep { m{^//!} } split /\n/, text_of($file);
}

sub print_item {
    my ($item) = @_;
    my ($kind, $doc, $code) = @{$item}{qw(kind doc code)};
    my ($name) = $item->{path} =~ /::(.*)/;
    if ($kind eq 'sight') {
        print "\nContracts see a `$name` as `$code`.\n";
    }
    elsif ($code =~ /^impl/) {
        print "\n`$code`\n";
    }
    else {
        print $kind eq 'meeting' ? "\n`$name` there:\n" : "\n#### `$name`\n";
        print "\n$doc\n" if $doc ne '';
        print_code($code);
    }
    return;
}

sub print_code {
    my ($code) = @_;
    print "\n", map { $_ eq '' ? "\n" : "    $_\n" } split /\n/, $code;
    return;
}

# A law, and the statements that its clauses name, each with what its file defines for it. Of examples
# only where their rows stand.
sub print_law {
    my ($law) = @_;
    print_item($law);
    my %stands = imports_of($law->{file});
    for my $name ($law->{code} =~ /^    ensures (?:\w+ )?\{ (\w+) \}$/mg) {
        my $file = $stands{$name};
        my @definitions = defined $file ? definitions_for($file, $name) : ();
        if (!@definitions) {
            warn "reference.pl: $law->{path}: $name is not found\n";
            $is_wrong = 1;
            next;
        }
        print "\n`$name` is in `$file`.\n";
        next if $law->{path} =~ /_examples$/;
        my ($statement, @needed) = @definitions;
        print_code($_) for grep { !$is_printed{"$file $_"}++ } @needed;
        print_code($statement);
        $is_printed{"$file $statement"}++;
    }
    return;
}

# Where the definitions stand that a file names.
sub imports_of {
    my ($file) = @_;
    my %stands;
    my $text = text_of($file);
    while ($text =~ /^ *ghost use Rattle\.(\w+)\.specs\.([\w.]+)\.\{([^}]*)\};/msg) {
        my ($crate, $path, $names) = ($1, $2, $3);
        $path =~ tr{.}{/};
        $stands{$_} = "crates/$crate/specs/$path.antt" for $names =~ /\w+/g;
    }
    return %stands;
}

# The definition of a name in a file, and then those of the file that it needs, in their order, each
# with the comment before it.
sub definitions_for {
    my ($file, $name) = @_;
    return if !-e $file;
    my $text = text_of($file);
    my (%definition, @names);
    my $head = qr/(?:(?:abbrev|unfoldable|pub|record|data) )+(\w+)\b.*\n/;
    while ($text =~ /^((?:--.*\n)*$head(?:(?:\2\b.*| .*)?\n)*)/mg) {
        my ($definition, $defined) = ($1, $2);
        push @names, $defined;
        $definition{$defined} = $definition =~ s/\n+\z//r;
    }
    my (%is_needed, @open);
    @open = grep { $definition{$_} } $name;
    while (@open) {
        my $code = $definition{shift @open} =~ s/^--.*\n//mgr;
        push @open, grep { $definition{$_} && !$is_needed{$_}++ } $code =~ /\w+/g;
    }
    return map { $definition{$_} || () } $name, grep { $is_needed{$_} && $_ ne $name } @names;
}
