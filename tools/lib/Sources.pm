package Sources;

# What the tools that read the sources share: the libraries, in the order of crates.txt, and the
# public items of a file, each with its doc and its contract, as they stand. The folder that a tool
# runs in is the top of the repository. A file is read by lines, as the formatter writes them.
use strict;
use warnings;
use Exporter qw(import);
our @EXPORT_OK = qw($CLAIM_MODULE %IS_CLAIMS crate_names files_below functions_of items_of libraries modules_of text_of);

# Crates of claims; in others a claim stands in a module of this name.
our %IS_CLAIMS = map { $_ => 1 } qw(pua_refused pua_refused_texts);
our $CLAIM_MODULE = qr{/refused(?:\.rt|/)};

# Libraries of tests.
my %IS_TEST = map { $_ => 1 } keys %IS_CLAIMS, qw(pua_examples_trees);

# The names of the crates.
sub crate_names {
    opendir my $folder, 'crates' or die "crates: $!\n";
    return map { /^(\w+)$/ ? $1 : () } sort readdir $folder;
}

# The libraries that callers have, each after those that it stands on.
sub libraries {
    my $number = 0;
    my %place = map { /^(\w+):/ ? ($1 => $number++) : () } split /\n/, text_of('crates.txt');
    return sort { ($place{$a} // $number) <=> ($place{$b} // $number) }
        grep { -e "crates/$_/src/lib.rt" && !$IS_TEST{$_} } crate_names();
}

# The files below a folder whose names end so.
sub files_below {
    my ($folder, $end) = @_;
    opendir my $handle, $folder or return;
    my @names = map { m{^([\w.-]+)$} && $1 !~ /^\.\.?$/ ? $1 : () } sort readdir $handle;
    return map { -d "$folder/$_" ? files_below("$folder/$_", $end) : /\Q$end\E$/ ? "$folder/$_" : () } @names;
}

sub text_of {
    my ($file) = @_;
    open my $handle, '<:encoding(UTF-8)', $file or die "$file: $!\n";
    local $/;
    return scalar <$handle>;
}

# The files of a library's code, without its claims.
sub modules_of {
    my ($crate) = @_;
    return grep { $_ !~ $CLAIM_MODULE } files_below("crates/$crate/src", '.rt');
}

# The public functions of a library, those of its public traits among them.
sub functions_of {
    my ($crate) = @_;
    return grep { $_->{kind} eq 'function' } map { items_of($crate, $_) } modules_of($crate);
}

# The public items of a file, in their order. Each has its kind, its path, its file, its doc and its
# code: of a function all before its body; of a struct what is public in it. The kinds are function,
# type, trait and constant, and of a public type
#
#   meeting   that it meets a trait, and what a function of it has there: a doc or clauses of its own
#   sight     as what its values stand in contracts
#
# A function may be a law: those of a file of that name are, and what says so in its own name.
sub items_of {
    my ($crate, $file) = @_;
    my @lines = split /\n/, text_of($file);
    my %is_public = map { /^pub (?:struct|enum) (\w+)/ ? ($1 => 1) : () } @lines;
    my ($type, $is_trait, $met) = ('', 0, '');
    my (@items, @doc, @derives);
    my $add = sub {
        my ($kind, $path, @code) = @_;
        push @items, { kind => $kind, path => $path, file => $file, doc => join("\n", @doc), code => join("\n", @code) };
    };
    for my $at (0 .. $#lines) {
        my $line = $lines[$at];
        if ($line =~ m{^\s*/// ?(.*)}) { push @doc, $1; next }
        if ($line =~ /^\s*#\[/) { push @derives, $line if $line =~ /^#\[derive/; next }
        if ($line =~ /^(pub )?trait (\w+)/) {
            ($type, $is_trait, $met) = ($2, $1 ? 1 : 0, '');
            $add->('trait', "${crate}::$2", trait_head(@lines[$at .. $#lines])) if $1;
        } elsif ($line =~ /^impl\b(?:<.*?>+)?\s+(?:(.*?)\bfor\s+)?&?(?:'\w+ )?(\w+)/) {
            ($type, $is_trait, $met) = ($2, 0, $is_public{$2} && $1 ? $1 : '');
            $add->('meeting', "${crate}::$type", $line =~ s/ \{.*//r) if $met && $met !~ /^Model\b/;
        } elsif ($line =~ /^(\s*)(pub )?(?:const )?fn (\w+)/) {
            my $path = join '::', $crate, $1 ? $type : (), $3;
            my @head = head_of(@lines[$at .. $#lines]);
            if ($2 || $1 && $is_trait) {
                $add->('function', $path, @head);
                $items[-1]{law} = $file =~ m{/laws\.rt$} || $path =~ /(?:_laws?|_examples)$/;
            } elsif ($1 && $met && (@doc || grep { /^\s+ensures\b/ } @head)) {
                $add->('meeting', $path, @head);
            }
        } elsif ($line =~ /^(\s*)pub (?:const|type) (\w+)/) {
            $add->('constant', join('::', $crate, $1 ? $type : (), $2), up_to(qr/;$/, @lines[$at .. $#lines]));
        } elsif ($line =~ /^pub (?:struct|enum) (\w+)/) {
            $add->('type', "${crate}::$1", @derives, type_head(up_to(qr/^\}|^\S.*[;\}]$/, @lines[$at .. $#lines])));
        } elsif ($met =~ /^Model\b/ && $line =~ /^    ghost Value = \{/) {
            my $value = join ' ', map { s/^\s+//r } up_to(qr/\};$/, @lines[$at .. $#lines]);
            $add->('sight', "${crate}::$type", $value =~ /^ghost Value = \{ (.*) \};$/);
        }
        @doc = @derives = ();
    }
    return @items;
}

# The first lines, up to one that ends so, without their indent.
sub up_to {
    my ($end, @lines) = @_;
    my ($indent) = $lines[0] =~ /^(\s*)/;
    my @found;
    for my $line (@lines) {
        push @found, $line =~ s/^$indent//r;
        last if $found[-1] =~ $end;
    }
    return @found;
}

# What stands before the body of a function: it begins on a line of its own after clauses, and at the
# end of a line else. One of a trait may have none.
sub head_of {
    my @head = up_to(qr/^\{|^\S.* \{(?: ?.*\})?$|;$/, @_);
    if ($head[-1] =~ /^\{/) { pop @head }
    else { $head[-1] =~ s/;$| \{(?: ?.*\})?$// }
    return @head;
}

# The first line of a trait, and what it has for contracts alone.
sub trait_head {
    my ($first, @lines) = @_;
    my (@head, @doc);
    for my $line (@lines) {
        last if $line =~ /^\}/;
        push @doc, $line if $line =~ m{^\s*///};
        push @head, splice(@doc), $line if $line =~ /^    ghost (?!use)/;
        @doc = () if $line !~ m{^\s*///};
    }
    return ($first =~ s/ \{$//r, @head);
}

# A type without what is private in it.
sub type_head {
    my ($first, @lines) = @_;
    return $first =~ s/\((?!pub\b)[^()]*(?:\([^()]*\))*[^()]*\);$/(..);/r if !@lines;
    return ($first, @lines) if $first =~ /^pub enum/;
    my (@kept, @doc, $is_kept, $has_private);
    for my $line (@lines) {
        if ($line =~ m{^    ///|^    #\[}) { push @doc, $line; next }
        if ($line =~ /^    \w/) {
            $is_kept = $line =~ /^    pub (?!\()/;
            $has_private = 1 if !$is_kept;
        }
        push @kept, splice(@doc), $line if $is_kept && $line =~ /^ /;
        @doc = ();
    }
    return ($first, @kept, $has_private ? '    ..' : (), '}');
}

1;
