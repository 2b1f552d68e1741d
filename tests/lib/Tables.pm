# Tables of expected values, as the files in data/ have them: the part of TOML in which these are written. Texts stand
# between quotes or apostrophes, long ones between three apostrophes, of which the first three end their line; numbers are
# whole; a line has a key, a heading or a comment.
package Tables;
use strict;
use warnings;
use Exporter qw(import);

our @EXPORT_OK = qw(content ended table_in);

my %ESCAPED = ('\\' => '\\', '"' => '"', n => "\n", r => "\r", t => "\t");

# The table that a file has: hashes, below the names of headings; arrays of them, where a heading has two brackets.
sub table_in {
    my ($name) = @_;
    my @lines = split /\n/, content($name);
    my $whole = {};
    my $table = $whole;
    while (defined(my $line = shift @lines)) {
        if    ($line =~ /\A(?:#.*)?\z/)              { next }
        elsif ($line =~ /\A\[\[([\w.-]+)\]\]\z/)     { $table = _further($whole, split /\./, $1) }
        elsif ($line =~ /\A\[([\w.-]+)\]\z/)         { $table = _below($whole, split /\./, $1) }
        elsif ($line =~ /\A(\w+) = (.*)\z/)          { $table->{$1} = _value($2, \@lines) }
        else                                         { die "$name: $line\n" }
    }
    return $whole;
}

# The table below some names; of an array the last one.
sub _below {
    my ($table, @names) = @_;
    for my $name (@names) {
        $table = $table->{$name} ||= {};
        $table = $table->[-1] if ref $table eq 'ARRAY';
    }
    return $table;
}

# A further table of an array below some names.
sub _further {
    my ($table, @names) = @_;
    my $last = pop @names;
    push @{ _below($table, @names)->{$last} }, {};
    return _below($table, @names, $last);
}

# A value that begins with a text, and goes on in the lines that follow, which it takes.
sub _value {
    my ($text, $lines) = @_;
    return $text     if $text =~ /\A[0-9]+\z/;
    return $1        if $text =~ /\A'([^']*)'\z/;
    return _plain($1) if $text =~ /\A"((?:[^"\\]|\\.)*)"\z/;
    $text eq "'''" or die "no value: $text\n";
    my @long;
    while (defined(my $line = shift @$lines)) {
        push @long, $line;
        return join "\n", @long if $long[-1] =~ s/'''\z//;
    }
    die "a text that does not end: $long[0]\n";
}

# A text without its escapes.
sub _plain {
    my ($text) = @_;
    $text =~ s/\\(u[0-9A-F]{4}|.)/_escaped($1)/ge;
    return $text;
}

# What an escape stands for, in bytes.
sub _escaped {
    my ($escape) = @_;
    return $ESCAPED{$escape} if exists $ESCAPED{$escape};
    my ($number) = $escape =~ /\Au(.+)/ or die "no escape: $escape\n";
    my $letter = chr hex $number;
    utf8::encode($letter);
    return $letter;
}

# A text as a line; nothing where there is none.
sub ended {
    my ($text) = @_;
    return defined $text && $text ne '' ? "$text\n" : '';
}

# The content of a file.
sub content {
    my ($name) = @_;
    open my $in, '<:raw', $name or die "$name: $!\n";
    local $/ = undef;
    my $text = <$in>;
    close $in;
    return defined $text ? $text : '';
}

1;
