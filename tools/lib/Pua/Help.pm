package Pua::Help;

# What a tool prints for --help.
use strict;
use warnings;
use Exporter qw(import);
our @EXPORT_OK = qw(help_of);

# The comment at the beginning of a tool's file. Tools that are installed are called pua-NAME there,
# and not NAME.pl, as the one is that has $name.
sub help_of {
    my ($file, $name) = @_;
    open my $in, '<', $file or die "$file: $!\n";
    my (undef, @lines) = <$in>;
    my @head;
    for my $line (@lines) {
        last if $line !~ s/\A# ?//;
        $line =~ s/\b([a-z]+)\.pl\b/pua-$1/g if $name =~ /\Apua-/;
        push @head, $line;
    }
    return @head;
}

1;
