package Pua::Trials;

# Reads trials: texts that have a title, how sure their answers are, why, a listing, and the lines
# of a script with what a system is expected to answer, and what pua answers where that is another:
#
#     # A veil is put a second time and asks for less
#     # confidence 90
#     #
#     # The last one replaces the one before.
#     tree 1
#     0 dir
#     1 dir 0 a
#
#     1 unveil /a rw -> ok
#     1 unveil /a r -> ok (pua EPERM)
use strict;
use warnings;
use Exporter qw(import);
our @EXPORT_OK = qw(content listing_of script_of trials_in);

# The trials of a folder, in the order of their names.
sub trials_in {
    my ($folder) = @_;
    opendir my $in, $folder or die "$folder: $!\n";
    my @names = sort grep { /\A[0-9]+-[\w-]+\z/ } readdir $in;
    closedir $in;
    die "$folder: it has no trial\n" if !@names;
    return map { trial_of($_, content("$folder/$_")) } @names;
}

# The whole content of a file.
sub content {
    my ($name) = @_;
    open my $in, '<:raw', $name or die "$name: $!\n";
    local $/ = undef;
    my $text = <$in>;
    die "$name: it cannot be read\n" if $in->error;
    return defined $text ? $text : '';
}

# A trial: its `name`, `title`, `confidence`, `why`, the lines of its `listing`, and its `lines`,
# each with `request`, `expected` and `pua`.
sub trial_of {
    my ($name, $text) = @_;
    my ($head, $listing, $lines)
        = $text =~ /\A((?:#[^\n]*\n)+)(tree [123]\n0 dir\n(?:[^\n]+\n)*)\n((?:[^\n]+\n)+)\z/
        or die "$name: no trial\n";
    my ($title, $confidence, $why) = $head =~ /\A# (.+)\n# confidence ([0-9]+)\n#\n(.*)\z/s
        or die "$name: no head of a trial\n";
    $why =~ s/^# ?//mg;
    my @lines;
    for my $line (split /\n/, $lines) {
        my ($request, $expected, $pua) = $line =~ /\A(.+) -> (\S+)(?: \(pua (\S+)\))?\z/
            or die "$name: $line: no line of a trial\n";
        $pua = $expected unless defined $pua;
        push @lines, { request => $request, expected => $expected, pua => $pua };
    }
    return {
        name => $name, title => $title, confidence => $confidence, why => $why,
        listing => $listing, lines => \@lines,
    };
}

sub listing_of { my ($trial) = @_; return $trial->{listing} }
sub script_of  { my ($trial) = @_; return join '', map { "$_->{request}\n" } @{ $trial->{lines} } }

1;
