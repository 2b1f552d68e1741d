#!/usr/bin/perl
# Prints docs/MODEL.md as a manual page, pua-model(7), in mdoc:
#
#     perl man/model.pl docs/MODEL.md > pua-model.7
#
# It knows what that page has: headings, paragraphs, lists with dashes, tables, of which the first
# column is in bold, and in a line bold, italics and code. Anything else it takes for text.
use strict;
use warnings;

my $WIDTH = 78;    # of a line

# A text with fonts, as roff has it.
sub inline {
    my ($text) = @_;
    $text =~ s/\\/\\e/g;
    $text =~ s/\[([^\]]*)\]\([^)]*\)/$1/g;
    my $formed = '';
    for my $piece (split /(`[^`]*`)/, $text) {
        if ($piece =~ /\A`(.*)`\z/) {
            $formed .= '\fB' . $1 =~ s/-/\\-/gr . '\fP';
        } else {
            $piece =~ s/\*\*(.+?)\*\*/\\fB$1\\fP/g;
            $piece =~ s/\*(.+?)\*/\\fI$1\\fP/g;
            $formed .= $piece;
        }
    }
    return $formed;
}

# The lines of a text, none too wide, and none that begins as a request does.
sub filled {
    my ($text) = @_;
    my @lines = ('');
    for my $word (split ' ', inline($text)) {
        push @lines, '' if $lines[-1] ne '' && length($lines[-1]) + 1 + length $word > $WIDTH;
        $lines[-1] .= ($lines[-1] eq '' ? '' : ' ') . $word;
    }
    return map { s/\A(?=[.'])/\\&/r . "\n" } @lines;
}

# The cells of a line of a table.
sub cells {
    my ($line) = @_;
    return map { s/\A +| +\z//gr } split /(?<!\\)\|/, $line =~ s/\A\||\|\z//gr;
}

# A row of a table: its first cell is a tag, and each other one has the heading of its column.
sub row {
    my ($headings, @cells) = @_;
    my $tag = shift @cells;
    $tag =~ s/\*\*//g;
    my @lines = ('.It ' . inline($tag) =~ s/(?<!\S)(?=[A-Z][a-z]{1,2}(?!\S))/\\&/gr . "\n");
    for my $place (0 .. $#cells) {
        push @lines, @lines > 1 ? ".Pp\n" : (),
            filled("*$headings->[ $place + 1 ]:* $cells[$place]");
    }
    return @lines;
}

my ($file) = @ARGV or die "usage: perl model.pl FILE\n";
open my $in, '<', $file or die "$file: $!\n";
my @blocks = split /\n{2,}/, do { local $/ = undef; <$in> };
print ".\\\" Made by man/model.pl of docs/MODEL.md.\n",
    ".Dd November 28, 2026\n.Dt PUA-MODEL 7\n.Os\n",
    ".Sh NAME\n.Nm pua-model\n.Nd what the model of\n.Xr pua 1\nleaves out\n.Sh DESCRIPTION\n";
my $begins = 1;    # whether a section begins, so that no paragraph is to be ended
for my $block (@blocks) {
    chomp $block;
    if ($block =~ /\A# /) {
        next;
    } elsif ($block =~ /\A## (.*)/) {
        print '.Sh ' . uc(inline($1)) . "\n";
        $begins = 1;
        next;
    } elsif ($block =~ /\A\|/) {
        my ($head, undef, @rows) = map { [cells($_)] } split /\n/, $block;
        print ".Bl -tag -width Ds\n", (map { row($head, @$_) } @rows), ".El\n";
    } elsif ($block =~ /\A- /) {
        print ".Bl -dash\n", (map { (".It\n", filled($_)) } split /^- /m, $block =~ s/\A- //r),
            ".El\n";
    } else {
        print $begins ? '' : ".Pp\n", filled($block);
    }
    $begins = 0;
}
print ".Sh SEE ALSO\n.Xr pua 1 ,\n.Xr pua-conform 1 ,\n.Xr pua-trace 1\n";
