# What reasons say of the text of a path, or of a link's target.
package Why::Texts;
use strict;
use warnings;
use Exporter qw(import);
use Why::Changed qw(place_of same_kind_fault told_instead);
use Why::World qw(fields_of);

our @EXPORT_OK = qw(%FAULT_OF);

# The check of each kind.
our %FAULT_OF = (
    'empty'          => \&_text,
    'long'           => \&_text,
    'long component' => \&_text,
    'dots'           => \&_dots,
    'no component'   => \&_no_component,
);

# A text that is empty or too long is so, and one that is just a byte within the limit isn't told so.
sub _text {
    my ($case, $what) = @_;
    my @fields = fields_of($case->{request});
    my $place  = place_of($case, $what);
    my $text   = $fields[$place];
    my $bytes  = $text =~ s/\\[0-7]{3}/x/gr;
    my $kind   = $case->{told}{kind};
    my $is_so  = $kind eq 'empty' ? $text eq '=' : $kind eq 'long' ? length $bytes > 1023 : $bytes =~ m{[^/]{256}};
    return "it isn't $kind" if !$is_so;
    $fields[$place]
        = $kind eq 'empty' ? '/' : $kind eq 'long' ? substr $bytes, 0, 1023 : $bytes =~ s{[^/]{256,}}{'x' x 255}ger;
    return same_kind_fault($case, told_instead($case, @fields), 'with a text within the limit');
}

sub _dots {
    my ($case, $dots) = @_;
    my $path = (fields_of($case->{request}))[ place_of($case, 'path') ];
    return $path =~ m{(?:\A|/)\Q$dots\E/*\z} ? '' : "$path doesn't";
}

sub _no_component {
    my ($case) = @_;
    my $path = (fields_of($case->{request}))[ place_of($case, 'path') ];
    return $path =~ m{\A/+\z} ? '' : "$path has one";
}

1;
