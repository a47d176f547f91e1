# Keeps the lines that make reports, before rasd gets them. They have all registers, as the kernel had them, so that
# service/evidence can show them for as long as the account has their names.
#
# usage: require "$here/evidence-file.pl"; my $evidence = EvidenceFile->new(FILE); $evidence->keep(LINES); its file is a KeptFile
#
# FILE has at most EVIDENCE_BYTES bytes (default: 20000000, some 240,000 machine checks; an account has at most 200,000 names),
# and FILE.old as many. Each start of the feed gives lines again: a line that FILE has isn't kept again. At the head, and where
# they change, stand the lines on processors, sockets and DIMMs that hold for the reports behind them.
package EvidenceFile;
use strict;
use warnings;

# A line's name stands in its first bytes; more of them tell lines of one name apart.
my $MOST_KNOWN = 250;

sub new {
    my ($class, $name) = @_;
    # The lines that the file has, and its heads by what they are about.
    my $self = bless { file => KeptFile->new($name, 1), known => {}, heads => {} }, $class;
    $self->{file}->reads(sub { $self->learn($_[0]) })
        or KeptFile::say_words("$name can't be read, so lines may be there twice: $!");
    return $self;
}

sub file { return $_[0]{file} }

# Whether a line makes a report: a bank without a valid error makes none.
sub is_report {
    # As the filters print it; the rest is for lines by hand.
    return $_[0] =~ /^bank (?>(?:\S+ ){7})[89a-f][0-9a-f]{15} / || $_[0] =~ /^(?:panic|ghes|bert|put) /
        || $_[0] =~ /^bank +(?>(?:\S+ +){7})[89a-f][0-9a-f]{15}\s/i;
}

# Returns what a line is about, if the service has to know it of later reports: a CPU's socket, a socket's PPIN, a DIMM.
sub head_of {
    return $_[0] =~ /^(cpu \d+|# ppin \d+|# dimm\t[^\t\n]+)\s/ ? $1 : undef;
}

# Returns the part of a line by which it is known.
sub key_of { return length $_[0] > $MOST_KNOWN ? substr $_[0], 0, $MOST_KNOWN : $_[0] }

# Takes lines that the file has.
sub learn {
    my ($self, $lines) = @_;
    for my $line (split /^/m, $lines) {
        if ($line =~ /^[c#]/) { $self->{heads}{head_of($line) // next} = $line }
        else { $self->{known}{key_of($line)} = undef }
    }
}

# Returns what is to be kept of whole lines.
sub new_of {
    my ($self, $lines) = @_;
    my ($known, $heads, $text) = (@$self{qw(known heads)}, '');
    for my $line (split /^/m, $lines) {
        my $key = key_of($line);
        next if exists $known->{$key};
        if (is_report($line)) {
            $known->{$key} = undef;
        } else {
            my $about = head_of($line) // next;
            next if ($heads->{$about} // '') eq $line;
            $heads->{$about} = $line;
        }
        $text .= $line;
    }
    return $text;
}

# Keeps whole lines. Once the file is full a new one begins, with the heads alone, which has none of the reports.
sub keep {
    my ($self, $lines) = @_;
    my ($text, $file) = ($self->new_of($lines), $self->{file});
    return if !length $text;
    if ($file->is_full(length $text)) {
        $self->{known} = {};
        $file->{begins} = join '', map { $self->{heads}{$_} } sort keys %{$self->{heads}};
        $self->new_of($text);
    }
    $file->add($text);
}

1;
