# Tells which comments `# vendor=2 cpu=3 bank=17 LINE` of the filters are about a memory error that counts. rasd reads banks as
# Intel's; on another processor a memory error counts by its event of EDAC's driver. The kernel traces the machine check first, and
# of the same one the driver's event right behind it. Of linux-source-6.1 6.1.192-3: mce_early_notifier in
# arch/x86/kernel/cpu/mce/core.c calls trace_mce_record, and later in that chain amd_decode_mce calls amd64_edac
# (drivers/edac/mce_amd.c lines 1189, 1190 and 1352).
#
# usage: require "$here/copies.pl"; my $copies = Copies->new(DRIVERS, SUB); each of its methods says what it does
#
# So a comment of a trace is a copy if a memory error comes right behind it. The trace has each machine check; so from when on
# there is a trace, a comment of the log is a copy of one of the trace. SUB says all other comments, those of a trace within
# seconds. If DRIVERS isn't `edac` (service/prepare), no comment is a copy.
package Copies;
use strict;
use warnings;

# The block's first section is about memory (UEFI 2.10, N.2.5). Its number is its time in microseconds.
my $MEMORY = qr/^ghes \d+ \d+ 65535 (\d+) [0-9a-f]{40}1411bca5646fde4eb8633e83ed7c83b1/;
# The time of the line, behind the first clock.
my $COMMENT = qr/^# vendor=\d+ cpu=\d+ bank=\d+ .*?(\d+)\.(\d{6})[\]:] /;
# In microseconds and in seconds: how far apart a machine check and its event may be, and how long a comment waits.
my ($NEAR, $SOON) = (1e6, 2);

sub new {
    my ($class, $drivers, $say) = @_;
    # By source: since when there is a trace beside it, if it is a log, and its last comment.
    return bless { say => $say, has_copies => $drivers eq 'edac', traced => {}, last => {} }, $class;
}

# From here on a source is a trace; or it is a log, and a trace has the machine checks from a time in microseconds on, or never (-).
sub begin_source {
    my ($self, $source, $traced) = @_;
    $self->settle($source);
    $self->{traced}{$source} = ($traced // '') eq '-' ? 9e99 : $traced;
}

# Takes a comment of a source.
sub take_comment {
    my ($self, $source, $line, $now) = @_;
    $self->settle($source);
    my ($traced, $time) = ($self->{traced}{$source}, $self->{has_copies} && $line =~ $COMMENT ? "$1$2" : undef);
    if (defined $time && !defined $traced) { $self->{last}{$source} = [$line, $now, $time] }
    elsif (!defined $time || $time < $traced) { $self->{say}->($line) }
}

# Whether the next line of a source says what its last comment is about.
sub is_waiting { return defined $_[0]{last}{$_[1]} }

# Takes another line of a source. A memory error comes behind its table.
sub take_line {
    my ($self, $source, $line) = @_;
    my $last = $self->{last}{$source};
    return if !$last || $line =~ /^hest /;
    return $self->settle($source) if $line !~ $MEMORY || abs($1 - $last->[2]) > $NEAR;
    delete $self->{last}{$source};
}

# Says a source's last comment, since it is no copy.
sub settle {
    my ($self, $source) = @_;
    my $last = delete $self->{last}{$source};
    $self->{say}->($last->[0]) if $last;
}

# Says what has waited long enough.
sub say_due {
    my ($self, $now) = @_;
    for my $source (keys %{ $self->{last} }) { $self->settle($source) if $now - $self->{last}{$source}[1] >= $SOON }
}

# Says all that waits.
sub say_all {
    my $self = shift;
    $self->settle($_) for keys %{ $self->{last} };
}

1;
