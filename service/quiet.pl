# Holds corrected errors back, so that in a storm systemd's journal isn't full of them and doesn't lose what is older. Of each
# label the first error passes. Those of the next seconds are held, and then the last one passes for all, and behind it
# ` for=<n> corrected=<n>`: how many lines it stands for, itself too, and the sum of their weights. Errors of different hours get
# a line each, so that the history of each hour is right. So do lines `stale` of a boot; they have no weight. All other lines
# pass at once.
#
# usage: require "$here/quiet.pl"; my $quiet = Quiet->new(SECONDS, FILE); each of its methods says what it does
#
# While it is at work, the file has what is held. So after a kill the next one says so, and passes that on first. With 0 seconds
# nothing is held, and there is no file.
package Quiet;
use strict;
use warnings;
use Errno qw(ENOENT);
use Fcntl qw(O_RDWR O_CREAT O_NOFOLLOW SEEK_SET);

my $MOST_GROUPS = 100;
my $CORRECTED = qr/^log \S+ t=(\d+) class=(?:CE|corrected|informational) weight=(\d+) label=(\S+) /;
# A module with clocks would take as much memory as the rest of the process.
open my $uptime, '<', '/proc/uptime';

# Returns the seconds of a clock that nobody sets, or of the one that is set if it can't be read.
sub now {
    my $text = '';
    return $uptime && sysseek($uptime, 0, SEEK_SET) && sysread($uptime, $text, 99) && $text =~ /^(\d+\.\d+) / ? $1 : time;
}

sub new {
    my ($class, $seconds, $file) = @_;
    if ($seconds !~ /^\d{1,6}$/) {
        KeptFile::say_words("QUIET_SECONDS is no number, so it is 60: $seconds");
        $seconds = 60;
    }
    # `until` has for each label the time until which its lines are held, `held` the held lines by label and hour of the error,
    # `out` the lines that pass.
    my $self = bless { seconds => $seconds, file => $file, until => {}, held => {}, groups => 0, out => '' }, $class;
    $self->begin if $seconds;
    return $self;
}

# Opens the file, or makes it, unless it is a symlink or no file. Returns whether it was there.
sub opens_file {
    my $self = shift;
    my $is_open = sysopen my $handle, $self->{file}, O_RDWR | O_NOFOLLOW;
    my $is_new = !$is_open && $! == ENOENT;
    $is_open = sysopen $handle, $self->{file}, O_RDWR | O_NOFOLLOW | O_CREAT, 0640 if $is_new;
    if ($is_open && -f $handle) {
        $self->{handle} = $handle;
        return !$is_new;
    }
    KeptFile::say_words("$self->{file} can't be opened, so after a kill lines may be missing: " . ($is_open ? 'it is no file' : $!));
    return 0;
}

# Passes on what one that was killed held, if one was.
sub begin {
    my $self = shift;
    $self->{is_changed} = 1;
    $self->opens_file or return;
    KeptFile::say_words('it was killed, or the machine crashed, so lines of rasd may be missing here, or come twice: rasd report counts has all');
    my $got = sysread $self->{handle}, my $text, 1 << 20;
    # It was killed before it wrote.
    return if defined $got && !$got;
    my ($lines, $sum) = ($text // '') =~ /\A(.*?)^end (\d+)$/ms;
    # After a power cut a file system may have a longer text's size, and zeros for what wasn't on the disk.
    if (defined $sum && $sum == unpack('%32C*', $lines) && $text !~ /\0/) {
        $self->{out} = $lines;
        return;
    }
    my $why = defined $got ? 'is half written' : "can't be read: $!";
    KeptFile::say_words("$self->{file} $why, so what was held is missing here");
    # Otherwise zeros would stand behind what is held from here on.
    truncate $self->{handle}, 0 or KeptFile::say_words("$self->{file} can't be emptied: $!");
}

# Returns the line that stands for a group.
sub text_of {
    my $group = shift;
    return $group->{line} if $group->{count} == 1;
    my $sum = defined $group->{sum} ? " corrected=$group->{sum}" : '';
    return $group->{line} =~ s/\n$/ for=$group->{count}$sum\n/r;
}

sub texts_of { my $of = shift; return map { text_of($of->{$_}) } sort { $a <=> $b } keys %$of }

# Passes on what is held of these labels.
sub release {
    my ($self, $now, @keys) = @_;
    for my $key (@keys) {
        my $of = delete $self->{held}{$key};
        $self->{groups} -= keys %$of;
        $self->{out} .= $_ for texts_of($of);
        ($self->{until}{$key}, $self->{is_changed}) = ($now + $self->{seconds}, 1);
    }
}

sub release_all { my ($self, $now) = @_; $self->release($now, sort keys %{$self->{held}}) }

# Holds a line, if its label had one a short time ago; otherwise it passes.
sub hold {
    my ($self, $line, $key, $hour, $weight, $now) = @_;
    if (!$self->{held}{$key} && ($self->{until}{$key} // 0) <= $now) {
        $self->{until}{$key} = $now + $self->{seconds};
        $self->{out} .= $line;
        return;
    }
    my $group = $self->{held}{$key}{$hour} //= { count => 0 };
    $self->{groups}++ if !$group->{count}++;
    $group->{sum} += $weight if defined $weight;
    $group->{line} = $line;
    $self->{is_changed} = 1;
    $self->release_all($now) if $self->{groups} > $MOST_GROUPS;
}

# Takes whole lines.
sub take {
    my ($self, $lines) = @_;
    if (!$self->{seconds}) {
        $self->{out} .= $lines;
        return;
    }
    my $now = now();
    for my $line (split /^/m, $lines) {
        if ($line =~ $CORRECTED) {
            $self->hold($line, "log $3", int($1 / 3600), $2, $now);
        } elsif ($line =~ /^stale (\w+=\d+)/) {
            $self->hold($line, "stale $1", 0, undef, $now);
        } else {
            $self->{out} .= $line;
        }
    }
}

# Passes on what has been held long enough.
sub release_due {
    my $self = shift;
    my ($until, $held, $now) = ($self->{until}, $self->{held}, now());
    $self->release($now, grep { $until->{$_} <= $now } sort keys %$held) if %$held;
    delete @$until{grep { $until->{$_} <= $now && !$held->{$_} } keys %$until};
}

# Returns in how many seconds something that is held has to pass, or nothing if nothing is.
sub wait_of {
    my $self = shift;
    my ($now, $wait) = now();
    for my $due (map { $self->{until}{$_} } keys %{$self->{held}}) {
        $wait = $due - $now if !defined $wait || $due - $now < $wait;
    }
    return defined $wait && $wait < 0 ? 0 : $wait;
}

# Writes what is held, and the sum of its bytes: a kill may leave a part of a long text.
sub keep {
    my $self = shift;
    return if !$self->{handle} || !$self->{is_changed};
    my $text = join '', map { texts_of($self->{held}{$_}) } sort keys %{$self->{held}};
    $text .= 'end ' . unpack('%32C*', $text) . "\n";
    my $is_kept = sysseek($self->{handle}, 0, SEEK_SET) && (syswrite($self->{handle}, $text) // 0) == length $text;
    KeptFile::say_words("$self->{file} can't be written: $!") if !$is_kept && !$self->{is_told}++;
    $self->{is_changed} = 0;
}

# Removes the file, once what was held is written.
sub end {
    my $self = shift;
    return if !$self->{seconds};
    unlink $self->{file} or $! == ENOENT or KeptFile::say_words("$self->{file} can't be removed: $!");
}

1;
