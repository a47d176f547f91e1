# A file of lines with a bound. Once it would have more than TIMES times EVIDENCE_BYTES (default: 20000000), it becomes
# FILE.old, in place of an earlier one, and a new file begins, with the lines in `begins`.
#
# usage: require "$here/kept-file.pl"; my $file = KeptFile->new(NAME, TIMES); $file->add(LINES); $file->sync;
#
# A call that fails ends nobody: standard error says once that lines are missing there, and how many once calls succeed again.
# No half line stays: what a killed writer, a failed call or a crash left at the end is cut off, which standard error says.
package KeptFile;
use strict;
use warnings;
use Errno qw(EINTR EINVAL EIO ENOSPC);
use Fcntl qw(O_RDONLY O_RDWR O_APPEND O_CREAT O_NOFOLLOW O_DIRECTORY SEEK_SET SEEK_CUR);

sub new {
    my ($class, $name, $times) = @_;
    my $most = $ENV{EVIDENCE_BYTES} // 20_000_000;
    if ($most !~ /^[1-9]\d{0,14}$/) {
        say_words("EVIDENCE_BYTES is no number of bytes, so it is 20000000: $most");
        $most = 20_000_000;
    }
    my $folder = $name =~ s{[^/]*$}{.}r;
    my %begun = (begins => '', lost => 0, dirty => 0, synced => 0, unsynced => 0);
    return bless { name => $name, folder => $folder, most => $times * $most, %begun }, $class;
}

sub say_words {
    my $text = shift;
    my $script = $0 =~ s{.*/}{}r;
    $text = "$script: $text\n";
    # A child's end interrupts it.
    while (!defined syswrite STDERR, $text) { last if $! != EINTR }
}

# Returns how long the file is without a half line at its end, or nothing if it can't be read.
sub whole_size {
    my ($handle, $size) = @_;
    while ($size) {
        my $from = $size > 65536 ? $size - 65536 : 0;
        sysseek $handle, $from, SEEK_SET or return;
        my $got = sysread($handle, my $text, $size - $from) // return;
        # Of a part nobody can say where its last line ends.
        if ($got != $size - $from) { $! = EIO; return }
        my $end = rindex $text, "\n";
        return $from + $end + 1 if $end >= 0;
        $size = $from;
    }
    return 0;
}

# Opens the file, unless it is open; false if a call fails.
sub is_open {
    my $self = shift;
    return 1 if $self->{handle};
    sysopen my $handle, $self->{name}, O_RDWR | O_APPEND | O_CREAT | O_NOFOLLOW, 0640 or return 0;
    if (!-f $handle) { $! = EINVAL; return 0 }
    my $size = -s _;
    my $whole = whole_size($handle, $size);
    return 0 if !defined $whole || $whole < $size && !truncate $handle, $whole;
    say_words("$self->{name}: cut off " . ($size - $whole) . ' bytes of a line without its end') if $whole < $size;
    @$self{qw(handle size)} = ($handle, $whole);
    return 1;
}

# Gives a function what the file has, some whole lines at a time; false if a call fails.
sub reads {
    my ($self, $take) = @_;
    return 0 if !$self->is_open || !sysseek $self->{handle}, 0, SEEK_SET;
    my $text = '';
    while (my $got = sysread $self->{handle}, $text, 65536, length $text) {
        $take->(substr $text, 0, rindex($text, "\n") + 1, '');
    }
    return $self->{size} == sysseek $self->{handle}, 0, SEEK_CUR;
}

# Whether a text of this length has no room in the file.
sub is_full {
    my ($self, $length) = @_;
    return $self->is_open && $self->{size} && $self->{size} + $length > $self->{most};
}

# Syncs a file or folder; false if a call fails. The module takes a megabyte, so it is loaded once there is something to sync.
sub is_synced {
    require IO::Handle;
    return IO::Handle::sync(shift);
}

# Syncs the folder, so that a crash leaves the files' names as they are; false if a call fails.
sub is_folder_synced {
    my $self = shift;
    sysopen my $folder, $self->{folder}, O_RDONLY | O_DIRECTORY or return 0;
    return is_synced($folder);
}

# Lets the file become FILE.old, and begins a new one, if a text has no room; false if a call fails.
sub has_room {
    my ($self, $length) = @_;
    return 1 if !$self->is_full($length);
    $self->sync;
    rename $self->{name}, "$self->{name}.old" or return 0;
    delete $self->{handle};
    return $self->is_open && $self->is_folder_synced;
}

# Appends a text by one call, all of it or nothing.
sub is_written {
    my ($self, $text) = @_;
    my $wrote = syswrite $self->{handle}, $text;
    if (($wrote // 0) == length $text) {
        $self->{size} += $wrote;
        return $self->{dirty} = 1;
    }
    my $why = defined $wrote ? ENOSPC : $!;
    # A file that can't be cut is cut once it is opened again.
    delete $self->{handle} if !truncate $self->{handle}, $self->{size};
    $! = $why;
    return 0;
}

# Appends whole lines.
sub add {
    my ($self, $text) = @_;
    return if !length $text;
    my $has_room = $self->is_open && $self->has_room(length $text);
    if ($has_room && $self->is_written($self->{size} ? $text : $self->{begins} . $text)) {
        say_words("$self->{name}: $self->{lost} lines are missing") if $self->{lost};
        $self->{lost} = 0;
    } else {
        say_words("$self->{name} can't be written, so lines are missing there: $!") if !$self->{lost};
        $self->{lost} += $text =~ tr/\n//;
    }
}

# Whether something isn't on the disk yet.
sub is_dirty { return $_[0]{dirty} && $_[0]{handle} }

sub sync {
    my $self = shift;
    return if !$self->is_dirty;
    @$self{qw(dirty synced)} = (0, time);
    if (is_synced($self->{handle})) { $self->{unsynced} = 0 }
    elsif (!$self->{unsynced}++) { say_words("$self->{name} can't be synced: $!") }
}

# Syncs at most once in each second.
sub sync_sometimes {
    my $self = shift;
    $self->sync if $self->{synced} != time;
}

1;
