# Perl's Protocol::OSC, version 0.09: `read` and `write`. It has the arguments i, f, s, b, T, F, N and I, reads t too, and keeps a
# bundle's time tag as a number of seconds since 1970, which has not all of its bits.
use strict;
use warnings;
use Protocol::OSC;

binmode STDIN;
binmode STDOUT;
$SIG{__WARN__} = sub { };
my $osc = Protocol::OSC->new;

sub say_packet {
    my ($packet) = @_;
    return 'refused' unless ref $packet;
    if ($packet->isa('Protocol::OSC::Bundle')) {
        my ($seconds, $fraction) = $osc->time2tag($packet->time);
        return sprintf('#%08x%08x ', $seconds, $fraction) . join('', map say_packet($_), $packet->packets) . '. ';
    }
    my @args = $packet->args;
    my $line = '/' . unpack('H*', $packet->path) . ' ';
    for my $kind (split //, $packet->type) {
        if ($kind eq 'i') { $line .= sprintf 'i%08x ', shift @args }
        elsif ($kind eq 'f') { $line .= 'f' . unpack('H*', pack 'f>', shift @args) . ' ' }
        elsif ($kind eq 't') { $line .= sprintf 't%08x%08x ', shift @args, shift @args }
        elsif ($kind =~ /[sb]/) { $line .= $kind . unpack('H*', shift @args) . ' ' }
        else { $line .= "$kind " }
    }
    return "$line. ";
}

sub read_all {
    while (read(STDIN, my $size, 4) == 4) {
        my $length = unpack 'N', $size;
        read(STDIN, my $packet, $length) == $length or $length == 0 or die;
        print eval { say_packet($osc->parse($packet)) } // 'refused', "\n";
    }
}

# What `bundle` and `message` take: a list that begins with a time or an address.
sub tree {
    my ($tokens) = @_;
    my ($kind, $hex) = shift(@$tokens) =~ /^(.)(.*)$/;
    if ($kind eq '#') {
        my @inside = ($osc->tag2time(unpack 'N2', pack 'H*', $hex));
        push @inside, [tree($tokens)] while $tokens->[0] ne '.';
        shift @$tokens;
        return @inside;
    }
    my ($types, @args) = ('');
    while ((my $token = shift @$tokens) ne '.') {
        my ($tag, $digits) = $token =~ /^(.)(.*)$/;
        $types .= $tag;
        my $bytes = pack 'H*', $digits;
        if ($tag eq 'i') { push @args, unpack 'N', $bytes }
        elsif ($tag eq 'f') { push @args, unpack 'f>', $bytes }
        elsif ($tag =~ /[sb]/) { push @args, $bytes }
    }
    return (pack('H*', $hex), $types, @args);
}

sub write_all {
    while (my $line = <STDIN>) {
        my @tokens = split ' ', $line;
        my $bundle = $tokens[0] =~ /^#/;
        my @tree = tree(\@tokens);
        my $packet = $bundle ? $osc->bundle(@tree) : $osc->message(@tree);
        print pack('N/a*', $packet);
    }
}

my $what = shift // '';
if ($what eq 'read') { read_all() } elsif ($what eq 'write') { write_all() } else { exit 2 }
