#!/bin/sh
# Runs every command of `osc`, and compares the line that it says, what it says of trouble, its exit status and the files that
# it leaves with what they should be. The last line is 'N passed, M failed'; the exit status is 0 where none failed.
set -u
export LC_ALL=C

root=$(cd "$(dirname "$0")/.." && pwd -P) || exit 2
examples=$root/examples
room=$(mktemp -d) || exit 2
trap 'rm -rf "$room"' EXIT
cd "$room" || exit 2
passed=0 failed=0

# Counts a case; $1 is 0 where it is as it should be.
count() {
    if [ "$1" -eq 0 ]; then
        passed=$((passed + 1))
    else
        failed=$((failed + 1))
        printf 'differs: %s\n' "$2"
    fi
}

# expect STATUS LINE TROUBLE WORDS..: what `osc WORDS..` should end with, say and complain of.
expect() {
    status=$1 line=$2 trouble=$3
    shift 3
    said=$("$root/osc" "$@" 2>trouble)
    ended=$?
    [ "$ended" -eq "$status" ] && [ "$said" = "$line" ] && [ "$(cat trouble)" = "$trouble" ]
    count $? "osc $*: status $ended, said '$said', trouble '$(cat trouble)'"
    rm -f trouble
}

# shows START LINE WORDS..: a record that `osc look WORDS..` should show, and where its data begins.
shows() {
    start=$1 line=$2
    shift 2
    expect 0 "$line
start $start" '' look "$@"
}

# same FILE FILE: two files that should be equal.
same() {
    cmp -s "$1" "$2"
    count $? "$1 and $2 are not the same"
}

# gone FILE: no file of that name, or beside it, is left.
gone() {
    [ -z "$(find . -path "./$1*")" ]
    count $? "left behind: $(find . -path "./$1*")"
}

# refuses NUMBER WORDS BYTES [FRAMING]: what decoding the bytes, as printf writes them, should say; and no table is left.
refuses() {
    printf "$3" >input
    expect 1 "refused $1: $2" '' decode "${4-udp}" input refused.bin
    gone refused.bin
}

# reads LINE FRAMING BYTES: what decoding the bytes, as printf writes them, should say.
reads() {
    printf "$3" >input
    expect 0 "$1" '' decode "$2" input read.bin
}

# waits COUNT BYTES: what decoding the bytes by tcp2 should say, of which there are COUNT; and no table is left.
old_table='/\0\0\0\0\0\0\001\0\0\0\0\0\0\0\001\0\0\0\0'
waits() {
    printf "$old_table" >waiting.bin
    printf "$2" >input
    expect 3 "waiting: $1 bytes, nothing read" '' decode tcp2 input waiting.bin
    gone waiting.bin
}

# stops LEFT REFUSAL BYTES [OPTION..]: what decoding the bytes by tcp2-vec, after a frame of 12 bytes, should say; and the record of that
# frame's message is left.
slash_a='\0\0\0\010/a\0\0,\0\0\0'
stops() {
    printf "$slash_a$3" >input
    line="stopped: packets: 1, records: 1, bytes left: $1, refused $2, frame at offset 12"
    shift 3
    expect 4 "$line" '' decode tcp2-vec input stopped.bin "$@"
    same stopped.bin slash_a.bin
}

# The examples, there and back.
for name in message bundle; do
    "$root/osc" decode udp "$examples/$name.osc" $name.bin >/dev/null
    count $? "decode of $name"
    "$root/osc" encode udp $name.bin "$examples/$name.osc" $name.out >/dev/null
    count $? "encode of $name"
    same "$examples/$name.osc" $name.out
done
same "$examples/message.osc" "$root/crates/osc_tool/data/message.osc"
expect 0 'packets: 1, records: 5, bytes left: 0' '' decode udp "$examples/message.osc" message.bin
expect 0 'written: 44 bytes' '' encode udp message.bin "$examples/message.osc" message.out --replace
expect 0 'packets: 1, records: 7, bytes left: 0' '' decode udp "$examples/bundle.osc" bundle.bin
expect 0 'packets: 3, records: 6, bytes left: 0' '' decode tcp-vec "$examples/stream.osc" stream.bin
expect 0 'packets: 1, records: 2, bytes left: 44' '' decode tcp "$examples/stream.osc" first.bin
expect 0 'written: 48 bytes' '' encode tcp message.bin "$examples/message.osc" framed.out
expect 0 'packets: 1, records: 5, bytes left: 0' '' decode tcp framed.out framed.bin
expect 0 'written: 108 bytes' '' encode tcp bundle.bin "$examples/bundle.osc" bundle.out --replace
head -c 20 framed.out >part
printf "$old_table" >waiting.bin
expect 3 'waiting: 20 bytes, nothing read' '' decode tcp part waiting.bin
gone waiting.bin
expect 0 'packets: 0, records: 0, bytes left: 20' '' decode tcp-vec part none.bin

# Edition 2: the length cuts the packet, so that a bundle takes no frame after it; in edition 1 it does. A bundle is written behind its
# length too, and read back.
expect 0 'packets: 2, records: 9, bytes left: 0' '' decode tcp2-vec "$examples/frames.osc" frames.bin
shows 4 'record 0: # seconds 3932381312 fraction 2147483648, end 7' frames.bin 0
shows 116 'record 7: / offset 116 length 7, end 9' frames.bin 7
expect 0 'packets: 1, records: 9, bytes left: 0' '' decode tcp-vec "$examples/frames.osc" taken.bin
expect 0 'packets: 1, records: 7, bytes left: 20' '' decode tcp2 "$examples/frames.osc" first.bin
expect 0 'packets: 3, records: 6, bytes left: 0' '' decode tcp2-vec "$examples/stream.osc" stream2.bin
same stream2.bin stream.bin
expect 0 'written: 112 bytes' '' encode tcp2 bundle.bin "$examples/bundle.osc" bundle2.out
head -c 112 "$examples/frames.osc" >bundle2.osc
same bundle2.out bundle2.osc
expect 0 'packets: 1, records: 7, bytes left: 0' '' decode tcp2 bundle2.out bundle2.bin
expect 0 'written: 112 bytes' '' encode tcp2 bundle2.bin bundle2.out again.out
same again.out bundle2.out
expect 0 'written: 48 bytes' '' encode tcp2 message.bin "$examples/message.osc" framed2.out
same framed2.out framed.out

# Fewer than 4 bytes and a frame that is not all there wait. An empty list has no packets and nothing left; what waits is left of a list.
waits 0 ''
waits 3 '\0\0\0'
waits 8 '\0\0\0\010/a\0\0'
reads 'packets: 0, records: 0, bytes left: 0' tcp2-vec ''
reads 'packets: 0, records: 0, bytes left: 3' tcp2-vec '\0\0\0'
reads 'packets: 1, records: 1, bytes left: 8' tcp2-vec "$slash_a"'\0\0\0\010/a\0\0'

# A list of edition 2 stops at a frame that is refused, also at its first, and what stands before it is kept. 20 cannot be met: a frame has
# a multiple of 4 bytes, and so padding is never short there. A refused frame adds no dirty padding.
too_long='1: decode input over 65,535 bytes, or encoded result (prefix included) over it, or frame length over 65,531'
printf '/\0\0\0\0\0\0\001\0\0\0\004\0\0\0\002\0\0\0\004' >slash_a.bin
stops 4 "$too_long" '\0\0\377\374'
stops 4 '16: frame length not a multiple of 4' '\0\0\0\006'
stops 4 '2: a packet of no bytes' '\0\0\0\0'
stops 8 '4: text is not UTF-8' '\0\0\0\004/\377\0\0'
stops 8 '5: first string is neither /-led nor exactly #bundle' '\0\0\0\004a\0\0\0'
stops 12 '6: ] with no array open' '\0\0\0\010/a\0\0,]\0\0'
stops 12 '7: unknown type tag' '\0\0\0\010/a\0\0,x\0\0'
stops 16 '8: c is not a scalar number' '\0\0\0\014/a\0\0,c\0\0\0\0\330\0'
stops 8 '17: the address at offset 16 is not all there' '\0\0\0\004/abc'
stops 8 '18: the type text at offset 20 is not all there' '\0\0\0\004/a\0\0'
stops 12 '19: the argument data at offset 24 is not all there' '\0\0\0\010/a\0\0,i\0\0'
stops 12 '21: the prefix or time tag at offset 24 is not all there' '\0\0\0\010#bundle\0'
stops 16 '15: bytes left in the frame' '\0\0\0\014/a\0\0,\0\0\0\0\0\0\0'
stops 20 '9: bundles and arrays nested deeper than the limit' '\0\0\0\020#bundle\0\0\0\0\0\0\0\0\001' --depth 0
printf '\0\0\0\0' >input
expect 4 'stopped: packets: 0, records: 0, bytes left: 4, refused 2: a packet of no bytes, frame at offset 0' '' \
    decode tcp2-vec input stopped.bin
same stopped.bin /dev/null
printf '\0\0\0\010/a\0\001,\0\0\0\0\0\0\010/\0\001\001,x\0\0' >input
expect 4 'stopped: packets: 1, records: 1, bytes left: 12, dirty padding bytes: 1, refused 7: unknown type tag, frame at offset 12' '' \
    decode tcp2-vec input stopped.bin
same stopped.bin slash_a.bin
# What is refused as a whole, and leaves no table: a list with too many records, whatever comes after, and the first frame alone.
printf "$slash_a$slash_a"'\0\0\0\0' >input
expect 1 'refused 10: the result has more records than the capacity' '' decode tcp2-vec input stopped.bin --records 1
gone stopped.bin
refuses 16 'frame length not a multiple of 4' '\0\0\0\006' tcp2
refuses 15 'bytes left in the frame' '\0\0\0\014/a\0\0,\0\0\0\0\0\0\0' tcp2
refuses 18 'the type text at offset 8 is not all there' '\0\0\0\004/a\0\0,\0\0\0' tcp2
printf '\0\0\377\374' >input
expect 1 "refused $too_long" '' decode tcp2 input refused.bin

# Dirty padding is told where there is any: of an address and a type text, of a text and a blob, and of a list the sum. The data of a blob,
# the bytes that are left over and an argument that is lost have none. A clean packet is told as the examples above are.
reads 'packets: 1, records: 1, bytes left: 0, dirty padding bytes: 3' udp '/\0\252\0,\0\273\001'
reads 'packets: 1, records: 3, bytes left: 0, dirty padding bytes: 1' udp '/a\0\0,sb\0t\0\0\001\0\0\0\001\377\0\0\0'
reads 'packets: 1, records: 2, bytes left: 2, dirty padding bytes: 2' udp '/\0\0\0,b\0\0\0\0\0\001\377\252\0\273xx'
reads 'packets: 1, records: 1, bytes left: 12, dirty padding bytes: 1' tcp '\0\0\0\010/\0\0\001,\0\0\0\0\0\0\010/\0\002\002,\0\002\002'
reads 'packets: 2, records: 2, bytes left: 0, dirty padding bytes: 5' tcp-vec '\0\0\0\010/\0\0\001,\0\0\0\0\0\0\010/\0\002\002,\0\002\002'
reads 'packets: 2, records: 2, bytes left: 0' tcp-vec '\0\0\0\010/\0\0\0,\0\0\0\0\0\0\010/\0\0\0,\0\0\0'
reads 'packets: 1, records: 1, bytes left: 0' udp '/a\0\0,s[\0t\0\252\273'

# The records of the examples.
shows 0 'record 0: / offset 0 length 22, end 5' message.bin 0
shows 32 'record 1: f bits 0x3f400000, end 2' message.bin 1
shows 36 'record 2: i 3, end 3' message.bin 2
shows 40 'record 3: s offset 40 length 3, end 4' message.bin 3
shows 44 'record 4: T, end 5' message.bin 4
shows 0 'record 0: # seconds 3932381312 fraction 2147483648, end 7' bundle.bin 0
shows 60 'record 5: r 255 128 0 255, end 6' stream.bin 5

# Every other kind, and the ends of the signed numbers.
{
    printf 'i\0\0\0\0\0\0\001\377\377\377\377\0\0\0\0\0\0\0\144i\0\0\0\0\0\0\002\200\0\0\0\0\0\0\0\0\0\0\144'
    printf 'h\0\0\0\0\0\0\003\377\377\377\377\377\377\377\377\0\0\0\144h\0\0\0\0\0\0\004\200\0\0\0\0\0\0\0\0\0\0\144'
    printf 'h\0\0\0\0\0\0\005\0\0\0\001\0\0\0\0\0\0\0\144d\0\0\0\0\0\0\006\100\011\041\373\124\104\055\030\0\0\0\144'
    printf 'c\0\0\0\0\0\0\007\0\001\366\000\0\0\0\0\0\0\0\144m\0\0\0\0\0\0\010\001\220\074\177\0\0\0\0\0\0\0\144'
    printf 't\0\0\0\0\0\0\011\0\0\0\0\0\0\0\001\0\0\0\144b\0\0\0\0\0\0\012\0\0\0\010\0\0\0\003\0\0\0\144'
    printf 'F\0\0\0\0\0\0\013\0\0\0\0\0\0\0\0\0\0\0\144N\0\0\0\0\0\0\014\0\0\0\0\0\0\0\0\0\0\0\144'
    printf 'I\0\0\0\0\0\0\015\0\0\0\0\0\0\0\0\0\0\0\144[\0\0\0\0\0\0\016\0\0\0\0\0\0\0\0\0\0\0\144'
    printf 'i\0\0\001\0\0\0\017\0\0\0\0\0\0\0\0\0\0\0\144'
} >kinds.bin
shows 100 'record 0: i -1, end 1' kinds.bin 0
shows 100 'record 1: i -2147483648, end 2' kinds.bin 1
shows 100 'record 2: h -1, end 3' kinds.bin 2
shows 100 'record 3: h -9223372036854775808, end 4' kinds.bin 3
shows 100 'record 4: h 4294967296, end 5' kinds.bin 4
shows 100 'record 5: d bits 0x400921fb54442d18, end 6' kinds.bin 5
shows 100 'record 6: c 128512, end 7' kinds.bin 6
shows 100 'record 7: m 1 144 60 127, end 8' kinds.bin 7
shows 100 'record 8: t seconds 0 fraction 1, end 9' kinds.bin 8
shows 100 'record 9: b offset 8 length 3, end 10' kinds.bin 9
shows 100 'record 10: F, end 11' kinds.bin 10
shows 100 'record 11: N, end 12' kinds.bin 11
shows 100 'record 12: I, end 13' kinds.bin 12
shows 100 'record 13: [, end 14' kinds.bin 13
bad_table='refused 11: table not well formed, or a record asked for does not exist'
expect 1 "$bad_table" '' look kinds.bin 14
expect 1 "$bad_table" '' look kinds.bin 15

# The refusals. 12 and 14 cannot be met: the output has room for every result, and no command calls `pad`.
head -c 65535 /dev/zero | tr '\0' a >at_most
head -c 65536 /dev/zero | tr '\0' a >one_more
expect 1 'refused 17: the address at offset 0 is not all there' '' decode udp at_most refused.bin
expect 1 "refused $too_long" '' decode udp one_more refused.bin
expect 1 "refused $too_long" '' decode tcp2-vec one_more refused.bin
refuses 2 'a packet of no bytes' ''
refuses 4 'text is not UTF-8' '/\377\0\0'
refuses 5 'first string is neither /-led nor exactly #bundle' 'a\0\0\0'
refuses 6 '] with no array open' '/a\0\0,]\0\0'
refuses 7 'unknown type tag' '/a\0\0,x\0\0'
refuses 8 'c is not a scalar number' '/a\0\0,c\0\0\0\0\330\0'
refuses 17 'the address at offset 0 is not all there' '#'
refuses 18 'the type text at offset 4 is not all there' '/\0\0\0'
refuses 19 'the argument data at offset 12 is not all there' '/a\0\0,is\0\0\0\0\001abc'
refuses 20 'the padding at offset 13 is not all there' '/a\0\0,b\0\0\0\0\0\001a'
refuses 21 'the prefix or time tag at offset 8 is not all there' '#bundle\0\0\0\0\0'
# In a stream the offset counts from its first byte: here a fourth frame is short, and then its prefix is.
{ cat "$examples/stream.osc" && printf '\0\0\0\004/abc'; } >cut.osc
expect 1 'refused 17: the address at offset 68 is not all there' '' decode tcp-vec cut.osc refused.bin
head -c 67 cut.osc >cut_more.osc
expect 1 'refused 21: the prefix or time tag at offset 64 is not all there' '' decode tcp-vec cut_more.osc refused.bin
gone refused.bin
too_deep='refused 9: bundles and arrays nested deeper than the limit'
expect 1 "$too_deep" '' decode udp "$examples/bundle.osc" refused.bin --depth 0
# An array in one that is not closed, and an array in a bundle.
printf '/a\0\0,[[T]\0\0\0' >open.osc
expect 1 "$too_deep" '' decode udp open.osc refused.bin --depth 0
expect 0 'packets: 1, records: 3, bytes left: 0' '' decode udp open.osc kept.bin --depth 1
printf '#bundle\0\0\0\0\0\0\0\0\001\0\0\0\010/a\0\0,[]\0' >array.osc
expect 1 "$too_deep" '' decode udp array.osc refused.bin --depth 1
expect 0 'packets: 1, records: 3, bytes left: 0' '' decode udp array.osc kept.bin --depth 2
expect 1 'refused 10: the result has more records than the capacity' '' \
    decode udp "$examples/bundle.osc" refused.bin --depth 1 --records 6
expect 0 'packets: 1, records: 7, bytes left: 0' '' decode udp "$examples/bundle.osc" kept.bin --records 7 --depth 1
expect 1 "$bad_table" '' encode udp stream.bin "$examples/stream.osc" refused.bin
expect 1 'refused 13: depth limit over 64' '' decode udp "$examples/message.osc" refused.bin --depth 65
printf '/\0\0\0\0\0\0\003\0\0\0\0\0\0\0\001\0\0\0\0s\0\0\0\0\0\0\002\0\0\0\0\0\0\234\100\0\0\0\0' >long.bin
printf 's\0\0\0\0\0\0\003\0\0\0\0\0\0\234\100\0\0\0\0' >>long.bin
expect 1 "refused $too_long" '' encode udp long.bin at_most refused.bin
gone refused.bin

# Help, by a link in another folder.
ln -s "$root/osc" link
sed -n '/^const HELP/,/^";$/p' "$root/crates/tool_files/src/say.rt" | sed '1d;$d' >help.txt
./link help >help.said
same help.said help.txt
# What a reader relies on stands here a second time: the statuses.
cat >statuses <<'END'
Exit status: 0 an answer; 1 a refusal; 2 trouble with a word or a file; 3 Waiting; 4 tcp2-vec, index, check or shift stopped at a frame;
5 the answer could not be written to standard output.
After 1 and 3 no TABLE, PACKET or OUTPUT is left. After 2 nothing was changed. After 4 TABLE or INDEX holds what stands before that frame,
and OUT is as it was. After 5 the files are as the answer says, which is on standard error.
END
tail -n 4 help.said >statuses.said
same statuses.said statuses

expect 0 "$(./link help)" '' --help
expect 0 "$(./link help)" '' -h
expect 0 "osc $(sed -n 's/^#define SENNORBAI_VERSION "\(.*\)"$/\1/p' "$root/include/osc.h")" '' --version

# Wrong words.
decode_takes='osc: decode takes udp|tcp|tcp-vec|tcp2|tcp2-vec INPUT TABLE [--depth N] [--records N] [--replace]'
not_number='osc: not a number of at most nine digits: '
expect 2 '' 'osc: the first word is not decode, encode, look, index, check, cue, time, shift, help or --version: '
expect 2 '' 'osc: the first word is not decode, encode, look, index, check, cue, time, shift, help or --version: decoded' decoded
expect 2 '' "$decode_takes" decode udp input
expect 2 '' "$decode_takes" decode udp input table.bin --depth
expect 2 '' 'osc: not udp, tcp, tcp-vec, tcp2 or tcp2-vec: tc' decode tc input table.bin
expect 2 '' 'osc: not udp, tcp, tcp-vec, tcp2 or tcp2-vec: tcp2-' decode tcp2- input table.bin
expect 2 '' 'osc: not --depth or --records: --deep' decode udp input table.bin --deep 1
expect 2 '' 'osc: given twice: --depth' decode udp input table.bin --depth 1 --depth 2
expect 2 '' 'osc: given twice: --records' decode udp input table.bin --records 1 --records 2
expect 2 '' "${not_number}1x" decode udp input table.bin --depth 1x
expect 2 '' "$not_number" decode udp input table.bin --depth ''
expect 2 '' "${not_number}1000000000" decode udp input table.bin --depth 1000000000
expect 2 '' 'osc: more than 65535 for --records: 65536' decode udp input table.bin --records 65536
expect 2 '' 'osc: encode takes udp|tcp|tcp2 TABLE SOURCE OUTPUT [--replace]' encode udp message.bin
one_packet='osc: encode writes one packet: udp, tcp or tcp2, not '
expect 2 '' "${one_packet}tcp-vec" encode tcp-vec message.bin input table.bin
expect 2 '' "${one_packet}tcp2-vec" encode tcp2-vec message.bin input table.bin
look_takes='osc: look takes TABLE INDEX [--rule a|b]'
expect 2 '' "$look_takes" look message.bin
expect 2 '' "$not_number-1" look message.bin -1
gone table.bin

# Times (Ticket 7). The lines stand here as another program computed them.
# says_time RULE WORD LINE: what `osc time RULE WORD` should say after its first word; late, early RULE WORD: that it is refused.
says_time() {
    expect 0 "time: $3" '' time "$1" "$2"
}
late() {
    expect 1 'refused 27: later than the rule allows' '' time "$1" "$2"
}
early() {
    expect 1 'refused 28: before 1970' '' time "$1" "$2"
}
says_time a 0 '0.000000000 s, tag 83aa7e8000000000, 1970-01-01T00:00:00.000000000Z'
says_time b 0.000000001 '0.000000001 s, tag 83aa7e8000000004, 1970-01-01T00:00:00.000000001Z'
says_time a 1.5 '1.500000000 s, tag 83aa7e8180000000, 1970-01-01T00:00:01.500000000Z'
says_time a 83AA7E8180000000 '1.500000000 s, tag 83aa7e8180000000, 1970-01-01T00:00:01.500000000Z'
says_time a 001763424000.000 '1763424000.000000000 s, tag ecc6358000000000, 2025-11-18T00:00:00.000000000Z'
says_time a ECC5B100ABCDEF12 '1763390080.671111051 s, tag ecc5b100abcdef12, 2025-11-17T14:34:40.671111051Z'
says_time b ecc5b100abcdef12 '1763390080.671111051 s, tag ecc5b100abcdef12, 2025-11-17T14:34:40.671111051Z'
# The last second of each rule, the wrap of 2036, and a carry past the last second.
says_time a 2085978495.999999999 '2085978495.999999999 s, tag fffffffffffffffc, 2036-02-07T06:28:15.999999999Z'
says_time a FFFFFFFFFFFFFFFF '2085978496.000000000 s, tag ffffffffffffffff, 2036-02-07T06:28:16.000000000Z'
late a 2085978496
says_time b 2085978496 '2085978496.000000000 s, tag 0000000000000000, 2036-02-07T06:28:16.000000000Z'
says_time b 4233462143.999999999 '4233462143.999999999 s, tag 7ffffffffffffffc, 2104-02-26T09:42:23.999999999Z'
says_time b 7FFFFFFFFFFFFFFF '4233462144.000000000 s, tag 7fffffffffffffff, 2104-02-26T09:42:24.000000000Z'
late b 4233462144
late b 9223372036854775807.999999999
# Before 1970: a carry into it, the immediate tag, the oldest tag of rule b, and a minus, also with no whole second.
says_time a 83AA7E7FFFFFFFFE '0.000000000 s, tag 83aa7e7ffffffffe, 1970-01-01T00:00:00.000000000Z'
early b 83AA7E7FFFFFFFFD
early a 0000000000000001
says_time b 0000000000000001 '2085978496.000000000 s, tag 0000000000000001, 2036-02-07T06:28:16.000000000Z'
early b 8000000000000000
early a -1
early b -0.000000001
early a -9223372036854775807
says_time a -0.0 '0.000000000 s, tag 83aa7e8000000000, 1970-01-01T00:00:00.000000000Z'
# 16 digits are a tag, and 15 or 17 seconds; with a dot 16 are seconds too.
early a 1234567890123456
says_time b 1234567890123456 '2391398392.562777778 s, tag 1234567890123456, 2045-10-12T05:19:52.562777778Z'
late b 123456789012345
late b 12345678901234567
late b 1234567890123456.0
# Leap days, and the end of February 2100, which has none.
says_time a 951782400 '951782400.000000000 s, tag bc658a8000000000, 2000-02-29T00:00:00.000000000Z'
says_time b 4107542399 '4107542399.000000000 s, tag 787e9dff00000000, 2100-02-28T23:59:59.000000000Z'
says_time b 4107542400 '4107542400.000000000 s, tag 787e9e0000000000, 2100-03-01T00:00:00.000000000Z'
# The first and the last second of each month of a leap year and of another, against `date`.
if [ "$(date -u -d @4107542400 +%Y-%m-%dT%H:%M:%S 2>/dev/null)" = 2100-03-01T00:00:00 ]; then
    for month in 1 2 3 4 5 6 7 8 9 10 11 12; do
        for year in 2024 2103; do
            start=$(date -u -d "$year-$month-1" +%s)
            for second in "$start" $((start - 1)); do
                said=$("$root/osc" time b "$second")
                [ "${said##*, }" = "$(date -u -d "@$second" +%Y-%m-%dT%H:%M:%S.000000000Z)" ]
                count $? "osc time b $second: said '$said'"
            done
        done
    done
else
    printf 'note: tests/osc_tool.sh: date does not tell the date of a second: the months of two years left out\n'
fi
# Words that are no time, or no rule.
for word in '' . 1. .5 -.5 - -- --1 +1 1.0000000000 1.5.5 1,5 1e3 0x1 ' 1' 1.-5 ECC5B100ABCDEF1 ECC5B100ABCDEF123 ECC5B100ABCDEFG2 \
    9223372036854775808 18446744073709551616; do
    expect 2 '' "osc: neither a tag of 16 hexadecimal digits nor seconds, with at most 9 digits after a dot: $word" time a "$word"
done
for word in '' A c ab; do
    expect 2 '' "osc: the rule is a or b, not $word" time "$word" 0
done
time_takes='osc: time takes a|b TAG, or a|b SECONDS'
expect 2 '' "$time_takes" time
expect 2 '' "$time_takes" time a
expect 2 '' "$time_takes" time a 1 2
expect 2 '' 'osc: only decode, encode, index, cue and shift take --replace' time a 1 --replace
# A record's time by a rule, after what is said of the record: of a bundle and of a t; of other records and of refused ones nothing.
printf '#bundle\0\0\0\0\0\0\0\0\001\0\0\0\020/a\0\0,t\0\0\354\306\065\200\200\0\0\0' >input
expect 0 'packets: 1, records: 3, bytes left: 0' '' decode udp input times.bin
expect 0 'record 0: # seconds 0 fraction 1, end 3
start 0
refused 28: before 1970' '' look times.bin 0 --rule a
expect 0 'record 0: # seconds 0 fraction 1, end 3
start 0
time: 2085978496.000000000 s, tag 0000000000000001, 2036-02-07T06:28:16.000000000Z' '' look times.bin 0 --rule b
expect 0 'record 2: t seconds 3972412800 fraction 2147483648, end 3
start 28
time: 1763424000.500000000 s, tag ecc6358080000000, 2025-11-18T00:00:00.500000000Z' '' look times.bin 2 --rule a
shows 20 'record 1: / offset 20 length 2, end 3' times.bin 1 --rule a
shows 28 'record 2: t seconds 3972412800 fraction 2147483648, end 3' times.bin 2
expect 1 'refused 11: table not well formed, or a record asked for does not exist' '' look times.bin 3 --rule a
cp times.bin ./--rule
shows 20 'record 1: / offset 20 length 2, end 3' --rule 1 --rule b
rm ./--rule
expect 2 '' "$look_takes" look times.bin 0 --rule
expect 2 '' "$look_takes" look times.bin 0 --rules a
expect 2 '' "$look_takes" look times.bin 0 --rule a b
expect 2 '' "osc: the rule is a or b, not c" look times.bin 0 --rule c
expect 2 '' "$not_number-1" look times.bin -1 --rule a

# Files that cannot be read.
head -c 1310701 /dev/zero >large.bin
head -c 21 /dev/zero >odd.bin
expect 2 '' 'osc: missing: No such file or directory' decode udp missing table.bin
expect 2 '' 'osc: .: Is a directory' decode udp . table.bin
expect 2 '' 'osc: the name of a file is empty' decode udp '' table.bin
expect 2 '' 'osc: missing: No such file or directory' encode udp missing input table.bin
expect 2 '' 'osc: missing: No such file or directory' encode udp message.bin missing table.bin
expect 2 '' 'osc: large.bin: the file is too large: it has at least 1310701 bytes' look large.bin 0
expect 2 '' 'osc: large.bin: the file is too large: it has at least 1310701 bytes' encode udp large.bin input table.bin
expect 2 '' 'osc: one_more: the file is too large: it has at least 65536 bytes' encode udp message.bin one_more table.bin
expect 2 '' 'osc: odd.bin: a table has a multiple of 20 bytes, and this has 21 bytes' look odd.bin 0
gone table.bin

# An output that is an input, by its name, by another name, by a link of either kind: the input is kept.
same_file=': the output is the same file, or cannot be told from it'
cp "$examples/message.osc" kept.osc
ln kept.osc hard.osc
ln -s kept.osc soft.osc
for name in kept.osc ./kept.osc hard.osc soft.osc; do
    expect 2 '' "osc: kept.osc$same_file" decode udp kept.osc $name
done
cp message.bin kept.bin
expect 2 '' "osc: kept.bin$same_file" encode udp kept.bin kept.osc kept.bin
expect 2 '' "osc: kept.osc$same_file" encode udp kept.bin kept.osc kept.osc
same kept.osc "$examples/message.osc"
same kept.bin message.bin

# A refusal leaves no table that a script could take for this input's.
cp message.bin stale.bin
printf '/\0\0\0' >input
expect 1 'refused 18: the type text at offset 4 is not all there' '' decode udp input stale.bin
gone stale.bin

# Files that cannot be written: the old one is kept, and nothing is left beside it.
expect 2 '' 'osc: nowhere/table.bin: No such file or directory' decode udp "$examples/message.osc" nowhere/table.bin
expect 2 '' 'osc: the name of a file is empty' decode udp "$examples/message.osc" ''
mkdir folder
expect 2 '' 'osc: folder: Is a directory' decode udp "$examples/message.osc" folder
# A device that is made here stands for one: as root a broken program would replace the real one.
device=device
mknod device c 1 3 2>/dev/null || {
    device=
    printf 'note: tests/osc_tool.sh: no device can be made here: 2 cases left out\n'
}
[ -z "$device" ] || expect 2 '' 'osc: device: not a file that can be replaced' decode udp "$examples/message.osc" device
mkfifo pipe
expect 2 '' 'osc: pipe: not a file that can be replaced' decode udp "$examples/message.osc" pipe
printf 'kept' >old.bin
# A limit on the size of files stands in for a full disk: the write of the first byte fails.
said=$(
    ulimit -f 0
    "$root/osc" decode udp "$examples/message.osc" old.bin --replace 2>&1
    "$root/osc" decode udp "$examples/message.osc" new.bin 2>&1
)
[ "$said" = "$(printf 'osc: old.bin: File too large\nosc: new.bin: File too large')" ] && [ "$(cat old.bin)" = kept ]
count $? "with no room: said '$said', and old.bin holds '$(cat old.bin)'"
gone old.bin.part
gone new.bin
# A folder that may not be written. Root may write every folder, so there the program is nobody.
mkdir locked
chmod 755 .
chmod 555 locked
cp "$root/target/bin/osc_tool" "$examples/message.osc" .
drop=
[ "$(id -u)" -ne 0 ] || drop='setpriv --reuid=65534 --regid=65534 --clear-groups'
# The script's folder may be closed to nobody, so the program is run without it: on another processor than x86-64, as the script runs it.
by=
if [ "$(uname -m)" != x86_64 ]; then
    kit=$(dirname "$(rt doc)")
    by="qemu-x86_64 $kit/toolchain/lib/ld-linux-x86-64.so.2 --library-path $kit/toolchain/lib"
fi
said=$($drop $by ./osc_tool decode udp message.osc locked/table.bin 2>&1)
[ "$said" = 'osc: locked/table.bin: Permission denied' ]
count $? "in a locked folder: said '$said'"
gone locked/table.bin
expect 0 'packets: 1, records: 5, bytes left: 0' '' decode udp "$examples/message.osc" old.bin --replace
same old.bin message.bin

# ---- The cue index of a recording: frames of edition 2 end to end.

# be BYTES NUMBER: a number as printf writes its bytes, the highest first.
be() {
    place=$1
    while [ "$place" -gt 0 ]; do
        place=$((place - 1))
        printf '\\%03o' $(($2 >> 8 * place & 255))
    done
}

# entry OFFSET LENGTH RECORDS: a record of an index, as printf writes it.
entry() {
    be 8 "$1"
    be 4 "$2"
    be 4 "$3"
}

# indexes STATUS LINE RECORDS BYTES: what `osc index` of the bytes should say, and the index that it should leave, both as printf writes
# them; the check of that index fits, and ends as the index does, with the same status.
indexes() {
    printf "$4" >recording
    indexes_file "$1" "$2" "$3" recording
}

# indexes_file STATUS LINE RECORDS FILE: the same of a file.
indexes_file() {
    printf "$3" >expected.idx
    expect "$1" "$2" '' index "$4" written.idx
    same written.idx expected.idx
    expect "$1" "index fits: ${2#index: }" '' check "$4" written.idx
}

# differs RECORD: what the check of changed.idx against three.osc should say.
differs() {
    expect 1 "refused 25: index differs, record $1" '' check three.osc changed.idx
}

slash_i='\0\0\0\014/a\0\0,i\0\0\0\0\0\007'
empty_bundle='\0\0\0\020#bundle\0\0\0\0\0\0\0\0\001'
three="$slash_a$slash_i$empty_bundle"
three_records="$(entry 0 8 1)$(entry 12 12 2)$(entry 28 16 1)"
indexes 0 'index: 0 records, whole' '' ''
indexes 0 'index: 1 records, whole' "$(entry 0 8 1)" "$slash_a"
indexes 0 'index: 3 records, whole' "$three_records" "$three"
indexes_file 0 'index: 2 records, whole' "$(entry 0 108 7)$(entry 112 16 2)" "$examples/frames.osc"
cp recording three.osc
printf "$three_records" >three.idx

# It stops at a frame that is not all there, and the check accepts the index that ends there.
for part in '\0' '\0\0\0' '\0\0\0\010' '\0\0\0\010/a\0\0' '\0\0\0\010/a\0\0,\0\0'; do
    indexes 4 'index: 3 records, stopped at 48: waiting' "$three_records" "$three$part"
done
indexes 4 'index: 0 records, stopped at 0: waiting' '' '\0\0\0'

# It stops at a frame that is refused, whatever comes after it: in the words of `decode`, and a field that was short by its offset in the
# recording.
stopped_index() {
    indexes 4 "index: 3 records, stopped at 48: refused $1" "$three_records" "$three$2$slash_a"
}
over='1: decode input over 65,535 bytes, or encoded result (prefix included) over it, or frame length over 65,531'
stopped_index "$over" '\0\0\377\374'
stopped_index "$over" '\377\377\377\377'
stopped_index '16: frame length not a multiple of 4' '\0\0\0\006'
stopped_index '2: a packet of no bytes' '\0\0\0\0'
stopped_index '4: text is not UTF-8' '\0\0\0\004/\377\0\0'
stopped_index '5: first string is neither /-led nor exactly #bundle' '\0\0\0\004a\0\0\0'
stopped_index '6: ] with no array open' '\0\0\0\010/a\0\0,]\0\0'
stopped_index '7: unknown type tag' '\0\0\0\010/a\0\0,x\0\0'
stopped_index '8: c is not a scalar number' '\0\0\0\014/a\0\0,c\0\0\0\0\330\0'
stopped_index '17: the address at offset 52 is not all there' '\0\0\0\004/abc'
stopped_index '18: the type text at offset 56 is not all there' '\0\0\0\004/a\0\0'
stopped_index '19: the argument data at offset 60 is not all there' '\0\0\0\010/a\0\0,i\0\0'
stopped_index '21: the prefix or time tag at offset 60 is not all there' '\0\0\0\010#bundle\0'
stopped_index '15: bytes left in the frame' '\0\0\0\014/a\0\0,\0\0\0\0\0\0\0'
indexes 4 'index: 0 records, stopped at 0: refused 2: a packet of no bytes' '' '\0\0\0\0'
indexes 4 'index: 0 records, stopped at 0: refused 17: the address at offset 4 is not all there' '' '\0\0\0\004/abc'

# letters COUNT LETTER: a letter so many times.
letters() {
    head -c "$1" /dev/zero | tr '\0' "$2"
}

# A frame is accepted at depth 64 and with 3,276 records; with one level or record more it is not.
deep() { printf '\0\0\0%b/\0\0\0,%s%s\0%b' "$1" "$(letters "$2" '[')" "$(letters "$2" ']')" "$3"; }
deep '\210' 64 '\0\0' >deep.osc
indexes_file 0 'index: 1 records, whole' "$(entry 0 136 65)" deep.osc
deep '\210' 65 '' >deeper.osc
indexes_file 4 'index: 0 records, stopped at 0: refused 9: bundles and arrays nested deeper than the limit' '' deeper.osc
many() { printf '\0\0\014\324/\0\0\0,%s\0%b' "$(letters "$1" T)" "$2"; }
many 3275 '\0\0\0' >many.osc
indexes_file 0 'index: 1 records, whole' "$(entry 0 3284 3276)" many.osc
many 3276 '\0\0' >more.osc
indexes_file 4 'index: 0 records, stopped at 0: refused 10: the result has more records than the capacity' '' more.osc

# The longest frame, alone, after a short one and before one, and the next length. A buffer holds it just so.
longest() { printf '\0\0\377\370/\0\0\0,b\0\0\0\0\377\354' && letters 65516 x; }
longest >longest.osc
indexes_file 0 'index: 1 records, whole' "$(entry 0 65528 2)" longest.osc
{ printf "$slash_a" && longest && printf "$slash_i" && longest; } >longer.osc
indexes_file 0 'index: 4 records, whole' \
    "$(entry 0 8 1)$(entry 12 65528 2)$(entry 65544 12 2)$(entry 65560 65528 2)" longer.osc
head -c 65559 longer.osc >longer_cut.osc
indexes_file 4 'index: 2 records, stopped at 65544: waiting' "$(entry 0 8 1)$(entry 12 65528 2)" longer_cut.osc
# A field that was short behind the first buffer.
{ head -c 65544 longer.osc && printf '\0\0\0\004/abc'; } >longer_short.osc
indexes_file 4 'index: 2 records, stopped at 65544: refused 17: the address at offset 65548 is not all there' \
    "$(entry 0 8 1)$(entry 12 65528 2)" longer_short.osc

# More frames than the records that a buffer of 64 KiB holds, the shortest that there are.
printf "$slash_a" >short.osc
for _ in 1 2 3 4 5 6 7 8 9 10 11 12 13 14; do
    cat short.osc short.osc >shorter.osc
    mv shorter.osc short.osc
done
{ cat short.osc && printf '\0\0\0\0'; } >shorts.osc
shorts=$(awk 'BEGIN {
    for (i = 0; i < 16384; i++) {
        at = 12 * i
        printf "\\0\\0\\0\\0\\0\\%03o\\%03o\\%03o\\0\\0\\0\\010\\0\\0\\0\\001", int(at / 65536), int(at / 256) % 256, at % 256
    }
}')
indexes_file 0 'index: 16384 records, whole' "$shorts" short.osc
indexes_file 4 'index: 16384 records, stopped at 196608: refused 2: a packet of no bytes' "$shorts" shorts.osc

# The check: each byte of an index changed in turn, a record or a part cut off or added, and an index of another recording.
expect 0 'index fits: 3 records, whole' '' check three.osc three.idx
at=0
while [ "$at" -lt 48 ]; do
    byte=$(od -An -tu1 -j "$at" -N 1 three.idx | tr -d ' ')
    { head -c "$at" three.idx && printf "\\$(printf %03o $(((byte + 1) % 256)))" && tail -c +$((at + 2)) three.idx; } >changed.idx
    differs $((at / 16))
    at=$((at + 1))
done
for size in 0 1 15 16 17 31 32 33 47; do
    head -c "$size" three.idx >changed.idx
    differs $((size / 16))
done
{ cat three.idx && printf "$(entry 48 8 1)"; } >changed.idx
differs 3
{ cat three.idx && printf '\0'; } >changed.idx
differs 3
{ head -c 16 three.idx && printf '\0' && tail -c +17 three.idx; } >changed.idx
differs 1
{ tail -c +17 three.idx | head -c 16 && head -c 16 three.idx && tail -c +33 three.idx; } >changed.idx
differs 0
expect 1 'refused 25: index differs, record 0' '' check "$examples/stream.osc" three.idx
cp written.idx shorts.idx
printf '\001' | dd of=shorts.idx bs=1 seek=$((16 * 16000)) conv=notrunc 2>/dev/null
expect 1 'refused 25: index differs, record 16000' '' check short.osc shorts.idx

# A cue: its packet, and the table that decode udp gives of it; the index is checked first; a cue that is not there is refused, and neither
# is left. What the two give to the encoder is the packet again.
# cues K OFFSET SIZE RECORDING INDEX: what `osc cue` should say and leave of frame K, whose packet has SIZE bytes.
cues() {
    tail -c "+$(($2 + 5))" "$4" | head -c "$3" >frame.osc
    line=$("$root/osc" decode udp frame.osc frame.bin)
    expect 0 "$line, frame at byte $2, packet of $3 bytes" '' cue "$4" "$5" "$1" cue.bin cue.osc --replace
    same cue.bin frame.bin
    same cue.osc frame.osc
    expect 0 "written: $3 bytes" '' encode udp cue.bin cue.osc cue.out --replace
    same cue.out frame.osc
}
cues 0 0 8 three.osc three.idx
cues 1 12 12 three.osc three.idx
cues 2 28 16 three.osc three.idx
"$root/osc" index "$examples/frames.osc" frames.idx >/dev/null
cues 1 112 16 "$examples/frames.osc" frames.idx
shows 0 'record 0: / offset 0 length 7, end 2' cue.bin 0
printf '\0\0\0\010/a\0\001,\0\0\0' >dirty.osc
"$root/osc" index dirty.osc dirty.idx >/dev/null
expect 0 'packets: 1, records: 1, bytes left: 0, dirty padding bytes: 1, frame at byte 0, packet of 8 bytes' '' \
    cue dirty.osc dirty.idx 0 cue.bin cue.osc --replace
expect 1 "$bad_table" '' cue three.osc three.idx 3 cue.bin cue.osc --replace
gone cue.bin
gone cue.osc
cp frame.bin cue.bin
expect 1 'refused 25: index differs, record 0' '' cue three.osc changed.idx 2 cue.bin cue.osc
gone cue.bin
printf '' >none.osc
expect 1 "$bad_table" '' cue none.osc none.osc 0 cue.bin cue.osc
"$root/osc" index longer.osc longer.idx >/dev/null
cues 3 65560 65528 longer.osc longer.idx
"$root/osc" index shorts.osc shorts.idx >/dev/null
cues 16383 196596 8 shorts.osc shorts.idx

# Wrong words, and files that cannot be read or written: what was there is kept, and nothing is left beside it.
index_takes='osc: index takes RECORDING INDEX [--replace]'
expect 2 '' "$index_takes" index
expect 2 '' "$index_takes" index three.osc
expect 2 '' "$index_takes" index three.osc table.bin more
expect 2 '' 'osc: check takes RECORDING INDEX' check three.osc
expect 2 '' 'osc: check takes RECORDING INDEX' check three.osc three.idx more
expect 2 '' 'osc: cue takes RECORDING INDEX K TABLE PACKET [--replace]' cue three.osc three.idx 0 table.bin
expect 2 '' "${not_number}x" cue three.osc three.idx x table.bin packet.osc
expect 2 '' 'osc: missing: No such file or directory' index missing table.bin
expect 2 '' 'osc: missing: No such file or directory' check missing three.idx
expect 2 '' 'osc: missing: No such file or directory' check three.osc missing
expect 2 '' 'osc: missing: No such file or directory' cue missing three.idx 0 table.bin packet.osc
expect 2 '' 'osc: missing: No such file or directory' cue three.osc missing 0 table.bin packet.osc
expect 2 '' 'osc: .: Is a directory' index . table.bin
expect 2 '' 'osc: .: Is a directory' check . three.idx
expect 2 '' 'osc: .: Is a directory' check three.osc .
expect 2 '' 'osc: .: Is a directory' cue three.osc . 0 table.bin packet.osc
expect 2 '' 'osc: the name of a file is empty' index '' table.bin
expect 2 '' 'osc: the name of a file is empty' index three.osc ''
expect 2 '' 'osc: the name of a file is empty' check three.osc ''
gone table.bin
expect 2 '' 'osc: nowhere/a.idx: No such file or directory' index three.osc nowhere/a.idx
expect 2 '' 'osc: folder: Is a directory' index three.osc folder
[ -z "$device" ] || expect 2 '' 'osc: device: not a file that can be replaced' index three.osc device
expect 2 '' 'osc: folder: Is a directory' cue three.osc three.idx 0 folder packet.osc
expect 2 '' 'osc: folder: Is a directory' cue three.osc three.idx 0 table.bin folder
gone table.bin
gone packet.osc
cp three.osc kept.osc
ln -f kept.osc hard.osc
for name in kept.osc ./kept.osc hard.osc soft.osc; do
    expect 2 '' "osc: kept.osc$same_file" index kept.osc $name
    expect 2 '' "osc: kept.osc$same_file" cue kept.osc three.idx 0 $name packet.osc
    expect 2 '' "osc: kept.osc$same_file" cue kept.osc three.idx 0 table.bin $name --replace
done
cp three.idx kept.idx
expect 2 '' "osc: kept.idx$same_file" cue three.osc kept.idx 0 kept.idx packet.osc
expect 2 '' "osc: kept.idx$same_file" cue three.osc kept.idx 0 table.bin kept.idx --replace
same kept.osc three.osc
same kept.idx three.idx
gone kept.osc.part
printf 'kept' >old.idx
said=$(
    ulimit -f 0
    "$root/osc" index three.osc old.idx --replace 2>&1
    "$root/osc" index three.osc new.idx 2>&1
)
[ "$said" = "$(printf 'osc: old.idx: File too large\nosc: new.idx: File too large')" ] && [ "$(cat old.idx)" = kept ]
count $? "an index with no room: said '$said', and old.idx holds '$(cat old.idx)'"
gone old.idx.part
gone new.idx
chmod 644 three.osc three.idx
said=$($drop $by ./osc_tool index three.osc locked/a.idx 2>&1)
[ "$said" = 'osc: locked/a.idx: Permission denied' ]
count $? "an index in a locked folder: said '$said'"
cp three.osc closed.osc
chmod 000 closed.osc
said=$($drop $by ./osc_tool check closed.osc three.idx 2>&1)
[ "$said" = 'osc: closed.osc: Permission denied' ]
count $? "a recording that may not be read: said '$said'"

# ---- A recording with its time tags shifted.

# act T OUTER NESTED: a recording of two frames, as printf writes it: a message with dirty padding, a tag and a number of the same bytes
# as its tag had first, and a bundle in a bundle. Each tag is given.
act() {
    printf '\\0\\0\\0\\030/a\\0\\001,th\\0%s\\0\\0\\0\\001\\0\\0\\0\\002' "$1"
    printf '\\0\\0\\0\\044#bundle\\0%s\\0\\0\\0\\020#bundle\\0%s' "$2" "$3"
}
act_t='\0\0\0\001\0\0\0\002' act_outer='\377\377\377\377\200\0\0\0' act_nested='\0\0\0\0\0\0\0\001'
printf "$(act "$act_t" "$act_outer" "$act_nested")" >act.osc

# shifts BY BACK T OUTER NESTED: what `osc shift` of that recording should leave, and that it is the old one again where it is shifted back.
shifts() {
    printf "$(act "$3" "$4" "$5")" >expected.osc
    expect 0 'shift: 68 bytes, whole' '' shift act.osc shifted.osc "$1" --replace
    same shifted.osc expected.osc
    expect 0 'shift: 68 bytes, whole' '' shift shifted.osc back.osc "$2" --replace
    same back.osc act.osc
}
shifts 0 -0 "$act_t" "$act_outer" "$act_nested"
shifts 1 -1 '\0\0\0\002\0\0\0\002' '\0\0\0\0\200\0\0\0' '\0\0\0\001\0\0\0\001'
shifts -1 1.0 '\0\0\0\0\0\0\0\002' '\377\377\377\376\200\0\0\0' '\377\377\377\377\0\0\0\001'
shifts 0.5 -0.5 '\0\0\0\001\200\0\0\002' '\0\0\0\0\0\0\0\0' '\0\0\0\0\200\0\0\001'
shifts -0.5 hex:0000000080000000 '\0\0\0\0\200\0\0\002' '\377\377\377\377\0\0\0\0' '\377\377\377\377\200\0\0\001'
shifts hex:0000000000000001 hex:FFFFFFFFFFFFFFFF '\0\0\0\001\0\0\0\003' '\377\377\377\377\200\0\0\001' '\0\0\0\0\0\0\0\002'
shifts 4294967295.999999999 -4294967295.999999999 '\0\0\0\0\377\377\377\376' '\377\377\377\377\177\377\377\374' \
    '\377\377\377\377\377\377\377\375'
expect 0 'shift: 0 bytes, whole' '' shift none.osc shifted.osc 1 --replace
same shifted.osc none.osc
expect 0 'shift: 48 bytes, whole' '' shift three.osc shifted.osc 0 --replace
same shifted.osc three.osc

# Over more than one buffer: frames that a buffer cuts, the longest frame, and only the tags' bytes differ, three in each 68.
cp act.osc acts.osc
for _ in 1 2 3 4 5 6 7 8 9 10 11 12; do
    cat acts.osc acts.osc >acts.more
    mv acts.more acts.osc
done
expect 0 'shift: 278528 bytes, whole' '' shift acts.osc shifted.osc hex:0000000000000001 --replace
[ "$(cmp -l acts.osc shifted.osc | wc -l)" -eq 12288 ]
count $? 'a shift by 1 changes other bytes than the last of each tag'
expect 0 'shift: 278528 bytes, whole' '' shift shifted.osc back.osc hex:FFFFFFFFFFFFFFFF --replace
same back.osc acts.osc
expect 0 'shift: 131092 bytes, whole' '' shift longer.osc shifted.osc 1 --replace
same shifted.osc longer.osc

# It stops at a frame that is not all there, or is refused, and says where: no output is left, and one that was there stays.
# stops_shift LINE FILE: what `osc shift` of the file should say.
stops_shift() {
    printf 'kept' >kept.out
    expect 4 "shift: stopped at $1" '' shift "$2" stopped.out 1
    expect 4 "shift: stopped at $1" '' shift "$2" kept.out 1 --replace
    gone stopped.out
    gone kept.out.part
    [ "$(cat kept.out)" = kept ]
    count $? "shift $2 changed kept.out"
}
{ cat act.osc && printf '\0\0\0\010/a'; } >cut_act.osc
stops_shift '68: waiting' cut_act.osc
{ cat act.osc && printf '\0\0\0\004/abc' && cat act.osc; } >bad_act.osc
stops_shift '68: refused 17: the address at offset 72 is not all there' bad_act.osc
{ cat acts.osc && printf '\0\0\0\004/abc'; } >bad_acts.osc
stops_shift '278528: refused 17: the address at offset 278532 is not all there' bad_acts.osc
stops_shift '65544: waiting' longer_cut.osc
stops_shift '0: refused 10: the result has more records than the capacity' more.osc

# Wrong words and files.
shift_takes='osc: shift takes RECORDING OUT BY [--replace]'
expect 2 '' "$shift_takes" shift
expect 2 '' "$shift_takes" shift act.osc new.out
expect 2 '' "$shift_takes" shift act.osc new.out --replace
expect 2 '' "$shift_takes" shift act.osc new.out 1 2
no_amount='osc: BY is neither seconds, with at most 9 digits after a dot, nor hex: and 16 hexadecimal digits: '
for amount in '' x 1s +1 --1 1. .5 1.0000000001 1e3 4294967296 hex: hex:1 hex:000000000000000g hex:00000000000000001 -hex:0000000000000001; do
    expect 2 '' "$no_amount$amount" shift act.osc new.out "$amount"
done
expect 2 '' 'osc: missing: No such file or directory' shift missing new.out 1
expect 2 '' 'osc: the name of a file is empty' shift act.osc '' 1
expect 2 '' 'osc: folder: Is a directory' shift act.osc folder 1
gone new.out
expect 2 '' 'osc: three.osc: this file exists; nothing was changed. To replace it, add --replace.' shift act.osc three.osc 1
cp act.osc kept.osc
ln -f kept.osc hard.osc
for name in kept.osc ./kept.osc hard.osc soft.osc; do
    expect 2 '' "osc: kept.osc$same_file" shift kept.osc $name 1 --replace
done
same kept.osc act.osc
gone kept.osc.part

# ---- What exists is replaced or removed only where it could be such an output, or where --replace is given.

# keeps FILE STATUS LINE TROUBLE WORDS..: as expect, and FILE is as it was.
keeps() {
    kept=$1
    shift
    cp -p "$kept" kept.copy
    expect "$@"
    same "$kept" kept.copy
    gone "$kept.part"
}
asks='nothing was changed. To replace it anyway, add --replace.'
exists='this file exists; nothing was changed. To replace it, add --replace.'
cp "$examples/frames.osc" rec.osc
"$root/osc" index rec.osc rec.idx >/dev/null
keeps rec.osc 2 '' "osc: rec.osc: this file is not an index (132 bytes, not a multiple of 16); $asks" index rec.idx rec.osc
head -c 128 rec.osc >even.osc
keeps even.osc 2 '' "osc: even.osc: this file is not an index (8 bytes at offset 0 are not zero); $asks" index rec.osc even.osc
cp "$examples/message.osc" m.osc
"$root/osc" decode udp m.osc m.table >/dev/null
keeps m.osc 2 '' "osc: m.osc: this file is not a table (44 bytes, not a multiple of 20); $asks" decode udp m.table m.osc
head -c 40 m.osc >m.even
keeps m.even 2 '' "osc: m.even: this file is not a table (no / or # and three zeros at offset 0); $asks" decode udp m.osc m.even
for head in 'a\0\0\0' '/\001\0\0' '/\0\001\0' '/\0\0\001' '#bun'; do
    { printf "$head" && head -c 16 /dev/zero; } >other
    keeps other 2 '' "osc: other: this file is not a table (no / or # and three zeros at offset 0); $asks" decode udp m.osc other
done
at=0
while [ "$at" -lt 8 ]; do
    { head -c "$at" /dev/zero && printf '\001' && head -c $((15 - at)) /dev/zero; } >other
    keeps other 2 '' "osc: other: this file is not an index (8 bytes at offset 0 are not zero); $asks" index rec.osc other
    at=$((at + 1))
done
printf 'precious' >precious
keeps precious 2 '' "osc: precious: this file is not a table (8 bytes, not a multiple of 20); $asks" cue rec.osc rec.idx 99 precious new.osc
keeps precious 2 '' "osc: precious: $exists" cue rec.osc rec.idx 99 new.table precious
keeps precious 2 '' "osc: precious: $exists" cue rec.osc rec.idx 1 new.table precious
keeps precious 2 '' "osc: precious: $exists" encode udp m.table m.osc precious
keeps precious 2 '' "osc: precious: $exists" encode udp long.bin at_most precious
printf '/\0\0\0' >input
keeps precious 2 '' "osc: precious: this file is not a table (8 bytes, not a multiple of 20); $asks" decode udp input precious
gone new.table
gone new.osc
# What the tool wrote is replaced: an index, a table, and both where they are empty.
expect 0 'index: 2 records, whole' '' index rec.osc rec.idx
expect 0 'packets: 1, records: 5, bytes left: 0' '' decode udp m.osc m.table
: >empty
expect 0 'index: 2 records, whole' '' index rec.osc empty
same empty rec.idx
: >empty
expect 0 'packets: 1, records: 5, bytes left: 0' '' decode udp m.osc empty
same empty m.table
"$root/osc" decode udp "$examples/bundle.osc" b.table >/dev/null
expect 0 'packets: 1, records: 5, bytes left: 0' '' decode udp m.osc b.table
# --replace says that it is meant; it is the last word, and of a command that writes.
for words in 'decode udp m.osc' 'index rec.osc' 'encode udp m.table m.osc' 'cue rec.osc rec.idx 1 new.table'; do
    printf 'precious' >precious
    "$root/osc" $words precious --replace >/dev/null
    count $? "$words precious --replace"
    [ "$(cat precious)" != precious ]
    count $? "$words precious --replace left it"
done
rm -f new.table
printf 'precious' >precious
expect 1 'refused 18: the type text at offset 4 is not all there' '' decode udp input precious --replace
gone precious
no_replace='osc: only decode, encode, index, cue and shift take --replace'
expect 2 '' "$no_replace" look m.table 0 --replace
expect 2 '' "$no_replace" check rec.osc rec.idx --replace
expect 2 '' "$no_replace" help --replace
expect 2 '' "$no_replace" --version --replace
expect 2 '' "$decode_takes" decode udp m.osc --replace
expect 2 '' 'osc: not --depth or --records: --replace' decode udp m.osc new.table --replace 1

# Both outputs of a cue or neither: one that cannot be written leaves the other alone. Two names of one file are none for both.
expect 2 '' 'osc: nowhere/p: No such file or directory' cue rec.osc rec.idx 1 new.table nowhere/p
for other in new.table ./new.table; do
    expect 2 '' "osc: $other: the other output has the same name" cue rec.osc rec.idx 1 new.table $other
done
gone new.table
said=$(
    ulimit -f 0
    "$root/osc" cue rec.osc rec.idx 1 new.table new.osc 2>&1
)
[ "$said" = 'osc: new.table: File too large' ]
count $? "a cue with no room: said '$said'"
gone new.

# ---- Standard output that is full or closed has a status of its own: the files are as the answer says, which is on standard error.
lost='osc: standard output: the answer could not be written. The files are as it says: '
for to in full closed; do
    rm -f new.table
    if [ $to = full ]; then
        "$root/osc" decode udp m.osc new.table >/dev/full 2>trouble
    else
        "$root/osc" decode udp m.osc new.table >&- 2>trouble
    fi
    ended=$?
    [ "$ended" -eq 5 ] && [ "$(cat trouble)" = "${lost}packets: 1, records: 5, bytes left: 0" ]
    count $? "standard output $to: status $ended, trouble '$(cat trouble)'"
    same new.table m.table
done
rm -f trouble
printf '/\0\0\0' >input
"$root/osc" decode udp input new.table >/dev/full 2>/dev/null
count $(($? - 5)) 'a refusal that cannot be said'
gone new.table
"$root/osc" help >/dev/full 2>/dev/null
count $(($? - 5)) 'help that cannot be said'
said=$("$root/target/bin/osc_tool" help 2>&1 >/dev/full)
[ "$by" != '' ] || [ "$said" = 'osc: standard output: No space left on device' ]
count $? "the program with standard output full: '$said'"

# ---- A run that was killed does not block the next: it tries further names, and says which it could not make.
# taken COUNT: the program, after so many of the names of its own process were taken.
taken() {
    sh -c 'i=0
    while [ $i -lt "$1" ]; do
        : >"new.table.part$(printf "%014x%02x" $$ $i)"
        i=$((i + 1))
    done
    : >"new.table.part$(printf "%016x" $$)"
    shift
    exec "$@"' sh "$1" $by "$root/target/bin/osc_tool" decode udp m.osc new.table 2>&1
}
said=$(taken 3)
[ "$said" = 'packets: 1, records: 5, bytes left: 0' ]
count $? "with three names taken: said '$said'"
same new.table m.table
rm -f new.table new.table.part*
said=$(taken 100)
case $said in
    'osc: new.table.part0000000000'??????': File exists') count 0 '' ;;
    *) count 1 "with all names taken: said '$said'" ;;
esac
rm -f new.table.part*
gone new.table

# A signal to the script ends the program too, and nothing is left: the recording is a pipe that nobody writes to the end. A shell's
# program in the background ignores INT, unless `env` gives it back.
signals='INT TERM HUP'
env --default-signal=INT true 2>/dev/null || {
    signals='TERM HUP'
    printf 'note: tests/osc_tool.sh: env cannot reset a signal here: INT left out\n'
}
for signal in $signals; do
    rm -f live
    mkfifo live
    if [ $signal = INT ]; then
        env --default-signal=INT "$root/osc" index live new.idx >/dev/null 2>&1 &
    else
        "$root/osc" index live new.idx >/dev/null 2>&1 &
    fi
    script=$!
    exec 8>live
    printf "$slash_a" >&8
    waited=0
    until [ -n "$(find . -name 'new.idx.part*')" ] || [ $waited -eq 100 ]; do
        sleep 0.1
        waited=$((waited + 1))
    done
    part=$(find . -name 'new.idx.part*')
    program=$((0x$(printf '%s' "${part#*part}" | cut -c 1-14)))
    [ -n "$part" ] && kill -0 $program
    count $? "a program to interrupt by $signal: '$part'"
    kill -s $signal $script
    waited=0
    while kill -0 $program 2>/dev/null && [ $waited -lt 50 ]; do
        sleep 0.1
        waited=$((waited + 1))
    done
    exec 8>&-
    wait $script 2>/dev/null
    ended=$?
    [ $ended -gt 128 ] && [ $waited -lt 50 ]
    count $? "interrupted by $signal: status $ended"
    gone new.idx
done

# ---- A replaced output keeps its mode, and a link stays a link.
for mode in 600 640 755 666; do
    for output in m.table rec.idx; do
        chmod $mode $output
        case $output in
            m.table) "$root/osc" decode udp m.osc m.table >/dev/null ;;
            *) "$root/osc" index rec.osc rec.idx >/dev/null ;;
        esac
        [ "$(stat -c %a $output)" = $mode ]
        count $? "$output had mode $mode and has $(stat -c %a $output)"
    done
done
umask 022
expect 0 'packets: 1, records: 5, bytes left: 0' '' decode udp m.osc fresh.table
[ "$(stat -c %a fresh.table)" = 644 ]
count $? "a new table has mode $(stat -c %a fresh.table)"
mkdir deep
ln -s deep/target.table soft.table
ln -s soft.table softer.table
for _ in missing there; do
    expect 0 'packets: 1, records: 5, bytes left: 0' '' decode udp m.osc softer.table
    [ -L softer.table ] && [ -L soft.table ] && [ ! -L deep/target.table ]
    count $? 'a link was replaced'
    same deep/target.table m.table
done
ln -s "$PWD/deep/there.idx" deep/absolute.idx
expect 0 'index: 2 records, whole' '' index rec.osc deep/absolute.idx
same deep/there.idx rec.idx
[ -L deep/absolute.idx ]
count $? 'an absolute link was replaced'
expect 1 'refused 18: the type text at offset 4 is not all there' '' decode udp input softer.table
[ -L softer.table ] && [ ! -e deep/target.table ]
count $? 'what a link leads to is not removed'
gone deep/target.table
ln -s round round
expect 2 '' 'osc: round: Too many levels of symbolic links' decode udp m.osc round

# ---- A name is shown so that one line stays one line.
odd=$(printf 'a\nb\033[31mc\177d')
expect 2 '' 'osc: a?b?[31mc?d: No such file or directory' decode udp "$odd" new.table
printf 'precious' >"$odd"
expect 2 '' "osc: a?b?[31mc?d: this file is not a table (8 bytes, not a multiple of 20); $asks" decode udp m.osc "$odd"
expect 2 '' "osc: a?b?[31mc?d$same_file" decode udp "$odd" "$odd"
expect 2 '' 'osc: not udp, tcp, tcp-vec, tcp2 or tcp2-vec: a?b?[31mc?d' decode "$odd" m.osc new.table
rm -f "$odd"
expect 2 '' 'osc: Märchen: No such file or directory' decode udp Märchen new.table

# ---- The stack: 1 MiB is enough for tables of up to 26,000 records, half of that for what needs no such table, and 2 MiB for every table.
# The script raises the limit where it may: root may, unless it gives that right up.
fixed=
[ "$(id -u)" -ne 0 ] || fixed='setpriv --bounding-set=-sys_resource'
# within KIB STATUS LINE WORDS..: what `osc WORDS..` should end with and say where the stack may have no more.
within() {
    kib=$1 status=$2 line=$3
    shift 3
    said=$(
        ulimit -s "$kib"
        $fixed "$root/osc" "$@" 2>&1
    )
    ended=$?
    [ "$ended" -eq "$status" ] && [ "$said" = "$line" ]
    count $? "osc $* with a stack of $kib KiB: status $ended, said '$said'"
}
# a message with as many arguments as the word says, and so many bytes after its tags
tags() {
    printf '/a\0\0,'
    head -c "$1" /dev/zero | tr '\0' T
    head -c "$2" /dev/zero
}
tags 25999 4 >most.osc
tags 60000 3 >large.osc
needs='osc: this table needs 2 MiB of stack, and the program may have 1024 KiB (ulimit -s); nothing was changed'

within 1024 0 'packets: 1, records: 5, bytes left: 0' decode udp m.osc stack.table
same stack.table m.table
within 1024 0 "written: $(wc -c <m.osc) bytes" encode udp stack.table m.osc stack.osc
same stack.osc m.osc
within 1024 0 'packets: 1, records: 26000, bytes left: 0' decode udp most.osc most.table
within 1024 0 'written: 26008 bytes' encode udp most.table most.osc stack.osc --replace
same stack.osc most.osc
within 1024 0 'record 25999: T, end 26000
start 26008' look most.table 25999
within 1024 1 'refused 10: the result has more records than the capacity' decode udp large.osc few.table --records 26000
gone few.table
within 1024 2 "$needs" decode udp large.osc large.table
within 1024 2 "$needs" decode udp large.osc large.table --records 26001
gone large.table
within 2048 0 'packets: 1, records: 60001, bytes left: 0' decode udp large.osc large.table
within 1024 2 "$needs" encode udp large.table large.osc stack.osc --replace
same stack.osc most.osc
within 2048 0 'written: 60008 bytes' encode udp large.table large.osc stack.osc --replace
same stack.osc large.osc
within 1024 2 "$needs" look large.table 0
within 2048 0 'record 60000: T, end 60001
start 60008' look large.table 60000
within 512 0 'index: 2 records, whole' index "$examples/frames.osc" stack.idx
within 512 0 'index fits: 2 records, whole' check "$examples/frames.osc" stack.idx
within 512 0 'packets: 1, records: 2, bytes left: 0, frame at byte 112, packet of 16 bytes' \
    cue "$examples/frames.osc" stack.idx 1 stack2.table stack2.osc
within 512 0 "$("$root/osc" help)" help
# a soft limit is raised, and a pipe, whose length nobody knows, is read to its end
said=$(
    ulimit -S -s 1024
    "$root/osc" decode udp large.osc raised.table 2>&1
)
[ "$said" = 'packets: 1, records: 60001, bytes left: 0' ]
count $? "with a soft limit of 1 MiB: said '$said'"
same raised.table large.table
said=$("$root/osc" look /dev/stdin 60000 <large.table | cat)
[ "$said" = 'record 60000: T, end 60001
start 60008' ]
count $? "a table as standard input: said '$said'"
# shellcheck disable=SC2002
said=$(cat large.table | "$root/osc" look /dev/stdin 60000)
[ "$said" = 'record 60000: T, end 60001
start 60008' ]
count $? "a table from a pipe: said '$said'"

# ---- The program alone: what the script's own tests hide.
tool() {
    $by "$root/target/bin/osc_tool" "$@" 2>&1
}
# alone TROUBLE WORDS..: what the program should complain of.
alone() {
    line=$1
    shift
    said=$(tool "$@")
    [ "$said" = "$line" ]
    count $? "the program with $*: said '$said'"
}
cp m.osc kept.osc
cp m.table kept.table
cp rec.osc kept.rec
cp rec.idx kept.idx
ln -sf kept.osc soft.osc
for name in kept.osc ./kept.osc soft.osc; do
    alone "osc: kept.osc$same_file" decode udp kept.osc $name --replace
    alone "osc: kept.osc$same_file" encode udp kept.table kept.osc $name --replace
done
alone "osc: kept.table$same_file" encode udp kept.table kept.osc kept.table --replace
alone "osc: kept.rec$same_file" index kept.rec ./kept.rec --replace
alone "osc: kept.rec$same_file" cue kept.rec kept.idx 1 kept.rec new.osc --replace
alone "osc: kept.rec$same_file" cue kept.rec kept.idx 1 new.table kept.rec --replace
alone "osc: kept.idx$same_file" cue kept.rec kept.idx 1 kept.idx new.osc --replace
alone "osc: kept.idx$same_file" cue kept.rec kept.idx 1 new.table kept.idx --replace
same kept.osc m.osc
same kept.table m.table
same kept.rec rec.osc
same kept.idx rec.idx
gone new.

# Calls of the system that fail: strace makes them fail, where it is there and may. The old file is kept, nothing is left beside it, and no
# success is said.
if [ -z "$by" ] && strace -o /dev/null true 2>/dev/null; then
    only=
    # fails CALLS WORDS..: what the program says where such calls fail, those for the file `only` where that is set.
    fails() {
        calls=$1
        shift
        strace -o /dev/null ${only:+-P "$only"} -e "inject=$calls" "$root/target/bin/osc_tool" "$@" 2>&1
    }
    # unsaid TROUBLE CALLS WORDS..: that it is this.
    unsaid() {
        line=$1
        shift
        said=$(fails "$@")
        [ "$said" = "$line" ]
        count $? "with $*: said '$said'"
    }
    printf "$old_table" >old.table
    cp old.table kept.copy
    unsaid 'osc: old.table: Input/output error' fsync:error=EIO:when=2 decode udp m.osc old.table
    unsaid 'osc: old.table: Input/output error' rename:error=EIO decode udp m.osc old.table
    unsaid 'osc: old.table: Input/output error' write:error=EIO:when=1 decode udp m.osc old.table
    unsaid 'osc: old.table: Input/output error' unlink:error=EIO decode udp input old.table
    same old.table kept.copy
    gone old.table.part
    unsaid 'osc: rec.idx: Input/output error' fsync:error=EIO:when=2 index rec.osc rec.idx
    unsaid 'osc: rec.idx: Input/output error' rename:error=EIO index rec.osc rec.idx
    same rec.idx kept.idx
    gone rec.idx.part
    unsaid 'osc: new.osc: Input/output error' rename:error=EIO:when=1 cue rec.osc rec.idx 1 old.table new.osc
    unsaid 'osc: old.table: Input/output error' rename:error=EIO:when=2 cue rec.osc rec.idx 1 old.table new.osc
    unsaid 'osc: old.table: Input/output error' fsync:error=EIO:when=3 cue rec.osc rec.idx 1 old.table new.osc
    same old.table kept.copy
    gone old.table.part
    gone new.osc
    # What is written is on the device before it has its name.
    strace -o calls -e trace=fsync,rename "$root/target/bin/osc_tool" decode udp m.osc fresh >/dev/null
    [ "$(sed -n 's/(.*//p' calls | tr '\n' ' ')" = 'fsync rename ' ]
    count $? "a table is named after: $(cat calls)"
    # A seek that fails is not read on from; what ends before its length, or is shorter after the walk, is not taken for whole.
    shorter=': the file became shorter while it was read'
    only=$(pwd -P)/rec.idx
    unsaid 'osc: rec.idx: Invalid argument' lseek:error=EINVAL:when=5 cue rec.osc rec.idx 1 new.table new.osc
    unsaid "osc: rec.idx$shorter" read:retval=0:when=3 cue rec.osc rec.idx 1 new.table new.osc
    unsaid "osc: rec.idx$shorter" lseek:retval=16:when=3 check rec.osc rec.idx
    only=$(pwd -P)/rec.osc
    unsaid 'osc: rec.osc: Invalid argument' lseek:error=EINVAL:when=5 cue rec.osc rec.idx 1 new.table new.osc
    unsaid "osc: rec.osc$shorter" read:retval=0:when=3 cue rec.osc rec.idx 1 new.table new.osc
    unsaid "osc: rec.osc$shorter" read:retval=0:when=1 index rec.osc new.idx
    unsaid "osc: rec.osc$shorter" lseek:retval=16:when=3 index rec.osc new.idx
    unsaid "osc: rec.osc$shorter" lseek:retval=16:when=3 check rec.osc rec.idx
    gone new.
else
    printf 'note: tests/osc_tool.sh: strace is not there or may not trace: the cases of calls that fail left out\n'
fi

printf '%s passed, %s failed\n' "$passed" "$failed"
[ "$failed" -eq 0 ]
