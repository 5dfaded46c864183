#!/usr/bin/env bash
# Tests the header, the library, and log and convert, the examples of a host in C: plain, with the sanitizers, and under valgrind. 'make test' builds them and
# runs this.
# Stops at the first difference.
set -euo pipefail
cd "$(dirname "$0")/.."
OUT=$(realpath "${OUT:-../target/examples}")
LIBRARY=$(realpath "${LIBRARY:-../target/staticlib/libhost.a}")
work=$(mktemp -d)
# In memory if possible: they are synced some thousand times.
files=$(mktemp -d -p /dev/shm || mktemp -d)
trap 'rm -rf "$work" "$files"' EXIT
export ASAN_OPTIONS=detect_leaks=1
state=$files/state
log=$files/log

# same NAME EXPECTED GOT
same() {
    cmp "$2" "$3" || { echo "different: $1"; exit 1; }
    echo "same: $1"
}

# with PLACE BYTES FILE: the file with four bytes at a place replaced.
with() {
    head -c "$1" "$3"
    printf '%b' "$2"
    tail -c "+$(($1 + 5))" "$3"
}

# sealed: a STATE with the checksum that its other bytes have, for one that is forged.
sealed() {
    python3 -c '
import sys
state, sum = sys.stdin.buffer.read()[:-8], 14695981039346656037
for byte in state:
    sum = (sum ^ byte) * 1099511628211 % 2**64
sys.stdout.buffer.write(state + sum.to_bytes(8, "little"))'
}

# earlier FILE: a STATE in the form of version 2, with an image of 764 bytes in the place of 788.
earlier() {
    head -c 788 "$1" >"$work/image"
    "$OUT/convert" image --back "$work/image" "$work/earlier image"
    { cat "$work/earlier image"; tail -c 32 "$1"; } | sealed
}

# taken: samples taken, in STATE; nothing without a STATE.
taken() {
    if [ -f "$state" ]; then od -An -tu8 -j788 -N8 "$state" | tr -d ' '; fi
}

# ends NAME STATUS OUTPUT MESSAGE WORDS..: standard input to the command in LOG, which must end with this status, print only this and say this.
ends() {
    local status=0
    "${LOG[@]}" "${@:5}" >"$work/got" 2>"$work/said" || status=$?
    [ "$status" = "$2" ] || { cat "$work/said"; echo "different: $1 ends with $status"; exit 1; }
    same "$1" <(printf '%b' "$3") "$work/got"
    same "$1, message" <(printf '%b' "$4") "$work/said"
}

# kept NAME RECORDING: STATE and LOG are now those of one single run over the recording.
kept() {
    same "$1, LOG" "$2.txt" "$log"
    same "$1, STATE" "$work/$2 state" "$state"
}

# handover NAME RECORDING SAMPLES..: a run for each number of samples, then one for the rest. First each run opens the file, then all share a pipe.
handover() {
    local samples
    rm -f "$state" "$log"
    for samples in "${@:3}" ""; do
        "${LOG[@]}" "$state" "$log" ${samples:+"$samples"} <"$2.bin"
    done
    kept "$1, from a file" "$2"
    rm "$state" "$log"
    for samples in "${@:3}" ""; do
        "${LOG[@]}" "$state" "$log" ${samples:+"$samples"}
    done < <(cat "$2.bin")
    kept "$1, from a shared pipe" "$2"
}

# prints NAME: the recordings through standard input and output. After PAUSE seconds a piece has been read by itself.
prints() {
    for recording in worked crusher busy; do
        "${LOG[@]}" <$recording.bin >"$work/got"
        same "$1: $recording" $recording.txt "$work/got"
        { cat $recording.bin; printf x; } | "${LOG[@]}" >"$work/got"
        same "$1: $recording, one odd byte more" $recording.txt "$work/got"
    done
    { head -c 99; sleep "$PAUSE"; head -c 1; sleep "$PAUSE"; cat; } <busy.bin | "${LOG[@]}" >"$work/got"
    same "$1: busy, in pieces of odd length" busy.txt "$work/got"
}

# goes_on NAME: the channel kept in STATE: in a single run; handed over after the numbers of samples in CRUSHER, BUSY, WORKED; with an input that grows.
goes_on() {
    for recording in worked crusher busy; do
        rm -f "$state" "$log"
        "${LOG[@]}" "$state" "$log" <$recording.bin
        same "$1: $recording, a single run" $recording.txt "$log"
        mv "$state" "$work/$recording state"
    done
    for cut in "${CRUSHER[@]}"; do
        handover "$1: crusher, handed over after $cut samples" crusher "$cut"
    done
    handover "$1: busy, handed over after ${BUSY[*]} samples" busy "${BUSY[@]}"
    handover "$1: worked, handed over after ${WORKED[*]} samples" worked "${WORKED[@]}"
    rm -f "$state" "$log"
    head -c 7001 busy.bin | "${LOG[@]}" "$state" "$log"
    [ "$(tail -n 1 "$log")" = "values 434" ] || { echo "different: $1: the count of values after 3482 samples"; exit 1; }
    "${LOG[@]}" "$state" "$log" <busy.bin
    kept "$1: busy, with more input after its end" busy
    rm "$state" "$log"
    for samples in 9 ""; do
        { head -c 50 >"$work/got"; "${LOG[@]}" "$state" "$log" ${samples:+"$samples"}; } <worked.bin
    done
    kept "$1: worked, of which others have read" worked
}

# handed_up NAME RECORDING SAMPLES..: a run for each number of samples, then one for the rest; each but the first finds a STATE of version 2.
handed_up() {
    local samples
    rm -f "$state" "$log"
    for samples in "${@:3}" ""; do
        [ ! -f "$state" ] || { earlier "$state" >"$work/earlier"; cp "$work/earlier" "$state"; }
        "${LOG[@]}" "$state" "$log" ${samples:+"$samples"} <"$2.bin"
    done
    kept "$1" "$2"
}

# updated NAME: the STATE of version 2, after the numbers of samples in CRUSHER, but the eleventh, which leaves nothing to take, in BUSY, in WORKED. A run that
# takes no sample leaves it as it is.
updated() {
    for cut in "${CRUSHER[@]::10}"; do
        handed_up "$1: crusher, updated after $cut samples" crusher "$cut"
    done
    handed_up "$1: busy, updated after ${BUSY[*]} samples" busy "${BUSY[@]}"
    handed_up "$1: worked, updated after ${WORKED[*]} samples" worked "${WORKED[@]}"
    anew
    earlier "$work/good" >"$state"
    cp "$state" "$work/earlier"
    "${LOG[@]}" "$state" "$log" 0 <worked.bin
    same "$1: no sample after an update, STATE" "$work/earlier" "$state"
    same "$1: no sample after an update, LOG" "$work/counted" "$log"
}

# clipped NAME: the marked records, and no others, have the word behind their line; also handed over after the numbers of samples in CLIPPED.
clipped() {
    "${LOG[@]}" <"$work/clipped.bin" >"$work/got"
    same "$1: clipped" "$work/clipped.txt" "$work/got"
    for cut in "${CLIPPED[@]}"; do
        rm -f "$state" "$log"
        "${LOG[@]}" "$state" "$log" "$cut" <"$work/clipped.bin"
        "${LOG[@]}" "$state" "$log" <"$work/clipped.bin"
        same "$1: clipped, handed over after $cut samples" "$work/clipped.txt" "$log"
    done
}

# refuses NAME: settings and words that are refused.
refuses() {
    head -c 35 worked.bin >"$work/settings"
    ends "$1: settings too short" 1 'refused 1\n' 'log: refused: the settings are not 36 bytes\n' <"$work/settings"
    ends "$1: nothing at all" 1 'refused 1\n' 'log: refused: the settings are not 36 bytes\n' </dev/null
    rm -f "$state" "$log"
    while read -r place bytes number text; do
        with "$place" "$bytes" worked.bin >"$work/settings"
        ends "$1: refusal $number" 1 "refused $number\n" "log: refused: settings: $text\n" <"$work/settings"
        ends "$1: refusal $number, with a STATE" 1 "refused $number\n" "log: refused: settings: $text\n" "$state" "$log" <"$work/settings"
    done <<'END'
0 \07\0\0\0 2 M, samples in a half-cycle, is not 8 to 256
4 \063\0\0\0 3 F, the system, is neither 50 nor 60
8 \017\0\0\0 4 U, the declared voltage, is not 16 to 524288
16 \054\01\0\0 5 T is not 50 to 600, or H is not below T
20 \0\0\0\0 6 I, D, W or G is out of range or out of order
END
    [ -z "$(ls "$state" "$log" 2>/dev/null)" ] || { echo "different: $1: refused settings make files"; exit 1; }
    ends "$1: one word" 2 '' 'log\nlog STATE LOG [N]\n' "$state" <worked.bin
    ends "$1: a number in letters" 2 '' 'log\nlog STATE LOG [N]\n' "$state" "$log" ten <worked.bin
    ends "$1: a number that is too great" 2 '' 'log\nlog STATE LOG [N]\n' "$state" "$log" 18446744073709551616 <worked.bin
    ends "$1: a number below 0" 2 '' 'log\nlog STATE LOG [N]\n' "$state" "$log" -1 <worked.bin
    ends "$1: four words" 2 '' 'log\nlog STATE LOG [N]\n' "$state" "$log" 1 2 <worked.bin
}

# stops NAME MESSAGE WORDS..: standard input to log with these words, which must end with status 2, say this, and leave STATE and LOG as they were.
stops() {
    cp "$state" "$work/state before"
    cp "$log" "$work/log before"
    ends "$1" 2 '' "log: $2\n" "${@:3}"
    left "$1"
}

# left NAME: STATE and LOG as they were before.
left() {
    same "$1, STATE left as it was" "$work/state before" "$state"
    same "$1, LOG left as it was" "$work/log before" "$log"
}

# anew: STATE and LOG after 40 samples, with more in LOG than STATE counts.
anew() {
    rm -f "$state" "$log"
    "${LOG[@]}" "$state" "$log" 40 <worked.bin
    cp "$state" "$work/good"
    cp "$log" "$work/counted"
    echo "behind what STATE counts" >>"$log"
}

# refuses_state NAME: a STATE that is damaged as in DAMAGE; one that is whole and cannot be.
refuses_state() {
    anew
    for edit in "${DAMAGE[@]}"; do
        case $edit in
            short) head -c 819 "$work/good" ;;
            long) cat "$work/good" - <<<'' ;;
            empty) ;;
            numbers) head -c 32 "$work/good" ;;
            *) with "${edit%%:*}" "${edit#*:}" "$work/good" ;;
        esac >"$state"
        stops "$1: STATE with $edit" "$state: damaged" "$state" "$log" <worked.bin
    done
    while read -r edit number text; do
        with "${edit%%:*}" "${edit#*:}" "$work/good" | sealed >"$state"
        cp "$state" "$work/state before"
        ends "$1: STATE with $edit, sealed" 1 "refused $number\n" "log: refused: $text\n" "$state" "$log" <worked.bin
        left "$1: STATE with $edit, sealed"
    done <<'END'
0:\02\0\0\0 9 the image has another table of contents
36:\0\0\0\0 10 the image has settings that are out of range
68:\010\0\0\0 11 the image has another part that cannot be
92:\01\0\0\0 11 the image has another part that cannot be
END
    # A STATE of version 2 that is damaged, or that is whole and whose image version 2 refuses: the table, the settings, a body.
    earlier "$work/good" >"$work/earlier"
    with 100 '\02\0\0\0' "$work/earlier" >"$state"
    stops "$1: STATE of version 2, damaged" "$state: damaged" "$state" "$log" <worked.bin
    for edit in '28:\0304\02\0120\0' '36:\0\0\0\0' '68:\010\0\0\0'; do
        with "${edit%%:*}" "${edit#*:}" "$work/earlier" | sealed >"$state"
        cp "$state" "$work/state before"
        ends "$1: STATE of version 2 with $edit, sealed" 1 'refused 19\n' "log: refused: $not_good\n" "$state" "$log" <worked.bin
        left "$1: STATE of version 2 with $edit, sealed"
    done
    # A STATE of version 1, whose images have 620 bytes; with images of other lengths, 4064 at most; and one too long.
    { head -c 788 "$work/good"; head -c 3276 /dev/zero; } >"$work/long image"
    for length in 620 0 763 765 787 789 4064; do
        { head -c "$length" "$work/long image"; tail -c 32 "$work/good"; } | sealed >"$state"
        cp "$state" "$work/state before"
        ends "$1: STATE with an image of $length bytes" 1 'refused 8\n' 'log: refused: the image is not 788 bytes\n' "$state" "$log" <worked.bin
        left "$1: STATE with an image of $length bytes"
    done
    { cat "$work/good"; head -c 3277 /dev/zero; } | sealed >"$state"
    stops "$1: STATE with 4097 bytes" "$state: damaged" "$state" "$log" <worked.bin
    # 4611686018427387885 samples end at the last byte that a file can have.
    with 792 '\0377\0377\0377\077' "$work/good" >"$work/many"
    with 788 '\0355\0377\0377\0377' "$work/many" | sealed >"$state"
    stops "$1: most samples" "standard input: fewer samples than $state counts" "$state" "$log" <worked.bin
    with 788 '\0356\0377\0377\0377' "$work/many" | sealed >"$state"
    stops "$1: one sample more" "$state: more samples than a file can have" "$state" "$log" <worked.bin
}

# refuses_log NAME: a LOG that is not the one that STATE counts the lines of.
refuses_log() {
    anew
    head -c 30 "$work/counted" >"$log"
    stops "$1: LOG too short" "$log: not the lines that $state counts" "$state" "$log" <worked.bin
    { tr s S <"$work/counted"; echo more; } >"$log"
    stops "$1: LOG with other letters" "$log: not the lines that $state counts" "$state" "$log" <worked.bin
    tail -c +2 busy.txt >"$log"
    stops "$1: another LOG" "$log: not the lines that $state counts" "$state" "$log" <worked.bin
    cp "$work/counted" "$log"
    with 796 "\\0$(printf %o $(($(wc -c <"$log") + 1)))\\0\\0\\0" "$work/good" | sealed >"$state"
    stops "$1: LOG one byte too short" "$log: not the lines that $state counts" "$state" "$log" <worked.bin
    cp "$work/good" "$state"
    rm "$log"
    ends "$1: no LOG" 2 '' "log: $log: is not there, and $state is\n" "$state" "$log" <worked.bin
    same "$1: no LOG, STATE left as it was" "$work/good" "$state"

    printf x >"$log"
    stops "$1: LOG of one byte and no STATE" "$log: is there, and $files/other is not" "$files/other" "$log" <worked.bin
    head -n 1 worked.txt >"$log"
    stops "$1: LOG and no STATE" "$log: is there, and $files/other is not" "$files/other" "$log" <worked.bin
    head -c 35 worked.bin >"$work/settings"
    stops "$1: LOG, no STATE and no settings" "$log: is there, and $files/other is not" "$files/other" "$log" <"$work/settings"
    stops "$1: LOG and no folder of STATE" "$log: is there, and $files/other/state is not" "$files/other/state" "$log" <worked.bin
    [ "$(ls "$files")" = $'log\nstate' ] || { ls "$files"; echo "different: $1: files are made"; exit 1; }
    rm "$state" "$log"
    touch "$log"
    "${LOG[@]}" "$state" "$log" <worked.bin
    kept "$1: an empty LOG and no STATE" worked
    rm "$state"
}

# refuses_input NAME: a file as standard input that is not the recording that STATE has samples of.
refuses_input() {
    anew
    for length in 0 35 115; do
        head -c "$length" worked.bin >"$work/recording"
        stops "$1: $length bytes of input" "standard input: fewer samples than $state counts" "$state" "$log" <"$work/recording"
    done
    with 32 '\0311\0\0\0' worked.bin >"$work/recording"
    stops "$1: another recording" "standard input: other settings than in $state" "$state" "$log" <"$work/recording"
    stops "$1: another recording, longer" "standard input: other settings than in $state" "$state" "$log" <crusher.bin
    head -c 116 worked.bin >"$work/recording"
    "${LOG[@]}" "$state" "$log" <"$work/recording"
    same "$1: no more input than was taken" <(cat "$work/counted"; echo "values 4") "$log"
}

# refuses_names NAME: one file in two places, and standard files that are closed.
refuses_names() {
    rm -f "$state" "$log"
    for name in "$state" "$state.new"; do
        ends "$1: LOG is ${name##*/}" 2 '' "log: $name: is $state or $state.new, too\n" "$state" "$name" <worked.bin
    done
    [ -z "$(ls "$files")" ] || { ls "$files"; echo "different: $1: LOG by the name of STATE makes files"; exit 1; }
    anew
    cp "$log" "$state.new"
    for name in state state.new; do
        stops "$1: LOG is $name by another name" "$files/./$name: is $state or $state.new, too" "$state" "$files/./$name" <worked.bin
        same "$1: LOG is $name by another name, STATE.new left as it was" "$log" "$state.new"
    done
    rm "$state.new"
    stops "$1: no standard input" "standard input: Bad file descriptor" "$state" "$log" <&-
    for closed in 1 2; do
        status=0
        case $closed in
            1) "${LOG[@]}" "$state" "$log" <worked.bin 2>"$work/said" >&- || status=$? ;;
            2) "${LOG[@]}" "$state" "$log" <worked.bin 2>&- || status=$? ;;
        esac
        [ "$status" = 2 ] || { echo "different: $1: file $closed closed, ends with $status"; exit 1; }
        left "$1: file $closed closed"
    done
}

# at_once NAME: a run while another one waits for samples; then LOG is replaced under that one.
at_once() {
    local other status=0
    rm -f "$state" "$log" "$work/pipe"
    mkfifo "$work/pipe"
    "${LOG[@]}" "$state" "$log" <"$work/pipe" 2>"$work/other said" &
    other=$!
    exec 3>"$work/pipe"
    head -c 100 worked.bin >&3
    for _ in {1..1000}; do
        [ "$(taken)" != 32 ] || break
        sleep 0.01
    done
    stops "$1: two runs at once" "$log: another run has it" "$state" "$log" <worked.bin
    rm "$log"
    cp "$work/log before" "$log"
    tail -c +101 worked.bin >&3
    exec 3>&-
    wait "$other" || status=$?
    [ "$status" = 2 ] || { echo "different: $1: LOG replaced, ends with $status"; exit 1; }
    same "$1: LOG replaced, message" <(echo "log: $log: removed or replaced") "$work/other said"
    same "$1: LOG replaced, LOG left as it was" "$work/log before" "$log"
}

# forged LOW HIGH: a STATE after 16 samples, never yet steady, with a V of these bytes, low and high.
forged() {
    rm -f "$state" "$log"
    "${LOG[@]}" "$state" "$log" 16 <worked.bin
    with 100 "$1" "$state" >"$work/low"
    with 104 "$2" "$work/low" >"$work/high"
    with 708 '\01\0\0\0' "$work/high" | sealed
}

# values_end NAME: a channel at its last value. It takes the 7 samples that complete no value, and no more in a second run.
values_end() {
    forged '\0377\0377\0377\0377' '\0377\0377\0377\0177' >"$work/most"
    cp "$work/most" "$state"
    { cat "$log"; echo "values 9223372036854775807"; } >"$work/want"
    for run in first second; do
        ends "$1: the values' end, $run run" 3 '' 'log: the count of values is at its end: further samples are not taken\n' "$state" "$log" <worked.bin
        same "$1: the values' end, $run run, LOG" "$work/want" "$log"
        [ "$(taken)" = 23 ] || { echo "different: $1: the values' end, samples taken"; exit 1; }
    done
}

# past_4_bytes NAME: a channel that version 2 left at its own last value, 4294967295, goes on; then there is no way back.
past_4_bytes() {
    forged '\0377\0377\0377\0377' '\0\0\0\0' >"$work/most"
    earlier "$work/most" >"$state"
    "${LOG[@]}" "$state" "$log" <worked.bin
    same "$1: past 4 bytes" <(printf 'kind start halves first second\ndip 4294967297 3 800 0\nvalues 4294967301\n') "$log"
    head -c 788 "$state" >"$work/image"
    refuses_conversion "$1: an image past 4 bytes" 18 "$too_wide" image --back "$work/image"
}

# refuses_conversion NAME NUMBER TEXT WORDS..: convert with these words, IN the last of them, is refused, and leaves OUT as it was.
refuses_conversion() {
    local LOG=("${CONVERT[@]}")
    for before in there "not there"; do
        rm -f "$files/out"
        [ "$before" != there ] || echo "what was there" >"$files/out"
        ends "$1, OUT $before" 1 "refused $2\n" "convert: ${*: -1}: refused: $3\n" "${@:4}" "$files/out"
        if [ "$before" = there ]; then
            same "$1, OUT left as it was" <(echo "what was there") "$files/out"
        fi
        [ -z "$(find "$files" -name 'out*' ! -name out)" ] || { ls "$files"; echo "different: $1: files are made"; exit 1; }
        [ "$before" = there ] || [ ! -e "$files/out" ] || { echo "different: $1: OUT is made"; exit 1; }
    done
    rm -f "$files/out"
}

# converted NAME WHAT EARLIER NOW: convert carries one file into the other and back, also over a file that is there, and leaves IN as it was.
converted() {
    for before in "not there" there; do
        cp "$3" "$files/in"
        "${CONVERT[@]}" "$2" "$files/in" "$files/out"
        same "$1, OUT $before" "$4" "$files/out"
        same "$1, IN left as it was" "$3" "$files/in"
    done
    "${CONVERT[@]}" "$2" --back "$4" "$files/out"
    same "$1, back" "$3" "$files/out"
    rm "$files/in" "$files/out"
}

# converts NAME: the command in CONVERT on files of records and of images.
converts() {
    printf '%b' '\04\0\0\0\0227\0\0\0\01\0\0\0\0340\030\0\0\0340\030\0\0' >"$work/record 20"
    printf '%b' '\04\0\0\0\0227\0\0\0\0\0\0\0\01\0\0\0\0\0\0\0\0340\030\0\0\0340\030\0\0' >"$work/record 28"
    : >"$work/no records"
    for length in 20 28; do
        python3 -c 'import sys; sys.stdout.buffer.write(5000 * open(sys.argv[1], "rb").read())' "$work/record $length" >"$work/records $length"
    done
    converted "$1: a record" records "$work/record 20" "$work/record 28"
    converted "$1: many records" records "$work/records 20" "$work/records 28"
    converted "$1: no records" records "$work/no records" "$work/no records"
    for recording in worked crusher busy; do
        head -c 788 "$work/$recording state" >"$work/image 788"
        earlier "$work/$recording state" | head -c 764 >"$work/image 764"
        converted "$1: the image of $recording" image "$work/image 764" "$work/image 788"
    done

    refuses_conversion "$1: records of this version" 19 "$not_good" records "$work/record 28"
    refuses_conversion "$1: records of version 2, back" 19 "$not_good" records --back "$work/record 20"
    refuses_conversion "$1: an image of this version" 19 "$not_good" image "$work/image 788"
    refuses_conversion "$1: an image of version 2, back" 19 "$not_good" image --back "$work/image 764"
    refuses_conversion "$1: an empty file for an image" 19 "$not_good" image "$work/no records"
    with 8 '\01\0\0\0' "$work/record 28" >"$work/wide"
    refuses_conversion "$1: a start past 4 bytes" 18 "$too_wide" records --back "$work/wide"
    with 16 '\01\0\0\0' "$work/record 28" >"$work/wide"
    refuses_conversion "$1: a duration past 4 bytes" 18 "$too_wide" records --back "$work/wide"
    refuses_convert_files "$1"
}

# refuses_convert_files NAME: words that name nothing, and files that cannot be there.
refuses_convert_files() {
    local LOG=("${CONVERT[@]}") usage='convert records [--back] IN OUT\nconvert image [--back] IN OUT\n'
    local words
    while read -ra words; do
        ends "$1: convert ${words[*]}" 2 '' "$usage" "${words[@]}"
    done <<'END'

records
records in
samples in out
records --there in out
records --back in
records --back in out more
image in out more
END
    ends "$1: no IN" 2 '' "convert: $files/none: No such file or directory\n" records "$files/none" "$files/out"
    ends "$1: IN is a folder" 2 '' "convert: $files: Is a directory\n" records "$files" "$files/out"
    ends "$1: no folder of OUT" 2 '' "convert: $files/none/out.new: No such file or directory\n" records "$work/record 20" "$files/none/out"
    ends "$1: OUT is a folder" 2 '' "convert: $files: Is a directory\n" records "$work/record 20" "$files"
    rm "$files.new"
    refuses_one_file "$1" records "$work/record 20"
    refuses_one_file "$1" image "$work/image 764"
}

# refuses_one_file NAME WHAT FILE: an IN that is OUT or OUT.new, by that name and by others, is left as it was.
refuses_one_file() {
    local place name
    for place in out out.new; do
        cp "$3" "$files/$place"
        ln "$files/$place" "$files/link"
        ln -s "$place" "$files/symbolic"
        for name in "$place" "./$place" link symbolic; do
            ends "$1: $2, IN $name is $place" 2 '' "convert: $files/$name: is $files/out or $files/out.new, too\n" "$2" "$files/$name" "$files/out"
            same "$1: $2, IN $name is $place, left as it was" "$3" "$files/$place"
        done
        rm "$files/$place" "$files/link" "$files/symbolic"
    done
    [ -z "$(ls "$files"/out* 2>/dev/null)" ] || { ls "$files"; echo "different: $1: $2, files are made"; exit 1; }
}

# What a refusal of a conversion says.
not_good="not a good image, or not whole records, of the edition that is converted from"
too_wide="a number is above 4294967295, the earlier edition's greatest"

# The header alone, and with all its functions in use: in C and C++.
echo '#include "pq.h"' >"$work/alone.c"
for compiler in "gcc -std=c99 -x c" "clang -std=c99 -x c" "g++ -std=c++17 -Wold-style-cast -x c++" "clang++ -std=c++17 -Wold-style-cast -x c++"; do
    warnings="$compiler -Wall -Wextra -Wconversion -pedantic -Werror -I../include"
    $warnings -c "$work/alone.c" -o "$work/alone.o"
    $warnings ../tests/header.c -x none "$LIBRARY" -o "$work/header"
    "$work/header"
    echo "same: include/pq.h by ${compiler%% -x*}"
done

# The library defines the eight calls and needs three functions of a C library.
calls='begin|advance|try|count_day|convert_(records|image)(_back)?'
nm -g "$LIBRARY" | awk "NF > 1 && !/ (T pq_($calls)|U mem(cpy|move|set))\$/ { print; other = 1 } END { exit other }"
echo "same: names of the library"
size "$LIBRARY" | awk 'NR > 1 && $2 + $3 > 0 { print "data: " $0; data = 1 } END { exit data }'
echo "same: the library has no data of its own"
# The size that docs/INTEGRATION.md promises: code and constants, in bytes.
size "$LIBRARY" | awk 'NR > 1 { sum += $1 } END { if (sum == 0 || sum > 26000) { print "size: " sum; exit 1 } }'
echo "same: the library is within its bound"

# The stack that docs/INTEGRATION.md promises, in bytes.
gcc -std=c99 -Wall -Wextra -Werror -O2 -I../include -Wl,-z,now ../bench/stack.c "$LIBRARY" -o "$work/stack"
"$work/stack" | awk '{ bound = /^begin/ ? 2816 : /^count|^convert 1000/ ? 512 : /^convert an image/ ? 4096 : 7168 }
                     $(NF - 1) > bound { print "stack: " $0; over = 1 }
                     END { exit over || NR == 0 }'
echo "same: the stack is within its bounds"

# stored: the lines of log as the code in the document prints them.
stored() {
    awk 'BEGIN { kinds["dip"] = 1; kinds["swell"] = 2; kinds["interruption"] = 3; kinds["rvc"] = 4; n = 100 }
         $1 in kinds { unit = 0.020 / 16 / ($1 == "rvc" ? n : 1)
                       mark = $6 == "clipped" ? ", clipped" : ""
                       printf "kind %d, at %.2f s, for %.2f s: %.1f V, %.1f V%s\n", kinds[$1], ($2 - 1) / n, $3 / n, $4 * unit, $5 * unit, mark }'
}

# Three dips of 60 % in a supply of 25000 counts, each with one sample at an end of the range or beside it, and a swell of 120 % with one.
python3 -B -c '
import recordings, sys
settings = recordings.WORKED[:2] + (16 * 25000,) + recordings.WORKED[3:]
events = [(32767, 15000), (-32767, 15000), (-32768, 15000), (32767, 30000)]
samples = [x for sample, level in events for x in [25000] * 24 + [sample] + [level] * 15]
recordings.write(sys.argv[1], "clipped.bin", settings, samples + [25000] * 24)' "$work"
cat >"$work/clipped.txt" <<'END'
kind start halves first second
dip 3 3 266793 0 clipped
dip 8 3 266793 0
dip 13 3 266795 0 clipped
swell 18 3 482885 0 clipped
values 22
END

# The code in the document: on recordings in blocks of some lengths; with a count of values that passes 4 bytes; and at the end of the count, where it must
# begin anew with a whole half-cycle. For that the busy example becomes one under the document's settings, with each sample eight times.
awk '/^```$/ { code = 0 } code; /^```c$/ { code = 1 }' ../docs/INTEGRATION.md >"$work/integration.c"
gcc -std=c99 -Wall -Wextra -pedantic -Wconversion -Werror -I../include -I"$work" ../tests/document.c "$LIBRARY" -o "$work/document"
python3 -B -c '
import recordings, sys
recordings.write(sys.argv[1], "wide.bin", recordings.CRUSHER, [115 * x for x in recordings.busy() for _ in range(8)])' "$work"
for block in 1 7 64 4999; do
    for recording in crusher busy; do
        "$work/document" $recording.bin $block >"$work/got"
        same "the code in docs/INTEGRATION.md: $recording, $block samples at a time" <(stored <$recording.txt) "$work/got"
    done
    "$work/document" "$work/clipped.bin" $block >"$work/got"
    same "the code in docs/INTEGRATION.md: clipped, $block samples at a time" <(stored <"$work/clipped.txt") "$work/got"
    "$work/document" crusher.bin $block 4294967290 >"$work/got"
    same "the code in docs/INTEGRATION.md: past 4 bytes, $block samples at a time" \
        <(awk '{ $2 = sprintf("%.0f", $2 + 4294967289) } 1' crusher.txt | stored) "$work/got"
    while read -r values halves; do
        { head -c 36 "$work/wide.bin"; tail -c "+$((36 + 128 * halves + 1))" "$work/wide.bin"; } | "$OUT/log" | stored >"$work/want"
        "$work/document" "$work/wide.bin" $block "$values" >"$work/got" 2>&1
        same "the code in docs/INTEGRATION.md: from value $values on, $block samples at a time" "$work/want" "$work/got"
    done <<'END'
9223372036854775802 8
9223372036854775807 3
END
done
[ "$(wc -l <"$work/got")" = 121 ] || { echo "different: the records behind the values' end"; exit 1; }

# Its code that asks for room: three channels, the busy example from three places on, share a memory of a few records, in blocks of some lengths; where a block
# finds no room the records are taken away.
gcc -std=c99 -Wall -Wextra -pedantic -Wconversion -Werror -I../include -I"$work" ../tests/shared.c "$LIBRARY" -o "$work/shared"
for channel in 0 1 2; do
    { head -c 36 busy.bin; tail -c "+$((36 + 16 * 100 * channel + 1))" busy.bin; } >"$work/busy $channel.bin"
done
for records in 4 7 100; do
    for block in 1 64 4999; do
        "$work/shared" $block $records "$work"/busy\ [012].bin >"$work/got"
        for channel in 0 1 2; do
            same "the code in docs/INTEGRATION.md: channel $channel of three, room for $records, $block samples at a time" \
                <("$OUT/log" <"$work/busy $channel.bin" | stored) <(sed -n "s/^$channel //p" "$work/got")
        done
    done
done

# Its code for an update from version 2: a channel and its records, carried over after some samples, and back before.
gcc -std=c99 -Wall -Wextra -pedantic -Wconversion -Werror -I../include -I"$work" ../tests/update.c "$LIBRARY" -o "$work/update"
for recording in worked crusher busy; do
    for cut in 0 1 40 63 8001 12799; do
        "$work/update" $recording.bin $cut >"$work/got"
        same "the code in docs/INTEGRATION.md: $recording, updated after $cut samples" <(stored <$recording.txt) "$work/got"
    done
done

# Its count of a day, of records given as lines: the crusher's, on both sides of a midnight, on the limits of 3 % and 5 %, at the cap and over it; at 60 Hz,
# too.
gcc -std=c99 -Wall -Wextra -pedantic -Wconversion -Werror -I../include -I"$work" ../tests/contract.c "$LIBRARY" -o "$work/contract"
with 4 '\074\0\0\0' crusher.bin >"$work/crusher 60.bin"
# counted TIMES LINES SECONDS DAY EXPECTED [RECORDING]: so many times these lines.
counted() {
    for _ in $(seq "$1"); do echo "$2"; done | "$work/contract" "${6:-crusher.bin}" "$3" "$4" >"$work/got"
    same "the code in docs/INTEGRATION.md: day $4, $1 times $2, from $3 s on" <(echo "$5") "$work/got"
}
counted 1 "$(sed -n 2,3p crusher.txt)" 23400 0 "day 0: 0 of 3 % or more, 1 above 5 %"
counted 1 "$(sed -n 2,3p crusher.txt)" 23400 1 "day 1: 0 of 3 % or more, 0 above 5 %"
counted 1 "rvc 100 1 920001 552000" 86399 0 "day 0: 1 of 3 % or more, 1 above 5 %"
counted 1 "rvc 101 1 920000 552000" 86399 1 "day 1: 1 of 3 % or more, 0 above 5 %"
counted 1 "rvc 1 1 920001 551999" 0 1 "day 1: 0 of 3 % or more, 1 above 5 %"
counted 24 "rvc 1 1 920001 552000" 23400 0 "day 0: 24 of 3 % or more, 24 above 5 %"
counted 25 "rvc 1 1 920001 552000" 23400 0 "day 0: 25 of 3 % or more, over, 25 above 5 %, over"
counted 1 "rvc 120 1 1104000 662400" 86399 0 "day 0: 1 of 3 % or more, 0 above 5 %" "$work/crusher 60.bin"
counted 1 "rvc 121 1 1104001 662399" 86399 1 "day 1: 0 of 3 % or more, 1 above 5 %" "$work/crusher 60.bin"
counted 1 "none 1 1 1 1" 0 0 "refused 17"

# all_tests NAME: of the command in LOG.
all_tests() {
    prints "$1"
    goes_on "$1"
    clipped "$1"
    refuses "$1"
    refuses_state "$1"
    refuses_log "$1"
    refuses_input "$1"
    refuses_names "$1"
    at_once "$1"
    values_end "$1"
    updated "$1"
    past_4_bytes "$1"
    converts "$1"
}

PAUSE=0.1
CRUSHER=(0 1 63 64 8000 8001 12799 22751 30000 38399 38400)
BUSY=(1770 8 8 8 9 100 1)
WORKED=(9 9 9 9 9 9 9)
CLIPPED=(24 25 31 32 33 40 41 48 144 145 152 160 168)
DAMAGE=(short long empty numbers 0:'\02\0\0\0' 100:'\02\0\0\0' 788:'\051\0\0\0' 796:'\01\0\0\0' 804:'\0\0\0\0' 816:'\0\0\0\0')
LOG=("$OUT/log")
CONVERT=("$OUT/convert")
all_tests plain
LOG=("$OUT/log-sanitized")
CONVERT=("$OUT/convert-sanitized")
all_tests sanitized
# Each run takes long: fewer of them.
PAUSE=1
CRUSHER=(8001)
BUSY=(1770 8)
WORKED=(9 9)
CLIPPED=(33)
DAMAGE=(short)
LOG=(valgrind --quiet --leak-check=full --error-exitcode=9 "$OUT/log")
CONVERT=(valgrind --quiet --leak-check=full --error-exitcode=9 "$OUT/convert")
prints valgrind
goes_on valgrind
clipped valgrind
refuses_state valgrind
refuses_input valgrind
values_end valgrind
updated valgrind
past_4_bytes valgrind
converts valgrind
echo "all the same"
