#!/bin/sh
# Builds the static library, runs the C host on the sample, on Horn sheets, by splitting and on bad arguments, and the host of searches
# in legs (test_legs.py), and compares the library with an independent implementation. test.sh [INPUTS]
set -eu
cd "$(dirname "$0")/.."
mkdir -p target/host
tools/archive
gcc -O2 -Wall -Wextra -Werror host/clear.c target/staticlib/libengine.a -o target/host/clear
gcc -O2 -Wall -Wextra -Werror host/legs.c target/staticlib/libengine.a -o target/host/legs
tail -c +13 crates/clearing/stdin >target/host/sheet
echo 'batch 7 n 128 (1 32 33 64) (65 96 97 128) (-33 -128)' | tools/sheet write - -o target/host/wide
# what follows from a fact stands before it; the second sheet holds it
echo 'batch 8 n 128 (-64 -1 97) (-32 128 -97) (-1 64) (32) (1) (-2)' | tools/sheet write - -o target/host/horn
echo 'batch 9 n 128 (-64 -1 97) (-32 128 -97) (-1 64) (32) (1) (-128)' | tools/sheet write - -o target/host/horn-none
echo 'batch 10 n 3 (-3) (-2 3) (-1 2) (1)' | tools/sheet write - -o target/host/chain
echo 'batch 11 n 2 (1 2) (1 -2) (-1 2) (-1 -2)' | tools/sheet write - -o target/host/four

# The host prints this line for these arguments.
prints() {
    line=$1
    shift
    said=$(target/host/clear "$@") || true
    [ "$said" = "$line" ] || {
        echo "host: printed '$said' for $*"
        exit 1
    }
}

# The host says what is wrong with these arguments, prints nothing and exits with 2.
declines() {
    status=0
    said=$(target/host/clear "$@" 2>target/host/told) || status=$?
    [ "$status" -eq 2 ] && [ -z "$said" ] && [ -s target/host/told ] || {
        echo "host: status $status, printed '$said' for $*"
        exit 1
    }
}

prints "$(cat crates/clearing/stdout)" 3 1 9 target/host/sheet
prints "$(cat crates/clearing/stdout)" 3 1 4294967295 target/host/sheet
prints "batch 70000 ball spent calls 1 marks 0 0 0 0" 03 1 1 target/host/sheet
prints "batch 7 ball clear calls 3 marks 1 0 1 0" 1 1 3 target/host/wide
prints "refused 8 place 0" 4294967295 1 9 target/host/sheet
# by rounds, whatever the plan; but a bad one is refused
for plan in '1 0' '1 1' '3 1' '12 0' '12 12'; do
    prints "batch 8 horn clear calls 6 marks 2147483649 2147483648 0 2147483649" $plan 6 target/host/horn
    prints "batch 8 horn clear calls 6 marks 2147483649 2147483648 0 2147483649" $plan 4294967295 target/host/horn
    prints "batch 8 horn spent calls 5 marks 0 0 0 0" $plan 5 target/host/horn
    prints "batch 9 horn none calls 6 marks 0 0 0 0" $plan 6 target/host/horn-none
    prints "batch 9 horn spent calls 5 marks 0 0 0 0" $plan 5 target/host/horn-none
    prints "batch 9 horn spent calls 0 marks 0 0 0 0" $plan 0 target/host/horn-none
done
prints "refused 8 place 0" 0 0 6 target/host/horn
prints "refused 8 place 0" 13 1 6 target/host/horn-none
prints "refused 8 place 0" 3 4 0 target/host/horn
# by splitting: the first model in order, which is not the run's, and no word for a road
prints "batch 70000 clear calls 5 marks 2 0 0 0" split 5 target/host/sheet
prints "batch 70000 clear calls 5 marks 2 0 0 0" split 06 target/host/sheet
prints "batch 70000 clear calls 5 marks 2 0 0 0" split 4294967295 target/host/sheet
prints "batch 70000 spent calls 4 marks 0 0 0 0" split 4 target/host/sheet
prints "batch 70000 spent calls 0 marks 0 0 0 0" split 0 target/host/sheet
# one call for each variable, and one more for each of the two that are paid
prints "batch 7 clear calls 131 marks 0 2147483648 0 2147483648" split 131 target/host/wide
prints "batch 7 spent calls 130 marks 0 0 0 0" split 130 target/host/wide
# the first model of a Horn sheet is its least
prints "batch 8 clear calls 134 marks 2147483649 2147483648 0 2147483649" split 134 target/host/horn
prints "batch 8 clear calls 134 marks 2147483649 2147483648 0 2147483649" split 4294967295 target/host/horn
prints "batch 8 spent calls 133 marks 0 0 0 0" split 133 target/host/horn
# it has no model, but each of the variables that no clause names doubles the calls
prints "batch 9 spent calls 100000 marks 0 0 0 0" split 100000 target/host/horn-none
prints "batch 10 none calls 7 marks 0 0 0 0" split 7 target/host/chain
prints "batch 10 spent calls 6 marks 0 0 0 0" split 6 target/host/chain
# every call that there can be with two variables
prints "batch 11 none calls 7 marks 0 0 0 0" split 7 target/host/four
prints "batch 11 none calls 7 marks 0 0 0 0" split 8 target/host/four
prints "batch 11 none calls 7 marks 0 0 0 0" split 4294967295 target/host/four
prints "batch 11 spent calls 6 marks 0 0 0 0" split 6 target/host/four
prints "batch 11 spent calls 1 marks 0 0 0 0" split 1 target/host/four
prints "batch 11 spent calls 0 marks 0 0 0 0" split 0 target/host/four
# a sheet is refused whatever the budget
head -c 20 target/host/sheet >target/host/torn
head -c 21 target/host/sheet >target/host/ragged
for budget in 0 1 4294967295; do
    prints "refused 2 place 0" split $budget /dev/null
    prints "refused 4 place 5" split $budget target/host/torn
    prints "refused 1 place 0" split $budget target/host/ragged
done
prints "clause 1 met 1 open 1
clause 2 met 1 open 0
clause 3 met 1 open 0" counts 1 1 target/host/sheet
prints "clause 1 met 0 open 2
clause 2 met 2 open 0
clause 3 met 1 open 0" counts 0 0 target/host/sheet
prints "clause 1 met 0 open 2
clause 2 met 2 open 0
clause 3 met 1 open 0" counts 0,0,0,0 00,0 target/host/sheet
# bits of no variable do not matter
prints "clause 1 met 1 open 1
clause 2 met 1 open 0
clause 3 met 1 open 0" counts 1,4294967295,4294967295,4294967295 4294967289,1,1,1 target/host/sheet
# 33 is paid, 128 flipped
prints "clause 1 met 1 open 3
clause 2 met 0 open 3
clause 3 met 1 open 1" counts 0,1 0,0,0,2147483648 target/host/wide
# 32, 65 and 128 are paid, 1, 33 and 97 flipped
prints "clause 1 met 1 open 1
clause 2 met 2 open 1
clause 3 met 1 open 1" counts 2147483648,0,1,2147483648 1,1,0,1 target/host/wide
prints "refused 2 place 0" counts 0 0 /dev/null
prints "begin marks 0 0 0 0 false 1 not all hold
toggle 1 marks 1 0 0 0 false 0 all hold
toggle 3 marks 5 0 0 0 false 2 not all hold
toggle 4 refused 10 place 0
toggle 3 marks 1 0 0 0 false 0 all hold
clause 1 met 1
clause 2 met 1
clause 3 met 1" tally target/host/sheet 1 3 4 3
prints "begin marks 0 0 0 0 false 2 not all hold
toggle 128 marks 0 0 0 2147483648 false 1 not all hold
toggle 33 marks 0 1 0 2147483648 false 1 not all hold
toggle 129 refused 10 place 0
toggle 33 marks 0 0 0 2147483648 false 1 not all hold
toggle 96 marks 0 0 2147483648 2147483648 false 1 not all hold
toggle 32 marks 2147483648 0 2147483648 2147483648 false 0 all hold
clause 1 met 1
clause 2 met 2
clause 3 met 1" tally target/host/wide 128 33 129 33 96 32
prints "begin refused 2 place 0" tally /dev/null 1
for bad in 4294967296 99999999999999999999999999 -1 +1 '' ' 1' 1x 0x1 1.0; do
    declines "$bad" 1 9 target/host/sheet
    declines 3 "$bad" 9 target/host/sheet
    declines 3 1 "$bad" target/host/sheet
    declines counts "$bad" 1 target/host/sheet
    declines counts 1 "$bad" target/host/sheet
    declines tally target/host/sheet 1 "$bad"
    declines split "$bad" target/host/sheet
done
for bad in 1, ,1 , 1,2,3,4,5 1,2,3,4, 1,,2 4294967296,0 0,0,0,4294967296 '1, 2' 1,-1 '1;2'; do
    declines counts "$bad" 1 target/host/sheet
    declines counts 1 "$bad" target/host/sheet
done
declines 3,0 1 9 target/host/sheet
declines tally target/host/sheet 1,0
declines 3 1 9
declines counts 1 target/host/sheet
declines 3 1 9 target/host/no-such-sheet
declines 3 1 9 target/host
declines tally
declines tally target/host/no-such-sheet 1
declines split
declines split 9
declines split target/host/sheet
declines split target/host/sheet 9
declines split 5,0 target/host/sheet
declines split 9 target/host/no-such-sheet
declines split 9 target/host
# a plan is not for it
declines split 1 9 target/host/sheet
declines split 3 1 9 target/host/sheet
echo "host: printed the lines of the sample and of Horn sheets, what splitting says of them, how clauses stand and a tally, and" \
    "declined what is no number"
python3 host/test_legs.py
rustc --edition 2021 -O host/differential.rs -L target/staticlib -l static=engine -o target/host/differential
target/host/differential "${1:-200000}"
