#!/bin/bash
# The script ./price as a user types it: tests/price.sh [PROGRAM], with the program that rt has built (crates/price/out/price).
# A stand-in plays rt and builds by copying PROGRAM, so that no test waits for a proof.
set -u
here=$(cd "$(dirname "$(readlink -f -- "${BASH_SOURCE[0]}")")/.." && pwd -P) || exit 2
PROGRAM=$(readlink -f -- "${1:-$here/crates/price/out/price}")
[ -x "$PROGRAM" ] || { echo "tests/price.sh: no program at $PROGRAM" && exit 2; }
ROOM=$(mktemp -d) || exit 2
EXAMPLES=$here/crates/price/data/examples
export PROGRAM ROOM EXAMPLES
trap 'rm -rf "$ROOM"' EXIT
desk=$ROOM/desk examples=$EXAMPLES passed=0 failed=0

mkdir "$ROOM/bin" "$ROOM/tools"
cat >"$ROOM/bin/rt" <<'END'
#!/bin/bash
# Plays rt: builds by copying, and like rt runs what it has built.
[ "$1" = version ] && echo "stand-in kit 7" && exit
[ "$*" = run ] && [ "${PWD%/crates/price}" != "$PWD" ] || exit 2
echo one >>"$ROOM/builds"
mkdir -p out
for name in low middle; do
    sleep "${PROVING:-0}" &
    echo $! >>"$ROOM/provers"
    wait $!
    echo "fn $name::f: proved" >&2
    echo "crate $name: modules loaded=0 checked=1" >&2
    [ "$name" != "${FAILING:-}" ] || { echo "logic=not-proved" >&2 && exit 1; }
    echo "logic=proved functions=1 sum=1" >&2
done
[ -z "${CHANGING:-}" ] || echo "// later" >>../low/src/lib.rt
cp "$PROGRAM" out/price
echo "crate price: modules loaded=0 checked=1" >&2
echo "logic=proved functions=1 sum=1" >&2
exec out/price
END
chmod +x "$ROOM/bin/rt"
# All that the script needs beside rt.
for tool in awk bash cat cmp cp cut find flock git grep head mkdir mv readlink rm sed sha256sum sleep sort tail wc; do
    ln -s "$(command -v "$tool")" "$ROOM/tools/$tool"
done
PATH=$ROOM/bin:$PATH

# A checkout with three small crates in which nothing is built.
fresh() {
    rm -rf "$desk" "$ROOM/builds" "$ROOM/provers"
    mkdir -p "$desk/crates/low/src" "$desk/crates/middle/src" "$desk/crates/other/src" "$desk/crates/price/data"
    cp "$here/price" "$desk"
    printf '# bottom up\nlow:\nmiddle: low\nother: low\nprice: middle\n' >"$desk/crates.txt"
    echo "// low" >"$desk/crates/low/src/lib.rt"
    echo "// middle" >"$desk/crates/middle/src/lib.rt"
    cp "$examples/straight.txt" "$desk/crates/price/data/one.txt"
    echo one.txt >"$desk/crates/price/args"
    "$PROGRAM" "$examples/straight.txt" >"$desk/crates/price/stdout"
    cp "$examples/bermudan.txt" "$desk/a.txt"
    cp "$examples/window.txt" "$desk/b.txt"
    cp "$examples/refused.txt" "$desk/refused.txt"
    sed 's/^steps .*/steps 366 512/' "$examples/bermudan.txt" >"$desk/large.txt"
}

# try LABEL COMMAND: what it wrote, its status; a command that hangs ends with 124.
try() {
    label=$1
    (cd "$desk" && timeout 60 bash -c "$2") >"$ROOM/out" 2>"$ROOM/err" </dev/null
    status=$?
}

verdict() {
    if [ "$1" -eq 0 ]; then
        passed=$((passed + 1))
        return
    fi
    failed=$((failed + 1))
    echo "FAILED: $label: $2 (status $status)"
    sed 's/^/    out: /' "$ROOM/out" | head -n 8
    sed 's/^/    err: /' "$ROOM/err" | head -n 8
}

ends() { [ "$status" -eq "$1" ]; verdict $? "ends with $1"; }
says() { grep -qF -- "$1" "$ROOM/out"; verdict $? "says '$1'"; }
warns() { grep -qF -- "$1" "$ROOM/err"; verdict $? "warns '$1'"; }
silent() { [ ! -s "$ROOM/out" ]; verdict $? "prints nothing"; }
calm() { [ ! -s "$ROOM/err" ]; verdict $? "warns of nothing"; }
wrote() { "$PROGRAM" "$desk/$1" | cmp -s - "$ROOM/out"; verdict $? "prints the report on $1, and nothing else"; }
times() { [ "$(grep -cF -- "$2" "$ROOM/out")" -eq "$1" ]; verdict $? "says '$2' $1 times"; }
built() { [ "$(wc -l <"$ROOM/builds")" -eq "$1" ]; verdict $? "was built $1 times"; }

# ---- the examples at the top
label="the examples" status=0
: >"$ROOM/out"
: >"$ROOM/err"
diff -r "$here/examples" "$EXAMPLES" >/dev/null
verdict $? "are those that the program is tried on"

# ---- building
fresh
try "the first call" './price a.txt'
ends 0; wrote a.txt; warns "low proved, 1 of 3"; warns "price proved, 3 of 3"; built 1
try "the second call" './price a.txt'
ends 0; wrote a.txt; calm; built 1

try "an edit below the program" 'echo "// edited" >>crates/middle/src/lib.rt; ./price a.txt'
ends 0; wrote a.txt; warns "proving and building"; built 2
try "an edit that is not the program's" 'echo "// edited" >>crates/other/src/lib.rt; ./price a.txt'
ends 0; calm; built 2
try "a source that went" 'rm crates/middle/src/lib.rt; ./price a.txt'
ends 0; built 3
try "no rt, and nothing changed" 'PATH=$ROOM/tools ./price a.txt'
ends 0; wrote a.txt; calm
try "no rt after an edit" 'echo "// again" >>crates/low/src/lib.rt; PATH=$ROOM/tools ./price a.txt'
ends 2; silent; warns "rt, which proves and builds it, is not on the PATH"; built 3
try "an edit while it is being proved" 'CHANGING=1 ./price a.txt'
ends 2; silent; warns "the sources changed while they were being proved"
try "target removed" './price a.txt && rm -rf target && ./price a.txt'
ends 0; times 2 "Spreads tried"

fresh
try "one figure of stdout changed" 'cp crates/price/stdout kept; sed -i "/^Nodes/y/0123456789/1234567890/" crates/price/stdout; ./price a.txt'
ends 2; silent; warns "does not write what crates/price/stdout has"
[ -x "$desk/crates/price/out/price" ]
verdict $? "the program that is refused stands there"
try "and called again" './price a.txt'
ends 2; silent; built 2
try "the figure put back" 'cp kept crates/price/stdout; ./price a.txt'
ends 0; wrote a.txt
try "changed once more, behind a proved program" 'sed -i "/^Nodes/y/0123456789/1234567890/" crates/price/stdout; ./price a.txt'
ends 2; silent

fresh
try "a crate that is not proved" 'FAILING=middle ./price a.txt'
ends 2; silent; warns "low proved, 1 of 3"; warns "logic=not-proved"; warns "rt does not call the program proved"
try "and proved after all" './price a.txt'
ends 0; wrote a.txt

fresh
try "two first calls at once" 'PROVING=1 ./price a.txt >one 2>one.err & PROVING=1 ./price a.txt >two 2>two.err; s=$?; wait $! && cmp one two && cat one one.err two.err >&2; exit $s'
ends 0; warns "another call is building"; warns "Spreads tried"; built 1

fresh
try "a signal to the script" 'PROVING=50 ./price a.txt & until [ -s "$ROOM/provers" ]; do sleep 0.1; done; kill -TERM $!; wait $!'
ends 143; silent; warns "stopped while the program was being built"
try "and the prover is gone" 'for i in {1..20}; do grep -qs "^State:.[^Z]" "/proc/$(cat "$ROOM/provers")/status" || exit 0; sleep 0.2; done; exit 1'
ends 0
try "the lock went with it" './price a.txt'
ends 0; wrote a.txt

fresh
if command -v script >/dev/null; then
    try "progress on a terminal" 'PROVING=1 script -qec "./price a.txt" /dev/null'
    ends 0; says $'\rprice: 0 of 3 crates proved, 0 min 0'; says "3 of 3 crates proved"
    ! grep -q "low proved" "$ROOM/out"
    verdict $? "has no line for each crate there"
else
    echo "script, which plays a terminal, is missing: progress on a terminal was not tried"
    (cd "$desk" && ./price a.txt) >/dev/null 2>&1
fi

# ---- what is read, and what is lost
try "a full device" './price a.txt >/dev/full'
ends 2; warns "the report could not be written"
try "a file that can't grow" '{ trap "" XFSZ; ulimit -f 0; ./price a.txt 2>&1 >kept; } | cat >&2; exit "${PIPESTATUS[0]}"'
ends 2; warns "the report could not be written"
try "standard output closed" './price a.txt >&-'
ends 2; warns "standard output is closed"
try "help to a full device" './price --help >/dev/full'
ends 2
try "standard error closed" './price a.txt 2>&-'
ends 0; wrote a.txt
try "standard error closed, and no such file" './price none.txt 2>&-'
ends 2; silent
try "standard input closed" './price <&-'
ends 2; silent; warns "standard input is closed"
try "standard input closed, a file named" './price a.txt <&-'
ends 0; wrote a.txt; calm
try "all three closed" './price a.txt <&- >&- 2>&-'
ends 2
try "standard input" './price <a.txt'
ends 0; wrote a.txt
try "standard input by its sign" './price - <a.txt'
ends 0; wrote a.txt
try "a reading that fails half-way" './price /proc/self/mem'
ends 2; says "Not priced"; warns "price: /proc/self/mem: it can't be read to its end"
try "a folder" './price crates a.txt'
ends 2; says "Spreads tried"; warns "price: crates: it is a folder"
try "no such file" './price none.txt'
ends 2; silent; warns "price: none.txt: there is no such file"
try "refused" './price refused.txt'
ends 1; wrote refused.txt

mkdir -p "$ROOM/links/deep"
ln -s "$desk/price" "$ROOM/links/first"
ln -s ../first "$ROOM/links/deep/price"
try "a link on the PATH" 'cd / && PATH=$ROOM/links/deep:$PATH price "$ROOM/desk/a.txt"'
ends 0; wrote a.txt

# ---- several files
try "three files" './price a.txt refused.txt b.txt'
ends 1; times 2 "Spreads tried"
(cd "$desk" && "$PROGRAM" a.txt refused.txt b.txt) | cmp -s - "$ROOM/out"
verdict $? "prints what the program prints of three files"
try "a stack too small for the second" 'ulimit -S -s 8192; ulimit -H -s 8192; ./price a.txt large.txt b.txt'
ends 2; times 2 "Spreads tried"; warns "price: large.txt: pricing was stopped (status 139)"; says "Not priced"
case $(ulimit -H -s) in
unlimited | [1-9][0-9][0-9][0-9][0-9][0-9]*)
    try "the same with stack enough" './price a.txt large.txt b.txt'
    ends 0; times 3 "Spreads tried"; calm
    try "a tree too wide for the largest room" 'sed "s/^alpha .*/alpha -4/" a.txt | ./price'
    ends 1; says "Refused          21"; says "The tree finds no room: ask for fewer steps."; calm
    ;;
*) echo "the hard stack limit is below 100 MB: a tree that needs more than 8 MB was not tried" ;;
esac
try "a report is printed before the next file is read" 'mkfifo slow; ./price a.txt slow >kept & until grep -q "Spreads tried" kept; do sleep 0.1; done; cat b.txt >slow; wait $!; cat kept'
ends 0; times 2 "Spreads tried"

# ---- what is said of a bond
try "a bond without its calls" 'grep -v "^call" "$EXAMPLES/amortising.txt" | ./price'
ends 0; says "Calls are worth                          0.00    0000000000000000"
try "a first factor of 0.5" 'sed "s/^\(pillar 2026-11-17 *\)1$/\10.5/" a.txt >half.txt; ./price half.txt'
ends 0; warns "price: half.txt: warning: line 49: the first factor isn't 1."; times 0 "Warning"; times 0 "Calls are worth                         -"
try "a warning and --check" 'sed "s/^spread .*/spread 0.85/" a.txt >wide.txt; ./price --check wide.txt'
ends 0; warns "price: wide.txt: warning: line 10: the spread is beyond 0.2"
printf 'ok\n' | cmp -s - "$ROOM/out"
verdict $? "says ok alone"
try "a file from another system" 'sed "s/$/\r/" a.txt >dos.txt; ./price dos.txt'
ends 1; says "Run: dos2unix FILE"
try "clean or dirty" './price a.txt'
ends 0; says "prices include accrued interest"; says "Name             Norrvik Energy 5.25% 2036"

try "a spread to six decimals" 'sed "s/^spread .*/spread 0.0085124/" a.txt | ./price'
ends 0; says "Spread                               0.008512    "; times 0 "basis points"
try "a strike as it was typed" 'sed "s/^\(call 2029-11-15  *2029-11-15  *\)102/\1102.123450/" a.txt | ./price'
ends 0; says "2029-11-15  2029-11-15     102.123450    "
try "a strike too long for its column" 'sed "s/^\(call 2029-11-15  *2029-11-15  *\)102/\1102.00000000000001/" a.txt | ./price'
ends 0; says "2029-11-15  2029-11-15      next line    "; says "  strike         102.00000000000001"

# ---- what was priced, what to do about a file that can't be read, and warnings
try "what was priced" './price a.txt'
ends 0; says "Settlement       2026-11-17"; says "Steps a year                               12"; says "Steps at most                             512"
says "Alpha                                  0.0300"; says "First sigma                            0.0092"; says "Sigma entries                               4"
try "digests tell which input differs" 'for change in "" s/0.61043274/0.61043275/ "s/redemption 100/redemption 101/" "s/^alpha 0.03/alpha 0.04/"; do sed "$change" a.txt | ./price; done | grep digest | sort | uniq -c'
ends 0; times 3 "      3 "; times 3 "      1 "
try "a byte order mark" 'printf "\357\273\277" | cat - a.txt | ./price'
ends 1; says "A byte order mark starts with byte 239. Run: dos2unix FILE"
try "thousands by spaces" 'sed "s/^units 100/units 1 00/" a.txt | ./price'
ends 1; says "Spaces separate values: for 2 000 000 type 2000000."
try "a date without dashes" 'sed "s/^settlement 2026-11-17/settlement 20261117/" a.txt | ./price'
ends 1; says "A day number is at most 200,000; a date has dashes: 2026-11-15."
try "a spread out of its range" 'sed "s/^spread 0.0085/spread 85/" a.txt | ./price'
ends 1; says "spread lies between -1 and 1"
try "a call with one date" 'sed "s/^call 2029-11-15 2029-11-15 102/call 2029-11-15 102/" a.txt | ./price'
ends 1; says "call takes two days and a strike, as 2029-11-15 2029-11-15 102"
try "a call with nothing to call" 'sed "s/^call 2035-11-15 2035-11-15/call 2036-11-15 2036-11-15/" a.txt | ./price'
ends 1; says "A call on or after the last redemption has nothing to call."
try "an unknown word" 'echo "coupon 5" | cat a.txt - | ./price'
ends 1; says "No line starts with this word. The names are: settlement,"; says "yield, quote, name; a comment starts with #."
try "letters above 126 in a comment" 'printf "# caf\303\251\n" | cat a.txt - | ./price'
ends 0; calm
try "the same cashflow twice" 'sed "/redemption 100/p" a.txt | ./price'
ends 0; warns "the same cashflow stands on line 46."
try "a factor that jumps" 'sed "s/0.52748602/0.92748602/" a.txt | ./price'
ends 0; warns "this factor is above the one before it by more than a tenth."
try "a sigma in percent" 'sed "s/^\(sigma [0-9]*  *\)0\.0/\10.2/" a.txt | ./price'
ends 0; warns "this sigma is above 0.1: 0.01 is 1 percent a year."
try "few steps" 'sed "s/^steps 12 512/steps 2 512/" a.txt | ./price'
ends 0; warns "fewer than two steps lie between this coupon and the one before."

# ---- options
try "an option behind the file" './price a.txt --check'
ends 0; calm
printf 'ok\n' | cmp -s - "$ROOM/out"
verdict $? "says ok alone"
try "an option between two files" './price a.txt --check refused.txt'
ends 1; says "ok"; says "Refused          8 at line 34"; times 0 "Value"
try "a file with an option's name" 'cp a.txt ./--check; ./price -- --check'
ends 0; wrote a.txt
try "an unknown option" './price --chek a.txt'
ends 2; silent; warns "there is no option --chek"
try "help" './price a.txt --help'
ends 0; says "cashflow DAY redemption NUMBER"; says "Exit status:"; says "  2   a file can't be read"
try "the example of the help is priced" './price --help | sed -n "/^An example/,/^Exit/s/^  //p" | ./price -'
ends 0; says "Value"
try "the version" 'git init -q . && git -c user.name=a -c user.email=a@b commit -q --allow-empty -m first && ./price --version'
ends 0; says "$(git -C "$desk" rev-parse HEAD), with changes"; says "Kit              stand-in kit 7"
try "the version of a clean checkout" 'git add price crates crates.txt && git -c user.name=a -c user.email=a@b commit -q -m second && ./price --version'
ends 0; says "$(git -C "$desk" rev-parse HEAD)"; times 0 "with changes"
try "the version outside git" 'rm -rf .git; ./price --version'
ends 0; says "not known: this is no git checkout"

echo "tests/price.sh: $passed passed, $failed failed"
[ "$failed" -eq 0 ]
