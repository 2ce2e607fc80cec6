#!/bin/sh
# Runs isodist over inputs that are as long, as large or as wide as they may be, with 2 GB of memory and
# 60 seconds: a line for each with its status, its seconds, its greatest memory in MB and what it said.
# Not part of the gate. Before it: rt run in crates/isodist. It needs GNU time.
#
#   sh bench/hostile.sh [WORD]    (a WORD: the inputs whose name has it)
set -eu
top=$(cd "$(dirname "$0")/.." && pwd)
program=$top/crates/isodist/out/isodist
only=${1:-}
room=$(mktemp -d)
trap 'rm -rf "$room"' EXIT
limit=1048576

# run NAME WORDS: the file $room/file
run() {
    case $1 in *"$only"*) ;; *) return 0 ;; esac
    status=0
    (ulimit -v 2097152; timeout 60 /usr/bin/time -q -f '%e %M' -o "$room/time" "$program" $2 < "$room/file" > "$room/out" 2> "$room/err") || status=$?
    set -- "$1" "$2" $(tail -1 "$room/time")
    printf '%-44s %-24s status %s %6s s %5s MB %9s bytes  %s\n' "$1" "$2" "$status" "$3" "$(($4 / 1024))" "$(wc -c < "$room/out")" "$(head -c 100 "$room/err")"
}

# head_of FORMAT: the lines of a file of one trivial irrep, up to where lines of atoms may stand
head_of() { printf 'isodist %s\nhall P 1\nirrep A 1\nk 0 0 0\nmat x,y,z 1\n' "$1"; }

# fill TEXT SIZE: TEXT again and again, SIZE bytes
fill() { yes "$1" | tr -d '\n' | head -c "$2"; }

# lines TEXT SIZE: lines of TEXT, at most SIZE bytes
lines() { yes "$1" | head -c $(($2 / (${#1} + 1) * (${#1} + 1))); }

# one line of a kind, of a megabyte, in a file that is right up to it: BEFORE START WORD
long_line() {
    name=$1 before=$2 start=$3 word=$4
    { printf '%s' "$before"; printf '%s' "$start"; fill "$word" $((limit - ${#before} - ${#start} - 1)); echo; } > "$room/file"
    run "$name" check
}
one="$(printf 'isodist 1\nx')"; one=${one%x}
two="$(printf 'isodist 2\nx')"; two=${two%x}
irrep="$(printf 'isodist 1\nhall P 1\nx')"; irrep=${irrep%x}
wave="$(printf 'isodist 1\nhall P 1\nirrep A 1\nx')"; wave=${wave%x}
mat="$(printf 'isodist 1\nhall P 1\nirrep A 6\nk 0 0 0\nx')"; mat=${mat%x}
atom="$(head_of 1; printf x)"; atom=${atom%x}
listed="$(head_of 1; printf 'tolerance 0.1\nx')"; listed=${listed%x}
vector="$(head_of 2; printf x)"; vector=${vector%x}

: > "$room/file"
run 'nothing' check
long_line 'a comment' '' '#' 'x'
long_line 'blanks' '' ' ' ' '
long_line 'the first line' '' 'isodist 1' ' '
long_line 'hall' "$one" 'hall P 1' ' 2'
long_line 'hall, blanks behind' "$one" 'hall P 1' ' '
long_line 'lattice' "$two" 'lattice P' ' '
long_line 'op' "$(printf '%slattice P\nx' "$two" | sed '$s/x$//')
" 'op x' '+1/12'
long_line 'irrep' "$irrep" 'irrep A' 'A'
long_line 'k' "$wave" 'k 0 0 0' ' 0'
long_line 'mat' "$mat" 'mat x,y,z' ' 1'
long_line 'mat, one number' "$mat" 'mat x,y,z 1' '+z1'
long_line 'realvector' "$vector" 'realvector' ' 1'
long_line 'atom' "$atom" 'atom Q' ' 0'
long_line 'tolerance' "$atom" 'tolerance ' '0'
long_line 'cell' "$vector" 'cell' ' 1'
long_line 'listed' "$listed" 'listed Q' ' 0'
long_line 'value' "$vector" 'value Q' ' 0'
long_line 'axial' "$vector" 'axial Q' ' 0'
long_line 'end' "$atom" 'end' ' '
{ printf '%s' "$atom"; echo end; fill '#x' $((limit - ${#atom} - 4)); } > "$room/file"
run 'a comment behind the end' check

# as many lines of a kind as a megabyte holds
{ lines '' $limit; } > "$room/file"; run 'empty lines' check
{ lines '#' $limit; } > "$room/file"; run 'comments' check
{ printf '%s' "$irrep"; lines 'irrep A 1' $((limit - 40)); } > "$room/file"; run 'lines of irreps' check
{ printf '%s' "$mat"; lines 'mat x,y,z 1 0 0 0 0 0 0 1 0 0 0 0 0 0 1 0 0 0 0 0 0 1 0 0 0 0 0 0 1 0 0 0 0 0 0 1' $((limit - 99)); } > "$room/file"; run 'lines of matrices' check
{ printf '%s' "$atom"; lines 'atom Q 0 0 0' $((limit - 99)); } > "$room/file"; run 'lines of atoms' check
{ printf '%s' "$listed"; lines 'listed Q 0 0 0' $((limit - 99)); } > "$room/file"; run 'lines of listed atoms' check
{ head_of 1; echo 'atom Q 0 0 0'; echo 'tolerance 0.1'; yes 'listed Q 0 0 0' | head -4096; echo end; } > "$room/file"; run '4,096 listed atoms of one place' amps
{ yes 'x' | head -c $((limit + 1)); } > "$room/file"; run 'a byte more than a megabyte' check

# the point R of P m -3 n in a basis of large whole numbers: U M U^-1, U the unit matrix and a block above
awk '
    BEGIN { split("47 -31 29 37 43 -23 -41 19 50", n, " "); for (i = 0; i < 3; i++) for (j = 3; j < 6; j++) block[i, j] = n[3 * i + j - 2] }
    $1 != "mat" { print; next }
    {
        for (i = 0; i < 6; i++) for (j = 0; j < 6; j++) { v = $(3 + 6 * i + j); m[i, j] = v == "z12" ? -1 : v + 0 }
        for (i = 0; i < 6; i++) for (j = 0; j < 6; j++) { left[i, j] = m[i, j]; for (k = 3; k < 6; k++) if (i < 3) left[i, j] += block[i, k] * m[k, j] }
        line = "mat " $2
        for (i = 0; i < 6; i++) for (j = 0; j < 6; j++) { v = left[i, j]; if (j >= 3) for (k = 0; k < 3; k++) v -= left[i, k] * block[k, j]; line = line " " v }
        print line
    }' "$top/bench/six_rows.isod" > "$room/file"
run 'six rows of large numbers' check
run 'six rows of large numbers' list

# 24 arms of one dimension modulo 6,144 elements: more fixed subspaces than are held
printf 'isodist 2\nhall -I 4 2 3\nirrep V 1\nk 1/4 1/2 0\nmat x,y,z 1\nmat x,y,-z 1\nend\n' > "$room/file"
run '24 dimensions, 6,144 elements' check
run '24 dimensions, 6,144 elements' list
printf 'isodist 2\nhall -I 4 2 3\nirrep V 1\nk 1/4 1/4 0\nmat x,y,z 1\nmat x,y,-z 1\nmat y,x,z 1\nmat y,x,-z 1\nend\n' > "$room/file"
run '12 dimensions, 6,144 elements' list
