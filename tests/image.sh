#!/bin/sh
# The program over image files: made, filled, read back, refused, cut off. One line for each check; status 0 if all passed.
set -u
program=$1
folder=$(mktemp -d) || exit 2
trap 'rm -rf "$folder"' EXIT
cd "$folder" || exit 2
passed=0
failed=0

# check NAME EXPECTED ACTUAL
check() {
    if [ "$2" = "$3" ]; then
        passed=$((passed + 1))
        echo "image: $1: ok"
    else
        failed=$((failed + 1))
        echo "image: $1: FAILED: expected [$2], got [$3]"
    fi
}

# run WORDS..: what the program prints, with its status behind it
run() {
    "$program" "$@" 2>/dev/null
    echo "status $?"
}

check "made" "status 0" "$(run a.img disk 12)"
check "size" "768" "$(wc -c < a.img | tr -d ' ')"
check "made once only" "status 1" "$(run a.img disk 12)"
printf 'the first pattern, of a length that needs two blocks of 64 bytes' > first
printf ' and some' >> first
printf 'short' > second
check "put" "done
status 0" "$(run a.img put ROSE first)"
check "put another" "done
status 0" "$(run a.img put LEAF second)"
check "list" "ROSE 73
LEAF 5
status 0" "$(run a.img list)"
check "map" "########aab.
status 0" "$(run a.img map)"
check "read" "status 0" "$(run a.img read ROSE back)"
check "the same bytes" "$(cat first)" "$(cat back)"
check "why" "dernoalf: none: there is no file of this name" "$("$program" a.img read TULIP back 2>&1)"
check "no such file" "status 1" "$(run a.img read TULIP back)"
check "away" "done
status 0" "$(run a.img away LEAF)"
check "away what isn't there" "done
status 0" "$(run a.img away LEAF)"
check "no room" "status 1" "$(head -c 300 /dev/zero > large; run a.img put BIG large)"
check "too long" "status 1" "$(head -c 1025 /dev/zero > large; run a.img put BIG large)"
check "name too long" "status 1" "$(run a.img put 'TWELVE BYTES' first)"
check "no such file of the system" "status 1" "$(run a.img put ROSE missing)"
check "no such folder" "status 1" "$(run missing/a.img disk 12)"
check "put without its file" "status 1" "$(run a.img put ROSE)"
check "no command" "status 1" "$(run a.img weave ROSE)"
check "wrong option" "status 1" "$(run --weave)"
check "help" "status 0" "$(run --help | tail -1)"
check "sound" "sound
status 0" "$(run a.img check)"

# A text over the image: what power cuts off is not seen.
check "a text" "cut
ROSE 73
done
ROSE 2
refused 4 at 8" "$(printf 'power 1\nput ROSE\nca fe\nlist\nput ROSE\nca fe\nlist\n\ndisk 20\n' | "$program" a.img)"
check "sizes stay" "768" "$(wc -c < a.img | tr -d ' ')"

# A disk that isn't sound is refused with its place, and left alone.
cp a.img b.img
printf '\002' | dd of=b.img bs=1 seek=96 conv=notrunc 2>/dev/null
cp b.img b.copy
check "not sound" "refused 1 at 3
refused 1 at 3
refused 4 at 3" "$(printf 'put X\n01\naway X\ndisk 9\n' | "$program" b.img)"
check "where it isn't sound" "dernoalf: refused 1 at 3: the disk is not sound, first at this entry, or at 16 for its size" "$("$program" b.img list 2>&1)"
check "left alone" "same" "$(cmp -s b.img b.copy && echo same)"
head -c 100 /dev/zero > c.img
check "no whole blocks" "status 1" "$(run c.img list)"

# The same commands leave the same bytes in memory and in the file.
printf 'disk 40\nput ONE\n%s\nput TWO\n%s\naway ONE\nput TWO\n00\n' "$(printf '%0200d' 7)" "$(printf '%0400d' 8)" > text
check "a longer text" "done
done
done
done" "$("$program" d.img < text)"
check "its listing" "$( (cat text; echo list; echo map; echo unread) | "$program" | tail -n +5)" "$(printf 'list\nmap\nunread\n' | "$program" d.img)"

echo "$passed passed, $failed failed"
[ "$failed" -eq 0 ]
