# Each allocation of the worked rows of a ring is refused in turn: `ring_bench rows` adds, cuts and splices, and tries a refused call once
# more. So a refused call leaves the ring as it was, or the characters and pieces in the end would be others. The first few allocations
# are those of the arguments' words, before there is a ring.
cc -shared -fPIC -o refuse.so "$TESTS/c/refuse_allocation.c" || exit 1
"$RING_BENCH" rows 0 0
number=0
kept=0
while :; do
    rm -f refused
    LD_PRELOAD=./refuse.so REFUSE=$number REFUSED=refused "$RING_BENCH" rows 0 0 > got 2>&1
    [ -e refused ] || break
    case $(cat got) in
        '6 1') kept=$((kept + 1)) ;;
        'Error: Kind(OutOfMemory)') ;;
        *) echo "allocation $number refused: $(cat got)" ;;
    esac
    number=$((number + 1))
done
[ $kept -gt 10 ] && echo 'every allocation of the ring was refused once'
count 'allocations refused, a ring' $number
