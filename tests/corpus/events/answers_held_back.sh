# A line is answered before the next one is read: each line comes only once the answer to the one before it is there.
coproc "$PROGRAM"
player=$COPROC_PID
for number in $(seq 20); do
    echo >&"${COPROC[1]}"
    if ! read -r -t 30 answer <&"${COPROC[0]}"; then
        echo "no answer to line $number in time"
        kill $player
        exit
    fi
    [ "$answer" = '?' ] || echo "line $number: $answer"
done
exec {COPROC[1]}>&-
wait $player
echo "20 lines: status $?"
