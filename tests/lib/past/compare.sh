# compare.sh SECTORS SCRIPT K..: keeps the past of a script in a store of so many sectors, here, and compares what the program and
# the reader give of each moment K with the first K events, played to a new store. MOST is how many sectors of pages fill a part,
# if that isn't as many as it has. PAST_TRIAL and OBERON are the programs.
here=$(dirname "$(realpath "$0")")
sectors=$1 script=$2
shift 2
"$PAST_TRIAL" make a.disk "$sectors" > answer
"$PAST_TRIAL" keep a.disk "$sectors" "${MOST-0}" < "$script" > answers
good=0 bad=0 gone=0
for k; do
    rm -f new.disk
    "$OBERON" format new.disk > answer
    wanted=$(head -"$k" "$script" | bash "$here/shown.sh" "$k" "$OBERON" play new.disk)
    is=$(bash "$here/shown.sh" 0 "$PAST_TRIAL" moment a.disk "$sectors" "$k" < /dev/null)
    if ! python3 "$here/reader.py" a.disk "$sectors" "$k" moment.disk rest 2> why; then
        gone=$((gone + 1))
        [ "$("$PAST_TRIAL" moment a.disk "$sectors" "$k" < /dev/null)" = "no moment $k" ] || echo "$k: $(cat why)"
        continue
    fi
    read=$(bash "$here/shown.sh" "$(wc -l < rest)" "$OBERON" play moment.disk < rest)
    MARKS=1 python3 "$here/reader.py" a.disk "$sectors" "$k" moment.disk rest
    marked=$(bash "$here/shown.sh" "$(wc -l < rest)" "$OBERON" play moment.disk < rest)
    if [ "$is" = "$wanted" ] && [ "$read" = "$wanted" ] && [ "$marked" = "$wanted" ]; then good=$((good + 1)); else bad=$((bad + 1)) && echo "$k differs"; fi
done
echo "$good moments agree, $bad differ, $gone are gone"
