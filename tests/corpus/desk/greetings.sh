# How a sitting begins: the line below the desktop says how to go on, and where the program is told so that it is unproved.
for option in '' --unproved; do
    printf '\021' | "$DESK_PROGRAM" sit $option 33 my.disk > shown
    echo "$?"
    # (the words stand at places of their own)
    sed 's/\x1b\[[0-9;?]*[A-Za-z]/ /g; s/  */ /g' shown | grep -a -o 'Help: F2, then.* leaves\|Not proved yet.* stores'
done
printf '\021' | "$DESK_PROGRAM" sit --unproven 33 my.disk 2> /dev/null
echo "$?"
