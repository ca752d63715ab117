for k in $(seq 256); do echo "file F$k x"; done > script
printf '%s\n' 'file F1 y' 'file F257 x' >> script
echo 'list' >> script
"$OBERON" < script | sort | uniq -c | sed 's/^ *//' | grep -E ' (ok|no .*|written .*|end)$'
