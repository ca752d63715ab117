# 3,000 random reads, writes and syncs on a file of the host, and on the file in memory that is proved to do as the model
# of a file says: each returns the same and reads the same bytes.
for seed in 1 2 3; do "$FILE_MODEL" "file$seed" 1000 $seed; done
