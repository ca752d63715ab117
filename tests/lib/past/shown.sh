# shown.sh SKIP WORDS.. < SCRIPT: a sum over what the desktop shows after the script, whose first answers are left out. WORDS
# play a script: a program and its words.
skip=$1
shift
(cat; printf '%s\n' screen list 'show A.Text' 'show B.Text' 'show C.Text' 'show D') | "$@" | tail -n +$((skip + 1)) | md5sum
