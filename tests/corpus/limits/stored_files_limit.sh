# There are 256 files. Then no document of another name is stored, but that of a file that is there is; and where a file
# goes, the new document is stored too.
{
    echo 'file System.Tool Edit.Open New.Text%0dEdit.Open F254%0dSystem.DeleteFiles F001 ~'
    for k in $(seq 0 254); do printf 'file F%03d x\n' "$k"; done
    # The tool text opens in the system track, New.Text by its first line, and its menu calls Edit.Store.
    printf '%s\n' 'point m 60 31 60 31' 'point m 52 30 52 30' 'point m 48 31 48 31'
    # F254 opens in the lower half, and is stored; F001 goes.
    printf '%s\n' 'point m 52 29 52 29' 'point m 44 15 44 15' 'point m 52 28 52 28' 'point m 48 31 48 31'
} | "$OBERON" | uniq -c | sed 's/^ *//'
