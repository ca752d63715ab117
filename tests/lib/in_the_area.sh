# shellcheck shell=bash
# Sourced by scripts over stores of which characters stand in the area. It makes `begin`, events that end with a
# checkpoint: three documents of 900 characters, and commands over them that open, search and copy.
text() { yes "$1" | tr '\n' ' ' | head -c 900; }
{
    echo 'file System.Tool Edit.Open B.Text%0dEdit.Search%0dSystem.Copy%0dmiddle'
    printf 'file %s.Text %s\n' A "$(text first)" B "$(text middle)" C "$(text last)"
    printf '%s\n' 'point m 60 31 60 31' checkpoint
} > begin
