# A document that has the name of its store's file, put out into the folder of that with leave to replace files: the store
# stays. So does another store that a program has open.
"$PROGRAM" format my.disk
"$PROGRAM" format other.disk
echo text > file
"$DESK_PROGRAM" import my.disk A.Text=file my.disk=file other.disk=file
cp my.disk before.disk
"$DESK_PROGRAM" export my.disk --all .
echo $?
"$DESK_PROGRAM" export my.disk --all . --replace
echo $?
cmp my.disk before.disk && echo 'the store is as it was'
exec 4< other.disk
flock -s 4
"$DESK_PROGRAM" export my.disk --all out > /dev/null
cp other.disk out
exec 5< out/other.disk
flock -s 5
"$DESK_PROGRAM" export my.disk --all out --replace
echo $?
"$PROGRAM" check out/other.disk
exec 5<&-
"$DESK_PROGRAM" export my.disk --all out --replace
echo $?
ls -A . out
