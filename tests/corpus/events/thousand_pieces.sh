# Two texts that are typed in turn, so that no two characters of one text stand side by side where characters are kept: each
# has a piece for every character, 1,000 of them, and is shown, stored, cut and put back as any other.
python3 - > script << 'END'
print('file System.Tool Edit.Open A.Text', 'point m 60 31 60 31', 'point m 52 30 52 30', sep='\n')
for i in range(1000):
    print('point l 1 30 1 30', f'type {chr(97 + (999 - i) % 26)}', 'point l 51 30 51 30', 'type y', sep='\n')
print('point m 47 31 47 31', 'show A.Text', sep='\n')
# a stretch of thirty pieces goes, and comes back
print('point r 11 30 40 30', 'key cut', 'point m 47 31 47 31', 'show A.Text', sep='\n')
print('point l 11 30 11 30', 'key paste', 'point m 47 31 47 31', 'show A.Text', 'checkpoint', 'show A.Text', sep='\n')
END
"$OBERON" < script > said
grep -c '^ok$' said
python3 -c "print(''.join(chr(97 + i % 26) for i in range(1000)))" > wanted
grep '^0 15 0' said | sed 's/^0 15 0 //' > texts
sed -n 1p texts | cmp - wanted && echo 'it is what was typed'
sed -n 2p texts | cmp - <(cut -c 1-10,41- wanted) && echo 'thirty are gone'
sed -n 3p texts | cmp - wanted && sed -n 4p texts | cmp - wanted && echo 'and back'
