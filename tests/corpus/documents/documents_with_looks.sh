# A document as HTML, with the font, the colour and the offset of each character: it is read here by another program, which
# finds the characters and looks that `show` tells.
desk() { "$DESK_PROGRAM" "$@"; echo "= $?"; }
"$PROGRAM" format my.disk
"$PROGRAM" play my.disk << 'END' | sed -n '/^[0-9e]/p' | tee shown
file System.Tool Edit.Open A%0dEdit.ChangeColor 1%0dEdit.ChangeOffset -3%0dEdit.ChangeFont Oberon10b.Scn.Fnt%0dEdit.ChangeOffset 5%0dEdit.ChangeFont Oberon10i.Scn.Fnt
point m 60 31 60 31
file A one <two> & three%0dtab%09"end"
file B.Text plain
point m 52 30 52 30
point r 1 30 3 30
point m 52 29 52 29
point r 5 30 9 30
point m 52 28 52 28
point r 11 30 11 30
point m 52 27 52 27
point r 1 29 3 29
point m 52 26 52 26
point r 2 29 3 29
point m 52 25 52 25
point m 41 31 41 31
show A
END
cat > read.py << 'END'
# The lines of `show` for a page: each stretch of characters in one look behind the numbers of the look.
import html.parser, sys
class Page(html.parser.HTMLParser):
    def __init__(self):
        super().__init__(convert_charrefs=True)
        self.looks, self.stretches, self.inside = [], [], False
    def handle_starttag(self, tag, given):
        if tag == 'span':
            self.look = dict(given)['data-look']
            self.inside = True
    def handle_endtag(self, tag):
        self.inside = False
    def handle_data(self, data):
        if self.inside and self.stretches and self.stretches[-1][0] == self.look:
            self.stretches[-1][1] += data
        elif self.inside:
            self.stretches.append([self.look, data])
page = Page()
page.feed(sys.stdin.read())
page.close()
for look, text in page.stretches:
    print(look, ''.join('%' + format(13 if c == '\n' else ord(c), '02x') if c in '\n\t%' else c for c in text))
print('end')
END

echo '--- one document'
"$DESK_PROGRAM" export my.disk A --looks > a.html
echo "= $?"
cat a.html
python3 read.py < a.html | diff - shown && echo 'each character is there, with its look'
"$DESK_PROGRAM" export my.disk A --looks | cmp - a.html

echo '--- all'
desk export my.disk --all out --looks
cmp out/A.html a.html && ls -A out
desk export my.disk --all out --looks
echo mine > out/A.html
desk export my.disk --all out --looks --replace
cmp out/A.html a.html && ls -A out

echo '--- every byte of a text, and the most characters'
printf '%s' '!"#$%&'\''()*+,-./0123456789:;<=>?@[\]^_`{|}~ &lt;&amp;&#65;</span></pre>' > signs.txt
head -c 200000 /dev/zero | tr '\0' '&' > many.txt
desk import my.disk signs.txt many.txt
"$DESK_PROGRAM" export my.disk signs.txt --looks | python3 read.py
"$DESK_PROGRAM" export my.disk many.txt --looks | python3 read.py | tail -c +8 | head -n 1 | tr -d '\n' | cmp - many.txt && echo 'as many'

echo '--- what does not go together'
for program in "$DESK_PROGRAM" "$TESTS/../desk"; do
    for words in 'A B.Text --looks' 'A --looks --join' '--all other --join --looks' 'Nobody --looks'; do
        DESK=$DESK_PROGRAM "$program" export my.disk $words
        echo "= $?"
    done
done
ls -d other || true
