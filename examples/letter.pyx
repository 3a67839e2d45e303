(letter
Axmlns:p urn:place
Ato the harbour
-\n
(p:from
(b
-the
)b
- lighthouse
)p:from
-\n
Cno ships today
-\n
(line
-Wind & rain: 9 < 10
)line
-\n
)letter
