#!/usr/bin/env python3
"""Tests of xml2pyx, pyx2xml and where, as they are run from a shell."""

import codecs
import os
import random
import select
import shutil
import subprocess
import tempfile
import time
import unittest
from pathlib import Path
from xml.etree.ElementTree import canonicalize
from xml.parsers import expat

HERE = Path(__file__).resolve().parent
PACE = Path(os.environ.get("PACE") or HERE.parent / "crates/dtmx_pace/out/dtmx_pace").absolute()
LINE_LIMIT = 1_048_576
MARKUP_LIMIT = 16_777_216
SECONDS = 60


def run(program, source, *words):
    """The status, output and message of a program with these bytes on standard input."""
    done = subprocess.run([HERE / program, *words], input=source, capture_output=True, timeout=SECONDS)
    return done.returncode, done.stdout, done.stderr.decode()


def lines(*rows):
    return b"".join(row.encode() + b"\n" for row in rows)


def text_of(output):
    """The character data of lines."""
    text = b"".join(line[1:].removesuffix(b"\r") for line in output.split(b"\n") if line.startswith(b"-"))
    return text.replace(b"\\n", b"\n").replace(b"\\t", b"\t").replace(b"\\\\", b"\\").decode()


def is_well_formed(document):
    try:
        expat.ParserCreate().Parse(document, True)
    except expat.ExpatError:
        return False
    return True


# Documents, and their lines.
DOCUMENTS = [
    ("<a/>", ["(a", ")a"]),
    ('<?xml version="1.0"?>\n<a> <b>1</b>\t2 </a>\n', ["(a", "- ", "(b", "-1", ")b", r"-\t2 ", ")a"]),
    ('<a z="1" b="2" a=""/>', ["(a", "Az 1", "Ab 2", "Aa ", ")a"]),
    (
        '<p:a xmlns="u" p:x="1" xmlns:p="v"><b/></p:a>',
        ["(p:a", "Axmlns u", "Ap:x 1", "Axmlns:p v", "(b", ")b", ")p:a"],
    ),
    ("<a>1\n2\t3\\n</a>", ["(a", r"-1\n2\t3\\n", ")a"]),
    ('<a k="1\n2&#10;3&#9;\\"/>', ["(a", r"Ak 1 2\n3\t\\", ")a"]),
    ("<a>&lt;&amp;&#233;<![CDATA[<&amp;]]>&gt;</a>", ["(a", "-<&é<&amp;>", ")a"]),
    ("<a k='x&#13;'>x&#13;</a>", ["(a", "Ak x\r\r", "-x\r\r", ")a"]),
    ("<a>\r\n</a>", ["(a", r"-\n", ")a"]),
    ("<!--1--><a><!----><?t?><?t  d ?>b<!--\\\n-->c</a><?u v?>", [
        "C1", "(a", "C", "?t ", "?t d ", "-b", r"C\\\n", "-c", ")a", "?u v",
    ]),
    (
        '<!DOCTYPE a [<!--1--><?t d?><!ENTITY e "1<b/>&#38;amp;"><!ATTLIST a k CDATA "v">]><a>&e;</a><!--2-->',
        ["(a", "Ak v", "-1", "(b", ")b", "-&", ")a", "C2"],
    ),
    ("""<!DOCTYPE a [<!ENTITY % p "<!ENTITY e 'x'>"> %p;]><a k="&e;">&e;</a>""", ["(a", "Ak x", "-x", ")a"]),
    (
        """<!DOCTYPE a SYSTEM "a.dtd" [<!ENTITY e "'&lt;'">]><a k="&e;"><![CDATA[<a k="&f;">]]></a>""",
        ["(a", "Ak '<'", '-<a k="&f;">', ")a"],
    ),
    ('<!DOCTYPE a [<!ENTITY e SYSTEM "e.xml">]><a/>', ["(a", ")a"]),
    (
        """<!DOCTYPE a SYSTEM "a&b;.dtd" [<!NOTATION n SYSTEM "n&b;"><!ENTITY e "1"><!ENTITY e "&b;"><!ENTITY f "&b;">
        <!ATTLIST a k CDATA "&e;">]><a/>""",
        ["(a", "Ak 1", ")a"],
    ),
    ("""<!DOCTYPE a [<!ENTITY % p SYSTEM "p"> %p; <!ATTLIST a k CDATA "&e;">]><a/>""", ["(a", ")a"]),
    ("<é-1._ ж:b='' xmlns:ж='u'/>", ["(é-1._", "Aж:b ", "Axmlns:ж u", ")é-1._"]),
]

# Documents that are refused, the lines before, and the reason.
REFUSED_DOCUMENTS = [
    (b"", [], "line 1: no element found"),
    (b"<a>\n</b>", ["(a", r"-\n"], "line 2: mismatched tag"),
    (b"<a/><b/>", ["(a", ")a"], "line 1: junk after document element"),
    (b"<a/>\n<!--", ["(a", ")a"], "line 2: unclosed token"),
    (b"<a>\xff</a>", ["(a"], "line 1: not well-formed (invalid token)"),
    (b"<a>&e;</a>", ["(a"], "line 1: undefined entity"),
    (b"<a>\n<b:c:d/></a>", ["(a", r"-\n"], "line 2: b:c:d is no name of the notation"),
    (b"<a><b:1/></a>", ["(a"], "line 1: b:1 is no name of the notation"),
    (b"<a :b=''/>", [], "line 1: :b is no name of the notation"),
    (b"<a/><?b:c d?>", ["(a", ")a"], "line 1: b:c is no name of the notation"),
    (
        b'<!DOCTYPE a [<!ENTITY e SYSTEM "e.xml">]>\n<a>&e;</a>', ["(a"],
        "line 2: the external entity e.xml isn't fetched",
    ),
    (
        b'<!DOCTYPE a [<!ENTITY e SYSTEM "e\n\xc2\x9b31m">]>\n<a>&e;</a>', ["(a"],
        "line 3: the external entity e   31m isn't fetched",
    ),
    (
        b'<!DOCTYPE a SYSTEM "a.dtd">\n<a>&e;</a>', ["(a"],
        "line 2: the entity e isn't declared in what is read",
    ),
    (b'<!DOCTYPE a SYSTEM "a.dtd"><a k="&e;"/>', [], "line 1: the entity e isn't declared in what is read"),
    (
        b'<!DOCTYPE a SYSTEM "a.dtd" [<!ENTITY f "&#38;e;">]><a>\n<b k="&f;"/></a>', ["(a", r"-\n"],
        "line 2: the entity e isn't declared in what is read",
    ),
    (
        b'<!DOCTYPE a [<!ENTITY % p SYSTEM "p.mod"> %p; <!ENTITY e "1">]><a k="&e;"/>', [],
        "line 1: the entity e isn't declared in what is read",
    ),
    (
        b"""<!DOCTYPE a [<!ENTITY % p "<!ENTITY e 'x'>"> %p;]>\n<a k="&f;"/>""", [],
        "line 2: the entity f isn't declared in what is read",
    ),
    (
        b"""<!DOCTYPE a SYSTEM "a.dtd" [<!ATTLIST a k CDATA "&e;"><!ENTITY e "1">]>\n<a/>""", [],
        "line 1: the entity e isn't declared in what is read",
    ),
    (b'<?xml version="1.0" encoding="none"?><a/>', [], "line 1: unknown encoding: none"),
    (
        "<?xml version='1.0' encoding='UTF-8'?><a/>".encode("utf-16"), [],
        "line 1: encoding specified in XML declaration is incorrect",
    ),
    (
        b"<?xml version='1.0' encoding='Shift_JIS'?>\n<a>\x82\xa0\n\x82\x20</a>", ["(a", r"-あ\n"],
        "line 3: bytes that are no character of Shift_JIS",
    ),
    (
        b"<?xml version='1.0' encoding='EUC-JP'?>\n<a k='1'>\n<b k='\n\xff'/></a>", ["(a", "Ak 1", r"-\n"],
        "line 4: bytes that are no character of EUC-JP",
    ),
    (
        b"<?xml version='1.0' encoding='Shift_JIS'?>\n<a>\n\x82\xa0\x82", ["(a", r"-\nあ"],
        "line 3: the end within a character of Shift_JIS",
    ),
    (
        b"<?xml version='1.0' encoding='Shift_JIS'?><a></b>\xff", ["(a"],
        "line 1: mismatched tag",
    ),
]

JAPANESE = "日本語のテキスト、カタカナ。"
KOREAN = "한국어 문서"
CHINESE = "中文文件"
RUSSIAN = "Привет, мир"

# Encodings that are read, by Python's names and the documents', and what is written in them.
ENCODINGS = [
    ("utf-8", "UTF-8", "é" + JAPANESE + "𝒳"),
    ("utf-8-sig", "UTF-8", "é" + JAPANESE + "𝒳"),
    ("utf-8", "utf8", "é" + JAPANESE + "𝒳"),
    ("utf-16", "UTF-16", "é" + JAPANESE + "𝒳"),
    ("utf-32", "UTF-32", "é" + JAPANESE + "𝒳"),
    ("utf-32-be", "UTF-32", "é" + JAPANESE + "𝒳"),
    ("ascii", "US-ASCII", "text"),
    ("iso-8859-1", "ISO-8859-1", "é"),
    ("iso-8859-1", "latin1", "é"),
    ("iso-8859-2", "ISO-8859-2", "žluťoučký"),
    ("iso-8859-15", "ISO-8859-15", "€"),
    ("windows-1252", "windows-1252", "é“€”"),
    ("shift_jis", "Shift_JIS", JAPANESE),
    ("euc_jp", "EUC-JP", JAPANESE),
    ("iso2022_jp", "ISO-2022-JP", JAPANESE),
    ("euc_kr", "EUC-KR", KOREAN),
    ("big5", "Big5", CHINESE),
    ("gb2312", "GB2312", CHINESE),
    ("gb18030", "GB18030", CHINESE + "é𝒳"),
    ("koi8_r", "KOI8-R", RUSSIAN),
    ("cp037", "IBM037", "é"),
]

# Lines, and their documents.
SOURCES = [
    (["(a", ")a"], "<a/>\n"),
    (["(a", "-", ")a"], "<a></a>\n"),
    (["(a", "Cnote", "", "Zz", "Ak 1", "Al ", ")a"], '<a k="1" l=""><!--note--></a>\n'),
    (["(a", "-a", "Cnote", "-b", ")a"], "<a>a<!--note-->b</a>\n"),
    (["Cx", "?t d", "(a", "(b", "?t", ")b", ")a", r"-\n ", "?u "], "<!--x-->\n<?t d?>\n<a><b><?t?></b></a>\n<?u?>\n"),
    (["(a", r"C \n\\- x", ")a", "C"], "<a><!-- \n\\- x--></a>\n<!---->\n"),
    (["(a", r"-\n\t\\\x\\n" + "\\", ")a"], "<a>\n\t\\\\x\\n\\</a>\n"),
    (["(a", r'Ak <>&"' + r"'\n\t ", "-<]]>&\"", ")a"], "<a k=\"&lt;>&amp;&quot;'&#10;&#9; \">&lt;]]&gt;&amp;\"</a>\n"),
    (["(a", "-]", "-]", "->", ")a"], "<a>]]&gt;</a>\n"),
    (["(a\r", "-x\r\r", ")a"], "<a>x&#13;</a>\n"),
    (["(p:é", "Axmlns:p u", ")p:é"], '<p:é xmlns:p="u"/>\n'),
    (
        ["(a", "Axmlns:xml http://www.w3.org/XML/1998/namespace", "Axmlns ", "Axmlnsx ", ")a"],
        '<a xmlns:xml="http://www.w3.org/XML/1998/namespace" xmlns="" xmlnsx=""/>\n',
    ),
]

# Sources that are refused, what is written before, and the reason.
REFUSED_SOURCES = [
    (lines("", "Ca"), "<!--a-->\n", "line 3: NoRoot"),
    (b"(a\n)a\n(b", "<a/>\n", "line 3: SecondRoot"),
    (b"(a\n)a\n!line 7: mismatched tag\n", "<a/>\n", "line 3: UnknownLine"),
    (lines("(a", "(b", ")b"), "<a><b/>", "line 4: Unclosed"),
    (lines("(a", "(b", ")a"), "<a><b/>", "line 3: WrongEnd"),
    (lines("(ab", ")b"), "<ab/>", "line 2: WrongEnd"),
    (lines(")a"), "", "line 1: WrongEnd"),
    (lines("-x", "(a", ")a"), "", "line 1: TextOutside"),
    (lines("(a", "-", "Ak v", ")a"), "<a>", "line 3: AttrPlace"),
    (b"(a\n-\xc3\n)a\n", "", "line 2: NotUtf8"),
    (b"(a\n-\xed\xa0\x80\n)a\n", "", "line 2: NotUtf8"),
    (b"(a\n-\xe0\x9f\xbf\n)a\n", "", "line 2: NotUtf8"),
    (b"(a\n-\xf4\x90\x80\x80\n)a\n", "", "line 2: NotUtf8"),
    (b"(a\n-12345678901234\xc0\x80\n)a\n", "", "line 2: NotUtf8"),
    (b"C\xff\n", "", "line 1: NotUtf8"),
    (lines("(a", "Ak", ")a"), "", "line 2: NoSpace"),
    (lines("(a", "A k", ")a"), "", "line 2: BadName"),
    (lines("(1"), "", "line 1: BadName"),
    (lines("(a:b:c"), "", "line 1: BadName"),
    (lines("?p:t d"), "", "line 1: BadName"),
    (lines("[x"), "", "line 1: UnknownLine"),
    (b"(a\n-" + b"x" * LINE_LIMIT + b"\n)a\n", "", "line 2: LongLine"),
    (b"(a\n-" + b"x" * (LINE_LIMIT + 100_000), "", "line 2: LongLine"),
    (lines("(a", "Ak 1", "Al 2", "Ak 3", ")a"), "", "line 4: XML has no way to say this: duplicate attribute"),
    (
        lines("(a", "-x", "-\x01", ")a"), "<a>x",
        "line 3: XML has no way to say this: not well-formed (invalid token)",
    ),
    (
        lines("(a", "(b×c", "", ")b×c", ")a"), "<a>",
        "line 2: XML has no way to say this: not well-formed (invalid token)",
    ),
    (
        lines("(a", "Ck", "C\x01", "Ak 1", ")a"), '<a k="1">',
        "line 3: XML has no way to say this: not well-formed (invalid token)",
    ),
    (lines("(a", "Cx--><b/><!--y", ")a"), "", "line 2: XML has no comment with this text"),
    (lines("(a", "C-", ")a"), "", "line 2: XML has no comment with this text"),
    (lines("(a", "Ca\rb", ")a"), "", "line 2: XML has no comment with this text"),
    (lines("(a", "?t ?><b/><?t", ")a"), "<a>", "line 2: XML has no instruction with these data"),
    (lines("(a", "?t  d", ")a"), "<a>", "line 2: XML has no instruction with these data"),
    (lines('?xml version="1.0"', "(a", ")a"), "", "line 1: XML has no instruction of this name"),
    (
        lines("(a", "Axmlns:xml u", ")a"), "",
        "line 2: XML has no declaration that binds xml to another URI, or its URI to another prefix",
    ),
    (
        lines("(a", "Axmlns http://www.w3.org/XML/1998/namespace", ")a"), "",
        "line 2: XML has no declaration that binds xml to another URI, or its URI to another prefix",
    ),
    (lines("(a", "Axmlns:p ", ")a"), "", "line 2: XML has no declaration that takes back a prefix"),
    (lines("(a", "Axmlns:xmlns u", ")a"), "", "line 2: XML has no declaration of the prefix xmlns"),
    (
        lines("(a", "Axmlns:p http://www.w3.org/2000/xmlns/", ")a"), "",
        "line 2: XML has no declaration that binds the URI of xmlns",
    ),
]

# Documents that are read and written back.
SAMPLES = [
    "<a/>",
    '<a xmlns="u"><b xmlns=""/><p:c xmlns:p="u" p:k="1" k="2"/></a>',
    "<a>1 &lt; 2 &amp;&amp; 3 &gt; 2 ]]&gt; <![CDATA[<b>&amp;</b>]]> \\n\t\n</a>",
    '<a z="&#10;&#9;&#13; &quot;\'&lt;" y="\\n" b=" "><b\nk = "1"  j="2"></b></a>',
    "<?t d?><a>\n  <b>\n    <c>one&#13;</c>&#13;\n  </b>\n</a><?u?>",
    "<list><item id='é'>𝒳 two</item><item>\u00a0</item></list>",
]

# 300 bytes, of which no front is a document.
EXAMPLE = """\
<?xml version="1.0" encoding="UTF-8"?>
<!DOCTYPE list [<!ENTITY e "<b>in</b>"><!ATTLIST item k CDATA "v">]>
<?t d?><!-- before -->
<list xmlns:p="urn:p">
  <item p:id="é1">one &amp; two</item><![CDATA[<raw>]]>
  <item>&e;&#13;</item>
  <?t more?><!-- within -->
  <p:empty/> before the end..
</list>""".encode()


class XmlToPyx(unittest.TestCase):
    def refused(self, document, before, reason, *words):
        """The document is refused for a reason, behind these lines."""
        status, output, message = run("xml2pyx", document, *words)
        self.assertEqual((status, output), (1, before + b"!" + reason.encode() + b"\n"))
        self.assertEqual(message, f"xml2pyx: {words[-1] if words else 'standard input'}: {reason}\n")

    def test_documents_become_lines(self):
        for document, want in DOCUMENTS:
            with self.subTest(document):
                self.assertEqual(run("xml2pyx", document.encode()), (0, lines(*want), ""))
                utf16 = document.replace('<?xml version="1.0"?>', "").encode("utf-16")
                self.assertEqual(run("xml2pyx", utf16), (0, lines(*want), ""))

    def test_refused_documents_end_with_the_reason(self):
        for document, before, reason in REFUSED_DOCUMENTS:
            with self.subTest(document):
                self.refused(document, lines(*before), reason)

    def test_encodings_are_read_wherever_they_are_cut(self):
        for encoding, name, text in ENCODINGS:
            for more in range(4):
                with self.subTest(name, more=more):
                    whole = "x" * more + text * (200_000 // len(text.encode(encoding)))
                    document = f"<?xml version='1.0' encoding='{name}'?><a k='{text}'>{whole}</a>".encode(encoding)
                    status, output, message = run("xml2pyx", document)
                    self.assertEqual((status, message), (0, ""))
                    self.assertTrue(output.startswith(lines("(a", f"Ak {text}")))
                    self.assertTrue(text_of(output) == whole, "another text was read")

    def test_a_document_gives_the_same_lines_in_single_bytes(self):
        def slowly(document):
            with subprocess.Popen([HERE / "xml2pyx"], stdin=subprocess.PIPE, stdout=subprocess.PIPE) as done:
                for at in range(len(document)):
                    done.stdin.write(document[at:at + 1])
                    done.stdin.flush()
                done.stdin.close()
                return done.stdout.read()

        for document in EXAMPLE, f"<?xml version='1.0' encoding='Shift_JIS'?><a>{JAPANESE}</a>".encode("shift_jis"):
            self.assertEqual(slowly(document), run("xml2pyx", document)[1])

    def test_long_texts_are_cut_between_characters_and_escapes(self):
        for unit in "é", "𝒳", "\n", "\r", "\\\nxé":
            for more in "", "x", "xx":
                text = more + unit * (LINE_LIMIT // len(unit.encode()) + 7)
                document = f"<a>{text}</a>\n".replace("\r", "&#13;")
                with self.subTest(unit=unit, more=more):
                    status, output, _ = run("xml2pyx", document.encode())
                    self.assertEqual(status, 0)
                    self.assertLessEqual(max(map(len, output.split(b"\n"))), LINE_LIMIT)
                    self.assertLessEqual(len(output.split(b"\n")), 7)
                    # Not by assertEqual, which would look for the differences of two megabytes.
                    back = run("pyx2xml", output)
                    self.assertTrue(back == (0, document.encode(), ""), "another text came back")

    def test_what_cannot_be_cut_is_refused(self):
        for start, end, what, extra in (
            ("<a k='", "'/>", "an attribute", len("Ak ")),
            ("<?k ", "?><a/>", "an instruction", len("?k ")),
            ("<!--", "--><a/>", "a comment", len("C")),
            ("<", "/>", "a name", len("(")),
        ):
            for unit, size in ("x", 1), ("é", 2), ("\\", 2):
                if what == "a name" and unit == "\\":
                    continue
                text = unit * ((LINE_LIMIT - extra) // size)
                with self.subTest(what, unit=unit):
                    self.assertEqual(run("xml2pyx", (start + text + end).encode())[0], 0)
                    status, output, message = run("xml2pyx", (start + text + "xx" + end).encode())
                    reason = f"line 1: {what} needs a line of more than {LINE_LIMIT} bytes"
                    self.assertEqual((status, message), (1, f"xml2pyx: standard input: {reason}\n"))
                    self.assertIn(output, (lines("!" + reason), lines("(a", "!" + reason)))

    def test_large_markup_is_refused(self):
        whole = "line 1: a piece of markup has more than 16777216 bytes"
        attributes = b"".join(b" k%d=''" % at for at in range(2_000_000))
        self.refused(b"<a" + attributes + b"/>", b"", whole)
        self.refused(b"<!DOCTYPE a [<!--" + b"x" * (MARKUP_LIMIT + 200_000) + b"-->]><a/>", b"", whole)
        entities = b"".join(b"<!ENTITY e%07d ''>" % at for at in range(MARKUP_LIMIT // 21 + 1))
        whole = "line 1: the document type has more than 16777216 bytes"
        self.refused(b"<!DOCTYPE a [" + entities + b"]><a/>", b"", whole)

    def test_a_file_is_read_by_its_name(self):
        with tempfile.NamedTemporaryFile(suffix=".xml") as file:
            file.write(b"<a>1</a>")
            file.flush()
            self.assertEqual(run("xml2pyx", b"", file.name), (0, lines("(a", "-1", ")a"), ""))
        status, output, message = run("xml2pyx", b"<a/>", file.name)
        self.assertEqual((status, output), (1, b""))
        self.assertIn(file.name, message)
        with tempfile.TemporaryDirectory() as folder:
            self.refused(b"", b"", "line 1: Is a directory", folder)

    def test_expansion_of_entities_is_limited(self):
        entities = "".join(f'<!ENTITY e{at + 1} "{f"&e{at};" * 10}">' for at in range(12))
        document = f'<!DOCTYPE a [<!ENTITY e0 "laugh">{entities}]><a>&e12;</a>'
        status, output, message = run("xml2pyx", document.encode())
        self.assertEqual(status, 1)
        self.assertIn("limit on input amplification factor", message)
        self.assertLess(len(output), 20_000_000)
        self.assertTrue(output.split(b"\n")[-2].startswith(b"!line 1: limit on input amplification"))
        status, output, message = run("xml2pyx", document.replace("<a>&e12;</a>", "<a k='&e12;'/>").encode())
        self.assertEqual(status, 1)
        self.assertIn("limit on input amplification factor", message)

    def test_memory_does_not_grow_with_the_document(self):
        for part, encoding in (
            ("text é and text\n", "utf-8"), ("<b k='1'>x</b><!--c--><?t d?>", "utf-16"), (JAPANESE, "euc-jp")
        ):
            with self.subTest(part), tempfile.TemporaryFile() as file:
                file.write(f"<?xml version='1.0' encoding='{encoding}'?><a>".encode(encoding))
                part_bytes = part.encode(encoding.replace("-16", "-16-le"))
                file.write(part_bytes * (30_000_000 // len(part_bytes)))
                file.write("</a>".encode(encoding.replace("-16", "-16-le")))
                file.seek(0)
                # In kilobytes of address space, of which the C library takes the most.
                limited = f"ulimit -v 16000; '{HERE}/xml2pyx' | {{ ulimit -v 16000; '{HERE}/pyx2xml' > /dev/null; }}"
                done = subprocess.run(["bash", "-o", "pipefail", "-c", limited], stdin=file, capture_output=True)
                self.assertEqual((done.returncode, done.stderr), (0, b""))

    def test_usage(self):
        for words in ("--none",), ("a", "b"), ("--lines",):
            status, output, message = run("xml2pyx", b"<a/>", *words)
            self.assertEqual((status, output), (2, b""))
            self.assertIn("usage: xml2pyx", message)
        self.assertEqual(run("xml2pyx", b"", "--help")[0], 0)

    def test_a_full_output_is_told(self):
        with open("/dev/full", "wb") as full:
            for program, source in ("xml2pyx", b"<a/>"), ("pyx2xml", b"(a\n)a\n"):
                done = subprocess.run([HERE / program], input=source, stdout=full, stderr=subprocess.PIPE)
                self.assertEqual(done.returncode, 1)
                self.assertEqual(done.stderr.decode(), f"{program}: standard output: No space left on device\n")


class Places(unittest.TestCase):
    def setUp(self):
        folder = tempfile.TemporaryDirectory()
        self.addCleanup(folder.cleanup)
        self.folder = Path(folder.name)

    def test_each_line_has_its_place(self):
        document = self.folder / "doc.xml"
        document.write_bytes(b"<?xml version='1.0'?>\n<a\n k='1'>\n<b/>text\nmore<!--\n--></a>\n\n<?t?>")
        places = self.folder / "places"
        status, output, _ = run("xml2pyx", b"", "--lines", places, document)
        self.assertEqual((status, output), (0, lines(
            "(a", "Ak 1", r"-\n", "(b", ")b", r"-text\nmore", r"C\n", ")a", "?t "
        )))
        self.assertEqual(places.read_bytes(), lines(str(document), "2", "2", "3", "4", "4", "4", "5", "6", "8"))
        self.assertEqual(run("where", b"", places, "3"), (0, lines(f"{document}:3"), ""))
        self.assertEqual(run("where", b"", places, "9"), (0, lines(f"{document}:8"), ""))

    def test_the_place_of_a_refusal_is_that_of_its_line(self):
        document = self.folder / "a\nb.xml"
        document.write_bytes(b"<a>\n\n</b>")
        places = self.folder / "places"
        run("xml2pyx", b"", "--lines", places, document)
        self.assertEqual(run("where", b"", places, "3"), (0, lines(f"{self.folder}/a\\nb.xml:3"), ""))

    def test_cut_texts_have_their_places(self):
        places = self.folder / "places"
        _, output, _ = run("xml2pyx", b"<a>" + b"\n" * 3_000_000 + b"</a>", "--lines", places)
        numbers = places.read_bytes().split()[2:]
        self.assertEqual(len(numbers), len(output.split(b"\n")) - 1)
        self.assertEqual(numbers[:3], [b"1", b"1", b"%d" % (LINE_LIMIT // 2)])

    def test_where_refuses(self):
        places = self.folder / "places"
        run("xml2pyx", b"<a/>", "--lines", places)
        self.assertEqual(run("where", b"", places, "2"), (0, lines("standard input:1"), ""))
        for words, status in (
            ((places, "3"), 1), ((self.folder / "none", "1"), 1), ((places, "0"), 2), ((places, "x"), 2), ((places,), 2)
        ):
            self.assertEqual(run("where", b"", *words)[:2], (status, b""))


class Streaming(unittest.TestCase):
    """Programs between two pipes that stay open."""

    def start(self, program):
        done = subprocess.Popen([HERE / program], stdin=subprocess.PIPE, stdout=subprocess.PIPE)
        self.addCleanup(done.__exit__, None, None, None)
        return done

    def give(self, done, source):
        done.stdin.write(source)
        done.stdin.flush()

    def expect(self, done, want):
        """Exactly these bytes come while the input stays open."""
        got = b""
        end = time.monotonic() + SECONDS
        while len(got) < len(want) and select.select([done.stdout], [], [], max(0, end - time.monotonic()))[0]:
            got += os.read(done.stdout.fileno(), len(want) - len(got))
        self.assertEqual(got, want)

    def test_lines_come_before_the_document_is_whole(self):
        done = self.start("xml2pyx")
        self.give(done, b"<?xml version='1.0'?><li")
        self.give(done, b"st k='1'><item>one</item><it")
        self.expect(done, lines("(list", "Ak 1", "(item", "-one", ")item"))
        self.give(done, b"em>two")
        self.expect(done, b"(item\n-two")
        self.give(done, b" and</item><x k='" + b"y" * 100_000)
        self.expect(done, b" and\n)item\n")
        self.give(done, b"'/>")
        self.expect(done, lines("(x", "Ak " + "y" * 100_000, ")x"))
        self.give(done, b"</list>")
        self.expect(done, b")list\n")
        done.stdin.close()
        self.assertEqual((done.wait(SECONDS), done.stdout.read()), (0, b""))

    def test_lines_of_other_encodings_come_too(self):
        done = self.start("xml2pyx")
        document = f"<?xml version='1.0' encoding='Shift_JIS'?><a><b>{JAPANESE}</b>".encode("shift_jis")
        self.give(done, document[:12])
        time.sleep(0.05)
        self.give(done, document[12:-5])
        self.expect(done, lines("(a", "(b")[:-1])
        self.give(done, document[-5:])
        self.expect(done, f"\n-{JAPANESE}\n)b\n".encode())

    def test_a_document_comes_before_the_lines_are_whole(self):
        done = self.start("pyx2xml")
        self.give(done, lines("(list", "Ak 1", "-one", "(item"))
        self.expect(done, b'<list k="1">one')
        self.give(done, b")item\n-tw")
        self.expect(done, b"<item/>")
        self.give(done, b"o\n)list\n")
        self.expect(done, b"two</list>\n")
        done.stdin.close()
        self.assertEqual((done.wait(SECONDS), done.stdout.read()), (0, b""))

    def test_a_reader_that_ends_ends_the_writer(self):
        done = self.start("xml2pyx")
        done.stdout.close()
        self.give(done, b"<a>")
        done.stdin.close()
        self.assertNotEqual(done.wait(SECONDS), 0)


class Cut(unittest.TestCase):
    """Fronts of a document are no documents, whoever reads on."""

    def test_the_example_has_300_bytes(self):
        self.assertEqual(len(EXAMPLE), 300)
        self.assertEqual(run("xml2pyx", EXAMPLE)[0], 0)

    def test_no_front_is_taken_for_a_document(self):
        for length in range(len(EXAMPLE)):
            with self.subTest(length):
                status, output, message = run("xml2pyx", EXAMPLE[:length])
                self.assertEqual(status, 1)
                self.assertTrue(output.split(b"\n")[-2].startswith(b"!line "))
                self.assertTrue(message.startswith("xml2pyx: standard input: line "))
                status, document, _ = run("pyx2xml", output)
                self.assertEqual((status, is_well_formed(document)), (1, False))

    @unittest.skipUnless(PACE.exists(), "dtmx_pace isn't built: run 'make build'")
    def test_of_no_front_is_anything_put(self):
        with tempfile.TemporaryDirectory() as folder:
            out = Path(folder) / "out"

            def pace(document):
                source = run("xml2pyx", document)[1]
                return subprocess.run([PACE, f"builtin={out}"], input=source, capture_output=True).returncode

            self.assertEqual(pace(EXAMPLE), 0)
            self.assertIn(b"one & two", out.read_bytes())
            out.unlink()
            for document in [EXAMPLE[:length] for length in range(len(EXAMPLE))] + [EXAMPLE + b"x", EXAMPLE + b"<!--"]:
                with self.subTest(document):
                    self.assertEqual(pace(document), 4)
                    self.assertFalse(out.exists())


class PyxToXml(unittest.TestCase):
    def test_lines_become_documents(self):
        for source, want in SOURCES:
            with self.subTest(source):
                status, document, message = run("pyx2xml", lines(*source))
                self.assertEqual((status, document.decode(), message), (0, want, ""))

    def test_refused_lines_end_with_the_reason(self):
        for source, before, reason in REFUSED_SOURCES:
            with self.subTest(source[:40]):
                status, document, message = run("pyx2xml", source)
                self.assertEqual((status, document.decode()), (1, f"{before}<!{reason}\n"))
                self.assertEqual(message, f"pyx2xml: standard input: {reason}\n")
                self.assertFalse(is_well_formed(document))

    def test_a_declaration_comes_where_it_is_asked_for(self):
        declaration = b'<?xml version="1.0" encoding="UTF-8"?>\n'
        self.assertEqual(
            run("pyx2xml", lines("(a", "-é", ")a"), "--declare"), (0, declaration + "<a>é</a>\n".encode(), "")
        )
        self.assertEqual(run("pyx2xml", b"", "--declare")[:2], (1, declaration + b"<!line 1: NoRoot\n"))

    def test_a_file_is_read_by_its_name(self):
        with tempfile.NamedTemporaryFile() as file:
            file.write(lines("(a", ")a"))
            file.flush()
            self.assertEqual(run("pyx2xml", b"", file.name), (0, b"<a/>\n", ""))
        status, output, message = run("pyx2xml", b"", file.name)
        self.assertEqual((status, output), (1, b""))
        self.assertIn(file.name, message)

    def test_a_line_may_be_as_long_as_the_limit(self):
        for source in b"-" + b"x" * (LINE_LIMIT - 1), b"-" + b"x" * (LINE_LIMIT - 2) + b"\r", b"Z" + b"x" * 1_000_000:
            self.assertEqual(run("pyx2xml", b"(a\n" + source + b"\n)a\n")[0], 0)

    def test_large_starts_are_refused(self):
        value = b'"' * 1_000_000
        source = b"(a\n" + b"".join(b"Ak%d %s\n" % (at, value) for at in range(4))
        self.assertEqual(run("pyx2xml", source + b")a\n")[1], b"<!line 4: the start tag has more than 16777216 bytes\n")
        source = b"(a\n" + (b"C" + b"x" * 1_000_000 + b"\n") * 20
        self.assertEqual(
            run("pyx2xml", source + b")a\n")[1], b"<!line 18: the comments in a start have more than 16777216 bytes\n"
        )


class RandomDocument:
    """A document with what XML has, by a seed."""

    NAMES = ["a", "b", "item", "é", "x-1._", "p:a", "q:b", "ж"]
    TEXTS = [
        "one", "é", "𝒳", " ", "\n", "\t", "\\", "\\n", "&lt;", "&amp;", "&#13;", "&#10;", "]]&gt;",
        "&e;", "&f;", "]", "-",
    ]

    def __init__(self, seed):
        self.choice = random.Random(seed)

    def some(self, most, make):
        return "".join(make() for _ in range(self.choice.randint(0, most)))

    def text(self):
        return self.some(6, lambda: self.choice.choice(self.TEXTS))

    def value(self):
        return self.some(4, lambda: self.choice.choice(self.TEXTS[:-4] + ["'", "&quot;", "&g;", ">"]))

    def attributes(self):
        names = self.choice.sample(["k", "l", "p:k", "q:k", "é", "xml:lang"], self.choice.randint(0, 4))
        names += self.choice.sample(["xmlns", "xmlns:r", "xmlns:p"], self.choice.choice([0, 0, 0, 1, 2]))
        return "".join(
            f' {name}="{f"urn:{name[-1]}" if name.startswith("xmlns") else self.value()}"' for name in names
        )

    def comment(self):
        return f"<!--{self.choice.choice(['', ' x ', chr(10), '-a', 'é'])}-->"

    def instruction(self):
        return f"<?{self.choice.choice(['t', 'é'])}{self.choice.choice(['', ' d', '  d ? '])}?>"

    def element(self, depth=0):
        name = self.choice.choice(self.NAMES)
        content = self.some(5 if depth < 5 else 0, lambda: self.choice.choice([
            self.text, self.text, self.comment, self.instruction, lambda: self.element(depth + 1),
            lambda: f"<![CDATA[{self.choice.choice(['', '<a>&amp;', ']', chr(10)])}]]>",
        ])())
        tag = name + self.attributes()
        return f"<{tag}>{content}</{name}>" if content or self.choice.random() < 0.5 else f"<{tag}/>"

    def document(self):
        root = self.choice.choice(["<p:a", "<q:b", "<root"])
        around = lambda: self.some(2, lambda: self.choice.choice([self.comment, self.instruction, lambda: "\n"])())
        return (
            f"<?xml version='1.0'?>{around()}<!DOCTYPE {root[1:]} [<!--d--><?d?><!ENTITY e 'e'><!ENTITY f '<f>&e;</f>'>"
            f"<!ENTITY g '\"&#38;lt;'><!ATTLIST item d CDATA '&g;v'><!ATTLIST b k CDATA #IMPLIED>]>{around()}"
            f"{root} xmlns:p='urn:p' xmlns:q='urn:q'>{self.some(4, self.element)}{self.text()}</{root[1:]}>{around()}"
        )


class ThereAndBack(unittest.TestCase):
    def test_documents_come_back_equal(self):
        for sample in SAMPLES:
            with self.subTest(sample):
                _, first, _ = run("xml2pyx", sample.encode())
                _, document, _ = run("pyx2xml", first)
                self.assertEqual(canonicalize(document), canonicalize(sample))
                # Canonical form sorts attributes; the lines have them in their order.
                self.assertEqual(run("xml2pyx", document), (0, first, ""))

    @unittest.skipUnless(shutil.which("xmllint"), "xmllint isn't installed (Debian's libxml2-utils)")
    def test_random_documents_come_back_with_their_canonical_form(self):
        def canonical(document):
            done = subprocess.run(["xmllint", "--nonet", "--c14n", "-"], input=document, capture_output=True)
            self.assertEqual(done.returncode, 0, done.stderr)
            return done.stdout

        for seed in range(200):
            text = RandomDocument(seed).document()
            document = text.encode(("utf-8", "utf-16")[seed % 2])
            with self.subTest(seed=seed, document=text):
                status, first, message = run("xml2pyx", document)
                self.assertEqual((status, message), (0, ""))
                status, back, message = run("pyx2xml", first)
                self.assertEqual((status, message), (0, ""))
                self.assertEqual(canonical(back), canonical(document))


class Making(unittest.TestCase):
    def make(self, *words):
        return subprocess.run(["make", "-C", HERE.parent, *words], capture_output=True, text=True)

    def test_a_missing_expat_is_told_in_a_line(self):
        done = self.make("contrib", "CPPFLAGS=-nostdinc")
        self.assertNotEqual(done.returncode, 0)
        self.assertEqual(done.stderr.count("libexpat1-dev\n") + done.stderr.count("libexpat1-dev)\n"), 1)

    def test_programs_are_installed(self):
        with tempfile.TemporaryDirectory() as folder:
            done = self.make("install", f"DESTDIR={folder}", "PREFIX=/opt/x")
            self.assertEqual(done.returncode, 0, done.stderr)
            bin = Path(folder) / "opt/x/bin"
            for name in "xml2pyx", "pyx2xml", "xml2pyx-where":
                self.assertTrue(os.access(bin / name, os.X_OK), name)
            self.assertEqual((bin / "dtmx_pace").exists(), PACE.exists())


if __name__ == "__main__":
    unittest.main()
