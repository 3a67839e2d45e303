#!/usr/bin/env python3
"""Writes the table of expressions over four documents that a test of crates/evaluation_cases holds, with what xsltproc
says of each: `expression_table.py > crates/evaluation_cases/src/table.rt`. Numbers of the product are whole, so no
expression here gives a fraction or an infinite number; those that do, and what xsltproc says otherwise than the standard,
are in a table of their own, by hand."""

import itertools
import subprocess
import sys
import tempfile
from pathlib import Path
from xml.sax.saxutils import escape, quoteattr

TREE = """\
(a
An 1
(b
An 2
-x
(c
)c
(b
An 3
-y
)b
)b
(c
An 4
Am 2
-x
)c
-tail
(b
(a
An 5
(b
-z
)b
)a
(c
-y
)c
)b
)a"""

NUMBERS = """\
(t
(i
-3
)i
(i
-10
)i
(i
- 7 
)i
(i
-x
)i
(j
-10
)j
(j
--2
)j
(j
)j
(k
Av 3
-3
)k
)t"""

MIXED = """\
Ctop
?p top
(d
Axml:lang en-GB
Axmlns:p urn:p
Cin
(p:e
Ap:k 1
Ak 2
-one
?p one
)p:e
(e
Axml:lang fr
Ck
-two
(p:f
-three
)p:f
)e
?q end
)d
Cend"""

BOOK = """\
(book
(chapter
Atitle One
(section
(para
- a  b 
)para
(para
-B
)para
)section
(section
(para
-c
)para
)section
)chapter
(chapter
Atitle Two
(para
-d
)para
(note
Aref One
-see
)note
(section
(para
-e
)para
(section
(para
-f
)para
)section
)section
)chapter
)book"""

DOCUMENTS = {"TREE": TREE, "NUMBERS": NUMBERS, "MIXED": MIXED, "BOOK": BOOK}

AXES = [
    "self",
    "child",
    "parent",
    "descendant",
    "descendant-or-self",
    "ancestor",
    "ancestor-or-self",
    "following",
    "preceding",
    "following-sibling",
    "preceding-sibling",
    "attribute",
]
COMPARISONS = ["=", "!=", "<", "<=", ">", ">="]


def xml_of(lines):
    """The XML of a document's lines."""
    out, is_open = [], False
    for line in lines.split("\n"):
        mark, rest = line[0], line[1:]
        if mark == "A":
            name, value = rest.split(" ", 1)
            out.append(f" {name}={quoteattr(value)}")
            continue
        if is_open:
            out.append(">")
        is_open = mark == "("
        if mark == "(":
            out.append(f"<{rest}")
        elif mark == ")":
            out.append(f"</{rest}>")
        elif mark == "-":
            out.append(escape(rest))
        elif mark == "?":
            out.append(f"<?{rest}?>")
        else:
            out.append(f"<!--{rest}-->")
    return "".join(out)


def paths():
    """Every axis with node tests and predicates that take turns, from nodes in the midst of a document."""
    starts = {
        "TREE": ["//c[1]", "/a/b[2]/a", "//@n"],
        "BOOK": ["//note", "/book/chapter/section", "//para[1]"],
    }
    tests = {"TREE": ["node()", "*", "b"], "BOOK": ["*", "para", "text()"]}
    predicates = itertools.cycle(
        ["", "[1]", "[2]", "[last()]", "[position() > 1]", "[1][1]", "[. = 'x']", "[position() = last() - 1]"]
    )
    for document, axis in itertools.product(starts, AXES):
        for start, test in zip(starts[document], tests[document]):
            if axis == "attribute" and test != "node()":
                test = "*"
            yield document, "nodes", f"{start}/{axis}::{test}{next(predicates)}"


def comparisons():
    """Every comparison of every pair of kinds."""
    kinds = ["//i", "//j", "3", "'10'", "true()", "//none"]
    turns = itertools.cycle([0, 3])
    for left, right in itertools.product(kinds, kinds):
        if left in ("3", "'10'", "true()") and right in ("3", "'10'", "true()") and left > right:
            continue
        first = next(turns)
        for operator in COMPARISONS[first : first + 3]:
            yield "NUMBERS", "truth", f"{left} {operator} {right}"


NODES = {
    "TREE": [
        "/",
        "/*",
        "//b//b",
        "//b[b]",
        "//b[b or c][2]",
        "//*[b[. = 'y']]",
        "//*[@n > 1][@n < 5]",
        "//*[@n][2]/preceding::*",
        "(//b)[2]",
        "(//b)[last()]/..",
        "(//b | //c)[3]",
        "//c | //b | //c",
        "//@n[. mod 2 = 1]/..",
        "//b[not(b)]/text()",
        "(//a)[2]/ancestor::*[1]",
        "(//c/preceding::*)[1]",
        "//c/preceding::*[1]",
        "//b[count(*) = count(preceding-sibling::*)]",
        "//*[position() = last()]",
        "//*[string-length() = 1]",
        "//*[last() > 2][position() mod 2 = 1]",
        "/a/b[2]/*[2]/following::node()",
        "//b[@n = ../@n + 1]",
        "//b/@*/../b",
        "//*[self::b or self::c][@n]",
        "//b/.././c",
    ],
    "NUMBERS": [
        "//*[. > 5]",
        "//i[. = //j]",
        "//i[. != //j][last()]",
        "//*[number() = 3]",
        "//*[. = @v]",
        "/t/*[position() > count(/t/i)]",
        "//j[not(. = //i)]",
        "//i[sum(//j[. < 5] | ../k) = 1]",
    ],
    "MIXED": [
        "/node()",
        "//comment()",
        "//processing-instruction()",
        "//processing-instruction('p')",
        "//comment()[2]",
        "/d/node()[last()]",
        "//@*",
        "//*[lang('en')]",
        "//*[lang('EN-gb')]",
        "//*[lang('fr')]",
        "//*[namespace-uri() = 'urn:p']",
        "//*[local-name() = 'e']",
        "//*[name() = 'e']",
        "//@*[namespace-uri() = 'urn:p']",
        "/d/preceding::node()",
        "/d/following::node()",
        "//text()[. = 'three']/preceding::node()[2]",
    ],
    "BOOK": [
        "/book/chapter[@title = /book/chapter/note/@ref]",
        "//section[.//para[2]]",
        "//section//para[1]",
        "//para[ancestor::section[2]]",
        "//para[ancestor::section][last()]",
        "(//para[ancestor::section])[last()]",
        "//section[para][last()]/ancestor::chapter/@title",
        "//chapter[2]//para[position() = 1]",
        "/descendant::para[3]",
        "//note/preceding-sibling::*[1] | //note/following-sibling::*[1]",
        "/book/chapter[2]/*[self::note]/following::para[2]",
        "//para[. = normalize-space()]",
        "//*[count(ancestor::*) = 3]",
        "//section[not(section)]/*[1]",
        "//section/section/ancestor-or-self::*[2]",
    ],
}

TEXTS = {
    "TREE": [
        "string(//b)",
        "string(//none)",
        "string(//@n[3])",
        "concat(//c, '-', //b[2], 3, true())",
        "name(//@*[2])",
        "local-name(//b[2])",
        "substring('12345', 2)",
        "substring('12345', 2, 3)",
        "substring('12345', 0, 3)",
        "substring('12345', -1, 9)",
        "substring('12345', number('x'), 3)",
        "substring('héllo', 2, 2)",
        "substring-before('a=b=c', '=')",
        "substring-after('a=b=c', '=')",
        "substring-before('abc', 'x')",
        "substring-after('abc', '')",
        "translate('--aaa--', 'abc-', 'ABC')",
        "translate('abc', 'aa', 'xy')",
        "normalize-space('  a   b ')",
        "string(1 = 1)",
        "string(-3)",
        "string(number('x'))",
    ],
    "MIXED": [
        "name(//*[2])",
        "name(//@*[2])",
        "local-name(//*[2])",
        "namespace-uri(//*[2])",
        "namespace-uri(//*[3])",
        "name(//processing-instruction()[1])",
        "string(//comment()[2])",
        "string(/)",
        "string(//processing-instruction('q'))",
        "local-name(/)",
    ],
    "BOOK": ["string(//chapter[2])", "normalize-space(//para)", "concat(//para, '|', //para[2])"],
}

NUMBERS_OF = {
    "TREE": [
        "count(//*)",
        "count(//node() | //@*)",
        "count(//b/ancestor::*)",
        "string-length(//a)",
        "string-length('é')",
        "7 mod 3",
        "-7 mod 3",
        "7 mod -3",
        "12 div 4 * 2 - 1",
        "-(2 + 3) * -1",
        "- - 3",
        "2 - 1 - 1",
        "number('x') + 1",
        "number(' -5 ')",
        "number(true())",
        "0 div 0",
        "floor(3) + ceiling(-4) + round(5)",
        "sum(//@n)",
        "position() + last()",
        "count(//b[1]/following::*)",
    ],
    "NUMBERS": ["sum(//j[position() < 3])", "sum(//i)", "sum(//none)", "number(//k)", "//k * //i", "//i - //j"],
    "BOOK": ["count(//para/..)", "count(//section/descendant::*/ancestor::*)", "string-length(//para)"],
}

TRUTHS = {
    "TREE": [
        "boolean(//b)",
        "boolean(//none)",
        "boolean('')",
        "boolean('0')",
        "boolean(0)",
        "boolean(number('x'))",
        "not(//none)",
        "contains('abc', '')",
        "contains('abc', 'bc')",
        "starts-with('abc', 'ab')",
        "starts-with('abc', 'b')",
        "1 or 1 div //none",
        "0 and 1 div //none",
        "//b and //none",
        "'a' = 'b' = false()",
        "1 < 2 < 3",
        "3 > 2 > 1",
        "//b = 'y'",
        "//b != //b",
        "//c[2] = //c[3]",
        "not(//b = //c)",
        "//@n = 3",
        "'x' < 1",
        "true() = 'false'",
    ],
    "MIXED": ["lang('en')", "//comment() = 'in'", "//@* = 'fr'"],
}


def rows():
    """Each document with its expressions and their kinds, each once."""
    kinds = [(NODES, "nodes"), (TEXTS, "text"), (NUMBERS_OF, "number"), (TRUTHS, "truth")]
    every = list(paths()) + list(comparisons())
    for table, kind in kinds:
        every += [(document, kind, it) for document, its in table.items() for it in its]
    return {document: list(dict.fromkeys(row[1:] for row in every if row[0] == document)) for document in DOCUMENTS}


SHEET = """\
<xsl:stylesheet version="1.0" xmlns:xsl="http://www.w3.org/1999/XSL/Transform">
<xsl:output method="text"/>
<xsl:template match="/">{}</xsl:template>
<xsl:template name="row">
  <xsl:variable name="it" select="."/>
  <xsl:variable name="own" select="self::node()[count(. | ../@*) = count(../@*)]"/>
  <xsl:for-each select="ancestor-or-self::node()[not(count(. | ../@*) = count(../@*))][1]">
    <xsl:variable name="before" select="count(ancestor::node()) + count(preceding::node())
      + count((ancestor::* | preceding::*)/@*)"/>
    <xsl:text>[</xsl:text>
    <xsl:choose>
      <xsl:when test="$own">
        <xsl:for-each select="@*">
          <xsl:if test="count(. | $it) = 1"><xsl:value-of select="$before + position()"/></xsl:if>
        </xsl:for-each>
      </xsl:when>
      <xsl:otherwise><xsl:value-of select="$before"/></xsl:otherwise>
    </xsl:choose>
    <xsl:text>]</xsl:text>
  </xsl:for-each>
</xsl:template>
</xsl:stylesheet>
"""

NEXT = "<xsl:text>&#10;#&#10;</xsl:text>"


def values(document, expressions):
    """What xsltproc says of each expression over a document."""
    body = []
    for kind, expression in expressions:
        select = quoteattr(expression)
        if kind == "nodes":
            body.append(f'<xsl:for-each select={select}><xsl:call-template name="row"/></xsl:for-each>')
        elif kind == "text":
            body.append(f"<xsl:text>'</xsl:text><xsl:value-of select={select}/><xsl:text>'</xsl:text>")
        else:
            body.append(f"<xsl:value-of select={select}/>")
        body.append(NEXT)
    with tempfile.TemporaryDirectory() as folder:
        sheet, source = Path(folder) / "sheet.xsl", Path(folder) / "source.xml"
        sheet.write_text(SHEET.format("".join(body)), encoding="utf-8")
        source.write_text(xml_of(document), encoding="utf-8")
        out = subprocess.run(["xsltproc", sheet, source], check=True, capture_output=True).stdout.decode()
    return out.removesuffix("\n#\n").split("\n#\n")


def literal(text):
    return text.replace("\\", "\\\\").replace('"', '\\"')


def main():
    """Writes the documents and their tables."""
    print("// Written by contrib/expression_table.py; the values are xsltproc's.")
    for name, expressions in rows().items():
        given = values(DOCUMENTS[name], expressions)
        assert len(given) == len(expressions), name
        told = "\n".join(f"{e} => {value or 'none'}" for (_, e), value in zip(expressions, given))
        assert "Infinity" not in told and "." not in "".join(
            value for (kind, _), value in zip(expressions, given) if kind == "number"
        ), told
        print(f'\npub const {name}: &str = "\\\n{literal(DOCUMENTS[name])}";')
        print(f'\npub const {name}_VALUES: &str = "\\\n{literal(told)}";')
    print(sum(map(len, rows().values())), "expressions", file=sys.stderr)


main()
