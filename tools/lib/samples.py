"""Documents, the PYX lines that represent them, and what is refused: samples for the tests of the tools."""


def bytes_of(text):
    return text if isinstance(text, bytes) else text.encode()


def lines(parts):
    return "".join(part + "\n" for part in parts).encode()


# Each document and the lines that represent it, one by one.
TRIPS = {
    "an empty element": ("<a/>", ["(a", ")a"]),
    "attributes in their order": ('<a z="1" b="2" a=""/>', ["(a", "Az 1", "Ab 2", "Aa ", ")a"]),
    "declarations among attributes": (
        '<a b="1" xmlns:p="u" p:c="2" xmlns="v"/>',
        ["(a", "Ab 1", "Axmlns:p u", "Ap:c 2", "Axmlns v", ")a"],
    ),
    "namespaces undone and redeclared": (
        '<a xmlns="u" xmlns:p="v"><b xmlns=""><p:c xmlns:p="w"/><p:c/></b><b xmlns="x"/></a>',
        ["(a", "Axmlns u", "Axmlns:p v", "(b", "Axmlns ", "(p:c", "Axmlns:p w", ")p:c", "(p:c", ")p:c"]
        + [")b", "(b", "Axmlns x", ")b", ")a"],
    ),
    "the prefix xml": (
        '<a xml:lang="de" xml:space="preserve" xmlns:xml="http://www.w3.org/XML/1998/namespace"/>',
        ["(a", "Axml:lang de", "Axml:space preserve"]
        + ["Axmlns:xml http://www.w3.org/XML/1998/namespace", ")a"],
    ),
    "a namespace with a space": ('<a xmlns="u v"/>', ["(a", "Axmlns u v", ")a"]),
    "mixed content": (
        "<p>one <b>two</b> three<i/> four</p>",
        ["(p", "-one ", "(b", "-two", ")b", "- three", "(i", ")i", "- four", ")p"],
    ),
    "white space only text": ("<a>\n  <b/>\t</a>", ["(a", "-\\n  ", "(b", ")b", "-\\t", ")a"]),
    "CR, TAB and LF in attributes": (
        '<a b="x&#13;y&#9;z&#10;w" c="p\tq\nr"/>',
        ["(a", "Ab x\\ry\\tz\\nw", "Ac p q r", ")a"],
    ),
    "CR in text": ("<a>x&#13;\ny&#xD;</a>", ["(a", "-x\\r\\ny\\r", ")a"]),
    "line ends of three kinds": (b"<a>1\r\n2\r3\n4</a>", ["(a", "-1\\n2\\n3\\n4", ")a"]),
    "backslashes": ('<a b="\\n">\\t\\\\</a>', ["(a", "Ab \\\\n", "-\\\\t\\\\\\\\", ")a"]),
    "]]> in text": ("<a>x]]&gt;y</a>", ["(a", "-x]]>y", ")a"]),
    "]]> cut over CDATA sections": ("<a><![CDATA[x]]]]><![CDATA[>y]]></a>", ["(a", "-x]]>y", ")a"]),
    "CDATA joined with text": ("<a>1<![CDATA[<b>&amp;]]>2<![CDATA[]]></a>", ["(a", "-1<b>&amp;2", ")a"]),
    "an empty CDATA section": ("<a><![CDATA[]]></a>", ["(a", ")a"]),
    "the five entities": (
        '<a b="&lt;&gt;&amp;&quot;&apos;">&lt;&gt;&amp;&quot;&apos;</a>',
        ["(a", "Ab <>&\"'", "-<>&\"'", ")a"],
    ),
    "a comment between texts": ("<a>x<!-- - y -->z</a>", ["(a", "-x", "C - y ", "-z", ")a"]),
    "comments and instructions outside the top element": (
        '<?xml version="1.0"?><!--1-->\n<?p q?>\n<a/>\n<!--2\n--><?r?>\n',
        ["C1", "?p q", "(a", ")a", "C2\\n", "?r "],
    ),
    "instructions": (
        "<a><?xml-style  a='b' ?><?t?><?u \\?></a>",
        ["(a", "?xml-style a='b' ", "?t ", "?u \\\\", ")a"],
    ),
    "characters outside the BMP": (
        '<a b="&#x1F600;">\U0001d11e\U0010ffff</a>',
        ["(a", "Ab \U0001f600", "-\U0001d11e\U0010ffff", ")a"],
    ),
    "names that are not ASCII": ('<élan Ω="1"/>', ["(élan", "AΩ 1", ")élan"]),
    "marks of line ends that XML keeps": ("<a>\u0085\u2028</a>", ["(a", "-\u0085\u2028", ")a"]),
    "a byte order mark": (b"\xef\xbb\xbf<a>\xef\xbb\xbf</a>", ["(a", "-\ufeff", ")a"]),
    "Latin-1": (
        '<?xml version="1.0" encoding="ISO-8859-1"?><a b="é">ü</a>'.encode("latin-1"),
        ["(a", "Ab é", "-ü", ")a"],
    ),
    "Windows-1252": (
        '<?xml version="1.0" encoding="windows-1252"?><a>€</a>'.encode("cp1252"),
        ["(a", "-€", ")a"],
    ),
    "UTF-16": ("\ufeff<a>\U0001f600</a>".encode("utf-16-le"), ["(a", "-\U0001f600", ")a"]),
    "a long text": ("<a>" + "é\\\n" * 100000 + "</a>", ["(a", "-" + "é\\\\\\n" * 100000, ")a"]),
    "a deep document": ("<a>" * 5000 + "</a>" * 5000, ["(a"] * 5000 + [")a"] * 5000),
}

# Documents with a document type declaration, and their lines with --drop-doctype.
DROPPED = {
    "no subset": ('<!DOCTYPE a SYSTEM "no.dtd"><a/>', ["(a", ")a"]),
    "its comments and instructions go too": (
        "<!--1--><!DOCTYPE a [<!--2--><?p q?><!NOTATION n PUBLIC 'x'>]><a/>",
        ["C1", "(a", ")a"],
    ),
    "entities and defaults": (
        '<!DOCTYPE a [<!ENTITY e "x<b/>y"><!ATTLIST a c CDATA "d" n NMTOKEN #IMPLIED>]>'
        "<a n=' 1 '>&e;</a>",
        ["(a", "An 1", "Ac d", "-x", "(b", ")b", "-y", ")a"],
    ),
    "UTF-16": (
        "\ufeff<?xml version='1.0'\nencoding='UTF-16' standalone='no' ?>"
        "<!DOCTYPE a SYSTEM 'x'><a>é</a>".encode("utf-16-be"),
        ["(a", "-é", ")a"],
    ),
    "no document type declaration at all": ("<a/>", ["(a", ")a"]),
    "values and line ends of the XML declaration": (
        "<?xml version='1.0'\r\nencoding=\"utf-8\"\r standalone = 'no'\r?><!DOCTYPE a><a/>", ["(a", ")a"],
    ),
}

# Documents that are refused, whether with --drop-doctype, and the place and reason.
BAD_XML = {
    "nothing": ("", False, "1:1: no element found"),
    "no end": ("<a>\n<b></a>", False, "2:6: mismatched tag"),
    "after many lines": ("<a>" + "<b/>\n" * 30000 + "<c></a>", False, "30001:6: mismatched tag"),
    "two top elements": ("<a/><b/>", False, "1:5: junk after document element"),
    "one attribute twice": ('<a b="1" b="2"/>', False, "1:10: duplicate attribute"),
    "one expanded name twice": (
        '<a xmlns:p="u" xmlns:q="u"\n p:b="1" q:b="2"/>', False, "1:1: duplicate attribute",
    ),
    "an unbound prefix": ("<a>\n <p:b/></a>", False, "2:2: unbound prefix"),
    "a name with two colons": ("<a:b:c xmlns:a='u'/>", False, "1:5: not well-formed (invalid token)"),
    "a colon in a target": ("<a><?b:c d?></a>", False, "1:7: not well-formed (invalid token)"),
    "a prefix that is undone": ('<a xmlns:p=""/>', False, "1:1: must not undeclare prefix"),
    "bytes that are not UTF-8": (b"<a>\xff</a>", False, "1:4: not well-formed (invalid token)"),
    "a control character": ("<a>&#1;</a>", False, "1:4: reference to invalid character number"),
    "an unknown entity": ("<a>&e;</a>", False, "1:4: undefined entity"),
    "a document type declaration": (
        "<!--1-->\n<!DOCTYPE a><a/>", False,
        "2:12: a document type declaration; --drop-doctype reads on without it",
    ),
    "an unknown entity in text": (
        "<!DOCTYPE a SYSTEM 'x'><a>&e;</a>", True, "1:27: undefined entity",
    ),
    "an unknown entity in an attribute": (
        "<?xml version='1.0'?><!DOCTYPE a SYSTEM 'x'>\n<a b='&e;'/>", ["--drop-doctype"],
        "2:1: undefined entity",
    ),
    "an entity in a file": (
        "<!DOCTYPE a [<!ENTITY e SYSTEM '/etc/hostname'>]>\n<a>&e;</a>", ["--drop-doctype"],
        "2:4: an entity that stands outside the document",
    ),
    "a fault on the first line": (
        "<!DOCTYPE a SYSTEM 'x'><a></b>", True, "1:29: mismatched tag",
    ),
    "a second top element after a long comment": (
        "<a>" + "x" * 200000 + "</a><!--" + "y" * 40000 + "--><b/>", False, "1:240015: junk after document element",
    ),
    "two faults in one tag": ('<r><a xmlns:p=""\n b="" b=""/></r>', False, "2:7: duplicate attribute"),
    "two faults in the top tag": ('<a xmlns:p=""\n b="" b=""/>', False, "2:7: duplicate attribute"),
    "a name with two colons and one without a value": (
        "<r><a:b:c d/></r>", False, "1:12: not well-formed (invalid token)",
    ),
    "standalone with markup": (
        "<?xml version='1.0' standalone='<&'?><a/>", True, "1:33: XML declaration not well-formed",
    ),
    "a form feed before standalone": (
        "<?xml version='1.0'\fstandalone='yes'?><a/>", True, "1:20: not well-formed (invalid token)",
    ),
    "an unknown encoding": ("<?xml version='1.0' encoding='x'?><a/>", True, "1:31: unknown encoding"),
    "an encoding that Python alone knows": ("<?xml version='1.0' encoding='utf8'?><a/>", False, "1:31: unknown encoding"),
    "a fault after a changed declaration": (
        "<?xml version='1.0' standalone='no'?><!DOCTYPE a><a></b>", True, "1:55: mismatched tag",
    ),
    "a fault after a declaration that ends later": (
        "<?xml version='1.0' standalone='no'\r?><!DOCTYPE a><a></b>", True, "2:20: mismatched tag",
    ),
    "no letter in ISO-8859-1": (
        b"<?xml version='1.0' encoding='iso-8859-1'?><\xb5/>", False, "1:45: not well-formed (invalid token)",
    ),
    "no letter after a prefix in ISO-8859-1": (
        b"<?xml version='1.0' encoding='ISO-8859-1'?>\n<p:\xb5 xmlns:p='u'/>", False, "2:4: not well-formed (invalid token)",
    ),
    "no letter in the name of an attribute": (
        b"<?xml version='1.0' encoding='ISO-8859-1'?><a b='\xb5'\r\nc\xaa='\xaa'/>", True, "2:2: not well-formed (invalid token)",
    ),
    "no letter in a target": (
        b"<?xml version='1.0' encoding='ISO-8859-1'?><?t\xba \xaa?><a/>", True, "1:47: not well-formed (invalid token)",
    ),
    "no letter in an entity": (
        b"<?xml version='1.0' encoding='ISO-8859-1'?><!DOCTYPE a [<!ENTITY e '<\xb5/>'>]>\n<a>&e;</a>", True,
        "2:4: not well-formed (invalid token)",
    ),
}

# Lines that are refused, with the line and the fault's name or the begin of the reason.
BAD_PYX = {
    "nothing": (b"", "0: NoRoot"),
    "no element": (b"C1\nC2\n", "2: NoRoot"),
    "an empty line": (b"(a\n\n)a\n", "2: BadLine"),
    "an unknown line": (b"(a\n)a\n&a\n", "3: BadLine"),
    "an attribute after text": (b"(a\n-x\nAb 1\n)a\n", "3: BadLine"),
    "an attribute before all": (b"Ab 1\n", "1: BadLine"),
    "an unknown escape": (b"(a\n-x\\x\n)a\n", "2: BadEscape"),
    "a last backslash": (b"(a\nAb x\\\n)a\n", "2: BadEscape"),
    "not UTF-8": (b"(a\n-\xff\n)a\n", "2: BadUtf8"),
    "no final line feed": (b"(a\n)a", "2: NoFinalLineFeed"),
    "ends with CR": (b"(a\r\n)a\r\n", "1: BadName"),
    "the wrong end": (b"(a\n)b\n", "2: Unbalanced"),
    "one end too many": (b"(a\n)a\n)a\n", "3: Unbalanced"),
    "two top elements": (b"(a\n)a\n(b\n)b\n", "3: Unbalanced"),
    "text outside": (b"-x\n(a\n)a\n", "1: Unbalanced"),
    "an open element": (b"(a\n(b\n)b\n", "3: Truncated"),
    "an open start": (b"(a\n", "1: Truncated"),
    "a name with a space": (b"(a b\n)a b\n", "1: BadName"),
    "a name with two colons": (b"(a:b:c\n)a:b:c\n", "1: BadName"),
    "a bad attribute": (b"(a\nA1 2\n)a\n", "2: BadName"),
    "a bad target": (b"(a\n?p:q r\n)a\n", "2: BadName"),
    "the target xml": (b"(a\n?XmL r\n)a\n", "2: BadName"),
    "an unbound prefix": (b"(a\n(p:b\n)p:b\n)a\n", "2: UnboundPrefix"),
    "a prefix bound too late": (b"(a\n(b\nAxmlns:p u\n)b\nC\n(p:c\n)p:c\n)a\n", "6: UnboundPrefix"),
    "an unbound prefix before a bad line": (b"(p:a\nA1 2\nAxmlns:p \\u\n", "1: UnboundPrefix"),
    "an attribute twice": (b"(a\nAb 1\nAb 2\n)a\n", "3: DoubleAttribute"),
    "an expanded name twice": (b"(a\nAxmlns:p u\nAxmlns:q u\nAp:b 1\nAq:b 2\n)a\n", "5: DoubleAttribute"),
    "a declaration twice": (b"(a\nAxmlns u\nAxmlns v\n)a\n", "3: DoubleAttribute"),
    "a prefix that is undone": (b"(a\nAxmlns:p \n)a\n", "2: BadNamespace"),
    "the prefix xmlns": (b"(a\nAxmlns:xmlns u\n)a\n", "2: BadNamespace"),
    "xml bound elsewhere": (b"(a\nAxmlns:xml u\n)a\n", "2: BadNamespace"),
    "xml's name elsewhere": (b"(a\nAxmlns:p http://www.w3.org/XML/1998/namespace\n)a\n", "2: BadNamespace"),
    "a control character": (b"(a\n-\x01\n)a\n", "2: XML has no"),
    "a comment that XML can't hold": (b"(a\nCx--y\n)a\n", "2: an XML comment"),
    "an instruction that XML can't hold": (b"(a\n?p x?>y\n)a\n", "2: an XML instruction"),
}

# Lines in forms that xml2pyx does not write, whether with --fragment, and the XML that is written.
WRITTEN = {
    "adjacent texts": (b"(a\n-x\n-\n-y\n)a\n", False, "<a>xy</a>\n"),
    "empty texts": (b"(a\n-\n)a\n", False, "<a></a>\n"),
    "no space": (b"(a\nAb\n?p\n)a\n", False, '<a b=""><?p?></a>\n'),
    "an instruction with first spaces": (b"(a\n?p  \\n x \n?q  \n)a\n", False, "<a><?p x ?><?q?></a>\n"),
    "a declaration on line 1": (b"?xml version='1.1'\n(a\n)a\n", False, "<a/>\n"),
    "white space outside": (b"-\\n\n(a\n)a\n- \n", False, "<a/>\n"),
    "raw tab and CR": (b"(a\nAb x\ty\n-x\ry\n)a\n", False, '<a b="x&#9;y">x&#13;y</a>\n'),
    "a fragment": (b"-x \n(a\n)a\n-<\n(b\n)b\nC1\n", True, "x <a/>&lt;<b/><!--1-->"),
    "a fragment of text": (b"-\xef\xbb\xbfx\\n\n", True, "&#xFEFF;x\n"),
    "an empty fragment": (b"", True, ""),
}

# A document, and of each of its PYX lines the line of XML that it comes from.
PLACES = (
    """<?xml version="1.0"?>
<a
  b="1" c="2"
  >
  x &amp;
  y<b/><!--1
--><c>
</c><![CDATA[
]]>&#10;

z
<?p
q?></a>
""",
    [("(a", 2), ("Ab 1", 2), ("Ac 2", 2), ("-\\n  x &\\n  y", 5), ("(b", 6), (")b", 6), ("C1\\n", 6), ("(c", 7), ("-\\n", 7)]
    + [(")c", 8), ("-\\n\\n\\n\\nz\\n", 11), ("?p q", 12), (")a", 13)],
)


def random_text(chance):
    letters = ["a", " ", "\\n", "\\t", "\\r", "\\\\", "<", ">", "&", "'", '"', "]]>", "é"]
    letters += ["\U0001f600", "\ufeff"]
    return "".join(chance.choice(letters) for _ in range(chance.randrange(1, 7)))


def random_element(chance, depth, bound):
    """The lines of a random element in the form that xml2pyx writes."""
    made, bound = [], dict(bound)
    for prefix in chance.sample(["", "p", "q"], chance.randrange(3)):
        bound[prefix] = chance.choice(["u", "v"] + ([""] if prefix == "" else []))
        made.append(("Axmlns:" if prefix else "Axmlns") + prefix + " " + bound[prefix])
    known, seen = [prefix + ":" for prefix in bound if prefix] + [""], set()
    for _ in range(chance.randrange(3)):
        prefix, local = chance.choice(known), chance.choice("xyz")
        key = (bound[prefix[:-1]] if prefix else None, local)
        if key not in seen:
            seen.add(key)
            made.append("A" + prefix + local + " " + random_text(chance))
    chance.shuffle(made)
    name = chance.choice(known) + chance.choice("abc")
    made.insert(0, "(" + name)
    for _ in range(chance.randrange(5) if depth else 0):
        kind = chance.choice("-(C?")
        if kind == "-" and not made[-1].startswith("-"):
            made.append("-" + random_text(chance))
        elif kind == "(":
            made += random_element(chance, depth - 1, bound)
        elif kind == "C":
            made.append("Cx" + random_text(chance).replace("\\r", "") + ".")
        elif kind == "?":
            made.append("?t x" + random_text(chance).replace("\\r", ""))
    return made + [")" + name]
