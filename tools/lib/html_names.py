"""The names of HTML 4.0 that are written in ways of their own, in any case (XSLT 1.0, 16.2)."""

# Elements without an end tag.
VOIDS = set("area base basefont br col frame hr img input isindex link meta param".split())
# Elements that line feeds can be put around and into: they are no parts of a line.
BLOCKS = set(
    """address area base blockquote body caption center col colgroup dd dir div dl dt fieldset form frame frameset
    h1 h2 h3 h4 h5 h6 head hr html isindex legend li link menu meta noframes noscript ol optgroup option p param pre
    style table tbody td tfoot th thead title tr ul""".split()
)
# Elements whose texts are written as they are.
RAW = {"script", "style"}
# Attributes that say something by being there.
BOOLEANS = set("checked compact declare defer disabled ismap multiple nohref noresize noshade nowrap readonly selected".split())
# Attributes whose values are URIs.
URIS = set("action background cite classid codebase data href longdesc profile src usemap".split())


def lower(name):
    """A name in lower case, which only letters of ASCII have here."""
    return name.lower() if name.isascii() else name.encode().lower().decode()


def is_uri(element, name):
    """Whether the value of an attribute of an element is a URI."""
    return lower(name) in URIS or (lower(name) == "name" and lower(element) == "a")


# Of versions the public and the system identifier of the document type.
HTML401, HTML4 = "http://www.w3.org/TR/1999/REC-html401-19991224/", "http://www.w3.org/TR/html4/"
STRICT, LOOSE, FRAMES = "-//W3C//DTD HTML 4.01//EN", "-//W3C//DTD HTML 4.01 Transitional//EN", "-//W3C//DTD HTML 4.01 Frameset//EN"
DOCTYPES = {
    "5": (None, None),
    "4.01frame": (FRAMES, HTML401 + "frameset.dtd"),
    "4.01strict": (STRICT, HTML401 + "strict.dtd"),
    "4.01trans": (LOOSE, HTML401 + "loose.dtd"),
    "4.01": (LOOSE, HTML401 + "loose.dtd"),
    "4.0strict": (STRICT, HTML4 + "strict.dtd"),
    "4.0trans": (LOOSE, HTML4 + "loose.dtd"),
    "4.0frame": (FRAMES, HTML4 + "frameset.dtd"),
    "4.0": (LOOSE, HTML4 + "loose.dtd"),
    "3.2": ("-//W3C//DTD HTML 3.2//EN", None),
}
