"""The elements of XSLT 1.0 with their attributes and places, and the functions of both standards."""

XSLT = "http://www.w3.org/1999/XSL/Transform"
XMLNS = "http://www.w3.org/2000/xmlns/"

# Of each element the attributes that it must have, and those that it may have.
ELEMENTS = {
    "stylesheet": ("version", "id extension-element-prefixes exclude-result-prefixes"),
    "transform": ("version", "id extension-element-prefixes exclude-result-prefixes"),
    "import": ("href", ""),
    "include": ("href", ""),
    "strip-space": ("elements", ""),
    "preserve-space": ("elements", ""),
    "output": (
        "",
        "method version encoding omit-xml-declaration standalone doctype-public doctype-system "
        "cdata-section-elements indent media-type",
    ),
    "key": ("name match use", ""),
    "decimal-format": (
        "",
        "name decimal-separator grouping-separator infinity minus-sign NaN percent per-mille "
        "zero-digit digit pattern-separator",
    ),
    "namespace-alias": ("stylesheet-prefix result-prefix", ""),
    "attribute-set": ("name", "use-attribute-sets"),
    "variable": ("name", "select"),
    "param": ("name", "select"),
    "with-param": ("name", "select"),
    "template": ("", "match name priority mode"),
    "apply-templates": ("", "select mode"),
    "call-template": ("name", ""),
    "apply-imports": ("", ""),
    "for-each": ("select", ""),
    "value-of": ("select", "disable-output-escaping"),
    "copy-of": ("select", ""),
    "copy": ("", "use-attribute-sets"),
    "number": (
        "",
        "level count from value format lang letter-value grouping-separator grouping-size",
    ),
    "choose": ("", ""),
    "when": ("test", ""),
    "otherwise": ("", ""),
    "if": ("test", ""),
    "text": ("", "disable-output-escaping"),
    "element": ("name", "namespace use-attribute-sets"),
    "attribute": ("name", "namespace"),
    "comment": ("", ""),
    "processing-instruction": ("name", ""),
    "message": ("", "terminate"),
    "fallback": ("", ""),
    "sort": ("", "select lang data-type order case-order"),
}

TOP_LEVEL = (
    "import include strip-space preserve-space output key decimal-format namespace-alias "
    "attribute-set variable param template"
).split()
BODY = (
    "apply-templates call-template apply-imports for-each value-of copy-of copy number choose if "
    "text element attribute comment processing-instruction message variable fallback"
).split()
# Elements whose content is a body.
WITH_BODY = (
    "template variable param with-param for-each copy when otherwise if element attribute comment "
    "processing-instruction message fallback"
).split()
# Elements that are no instructions, by what they are a part of.
PARTS = {
    "when": ["choose"],
    "otherwise": ["choose"],
    "sort": ["apply-templates", "for-each"],
    "with-param": ["apply-templates", "call-template"],
}
PLACES = {
    "when": "it belongs in {0}choose",
    "otherwise": "it belongs in {0}choose, after each {0}when",
    "sort": "it belongs in {0}apply-templates, or first in {0}for-each",
    "with-param": "it belongs in {0}apply-templates or {0}call-template",
    "param": "it belongs at the top level, or first in {0}template",
    "import": "it belongs first at the top level",
}

# Attributes of XSLT's elements whose values are expressions, or patterns.
EXPRESSIONS = {"select", "test", "use", "value"}
PATTERNS = {"match", "count", "from"}
# Attributes of XSLT's elements whose values are value templates.
TEMPLATES = {
    "element": {"name", "namespace"},
    "attribute": {"name", "namespace"},
    "processing-instruction": {"name"},
    "sort": {"lang", "data-type", "order", "case-order"},
    "number": {"format", "lang", "letter-value", "grouping-separator", "grouping-size"},
}

# Of each function its least and its greatest number of arguments, None for any number.
FUNCTIONS = {
    "last": (0, 0),
    "position": (0, 0),
    "count": (1, 1),
    "id": (1, 1),
    "local-name": (0, 1),
    "namespace-uri": (0, 1),
    "name": (0, 1),
    "string": (0, 1),
    "concat": (2, None),
    "starts-with": (2, 2),
    "contains": (2, 2),
    "substring-before": (2, 2),
    "substring-after": (2, 2),
    "substring": (2, 3),
    "string-length": (0, 1),
    "normalize-space": (0, 1),
    "translate": (3, 3),
    "boolean": (1, 1),
    "not": (1, 1),
    "true": (0, 0),
    "false": (0, 0),
    "lang": (1, 1),
    "number": (0, 1),
    "sum": (1, 1),
    "floor": (1, 1),
    "ceiling": (1, 1),
    "round": (1, 1),
    "key": (2, 2),
    "current": (0, 0),
    "unparsed-entity-uri": (1, 1),
    "generate-id": (0, 1),
    "system-property": (1, 1),
    "element-available": (1, 1),
    "function-available": (1, 1),
}
# Those of XSLT 1.0 that are not supported.
NOT_HERE = ("document", "format-number")


def attributes_of(local):
    """The names of the attributes that an element of XSLT may have."""
    required, optional = ELEMENTS[local]
    return required.split() + optional.split()


def required_of(local):
    """The names of the attributes that an element of XSLT must have."""
    return ELEMENTS[local][0].split()
