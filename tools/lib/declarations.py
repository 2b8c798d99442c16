"""Which attributes are namespace declarations."""


def declared(name):
    """The prefix that an attribute of this name declares, empty for the default, or None."""
    if name == "xmlns":
        return ""
    return name[6:] if name.startswith("xmlns:") else None
