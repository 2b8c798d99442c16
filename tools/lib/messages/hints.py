"""What --hints says: traps that are no faults, found in the stylesheet and in the names of a source."""

from xml.parsers import expat

from lib.messages import reports
from lib.messages.findings import Finding, readings, short
from lib.messages.nearest import hint

MOST = 10
CHUNK = 1 << 16
SEPARATOR = "\x01"


class Names:
    """The elements of a source: their names, and whether white space stands between them."""

    def __init__(self, path):
        self.elements = {}  # of each expanded name the line where it comes first
        self.is_laid_out = False
        self.reader = expat.ParserCreate(namespace_separator=SEPARATOR)
        self.reader.StartElementHandler = self.start
        self.reader.CharacterDataHandler = self.text
        try:
            with open(path, "rb") as source:
                self.reader.ParseFile(source)
        except (OSError, expat.ExpatError):
            pass  # the run says so

    def start(self, name, _attributes):
        space, _, local = name.rpartition(SEPARATOR)
        self.elements.setdefault((space, local), self.reader.CurrentLineNumber)

    def text(self, text):
        self.is_laid_out = self.is_laid_out or text == "\n"

    def spaces_of(self, local):
        return [space for space, name in self.elements if name == local]


class Hints:
    """The traps of one stylesheet."""

    def __init__(self, folder):
        self.modules = [module for module in folder.modules.values() if module.root]
        self.reported = 0
        self.tops = [(module, top) for module in self.modules for top in module.root.children]
        self.templates = [(module, top) for module, top in self.tops if top.is_a("template") and top.get("match") is not None]
        self.applied = [(module, each) for module in self.modules for each in module.elements() if each.is_a("apply-templates")]

    def give(self, names, source):
        """Reports the traps, with the names of a source where there is one."""
        found = [*self.modes(), *self.twice()]
        if names and names.elements:
            found += [*self.namespaces(names, source), *self.unmatched(names, source), *self.white_space(names)]
        for module, finding in found[:MOST]:
            reports.report(module, finding, "", "hint")
        if len(found) > MOST:
            reports.say(f"{self.modules[0].xml}: hint: and {len(found) - MOST} more\n")

    def modes(self):
        """Modes that no template has, or that are never applied."""
        modes = {each.get("mode") for _, each in self.templates} - {None}
        used = {each.get("mode") for _, each in self.applied} - {None}
        for module, each in self.applied:
            mode = each.get("mode")
            if mode is not None and mode not in modes:
                text = f"no template has mode {mode}, and the built-in rules give the text of all inside{hint(mode, modes)}"
                yield module, Finding(text, each, "mode", 0)
        for module, each in self.templates:
            mode = each.get("mode")
            if mode is not None and mode not in used:
                text = f"{each.name} is never used: no instruction applies templates of mode {mode}{hint(mode, used)}"
                yield module, Finding(text, each, "mode", 0)

    def twice(self):
        """A rule that another one of its module always replaces, since it comes later and is otherwise alike."""
        last = {}
        for module, each in self.templates:
            last[(module, each.get("match"), each.get("mode"), each.get("priority"))] = each
        for module, each in self.templates:
            other = last[(module, each.get("match"), each.get("mode"), each.get("priority"))]
            if other is not each:
                why = f"the template of line {other.line} is for the same nodes, and comes later"
                yield module, Finding(f'match="{short(each.get("match"))}" never applies: {why}', each, "match", 0)

    def tests(self):
        """Each name of an element in the stylesheet, with its reading and its place."""
        for module in self.modules:
            for element in module.elements():
                for reading in readings(element):
                    for name, place, is_inner in reading.content.elements:
                        yield module, reading, name, place, is_inner

    def namespaces(self, names, source):
        """Names without a prefix, of elements that the source has in a namespace alone."""
        seen = set()
        for module, reading, name, place, _ in self.tests():
            spaces = names.spaces_of(name)
            if ":" in name or name in seen or not spaces or "" in spaces:
                continue
            seen.add(name)
            uri = spaces[0]
            prefix = next((each for each, other in reading.element.spaces.items() if each and other == uri), None)
            declare = "" if prefix else f'declare xmlns:p="{uri}" and '
            text = f"{name} is in no namespace here, and in {source} it is in {uri}: {declare}write {prefix or 'p'}:{name}"
            yield module, reading.finding(text, place)

    def unmatched(self, names, source):
        """Rules for elements that the source does not have."""
        for module, element in self.templates:
            reading = next((each for each in readings(element) if each.attribute == "match"), None)
            if not reading or "|" in reading.value:
                continue
            for name, place, is_inner in reading.content.elements:
                prefix, _, local = name.rpartition(":")
                known = (element.spaces.get(prefix, "") if prefix else "", local) in names.elements
                if not (is_inner or known or local == "*" or (not prefix and names.spaces_of(local))):
                    what = f"no element {name}{hint(local, {each for _, each in names.elements})}"
                    yield module, reading.finding(f'match="{short(reading.value)}" matches nothing of {source}: {what}', place)
                    break

    def white_space(self, names):
        """Positions in lists that have the white space between elements too."""
        if not names.is_laid_out or any(top.is_a("strip-space") for _, top in self.tops):
            return
        wide = {}
        for _, each in self.applied:
            if each.get("select") in (None, "node()"):
                wide.setdefault(each.get("mode"), each)
        for module, template in self.templates:
            applied = wide.get(template.get("mode"))
            for reading, call in positions(template) if applied else ():
                why = f"{applied.name} of line {applied.line} selects all children"
                text = f"{call.name}() counts the white space between elements too, since {why}"
                yield module, reading.finding(text + ': select="*" there, or an xsl:strip-space', call.place)
                return


def positions(template):
    """The calls of position() and last() whose list is the one that the template is applied to."""
    for element in template.walk():
        if any(each.is_a("for-each") for each in element.ancestors()):
            continue
        for reading in readings(element):
            inside = reading.value.find("[")
            for call in reading.content.calls:
                if call.name in ("position", "last") and reading.kind == "expression" and not 0 <= inside < call.place:
                    yield reading, call


def give(folder, path, source):
    """Reports the traps of a stylesheet, and with a source those that its names show."""
    Hints(folder).give(Names(path) if path else None, source)
