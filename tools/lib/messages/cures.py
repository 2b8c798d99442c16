"""Changes a stylesheet's lines so that a fault goes, to see whether there are more."""

import os

from lib.xml2pyx import escape


class Curer:
    """Changes the modules in a folder, element by element."""

    def __init__(self, folder):
        self.folder = folder
        self.changed = set()  # elements that were changed already, and those that lost a child

    def is_new(self, element):
        """Whether a fault of this element is no consequence of a change."""
        return element not in self.changed

    def cure(self, module, finding):
        """Changes or drops the element; whether there was anything to do."""
        element, kind = finding.element, finding.cure[0]
        if element is None or element.parent is None or kind == "stop":
            return False
        is_first = self.is_new(element)
        self.changed.add(element)
        if kind == "drop" or not is_first:
            self.changed.add(element.parent)
            rows = [row for row in module.rows if not element.row <= row[0] <= element.last]
        else:
            rows = list(self.with_attribute(module.rows, element, *finding.cure[1:]))
        if len(rows) == len(module.rows) and kind == "drop":
            return False
        module.rows = rows
        with open(os.path.join(self.folder.path, module.name), "wb") as made:
            made.writelines(line for _, line in rows)
        return True

    @staticmethod
    def with_attribute(rows, element, attribute, value=None):
        """The rows with another value of an attribute, or without it."""
        names = [name for name, _ in element.attributes]
        place = element.row + 1 + names.index(attribute) if attribute in names else 0
        for row, line in rows:
            if row != place:
                yield row, line
            elif value is not None:
                yield row, f"A{attribute} {escape(value)}\n".encode()

    def original(self, module, row):
        """The PYX line that this one was before all changes."""
        return module.rows[row - 1][0] if 0 < row <= len(module.rows) else row
