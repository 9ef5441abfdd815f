"""What the `use` lines of a file bring, by nested paths too, as in `use Rattle.{c104_a.specs.{f, g as h}, c104_b.proofs.P.q}`."""

import re

USE = re.compile(r'^[ \t]*((?:(?:unfoldable|pub|ghost) )*)use (\S[^\n;]*(?:\n[ \t}][^\n;]*)*)', re.M)


class Import:
    """A thing that a line brings: the parts of its path, its name in the file, and whether it is an item, and no module. A
    glob's last part is `*`."""

    def __init__(self, parts, name, is_item):
        self.parts, self.name, self.is_item = parts, name, is_item

    def line(self):
        """A `use` line of it alone."""
        path = '.'.join(self.parts[:-1]) + '.{%s}' % self.parts[-1] if self.is_item else '.'.join(self.parts)
        other = ' as ' + self.name if self.name != self.parts[-1] else ''
        return 'use %s\n' % (path[:-1] + other + '}' if self.is_item else path + other)


def imports_of(text):
    """All that the `use` lines of a text bring, with or without `ghost`, in order."""
    return [it for _, path in USE.findall(text) for it in items_of(path)]


def items_of(path):
    """What the path of one `use` line brings."""
    path = ' '.join(path.split())
    return list(items_below([], path)) if '{' in path else [import_of(path.split('.'), False)]


def import_of(parts, is_item):
    last, _, name = parts[-1].partition(' as ')
    return Import([*parts[:-1], last.strip()], name.strip() or last.strip(), is_item)


def items_below(before, text):
    """The items of a path, or of a list in braces behind one, that stands behind these parts."""
    head, _, inner = text.strip().partition('{')
    if not inner:
        yield import_of([*before, *head.split('.')], True)
        return
    for part in parts_of(inner.rpartition('}')[0]):
        yield from items_below([*before, *filter(None, head.split('.'))], part)


def parts_of(inner):
    """The parts of a list, cut at the commas that stand in no further braces."""
    parts, depth = [''], 0
    for sign in inner:
        depth += {'{': 1, '}': -1}.get(sign, 0)
        if sign == ',' and not depth:
            parts.append('')
        else:
            parts[-1] += sign
    return [it for it in parts if it.strip()]
