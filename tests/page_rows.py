"""The definitions that a page lists, each with the file where it stands: items of a list like

    - `packet_tokens`: a packet's tokens, one for each byte and then its terminator; `c104_token` `specs/Packets.antt`

An item may have several names, parted by commas, and several lines, of which the further ones are indented.
"""

import re

ITEM = re.compile(r'^- .*(?:\n  .*)*', re.MULTILINE)
ROW = re.compile(r'- ((?:`[^`]+`, )*`[^`]+`): .*; `(c104\w*)` `specs/([\w/]+)\.antt`')
NAME = re.compile(r'`([^`]+)`')


def definition_rows(page):
    """For each item that names definitions: their names, the crate, and the file below its specs/, without an ending."""
    rows = [ROW.fullmatch(' '.join(it.split())) for it in ITEM.findall(page)]
    return [(NAME.findall(row[1]), row[2], row[3]) for row in rows if row]
