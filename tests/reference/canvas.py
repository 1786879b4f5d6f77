"""The reference of document 02's C-15, canvas size first, made from its
sentences (those in quotation marks), over the walk of pag_reference.

`canvas` answers ('found', values, headers), ('none', headers) or
('refused', reason, number, headers)."""

import pag_reference as pag

COMPOSITION_ATTRIBUTES = 3
VALUES = 7                  # I32 width, I32 height, Time, Float, Color


class Found(Exception):
    """The walk stands behind the tag that was looked for."""

    def __init__(self, values):
        super().__init__(values)
        self.values = values


class Walk(pag.FileReader):
    """"a walk that stops there, without judging the rest" """

    def put_tag(self, code, state, values):
        """Called when a tag's own values are read without fault, so a fault
        "inside that tag's body" came before. "the first CompositionAttributes
        that isn't opaque": a state that is odd."""
        if code == COMPOSITION_ATTRIBUTES and state % 2 == 1:
            raise Found(values)

    def headers(self):
        """"how many tag headers were read": a row is put when a header has
        passed 6 to 10 and 12."""
        return len(self.rows)


def canvas(data, level, order):
    """"the first such tag, or the first fault if that comes earlier or inside
    that tag's body"; "0 for reasons 1 to 5", and 24."""
    data = bytes(data)
    try:
        pag.check_call(order, level)
        pag.check_file_header(data)
    except pag.Refusal as refusal:
        return ('refused', refusal.reason, refusal.number, 0)
    walk = Walk(level, order, data, pag.PACKED_FORM)
    try:
        walk.tag_list(9, len(data), 0, None)
    except Found as found:
        return ('found', found.values, walk.headers())
    except pag.Refusal as refusal:
        return ('refused', refusal.reason, refusal.number, walk.headers())
    return ('none', walk.headers())


def from_table(table):
    """"the one taken from the full table, "none" included", and "the count of
    tags up to and including the one found in file order, or of all tags" """
    headers = 0
    for code, state, values in pag.tags_of(table):
        headers += 1
        if code == COMPOSITION_ATTRIBUTES and state % 2 == 1:
            return ('found', values, headers)
    return ('none', headers)


def text_of(answer):
    """As tests/canvases.txt has it: `found`, the headers and the values; `none` and the headers; `refused`, the headers, the reason and its number."""
    kind, *parts = answer
    if kind == 'found':
        return ' '.join(map(str, ('found', parts[1], *parts[0])))
    if kind == 'none':
        return 'none %d' % parts[0]
    return 'refused %d %d %d' % (parts[2], parts[0], parts[1])
