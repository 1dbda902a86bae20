"""A show in memory, docs/RULES.md, section 1: for the other scripts here. It shares nothing with the proved code."""
from limits import LAYOUTS, SESSIONS, test_counts, test_limits

NONE = (0, 0, 0, 0)
JUNK_LAYOUT, JUNK_SESSION = (9, 99, 0, 5), (0, 0, 0, 77)

class Memory:
    """A, N and the two counts, eight layouts, sixteen sessions. Rows above a count are kept, and not looked at."""
    def __init__(self, head, layouts, sessions):
        self.head = list(head)
        self.layouts = [list(row) for row in layouts]
        self.sessions = [list(row) for row in sessions]

    def block(self):
        return self.head[0]

    def playing(self):
        return self.head[3]

    def show(self):
        """Its drive, the layouts that are used, the sessions that are used."""
        block, cylinder, laid, playing = self.head
        return (block, cylinder), self.layouts[:laid], self.sessions[:playing]

    def tested(self):
        """The same, of a show within its limits; or refused 2, 5, 6, 7."""
        test_counts(*self.head[2:])
        test_limits(*self.show())
        return self.show()

    def junked(self):
        """The same with the unused places filled."""
        _, layouts, sessions = self.show()
        return Memory(self.head, *rows(layouts, sessions, JUNK_LAYOUT, JUNK_SESSION))

    def text(self):
        """A hundred numbers, in fours."""
        return ';'.join(','.join(map(str, row)) for row in (self.head, *self.layouts, *self.sessions))

def rows(layouts, sessions, layout, session):
    """All the rows; these two stand in the places that are not used."""
    return layouts + [layout] * (LAYOUTS - len(layouts)), sessions + [session] * (SESSIONS - len(sessions))

def in_memory(show, layout=NONE, session=NONE):
    drive, layouts, sessions = show
    return Memory((*drive, len(layouts), len(sessions)), *rows(layouts, sessions, layout, session))
