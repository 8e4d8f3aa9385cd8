"""The table of what was tried."""

HEAD = ("case", "frames", "bytes", "longest frame", "what Proton made of it", "same")


class Row:
    def __init__(self, case, frames, size, longest, limit):
        self.case, self.frames, self.size, self.longest, self.limit = case, frames, size, longest, limit

    @staticmethod
    def sum_of(case, rows):
        frames, size = sum(r.frames for r in rows), sum(r.size for r in rows)
        return Row(case, frames, size, max(r.longest for r in rows), rows[0].limit)

    def told(self, made_of, same, is_known=False):
        """What became of it. `same` is None where there is no message to compare; that it differs may be known."""
        self.made_of, self.same, self.is_known = made_of, same, is_known
        return self

    def is_wrong(self):
        return self.same is False and not self.is_known

    def cells(self):
        same = "-" if self.same is None else "yes" if self.same else "NO" if self.is_wrong() else "no, as known"
        return [self.case, str(self.frames), str(self.size), "%d of %d" % (self.longest, self.limit), self.made_of, same]


def show(rows):
    """Prints the rows in columns, and how many are not as they must be."""
    lines = [HEAD] + [row.cells() for row in rows]
    widths = [max(len(line[n]) for line in lines) for n in range(len(HEAD))]
    for line in lines:
        print(" | ".join(cell.rjust(width) if n in (1, 2) else cell.ljust(width) for n, (cell, width) in enumerate(zip(line, widths))).rstrip())
    wrong = sum(row.is_wrong() for row in rows)
    print("%d tried, %d not as they must be" % (len(rows), wrong))
    return wrong
