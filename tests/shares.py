"""What a comparison has met, and that it was enough: cases that are refused or end at once show nothing."""
import sys


class Shares:
    def __init__(self):
        self.told, self.missing = [], []

    def demand(self, what, count, of, least):
        """Of so many, `count` are `what`; at least this part should be."""
        said = "%s %.1f %%" % (what, 100 * count / max(of, 1))
        self.told.append(said)
        if count < least * of:
            self.missing.append("%s, wanted %.1f %%" % (said, 100 * least))

    def demand_codes(self, counts, codes, of, least):
        for code in codes:
            if counts[code] < least * of:
                self.missing.append("code %d %d times, wanted %d" % (code, counts[code], least * of))

    def tell(self, agreed):
        if self.missing:
            sys.exit("hardly met: " + "; ".join(self.missing))
        print("%s: %s" % (agreed, "; ".join(self.told)))
