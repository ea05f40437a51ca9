"""What a comparison finds: how many differences of each kind, and the first few of each."""

SHOWN = 3


class Differences:
    """Differences by kind; of each kind the first few are kept as texts."""

    def __init__(self):
        self.counts, self.texts = {}, {}

    def add(self, kind, text):
        self.counts[kind] = self.counts.get(kind, 0) + 1
        if self.counts[kind] <= SHOWN:
            self.texts.setdefault(kind, []).append(text)

    def same(self, kind, old, new, where=""):
        """Adds a difference if these two aren't the same."""
        if old != new:
            self.add(kind, f"{where}{': ' if where else ''}{shortened(old)} became {shortened(new)}")
        return old == new

    def any(self):
        return bool(self.counts)

    def summary(self):
        return ", ".join(f"{count} {kind}" for kind, count in sorted(self.counts.items()))

    def lines(self):
        return [f"    {kind}: {text}" for kind, texts in sorted(self.texts.items()) for text in texts]


def shortened(value):
    text = value if isinstance(value, str) else repr(value)
    return text if len(text) <= 200 else text[:200] + ".."


def hexadecimal(address):
    return "nothing" if address is None else f"{address:#x}"
