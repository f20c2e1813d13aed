"""A proof in the program logic, written step by step, with the list of what is owned at each step."""


class Script:
    """The steps so far, and the names of what is owned, in order; a step takes what it is about from the front."""

    def __init__(self, owned):
        self.owned = list(owned)
        self.steps = []

    def emit(self, step):
        """Writes a step as it is."""
        self.steps.append(step)

    def line(self):
        """Goes on in a new line."""
        self.steps.append("\n")

    def note(self, text):
        """Writes a remark on a line of its own."""
        self.steps.append(f"\n-- {text}\n")

    def position(self, name):
        """Where in the list a thing stands."""
        return self.owned.index(name)

    def front(self, *names):
        """Moves things to the front, in this order."""
        places = [self.owned.index(name) for name in names]
        if places != list(range(len(names))):
            self.emit("move ! (%s) $" % (" ∷ ".join(map(str, places)) + " ∷ []"))
        self.owned = list(names) + [name for name in self.owned if name not in names]

    def replace(self, count, *names):
        """Names what stands now in place of the first `count` things."""
        self.owned = list(names) + self.owned[count:]

    def split(self, rule, *names):
        """Takes the first thing apart by a rule."""
        self.emit(rule + " ! $")
        self.replace(1, *names)

    def drop(self):
        """Gives up the first thing."""
        self.emit("drop ! $")
        self.replace(1)

    def join(self, *names, into):
        """Moves two things to the front and joins them."""
        self.front(*names)
        self.emit("fjoin ! $")
        self.replace(len(names), into)

    def text(self, indent):
        """The steps as lines of this indentation."""
        joined = " ".join(self.steps).replace(" \n", "\n").replace("\n ", "\n")
        return "\n".join(" " * indent + line.strip() for line in joined.split("\n") if line.strip())
