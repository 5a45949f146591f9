"""The one way in which a call says no."""


class Refusal(Exception):
    """A reply number from the table of refusals, and the place that goes with it."""

    def __init__(self, number, place):
        super().__init__(f"refused {number} {place}")
        self.number = number
        self.place = place
