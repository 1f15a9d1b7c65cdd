"""A refusal of document 01: a number and a place."""


class Refused(Exception):
    def __init__(self, number, place=0):
        super().__init__(number, place)
        self.number = number
        self.place = place

    def __str__(self):
        return f"refused {self.number} at {self.place}"


def refuse_unless(holds, number, place=0):
    if not holds:
        raise Refused(number, place)
