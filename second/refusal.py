"""A refusal: its number, then what the paper returns with it."""


class Refused(Exception):
    def __init__(self, number, *detail):
        Exception.__init__(self, number, *detail)
        self.number = number
        self.detail = detail
