"""What is wrong with octets that a layer can't read."""


class Fault(ValueError):
    """A fault of one layer: its name, its numbers by name, and the reason with which an end releases ("2.2"), where it has one."""

    def __init__(self, name, reason=None, **numbers):
        self.name = name
        self.reason = reason
        self.numbers = numbers
        super().__init__(" ".join([name] + [f"{key} {value}" for key, value in numbers.items()]))
