"""The result of a comparison, and the counts of results."""
from collections import Counter
from dataclasses import dataclass, field


@dataclass(frozen=True)
class Result:
    """The rules that explain a difference, and what they leave unexplained."""
    rules: list = field(default_factory=list)
    unexplained: str = ""


AGREES = Result()


@dataclass
class Counts:
    """How many cases agree, differ by rules, and are unexplained; and how often each rule applied."""
    agree: int = 0
    differ: int = 0
    unexplained: int = 0
    rules: Counter = field(default_factory=Counter)

    def add(self, result):
        """Counts a result."""
        if result.unexplained:
            self.unexplained += 1
            return
        self.rules.update(result.rules)
        self.differ += bool(result.rules)
        self.agree += not result.rules

    def join(self, other):
        """Adds the counts of another."""
        self.agree += other.agree
        self.differ += other.differ
        self.unexplained += other.unexplained
        self.rules.update(other.rules)

    def __str__(self):
        return f"{self.agree} agree, {self.differ} differ by a named rule, {self.unexplained} unexplained"
