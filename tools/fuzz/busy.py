"""Scripts of guests for the fuzzer that break few rules: many rounds of real requests."""

from guests import Guest
from make_requests import good_request


class Busy(Guest):
    """A guest whose chains and requests are mostly well made."""

    rounds = [4, 8, 12, 16]

    def chance(self, part):
        """Whether something happens: what is seldom is ten times as seldom here."""
        return super().chance(part if part > 0.15 else part / 10)

    def request(self):
        """A request's bytes, and how many its reply would have."""
        return good_request(self.rng) if super().chance(0.9) else super().request()
