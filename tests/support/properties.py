"""How many examples Hypothesis makes, and how it says which one fails."""
from typing import Any

from hypothesis import HealthCheck, settings

import harness


def checked(examples: int, **more: Any) -> settings:
    """A test of so many examples, or of --count, which in CI are the same each time. One that fails
    is printed, with what makes it again; none is kept in a file."""
    return settings(max_examples=harness.COUNT or examples, deadline=None, database=None,
                    print_blob=True, derandomize=harness.has_packages(),
                    suppress_health_check=[HealthCheck.too_slow], **more)
