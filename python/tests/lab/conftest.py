"""The built programs that tests ask."""

import pytest

from ..common import Programs


@pytest.fixture(scope="session")
def overlayd() -> str:
    return Programs.batched or pytest.skip("no built overlayd: --program names it")


@pytest.fixture(scope="session")
def overlay_live() -> str:
    return Programs.live or pytest.skip("no built overlay_live: --live names it")
