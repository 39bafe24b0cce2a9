"""How many examples the random tests try: HIBITSET_EXAMPLES, or 40. They are the same in each run."""
import os
import sys
from pathlib import Path

import pytest
from hypothesis import HealthCheck, settings

from hibitset import BitSet, SparseBitSet

settings.register_profile(
    "gate",
    max_examples=int(os.environ.get("HIBITSET_EXAMPLES", "40")),
    stateful_step_count=30,
    deadline=None,
    derandomize=True,
    database=None,
    suppress_health_check=list(HealthCheck),
)
settings.load_profile("gate")


@pytest.fixture(params=[BitSet, SparseBitSet])
def kind(request):
    """Each kind of sets."""
    return request.param


other_kind = kind  # The same beside it.


@pytest.fixture
def many_turns():
    """Threads take turns as often as they can."""
    old = sys.getswitchinterval()
    sys.setswitchinterval(1e-5)
    yield
    sys.setswitchinterval(old)


@pytest.fixture(scope="session")
def header():
    """The text of hibitset.h."""
    folder = os.environ.get("HIBITSET_INCLUDE_DIR") or Path(__file__).resolve().parents[2] / "c"
    return (Path(folder) / "hibitset.h").read_text(encoding="utf-8")
