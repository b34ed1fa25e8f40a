"""No test depends on chance, or on how fast this machine is."""
import same_each_time  # noqa: F401  it sets Hypothesis
