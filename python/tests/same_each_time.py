"""Hypothesis draws the same examples each time, and no clock fails a test on a slow machine. Pages take this as a plugin of pytest."""
from hypothesis import HealthCheck, settings

settings.register_profile("same each time", derandomize=True, deadline=None, database=None, print_blob=False,
                          suppress_health_check=list(HealthCheck))
settings.load_profile("same each time")
