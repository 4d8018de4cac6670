"""Tests of ./rack, run as a user would run it. The gate runs them: .ci/tests/4-command."""
