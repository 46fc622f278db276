"""Witnesses, logs, clients and verifiers that are right, and others with one mistake each, for tests/conformance.
None is for use."""
