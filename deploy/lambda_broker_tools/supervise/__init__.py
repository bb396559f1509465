"""Stands between a runtime and the broker: `supervisor` starts the runtime, and `broker` hands on what it asks."""
