"""Forwards destination records: jobs of `forwarding` send what `collecting` reads to `places`, and have it collected."""
