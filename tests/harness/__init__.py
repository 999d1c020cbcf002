"""The parts that tests/run runs, and what they share."""
