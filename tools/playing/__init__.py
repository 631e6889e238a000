"""The parts of tools/play.py."""
