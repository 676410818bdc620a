"""The parts of the mechanic's command."""
