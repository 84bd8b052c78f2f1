"""The footprint file, the state beside it, and what an update keeps of both."""
