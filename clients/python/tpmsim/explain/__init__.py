"""Plays a script on the device in Python, and explains each refusal."""
