"""Policies in words, and their digests."""
