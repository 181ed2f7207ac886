"""Runs a script on tpmsim and on another TPM, and shows where they differ."""
