"""Runs a command once for each refusal that its TPM could answer, and reports what it did."""
