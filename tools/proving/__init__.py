"""Answers, checks of the prover and wrong bodies."""
