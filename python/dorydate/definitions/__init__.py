"""Reads definitions, computes them, and decides what they say of given values. No rule of the network is here."""
