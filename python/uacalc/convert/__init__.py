"""Algebras from what other programs print."""
