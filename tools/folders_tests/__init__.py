"""Tests of the package `folders` over real homes."""
