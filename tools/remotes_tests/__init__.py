"""Tests of hail-remote with hail behind it, and of what serves at its far ends: requests of any kind, limits, sessions that are used up, the smallest
pipes, kills, cuts of the power, far ends that lie.

They run in `tools/test-remotes.sh`; with FULL=1 in the environment they try all that there is, which takes long.
"""
