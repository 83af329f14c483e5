"""Damaged files and folders, each made from what Git wrote."""
